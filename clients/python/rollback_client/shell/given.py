"""The words behind a command: how many there are, and which of them are names and numbers."""
from __future__ import annotations

from typing import Any, Callable

from .. import lines
from .refusing import Refused


def exactly(rest: str, usage: str, count: int) -> list[str]:
    """The words behind a command that has so many."""
    words = rest.split()
    if len(words) != count:
        raise Refused(f"this command has {_counted(count)}, and {_counted(len(words))} were given", f"write {usage}")
    return words


def _counted(count: int) -> str:
    return f"{count} word{'' if count == 1 else 's'}" if count else "no words"


def with_yes(rest: str) -> tuple[str, bool]:
    """The words without `-y`, and whether it is among them."""
    words = rest.split()
    return " ".join(word for word in words if word != "-y"), "-y" in words


def step_name(word: str) -> str:
    """The name of a step."""
    return _looked_at(lines.step_name, word)


def thread_name(word: str) -> str:
    """The name of a thread."""
    return _looked_at(lines.thread, word)


def name(what: str, word: str) -> str:
    """The name of a machine or an execution."""
    return _looked_at(lambda given: lines.name(what, given), word)


def number(what: str, word: str, most: int) -> int:
    """A number of a command, from 1 on."""
    if not lines.COUNT.fullmatch(word):
        raise Refused(f"{what} is a whole number from 1 to {most}, and not {word}")
    found = int(word)
    if not 1 <= found <= most:
        raise Refused(f"{what} is from 1 to {most}, and not {word}")
    return found


def _looked_at(look: Callable[[Any], str], word: str) -> str:
    try:
        return look(word)
    except ValueError as fault:
        raise Refused(str(fault)) from None

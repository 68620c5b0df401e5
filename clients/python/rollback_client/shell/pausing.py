"""The commands of a runner: pause, resume, waits."""
from __future__ import annotations

from typing import Callable, Optional

from .. import questions
from ..commands import Command as Line
from ..faults import NoRunner
from . import given
from .absent import no_runner
from .core import Command, Shell
from .output import laid_out
from .refusing import Refused

_Made = Callable[[Optional[str], Optional[str]], Line[None]]
_KINDS = ("execution", "machine")
_WHOM = (
    "Without words it is about all; else write execution NAME or machine NAME. A name alone is that of an execution."
)


def _whom(rest: str, usage: str) -> tuple[Optional[str], Optional[str], str]:
    """An execution or a machine, and it in words."""
    words = rest.split()
    if not words:
        return None, None, "any execution"
    if len(words) == 1 and words[0] not in _KINDS:
        words.insert(0, "execution")
    if len(words) != 2 or words[0] not in _KINDS:
        raise Refused("this is about all, about one execution or about one machine", f"write {usage}")
    kind, name = words[0], given.name(f"the name of a{'n' if words[0] == 'execution' else ''} {words[0]}", words[1])
    return (name if kind == "execution" else None), (name if kind == "machine" else None), f"the {kind} {name}"


def _said(shell: Shell, rest: str, word: str, make: _Made) -> Optional[str]:
    """Gives a line to the runner, and hands back whom it was about, unless the reply is written as it came."""
    execution, machine, whom = _whom(rest, f"{word}, {word} execution NAME or {word} machine NAME")
    try:
        shell.session.give(make(execution, machine))
    except NoRunner:
        raise no_runner(shell, word) from None
    return None if shell.raw(["ok"]) else whom


def _pause(shell: Shell, rest: str) -> None:
    whom = _said(shell, rest, "pause", questions.pause)
    if whom:
        shell.output.say(f"paused: the runner takes no step of {whom}")


def _resume(shell: Shell, rest: str) -> None:
    whom = _said(shell, rest, "resume", questions.resume)
    if whom:
        shell.output.say("resumed" if whom == "any execution" else f"resumed: {whom}")


def _waits(shell: Shell, rest: str) -> None:
    given.exactly(rest, "waits", 0)
    try:
        found = shell.session.give(questions.waits())
    except NoRunner:
        raise no_runner(shell, "waits") from None
    rows = [
        [one.thread, one.moment.strftime("%Y-%m-%d %H:%M:%S UTC") if one.moment else "after the hold", one.why]
        for one in found
    ]
    if rows:
        for line in laid_out(["thread", "until", "why"], rows, shell.output.width):
            shell.output.say(line)
    else:
        shell.output.say("the runner waits for nothing")


COMMANDS = (
    Command(
        "pause",
        "pause [execution NAME | machine NAME]",
        "has the runner take no step",
        _pause,
        (_WHOM, "No step is taken once it is answered, until a resume."),
        ("runner", "runner"),
    ),
    Command(
        "resume",
        "resume [execution NAME | machine NAME]",
        "lets the runner go on; without words with all that was paused",
        _resume,
        (_WHOM,),
        ("runner", "runner"),
    ),
    Command("waits", "waits", "lists what the runner waits for", _waits),
)

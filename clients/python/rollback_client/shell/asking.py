"""The commands that are questions, of a server or of a journal's file: causes, item, explain, log."""
from __future__ import annotations

from typing import Any

from ..faults import NoAnswer, NoFollower
from . import given
from .absent import no_questions
from .answers import because, entry_line, key_of, text_of, what, why_line
from .core import Command, Shell
from .moving import STEP, THREAD, counted
from .refusing import Refused

_MOST_ENTRIES = 4_294_967_295
_LAST = 20


def question(shell: Shell, text: str, options: str) -> dict[str, Any]:
    """The answer to a question. Without one, what is said instead is raised."""
    word = text.split(" ", 1)[0]
    try:
        return shell.session.question(text)
    except NoFollower:
        raise no_questions(shell, word, options) from None
    except NoAnswer as fault:
        raise Refused(fault.detail) from None
    except ValueError as fault:
        raise Refused(str(fault)) from None


def told(shell: Shell, answer: dict[str, Any]) -> bool:
    """Writes an answer as it came, if that is asked for."""
    if shell.is_raw:
        shell.output.say(text_of(answer))
    return shell.is_raw


def _causes(shell: Shell, rest: str) -> None:
    words = rest.split()
    has_writes = words[1:] == ["writes"]
    step = given.step_name(given.exactly(words[0] if has_writes else rest, "causes STEP [writes]", 1)[0])
    of_graph = f"--causes {step}{' --writes' if has_writes else ''}"
    answer = question(shell, f"causes {step}{' writes' if has_writes else ''}", of_graph)
    if told(shell, answer):
        return
    for cause in answer["causes"]:
        shell.output.say(f"{what(cause)}: {because(cause, cause['needed_for'])}")
    of = " that wrote an item, or started an execution" if has_writes else ""
    shell.output.say(f"{step} depends on {counted(len(answer['causes']))}{of}")


def _item(shell: Shell, rest: str) -> None:
    key = rest.strip()
    if not key:
        raise Refused("the item's key is missing", 'write item ann, or item {"id":{"S":"ann"}}')
    answer = question(shell, f"item {key}", f"--item {key}")
    if told(shell, answer):
        return
    for access in answer["accesses"]:
        does = {"write": "wrote", "read": "read", "refused": "was refused by its condition, at"}[access["access"]]
        item = access["after"] if access["access"] == "write" else access["before"]
        shell.output.say(f"{access['step']} {does} {_of_item(item)}")
    shell.output.say(f"{key_of(answer['key'])} is {_of_item(answer['now'])} now")


def _of_item(item: Any) -> str:
    return "no item" if item is None else text_of(item)


def _explain(shell: Shell, rest: str) -> None:
    thread = given.thread_name(given.exactly(rest, "explain THREAD", 1)[0])
    answer = question(shell, f"explain {thread}", f"--explain {thread}")
    if not told(shell, answer):
        shell.output.say(why_line(thread, answer["why"]))


def _log(shell: Shell, rest: str) -> None:
    words = rest.split()
    if len(words) not in (0, 2):
        raise Refused("this command has no words or 2", "write log, or log FROM COUNT")
    if words:
        first = 0 if words[0] == "0" else given.number("the number of the first entry", words[0], _MOST_ENTRIES)
        count = given.number("the number of entries", words[1], _MOST_ENTRIES)
    else:
        entries = question(shell, "log 0 0", "--log 0 20")["entries"]
        first, count = max(entries - _LAST, 0), _LAST
    answer = question(shell, f"log {first} {count}", f"--log {first} {count}")
    if told(shell, answer):
        return
    for row in answer["log"]:
        shell.output.say(entry_line(row))


_OF_SERVER = "It needs a server that answers questions (rollback-serve --ask), or a journal's file and rollback_graph beside the program."

COMMANDS = (
    Command(
        "causes",
        "causes STEP [writes]",
        "shows on which steps a step depends",
        _causes,
        (STEP, "With writes it shows only those that wrote an item, and the starts.", _OF_SERVER),
        ("step", ""),
    ),
    Command(
        "item",
        "item KEY",
        "shows which steps read and wrote an item",
        _item,
        ("KEY is the text of a key of one text, or the key's attributes as JSON.", _OF_SERVER),
    ),
    Command(
        "explain",
        "explain THREAD",
        "says why a thread failed, or why its next step would",
        _explain,
        (THREAD, _OF_SERVER),
        ("thread",),
    ),
    Command(
        "log",
        "log [FROM COUNT]",
        "lists accepted commands, without words the last ones",
        _log,
        ("FROM is the number of an entry, from 0 on.", _OF_SERVER),
    ),
)

"""The commands: how the line of each is made, and how its reply is read. `Book` and `AsyncBook` both take them from here."""
from __future__ import annotations

import json
import os
import re
from dataclasses import dataclass
from typing import Any, Callable, Generic, Mapping, Optional, Sequence, TypeVar, Union

from . import lines
from .faults import BadLine, Busy, Refusal, StreamBroken, refusal_of
from .json_text import Definition, definition_text, value_text
from .values import Frame, Step, Taken, frame_of

StepName = Union[Step, str]
T = TypeVar("T")

# A word that is no command: its reply is short whatever the book has, and changes nothing.
GREETING = "connect"

_STEP = r"[A-Za-z0-9_-]{1,64}(?:/[1-9][0-9]*\.[0-9]+)*#[0-9]+"
_FORMS = {
    "table": re.compile(r"ok"),
    "define": re.compile(r"ok"),
    "undo": re.compile(r"ok"),
    "settle": re.compile(r"ok"),
    "start": re.compile(r"ok [A-Za-z0-9_-]{1,64}#0"),
    "step": re.compile(rf"ok {_STEP} (?:plain|call|fork|join|terminate)"),
    "hold": re.compile(r"ok (?:0|[1-9][0-9]{0,9})"),
    "show": re.compile(r"ok (?:ready|parked|done|failed) .+", re.DOTALL),
    **{word: re.compile(r"ok (?:0|[1-9][0-9]{0,9})") for word in lines.LISTS},
}
_OTHER = re.compile(r"ok(?: .*)?", re.DOTALL)  # of a word that this client doesn't know


@dataclass(frozen=True)
class Command(Generic[T]):
    """A line, and how the lines of its reply are read."""

    line: str
    read: Callable[[list[str]], T]
    # what a refusal means of this line, if that isn't what its code says; without it a line is no question
    instead: Optional[Callable[[Refusal], Refusal]] = None

    @property
    def word(self) -> str:
        """The line's first word."""
        return self.line.split(" ", 1)[0]

    @property
    def is_list(self) -> bool:
        """Whether an `ok` is followed by further lines."""
        return self.word in lines.LISTS

    def encoded(self) -> bytes:
        """The bytes that are sent. A line that can't be sent as one is a `ValueError`, and one that is too long a `BadLine`."""
        data = lines.encoded(self.line)
        if len(data) > lines.MOST_BYTES + 1:
            raise BadLine(20, "", self.line)
        return data

    def outcome(self, reply: bytes) -> Union[T, Refusal]:
        """What a whole reply says: a value or a refusal. A reply of another form is `Busy`, or `StreamBroken`."""
        try:
            said = reply.decode().split("\n")[:-1]
            if said == ["busy"]:
                raise Busy()
            if said[0].startswith("no "):
                refusal = refusal_of(said[0], self.line)
                return self.instead(refusal) if self.instead else refusal
            self._look_at(said)
            return self.read(said)
        except (ValueError, TypeError, KeyError, IndexError, RecursionError) as fault:
            first = lines.short(reply[:400].decode(errors="replace").split("\n")[0])
            raise StreamBroken(f"the reply to {lines.short(self.line)!r} has another form: {first!r}") from fault

    def _look_at(self, said: list[str]) -> None:
        if self.line.startswith("?"):
            if not isinstance(json.loads(said[0]), dict):
                raise ValueError("an answer is an object")
            return
        form = _FORMS.get(self.word, _OTHER)
        if not form.fullmatch(said[0]):
            raise ValueError("another form")
        words = self.line.split(" ")
        if self.word == "start" and said[0][3:] != f"{words[1]}#0":
            raise ValueError("another execution")
        if self.word == "step" and said[0][3:].split("#")[0] != words[1]:
            raise ValueError("another thread")
        if self.word in ("plan", "rollback") and said[-1] != words[1]:
            raise ValueError("another step")
        if self.word in ("drive", "work") and len(said) - 1 > int(words[-1]):
            raise ValueError("more steps")
        if self.is_list and self.word not in ("items", "!waits"):
            for name in said[1:]:
                Step.read(name)


def _nothing(said: list[str]) -> None:
    return None


def _steps(said: list[str]) -> list[Step]:
    return [Step.read(name) for name in said[1:]]


def _taken(said: list[str]) -> Taken:
    _, name, kind = said[0].split(" ")
    return Taken(Step.read(name), kind)


def _items(said: list[str]) -> list[dict[str, Any]]:
    found = [json.loads(line) for line in said[1:]]
    if not all(isinstance(item, dict) for item in found):
        raise ValueError("an item is an object")
    return found


def ask(line: str) -> Command[list[str]]:
    """A line as it is."""
    if not isinstance(line, str):
        raise TypeError(f"a line is a text, and not {type(line).__name__}")
    if line.startswith("!"):
        raise ValueError("a line that begins with ! is the server's own: copy_book, pause, resume and waits give those")
    return Command(line, lambda said: said)


def greeting() -> Command[None]:
    """A line that is no command, by which a caller learns whether a server has a place for it."""

    def no_value(said: list[str]) -> None:
        raise ValueError("a word that is no command isn't answered by ok")

    return Command(GREETING, no_value)


def table(name: str, key: Mapping[str, str], items: Sequence[Mapping[str, Any]] = ()) -> Command[None]:
    """The beginning of a book."""
    if not 1 <= len(key) <= 2:
        raise ValueError(f"a key is of one attribute or two, and not of {len(key)}")
    for attribute, kind in key.items():
        if not isinstance(attribute, str) or not attribute or attribute[0] == "[" or set(attribute) & set(" :\n"):
            raise ValueError(f"a key's attribute has no space and no colon, and doesn't begin with [: {attribute!r}")
        if kind not in ("S", "N"):
            raise ValueError(f"a key's attribute is of type S or N, and {attribute!r} of {kind!r}")
    keys = " ".join(f"{attribute}:{kind}" for attribute, kind in key.items())
    return Command(f"table {lines.table_name(name)} {keys} {value_text('an item', list(items))}", _nothing)


def define(name: str, definition: Definition) -> Command[None]:
    """A machine of this definition."""
    return Command(f"define {lines.name('a machine', name)} {definition_text(definition)}", _nothing)


def start(execution: str, machine: str, input: Any) -> Command[Step]:
    """An execution of a machine."""
    names = f"{lines.name('an execution', execution)} {lines.name('a machine', machine)}"
    return Command(f"start {names} {value_text('the input', input)}", lambda said: Step.read(said[0][3:]))


def step(thread: str) -> Command[Taken]:
    """The next step of a thread."""
    return Command(f"step {lines.thread(thread)}", _taken)


def drive(most: int) -> Command[list[Step]]:
    """At most so many steps, one after another."""
    return Command(f"drive {lines.count('a number of steps', most, 1, lines.MOST_STEPS)}", _steps)


def work(workers: int, most: int) -> Command[list[Step]]:
    """At most so many steps by workers at the same time."""
    of_workers = lines.count("a number of workers", workers, 1, lines.MOST_WORKERS)
    return Command(f"work {of_workers} {lines.count('a number of steps', most, 1, lines.MOST_STEPS)}", _steps)


def undo(step: StepName) -> Command[None]:
    """The taking back of one step."""
    return Command(f"undo {lines.step_name(step)}", _nothing)


def rollback(step: StepName) -> Command[list[Step]]:
    """The taking back of a step with its consequences."""
    return Command(f"rollback {lines.step_name(step)}", _steps)


def settle() -> Command[None]:
    """The settling of all remaining steps."""
    return Command("settle", _nothing)


def hold(step: StepName) -> Command[int]:
    """A hold of a step with its consequences."""
    return Command(f"hold {lines.step_name(step)}", lambda said: int(said[0][3:]))


def plan(step: StepName) -> Command[list[Step]]:
    """What a rollback would take."""
    return Command(f"plan {lines.step_name(step)}", _steps)


def show(thread: str) -> Command[Frame]:
    """The frame of a thread."""
    return Command(f"show {lines.thread(thread)}", lambda said: frame_of(said[0]))


def items() -> Command[list[dict[str, Any]]]:
    """All items."""
    return Command("items", _items)


def history() -> Command[list[Step]]:
    """The remaining steps."""
    return Command("history", _steps)


def held() -> Command[list[Step]]:
    """What is left of a hold."""
    return Command("held", _steps)

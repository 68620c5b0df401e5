"""What the program's replies say, as Python's values."""
from __future__ import annotations

import functools
import json
import re
from dataclasses import dataclass
from datetime import datetime, timezone
from typing import Any, Dict, Optional, Tuple, Union

_STEP = re.compile(r"([A-Za-z0-9_-]{1,64}(?:/[1-9][0-9]*\.[0-9]+)*)#([0-9]+)")


@functools.total_ordering
@dataclass(frozen=True)
class Step:
    """The step of a number of a thread. `str` gives its name, as `order-1/2.0#3`.

    Steps are ordered as `drive` orders threads, and then by their numbers: `a/2.0#1` comes before `a/10.0#1`.
    """

    thread: str
    number: int

    @classmethod
    def read(cls, name: str) -> Step:
        """The step of this name. Another text is a `ValueError`."""
        found = _STEP.fullmatch(name)
        if not found:
            raise ValueError(f"no step: {name!r}")
        return cls(found[1], int(found[2]))

    @property
    def execution(self) -> str:
        """The execution that the step's thread belongs to."""
        return self.thread.split("/", 1)[0]

    def _place(self) -> Tuple[str, Tuple[Tuple[int, ...], ...], int]:
        execution, *branches = self.thread.split("/")
        return execution, tuple(tuple(map(int, branch.split("."))) for branch in branches), self.number

    def __lt__(self, other: object) -> bool:
        if not isinstance(other, Step):
            return NotImplemented
        return self._place() < other._place()

    def __str__(self) -> str:
        return f"{self.thread}#{self.number}"


@dataclass(frozen=True)
class Taken:
    """A step that was taken, and its kind: plain, call, fork, join or terminate."""

    step: Step
    kind: str


@dataclass(frozen=True)
class Ready:
    """The thread is before a state, after so many moves."""

    state: str
    moves: int


@dataclass(frozen=True)
class Parked:
    """The thread waits for so many branches of the fork that its last move made."""

    state: str
    moves: int
    branches: int

    def branch(self, thread: str, index: int) -> str:
        """The name of a branch of the parked thread."""
        return f"{thread}/{self.moves}.{index}"


@dataclass(frozen=True)
class Done:
    """The thread has ended with an output."""

    output: Any


@dataclass(frozen=True)
class Failed:
    """The thread has ended with an error."""

    error: str
    cause: str


Frame = Union[Ready, Parked, Done, Failed]


@dataclass(frozen=True)
class Waiting:
    """A thread for which a runner waits, until a moment in UTC, and why. There is no moment if it waits for the end of a hold."""

    thread: str
    moment: Optional[datetime]
    why: str


def waiting_of(line: str) -> Waiting:
    """What a line of the reply to `!waits` says. Another text is a `ValueError`."""
    told = json.loads(line)
    moment = told["moment"]
    return Waiting(told["thread"], None if moment is None else moment_of(moment), told["why"])


def moment_of(text: str) -> datetime:
    """A moment that is written as `2026-11-23T09:14:02.118000Z`."""
    return datetime.strptime(text, MOMENT).replace(tzinfo=timezone.utc)


MOMENT = "%Y-%m-%dT%H:%M:%S.%fZ"


def texts_of(line: str) -> list[Any]:
    """The JSON texts of a line, parted by single spaces."""
    reader, at, found = json.JSONDecoder(), 0, []
    while at < len(line):
        value, at = reader.raw_decode(line, at)
        if at < len(line) and line[at] != " ":
            raise ValueError(f"no space behind a JSON text: {line[at:at + 20]!r}")
        found.append(value)
        at += 1
    return found


_FRAMES: Dict[str, Tuple[Any, Tuple[type, ...]]] = {
    "ready": (Ready, (str, int)),
    "parked": (Parked, (str, int, int)),
    "done": (Done, (object,)),
    "failed": (Failed, (str, str)),
}


def frame_of(first: str) -> Frame:
    """The frame that a reply to `show` says. Another text is a `ValueError`."""
    word, _, rest = first[3:].partition(" ")
    values = texts_of(rest)
    if not first.startswith("ok ") or word not in _FRAMES:
        raise ValueError(f"no frame: {first!r}")
    frame, kinds = _FRAMES[word]
    if len(values) != len(kinds) or not all(map(isinstance, values, kinds)):
        raise ValueError(f"no frame: {first!r}")
    return frame(*values)  # type: ignore[no-any-return]

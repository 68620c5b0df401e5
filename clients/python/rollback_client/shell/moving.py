"""The commands that take steps: step, drive, work."""
from __future__ import annotations

import time
from typing import Callable

from ..lines import MOST_BRANCHES, MOST_NUMBER, MOST_STEPS, MOST_WORKERS
from . import given
from .core import Command, Shell
from .refusing import Refused
from .session import Gone

_PIECE = 256
_NUMBERS = f"The numbers in a name are at most {MOST_NUMBER}, and a thread lies under at most {MOST_BRANCHES} branches."
THREAD = f"A thread is an execution, or a branch as order-1/2.0. {_NUMBERS}"
STEP = f"A step is a thread and a number, as order-1#3 or order-1/2.0#1. {_NUMBERS}"
_MOST_SHOWN = 20
_PATIENCE = 0.2  # seconds after which a person asks how far it is


class Taken:
    """The steps of long work: shown as they come, on a terminal the first ones alone, and counted."""

    def __init__(self, shell: Shell):
        self._shell, self.count = shell, 0
        self._began = time.monotonic()

    def add(self, steps: list[str]) -> None:
        """Shows the steps of a piece, and how far the work is."""
        output = self._shell.output
        room = max(_MOST_SHOWN - self.count, 0) if output.is_terminal else len(steps)
        for step in steps[:room]:
            output.say(step)
        self.count += len(steps)
        seconds = time.monotonic() - self._began
        if steps and seconds > _PATIENCE:
            output.progress(f"{counted(self.count)}, {self.count / seconds:,.0f} a second")

    def end(self, was_stopped: bool = False) -> None:
        """Says how many steps were taken. They stay taken, also if Ctrl-C has stopped the work."""
        output = self._shell.output
        left = self.count - _MOST_SHOWN
        if output.is_terminal and left > 0:
            output.say(f"and {left} more")
        if was_stopped:
            output.say(f"stopped: {counted(self.count)} taken, which stay taken")
        else:
            output.say(
                f"{counted(self.count)} taken"
                if self.count
                else "no step taken: nothing can move now, but for what a hold stops"
            )


def counted(count: int) -> str:
    """A number of steps in words."""
    return f"{count} step{'' if count == 1 else 's'}"


def _step(shell: Shell, rest: str) -> None:
    thread = given.thread_name(given.exactly(rest, "step THREAD", 1)[0])
    reply = shell.ask(f"step {thread}")
    if not shell.raw(reply):
        _, step, kind = reply[0].split(" ")
        shell.output.say(f"{step} is taken, a {kind} step")


def _in_pieces(shell: Shell, most: int, line_of: Callable[[int], str], counts_tries: bool) -> None:
    """Takes at most so many steps, in pieces between which Ctrl-C stops.

    What a piece that is refused or broken off leaves is said: the steps of those before it stay taken.
    """
    taken, left = Taken(shell), most
    with shell.session.interrupts as interrupts:
        try:
            while left > 0 and not interrupts.asked:
                piece = min(left, _PIECE)
                steps = shell.ask(line_of(piece))[1:]
                taken.add(steps)
                left -= piece if counts_tries else len(steps)
                if not steps:
                    break
        except (Refused, Gone):
            if taken.count:
                taken.end()
            raise
        taken.end(interrupts.asked)


def _drive(shell: Shell, rest: str) -> None:
    (word,) = given.exactly(rest, "drive K", 1)
    most = given.number("the number of steps", word, MOST_STEPS)
    if shell.is_raw:
        shell.raw(shell.ask(f"drive {most}"))
    else:
        _in_pieces(shell, most, lambda piece: f"drive {piece}", False)


def _work(shell: Shell, rest: str) -> None:
    words = given.exactly(rest, "work WORKERS K", 2)
    workers = given.number("the number of workers", words[0], MOST_WORKERS)
    most = given.number("the number of steps", words[1], MOST_STEPS)
    if shell.is_raw:
        shell.raw(shell.ask(f"work {workers} {most}"))
    else:
        _in_pieces(shell, most, lambda piece: f"work {workers} {piece}", True)


COMMANDS = (
    Command(
        "step",
        "step THREAD",
        "takes the next step of a thread",
        _step,
        (THREAD,),
        ("thread",),
    ),
    Command(
        "drive",
        "drive K",
        "takes at most K steps, each of the least thread that has a move then",
        _drive,
        (f"K is from 1 to {MOST_STEPS}. Ctrl-C stops between pieces of {_PIECE} steps; what was taken stays taken.",),
    ),
    Command(
        "work",
        "work WORKERS K",
        "has workers take at most K steps together, at the same time",
        _work,
        (
            f"WORKERS is from 1 to {MOST_WORKERS}, and K from 1 to {MOST_STEPS}.",
            f"Ctrl-C stops between pieces of {_PIECE} steps; what was taken stays taken.",
        ),
    ),
)

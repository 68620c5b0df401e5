"""The commands that take steps back, hold them or settle them: plan, rollback, undo, hold, held, settle."""
from __future__ import annotations

import textwrap
from dataclasses import dataclass
from typing import Mapping, Optional, Sequence

from ..faults import NoAnswer
from . import given
from .answers import consequence
from .core import Command, Shell
from .moving import STEP, counted

_LEAST_WIDTH = 40


def grouped(steps: Sequence[str]) -> dict[str, list[str]]:
    """Steps by their executions, both in the order in which they come."""
    groups: dict[str, list[str]] = {}
    for step in steps:
        groups.setdefault(step.partition("#")[0].partition("/")[0], []).append(step)
    return groups


def _reasons(shell: Shell, steps: Sequence[str]) -> Mapping[str, str]:
    """Why each step is among those of the plan of the last one, if the server can be asked."""
    if not shell.session.answers_questions():
        return {}
    try:
        told = shell.session.question(f"plan {steps[-1]}")
    except NoAnswer:
        return {}  # another caller has taken it back since
    return {row["step"]: consequence(row) for row in told["steps"]}


def show_steps(shell: Shell, head: str, steps: Sequence[str], of_plan: bool = False) -> None:
    """Writes steps by their executions, each by its whole name. Those of a plan have their reasons, if the server can be asked."""
    groups = grouped(steps)
    of = f" of {len(groups)} execution{'' if len(groups) == 1 else 's'}" if steps else ""
    shell.output.say(f"{head}: {counted(len(steps))}{of}")
    reasons = _reasons(shell, steps) if of_plan and steps else {}
    room = max(map(len, groups), default=0) + 4
    for execution, names in groups.items():
        begin = f"  {execution}".ljust(room)
        if reasons:
            for name in names:
                shell.output.say(f"{begin}{name}  {reasons.get(name, '')}".rstrip())
                begin = " " * room
            continue
        width = max(shell.output.width or 0, _LEAST_WIDTH) if shell.output.is_terminal else 1 << 30
        text = textwrap.wrap(" ".join(names), width - room, break_long_words=False, break_on_hyphens=False)
        for line in text:
            shell.output.say(begin + line)
            begin = " " * room


def _plan(shell: Shell, rest: str) -> None:
    step = given.step_name(given.exactly(rest, "plan STEP", 1)[0])
    reply = shell.ask(f"plan {step}")
    if not shell.raw(reply):
        show_steps(shell, f"a rollback of {step} takes back", reply[1:], True)


@dataclass(frozen=True)
class _Change:
    """What is asked about before it is done: the line that says which steps it is about, and the words."""

    look: str
    head: str
    verb: str
    end: str = ""
    is_listed: bool = True

    def show(self, shell: Shell, reply: list[str]) -> None:
        if shell.raw(reply):
            return
        if self.is_listed:
            show_steps(shell, self.head, reply[1:], True)
        else:
            shell.output.say(f"{self.head}: {counted(len(reply) - 1)}")

    def confirmed(self, shell: Shell) -> Optional[list[str]]:
        """Shows the steps and asks. After a yes they are looked at again: if there are more, it shows and asks anew.

        The steps that were said yes to are handed back, or nothing.
        """
        reply = shell.ask(self.look)
        while True:
            self.show(shell, reply)
            question = f"{self.verb} {counted(len(reply) - 1)}{self.end}?"
            if len(reply) == 1 or not shell.confirm(question):
                shell.output.say("nothing was done")
                return None
            shown, reply = reply, shell.ask(self.look)
            if set(reply[1:]) <= set(shown[1:]):
                return shown[1:]
            shell.output.say("there are more by now:")


def _rollback(shell: Shell, rest: str) -> None:
    words, is_sure = given.with_yes(rest)
    step = given.step_name(given.exactly(words, "rollback [-y] STEP", 1)[0])
    change = _Change(f"plan {step}", f"a rollback of {step} takes back", "take back")
    shown = [] if is_sure else change.confirmed(shell)
    if shown is None:
        return
    reply = shell.ask(f"rollback {step}")
    if shell.raw(reply):
        return
    if set(reply[1:]) <= set(shown):
        shell.output.say(f"{counted(len(reply) - 1)} taken back")
    else:
        show_steps(shell, "taken back", reply[1:])


def _undo(shell: Shell, rest: str) -> None:
    step = given.step_name(given.exactly(rest, "undo STEP", 1)[0])
    reply = shell.ask(f"undo {step}")
    if not shell.raw(reply):
        shell.output.say(f"{step} is taken back")


def _hold(shell: Shell, rest: str) -> None:
    words, is_sure = given.with_yes(rest)
    step = given.step_name(given.exactly(words, "hold [-y] STEP", 1)[0])
    change = _Change(f"plan {step}", f"a hold of {step}, which ends only when {step} is taken back, holds", "hold")
    if not is_sure and change.confirmed(shell) is None:
        return
    reply = shell.ask(f"hold {step}")
    if not shell.raw(reply):
        shell.output.say(f"{counted(int(reply[0][3:]))} held: undo them one by one, in the order of held")


def _held(shell: Shell, rest: str) -> None:
    given.exactly(rest, "held", 0)
    reply = shell.ask("held")
    if shell.raw(reply):
        return
    if len(reply) > 1:
        show_steps(shell, "left of the hold", reply[1:])
    else:
        shell.output.say("nothing is held")


def _settle(shell: Shell, rest: str) -> None:
    words, is_sure = given.with_yes(rest)
    given.exactly(words, "settle [-y]", 0)
    head = "a settlement, which can't be taken back, settles all that remains"
    change = _Change("history", head, "settle", " for good", is_listed=False)
    if not is_sure and change.confirmed(shell) is None:
        return
    reply = shell.ask("settle")
    if not shell.raw(reply):
        shell.output.say("all steps that remained are settled")


_SURE = "It shows what it does and asks; -y behind the word doesn't ask. An empty answer is no."

COMMANDS = (
    Command("plan", "plan STEP", "shows what a rollback of a step would take back", _plan, (STEP,), ("step",)),
    Command(
        "rollback",
        "rollback [-y] STEP",
        "takes back a step and all that depends on it",
        _rollback,
        (STEP, _SURE),
        ("step", "step"),
    ),
    Command("undo", "undo STEP", "takes back one step on which no other depends", _undo, (STEP,), ("step",)),
    Command(
        "hold",
        "hold [-y] STEP",
        "lets no new step build on a step and its consequences, while they are taken back one by one",
        _hold,
        (STEP, _SURE, "A hold ends only when its own step is taken back."),
        ("step", "step"),
    ),
    Command("held", "held", "shows what is left of the hold", _held),
    Command(
        "settle",
        "settle [-y]",
        "settles all steps that remain: they can't be taken back any more",
        _settle,
        (_SURE,),
    ),
)

"""Questions for a follower, and lines for a runner: how each is made, and how its answer is read."""
from __future__ import annotations

import json
from typing import Any, Dict, Mapping, Optional, Union

from . import lines
from .commands import Command, StepName
from .faults import BadLine, NoAnswer, NoFollower, NoRunner, Refusal
from .values import Waiting, waiting_of

Answer = Dict[str, Any]
_NO_FOLLOWER = "no follower"
MOST_ENTRIES = 4_294_967_295


def _answer(line: str, said: list[str]) -> Union[Answer, Refusal]:
    told = json.loads(said[0])
    if "error" not in told or "entries" in told:
        return dict(told)
    if told["error"] == _NO_FOLLOWER:
        return NoFollower(0, _NO_FOLLOWER, line)
    return NoAnswer(0, str(told["error"]), line)


def question(text: str) -> Command[Answer]:
    """A question in the words of docs/QUESTIONS.md, as `causes order-2#3`."""
    if not isinstance(text, str):
        raise TypeError(f"a question is a text, and not {type(text).__name__}")
    line = f"? {text}"

    def instead(refusal: Refusal) -> Refusal:
        return NoFollower(0, _NO_FOLLOWER, line) if isinstance(refusal, BadLine) else refusal

    return Command(line, lambda said: _answer(line, said), instead)  # type: ignore[arg-type, return-value]


def _page(after: Optional[str], most: Optional[int]) -> str:
    if after is not None and most is None:
        raise ValueError("after goes with most: the last name that was told, and how many more")
    behind = f" after {after}" if after is not None else ""
    return behind + (f" most {lines.count('a number of rows', most, 1, MOST_ENTRIES)}" if most is not None else "")


def causes(step: StepName, writes: bool) -> Command[Answer]:
    """The steps on which a step depends."""
    return question(f"causes {lines.step_name(step)}{' writes' if writes else ''}")


def item(key: Union[str, Mapping[str, Any], None], after: Optional[str], most: Optional[int]) -> Command[Answer]:
    """The accesses of an item, or all items."""
    if key is None:
        return question(f"item{_page(after, most)}")
    text = key if isinstance(key, str) else json.dumps(key, separators=(",", ":"), ensure_ascii=False)
    return question(f"item{_page(after, most)} {text}")


def explain(thread: str) -> Command[Answer]:
    """Why a thread failed, or would."""
    return question(f"explain {lines.thread(thread)}")


def execution(name: str, after: Optional[str], most: Optional[int]) -> Command[Answer]:
    """An execution with its steps."""
    return question(f"show {lines.name('an execution', name)}{_page(after, most)}")


def threads(thread: Optional[str], since: Optional[int], after: Optional[str], most: Optional[int]) -> Command[Answer]:
    """Threads that have a move, those that changed since an entry, or one."""
    if thread is not None:
        return question(f"threads {lines.thread(thread)}")
    if since is None:
        return question(f"threads ready{_page(after, most)}")
    return question(f"threads since {lines.count('an entry', since, 0, MOST_ENTRIES)}{_page(after, most)}")


def executions(
    status: Optional[str],
    machine: Optional[str],
    since: Optional[int],
    after: Optional[str],
    most: Optional[int],
) -> Command[Answer]:
    """A list of executions."""
    if status is not None and status not in ("failed", "open", "done"):
        raise ValueError(f"a list is of failed, open or done executions, and not of {status!r}")
    of = f" {status}" if status else ""
    of += f" machine {lines.name('a machine', machine)}" if machine is not None else ""
    of += f" since {lines.count('an entry', since, 0, MOST_ENTRIES)}" if since is not None else ""
    return question(f"list{of}{_page(after, most)}")


def log(first: int, count: int) -> Command[Answer]:
    """Accepted entries from a number on."""
    of = lines.count("the number of an entry", first, 0, MOST_ENTRIES)
    return question(f"log {of} {lines.count('a number of entries', count, 0, MOST_ENTRIES)}")


# ---- a runner


def _of_runner(line: str) -> Command[None]:
    return Command(line, lambda said: None, _no_runner)


def _no_runner(refusal: Refusal) -> Refusal:
    return NoRunner(31, "", refusal.line) if isinstance(refusal, BadLine) else refusal


def _whom(execution: Optional[str], machine: Optional[str]) -> str:
    if execution is not None and machine is not None:
        raise ValueError("one execution or one machine, and not both")
    if execution is not None:
        return f" execution {lines.name('an execution', execution)}"
    return f" machine {lines.name('a machine', machine)}" if machine is not None else ""


def pause(execution: Optional[str], machine: Optional[str]) -> Command[None]:
    """A pause of the runner."""
    return _of_runner(f"!pause{_whom(execution, machine)}")


def resume(execution: Optional[str], machine: Optional[str]) -> Command[None]:
    """The end of a pause."""
    return _of_runner(f"!resume{_whom(execution, machine)}")


def waits() -> Command[list[Waiting]]:
    """What the runner waits for."""
    return Command("!waits", lambda said: [waiting_of(line) for line in said[1:]], _no_runner)

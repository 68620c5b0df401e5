"""Steps, frames and their dependence as the questions tell them (docs/QUESTIONS.md)."""
from __future__ import annotations

import json
from typing import Any, Dict, List, Optional, Sequence, Tuple

from .book import Book, Step, path_of, reason
from .turns import Frame, effective_input

Row = Dict[str, Any]


def key_object(text: str) -> Row:
    """A key as an object of attributes."""
    found = json.loads(text)
    assert isinstance(found, dict)
    return found


def state_of(book: Book, step: Step) -> Tuple[Optional[str], Optional[str]]:
    """The state that a step took, and its type."""
    if step.before is None:
        return None, None
    return step.before.state, book.machines[step.before.machine].state(step.before)["Type"]


def access_word(step: Step) -> Optional[str]:
    """How a step accessed an item."""
    if step.access is None:
        return None
    if step.access.writes:
        return "write"
    return "refused" if step.access.error is not None else "read"


# ---- dependence


def nearest(book: Book, step: Step) -> List[Row]:
    """The steps on which one depends in a picture, each with the reason."""
    at = book.steps.index(step)
    earlier = book.steps[:at]
    found: Dict[str, str] = {}
    for other in _of_thread(step, earlier) + _of_fork(step, earlier) + _taken_out(step, earlier):
        found.setdefault(other.name, reason(step, other) or "")
    for other in _of_item(step, earlier) + _of_bound(step, earlier):
        found.setdefault(other.name, reason(step, other) or "")
    places = {other.name: place for place, other in enumerate(earlier)}
    return [{"reason": found[name], "step": name} for name in sorted(found, key=places.__getitem__)]


def _of_thread(step: Step, earlier: Sequence[Step]) -> List[Step]:
    return [other for other in earlier if other.thread == step.thread][-1:]


def _of_fork(step: Step, earlier: Sequence[Step]) -> List[Step]:
    if step.number != 1 or "/" not in step.thread:
        return []
    above, _, branch = step.thread.rpartition("/")
    fork = int(branch.split(".")[0])
    return [other for other in earlier if other.thread == above and other.number == fork]


def _taken_out(step: Step, earlier: Sequence[Step]) -> List[Step]:
    last = {other.thread: other for other in earlier if other.thread in step.closed}
    # a thread that this one's branch has taken out itself is below that
    return [other for other in last.values() if reason(step, other) == "join"]


def _of_item(step: Step, earlier: Sequence[Step]) -> List[Step]:
    if step.access is None:
        return []
    same = [other for other in earlier if other.access and other.access.key == step.access.key]
    writes = [place for place, other in enumerate(same) if other.access and other.access.writes]
    since = same[writes[-1] :] if writes else same
    needed = since if step.access.writes else since[:1] if writes else []
    # of one thread's steps a picture has neighbours alone
    return [other for other in needed if other.thread != step.thread]


def waited(step: Step) -> Optional[str]:
    """The last branch for which a first move waited under its Map's bound."""
    if not step.bound:
        return None
    fork, _, number = step.thread.rpartition(".")
    return f"{fork}.{int(number) - step.bound}" if int(number) >= step.bound else None


def _of_bound(step: Step, earlier: Sequence[Step]) -> List[Step]:
    """The last step of the last branch that remains of those for which a first move waited, if nothing else is why."""
    if waited(step) is None:
        return []
    fork, _, number = step.thread.rpartition(".")
    last = int(number) - step.bound
    for index in range(last, max(last - step.bound, -1), -1):
        own = [other for other in earlier if other.thread == f"{fork}.{index}"]
        if own:
            return [other for other in own[-1:] if reason(step, other) == "bound"]
    return []


def causes(book: Book, step: Step) -> List[Tuple[Step, Step, str]]:
    """The steps on which one depends, the latest first, each with the earliest one that depends directly on it, and why."""
    members = [step]
    found = []
    for earlier in reversed(book.steps[: book.steps.index(step)]):
        needing = [later for later in members if reason(later, earlier)]
        if needing:
            members.append(earlier)
            first = min(needing, key=book.steps.index)
            found.append((earlier, first, reason(first, earlier) or ""))
    return found


# ---- rows


def step_row(book: Book, step: Step) -> Row:
    """The fields that each row of a step has."""
    state, kind = state_of(book, step)
    branch = waited(step)
    return {
        **({} if branch is None else {"waited": branch}),
        "access": access_word(step),
        "key": None if step.access is None else key_object(step.access.key),
        "kind": step.kind,
        "on": nearest(book, step),
        "state": state,
        "step": step.name,
        "thread": step.thread,
        "type": kind,
    }


def shown_row(book: Book, step: Step) -> Row:
    """A row of `show`, too."""
    access, before = step.access, step.before
    is_answered = access is not None and access.error is None
    return {
        **step_row(book, step),
        "answer": access.answer if access is not None and is_answered else None,
        "call": None if access is None or before is None else effective_input(book.machines[before.machine].state(before), before.input),
        "entry": step.entry,
        "error": None if access is None else access.error,
        "input": None if step.before is None else step.before.input,
        "outcome": outcome(book, step),
        "output": step.after.output if step.after.phase == "done" else step.after.input,
    }


def whole_row(book: Book, step: Step) -> Row:
    """A row of `steps`, and of the question for one step."""
    access = step.access
    return {
        **shown_row(book, step),
        "frames": {"after": frame_object(step.after), "before": step.before and frame_object(step.before)},
        "items": None if access is None else {"after": access.after, "before": access.before},
    }


def frame_object(frame: Frame) -> Row:
    """A frame."""
    found: Row = {"input": frame.input, "moves": frame.moves, "phase": frame.phase, "state": frame.state}
    if frame.phase == "parked":
        found["branches"] = frame.branches
    elif frame.phase == "done":
        found["output"] = frame.output
    elif frame.phase == "failed":
        found.update(error=frame.error, cause=frame.cause)
    return found


def outcome(book: Book, step: Step) -> Row:
    """What a step went on to. It was caught if it isn't in the state that its own one's `Next` names."""
    after = step.after
    if after.phase == "parked":
        return {"branches": after.branches, "to": "forked"}
    if after.phase == "done":
        return {"to": "done"}
    if after.phase == "failed":
        return {"error": after.error, "to": "failed"}
    if after.retrier is not None:
        return {"to": "retry"}
    own = None if step.before is None else book.machines[step.before.machine].state(step.before).get("Next")
    return {"state": after.state, "to": "caught" if step.failure is not None and own != after.state else "next"}


def in_order(names: Sequence[str]) -> List[str]:
    """Threads in the order of `drive`."""
    return sorted(names, key=path_of)

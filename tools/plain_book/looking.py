"""Answers about steps, items and executions: causes, plan, why, item, show, list, find, steps, log, explain."""
from __future__ import annotations

import re
from collections import deque
from typing import Any, Dict, List, Optional, Tuple

from .book import Book, No, Step, path_of, reason
from .items import Malformed, normal_item
from .rows import access_word, causes, frame_object, in_order, key_object, nearest, shown_row, step_row, waited, whole_row
from .turns import Failure
from .values import BadJson, read

Answer = Dict[str, Any]
MOST_FOUND = 100


class NoAnswer(Exception):
    """There is no answer, for the reason that the sentence says."""


def remaining(book: Book, name: str) -> Step:
    """The step of a name that remains."""
    try:
        return book.remaining(name)
    except No as refusal:
        raise NoAnswer(f"{name} is settled" if str(refusal) == "12" else f"{name} is no remaining step") from None


# ---- dependence


def causes_of(book: Book, name: str, only_writes: bool) -> Answer:
    """On which steps one depends."""
    step = remaining(book, name)
    rows = [
        {**step_row(book, cause), "needed_for": first.name, "reason": why}
        for cause, first, why in causes(book, step)
        if not only_writes or cause.kind == "start" or cause.access is not None and cause.access.writes
    ]
    return {"causes": rows, "step": name}


def plan_of(book: Book, name: str) -> Answer:
    """What a rollback takes back, and which items change."""
    step = remaining(book, name)
    planned = book.planned(step)
    rows = []
    for one in planned:
        on = [other for other in planned if book.steps.index(other) < book.steps.index(one) and reason(one, other)]
        after = max(on, key=book.steps.index, default=None)
        why = None if after is None else reason(one, after)
        rows.append({**step_row(book, one), "after": after and after.name, "reason": why})
    then: Dict[str, Any] = {}
    for one in planned:
        if one.access is not None and one.access.writes:
            then[one.access.key] = one.access.before
    changed = [key for key in then if then[key] != book.items.get(key)]
    items = [{"key": key_object(key), "now": book.items.get(key), "then": then[key]} for key in in_key_order(book, changed)]
    executions = sorted({one.thread.split("/")[0] for one in planned})
    return {"count": len(planned), "executions": executions, "items": items, "step": name, "steps": rows}


def in_key_order(book: Book, keys: List[str]) -> List[str]:
    """Keys as `items` orders them."""
    assert book.schema is not None
    return sorted(keys, key=lambda key: book.schema.order(key_object(key)))  # type: ignore[union-attr]


def why_chain(book: Book, first: str, last: str) -> Answer:
    """A shortest chain of direct dependences."""
    begin, end = remaining(book, first), remaining(book, last)
    came: Dict[str, Tuple[Step, Optional[Step]]] = {end.name: (end, None)}
    left = deque([end])
    while left and begin.name not in came:
        step = left.popleft()
        for earlier in book.steps[: book.steps.index(step)]:
            if earlier.name not in came and reason(step, earlier):
                came[earlier.name] = (earlier, step)
                left.append(earlier)
    if begin.name not in came:
        raise NoAnswer(f"{last} is no consequence of {first}")
    chain, step, before = [], begin, None
    while step is not None:
        chain.append({**step_row(book, step), "reason": None if before is None else reason(step, before)})
        before, step = step, came[step.name][1]  # type: ignore[assignment]
    return {"chain": chain}


# ---- items


def item_of(book: Book, text: str, after: Optional[str], most: Optional[int]) -> Answer:
    """Who accessed the item of a key: at most so many, behind a step."""
    place = book.steps.index(remaining(book, after)) if after else -1
    key = key_of_text(book, text)
    accessed = [step for step in book.steps if step.access is not None and step.access.key == key]
    if not accessed and key not in book.items:
        raise NoAnswer(f"{text} is no item")
    rows = [
        {"access": access_word(step), "after": step.access.after, "before": step.access.before, "step": step.name}
        for step in accessed
        if step.access is not None and book.steps.index(step) > place
    ]
    shown = rows if most is None else rows[:most]
    return {"accesses": shown, "key": key_object(key), "more": len(rows) > len(shown), "now": book.items.get(key)}


def key_of_text(book: Book, text: str) -> str:
    """The key that a text says, as JSON or, of a key of one text, plain."""
    assert book.schema is not None
    try:
        value = read(text) if text.startswith("{") else None
        if isinstance(value, dict):
            found = normal_item(value)
            if set(found) != {name for name, _ in book.schema.attributes}:
                raise Malformed(0)
            return book.schema.key_of(found)
        if len(book.schema.attributes) != 1:
            raise Malformed(0)
        ((name, kind),) = book.schema.attributes
        return book.schema.key_of(normal_item({name: {kind: text}}))
    except (BadJson, Malformed):
        raise NoAnswer(f"{text} is no item") from None


def all_items(book: Book) -> List[Answer]:
    """All items with the steps that wrote them last."""
    found = []
    for item in book.items_in_order():
        assert book.schema is not None
        key = book.schema.key_of(item)
        wrote = [step.name for step in book.steps if step.access and step.access.writes and step.access.key == key]
        found.append({"item": item, "key": key_object(key), "writer": wrote[-1] if wrote else None})
    return found


# ---- executions


def status_of(book: Book, name: str) -> str:
    """Whether an execution is done, failed or open."""
    phase = book.threads[name].frame.phase
    return phase if phase in ("done", "failed") else "open"


def execution_row(book: Book, name: str) -> Answer:
    """An execution in a list."""
    frame, status = book.threads[name].frame, status_of(book, name)
    of_it = [step for step in book.steps if step.thread.split("/")[0] == name]
    return {
        "entry": book.last_change(name),
        "error": frame.error if status == "failed" else None,
        "execution": name,
        "machine": book.executions[name].machine,
        "state": None if status == "done" else frame.state,
        "status": status,
        "steps": len(of_it),
    }


def counts(book: Book, names: List[str]) -> Answer:
    """How many of these are done, failed and open."""
    found = {"done": 0, "failed": 0, "open": 0}
    for name in names:
        found[status_of(book, name)] += 1
    return found


def list_head(book: Book) -> Answer:
    """What a list says of the whole book."""
    names = list(book.executions)
    machines = {machine: counts(book, [name for name in names if book.executions[name].machine == machine]) for machine in book.machines}
    held = None if book.hold is None else {"left": len(book.left), "step": book.hold.name}
    return {"counts": counts(book, names), "held": held, "machines": machines}


def show_execution(book: Book, name: str, after: Optional[str], most: Optional[int]) -> Answer:
    """An execution with the steps of its threads: at most so many, behind a step."""
    frame, status = book.threads[name].frame, status_of(book, name)
    is_failed = status == "failed"
    threads = {thread for thread in book.threads if thread.split("/")[0] == name}
    threads |= {step.thread for step in book.steps if step.thread.split("/")[0] == name}
    rows, more = threads_in(book, in_order(list(threads)), after, most)
    return {
        "cause": frame.cause if is_failed else None,
        "error": frame.error if is_failed else None,
        "execution": name,
        "input": book.executions[name].input,
        "machine": book.executions[name].machine,
        "more": more,
        "output": frame.output if status == "done" else None,
        "state": None if status == "done" else frame.state,
        "status": status,
        "step": f"{name}#{frame.moves}" if is_failed else None,
        "threads": rows,
        "waits_for": waited_for(book, name),
        "held": held_back(book, name),
    }


def held_back(book: Book, name: str) -> Optional[str]:
    """The step that is left of a hold and keeps an execution's next move back."""
    try:
        book.refuse_held(book.next_step(name))
    except No as refusal:
        return str(refusal)[len("13 ") :] if str(refusal).startswith("13 ") else None
    return None


def waited_for(book: Book, name: str) -> List[str]:
    """The branches for which an execution's own thread waits."""
    frame = book.threads[name].frame
    if frame.phase != "parked" or book.move(name) is not None:
        return []
    return [branch for branch in book.branches(name) if book.threads[branch].frame.phase != "done"]


def _order(step: str) -> Tuple[Any, int]:
    thread, number = step.rsplit("#", 1)
    return path_of(thread), int(number)


def steps_in(book: Book, name: str, after: Optional[str], most: Optional[int]) -> Tuple[List[Step], bool]:
    """A thread's steps behind a step, at most so many, and whether more follow."""
    steps = [step for step in book.steps if step.thread == name and (after is None or _order(step.name) > _order(after))]
    shown = steps if most is None else steps[:most]
    return shown, len(steps) > len(shown)


def threads_in(book: Book, names: List[str], after: Optional[str], most: Optional[int]) -> Tuple[List[Answer], bool]:
    """Threads with their steps behind a step, at most so many steps in all, and whether more steps or threads follow."""
    rows: List[Answer] = []
    for name in names:
        behind = after is None or path_of(name) > _order(after)[0]
        if not behind and path_of(name) != _order(str(after))[0]:
            continue
        if most is not None and most <= 0:
            return rows, True
        steps, more = steps_in(book, name, after, most)
        if not steps and not behind:
            continue
        rows.append(shown_thread(book, name, steps))
        if more:
            return rows, True
        most = None if most is None else most - len(steps)
    return rows, False


def shown_thread(book: Book, name: str, steps: List[Step]) -> Answer:
    """A thread with some of its steps."""
    thread = book.threads.get(name)
    return {
        "closed": thread is None,
        "frame": None if thread is None else frame_object(thread.frame),
        "move": None if thread is None else book.move(name),
        "steps": [shown_row(book, step) for step in steps],
        "thread": name,
    }


def show_step(book: Book, name: str) -> Answer:
    """All about one step."""
    step = remaining(book, name)
    later = book.steps[book.steps.index(step) + 1 :]
    behind = first_behind(step, later)
    found = [other for other in later if other is behind or any(on["step"] == name for on in nearest(book, other))]
    return {"dependents": [{"reason": reason(other, step), "step": other.name} for other in found], "step": whole_row(book, step)}


def first_behind(step: Step, later: List[Step]) -> Optional[Step]:
    """Of a branch's last step, the first move that waited for it and for the fewest branches."""
    if any(other.thread == step.thread for other in later):
        return None
    behind = [other for other in later if len(other.path) == len(step.path) and reason(other, step) == "bound"]
    return min(behind, key=lambda other: int((waited(other) or "").rpartition(".")[2]), default=None)


# ---- steps and lines


def found_steps(book: Book, text: str, most: int) -> Answer:
    """Steps whose name, state, error or key has a text, the latest first."""
    wanted, rows = _folded(text), []
    for place in range(len(book.steps) - 1, -1, -1):
        step = book.steps[place]
        parts = [step.name, step.before.state if step.before else "", step.after.error]
        parts.append(step.access.key if step.access else "")
        if any(wanted in _folded(part) for part in parts):
            rows.append({**step_row(book, step), "place": place})
    return {"more": len(rows) > most, "steps": rows[:most]}


def _folded(text: str) -> str:
    return re.sub("[A-Z]", lambda found: found[0].lower(), text)


def log_row(book: Book, number: int) -> Answer:
    """An accepted line."""
    entry = book.entries[number]
    words = entry.line.split(" ")
    found: Answer = {"command": words[0], "entry": number}
    if words[0] == "table":
        found["table"] = words[1]
    elif words[0] == "define":
        found["machine"] = words[1]
    elif words[0] == "start":
        found.update(machine=words[2], step=entry.step)
    elif words[0] == "step":
        found.update(kind=entry.kind, step=entry.step)
        if entry.kind in ("join", "terminate") and entry.branches:
            found["closed"] = entry.branches
    elif words[0] == "undo":
        found["undone"] = entry.undone
    elif words[0] == "rollback":
        found.update(of=words[1], undone=entry.undone)
    elif words[0] == "hold":
        found.update(held=entry.held, of=words[1])
    return found


# ---- why something fails


def explained(book: Book, name: str) -> Answer:
    """Why a failed thread failed, or why its next step would make it fail."""
    own = [step for step in book.steps if step.thread == name]
    if name not in book.threads and not own:
        raise NoAnswer(f"{name} is no thread")
    thread = book.threads.get(name)
    frame = own[-1].after if thread is None else thread.frame
    if frame.phase == "failed":
        step = own[-1] if own else None
        return {"why": None if step is None else why_of(step, step.name)}
    if thread is None or (book.move(name) is None and frame.phase != "ready"):
        return {"why": None}
    step = book.next_step(name, waits=False)
    return {"why": why_of(step, None) if step.after.phase == "failed" else None}


def why_of(step: Step, name: Optional[str]) -> Answer:
    """Why a step has failed its thread."""
    assert step.before is not None
    why = (step.failure or Failure(step.after.error, None)).why  # type: ignore[arg-type]
    return {
        "case": why.case,
        "error": step.after.error,
        "of": why.of,
        "path": why.path,
        "place": list(why.place),
        "state": step.before.state,
        "step": name,
    }

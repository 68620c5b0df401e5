"""The commands: what each is answered, and what it leaves. Steps keep what their undoing restores, and dependence is looked up pair by pair."""
from __future__ import annotations

import bisect
import re
import sys
from dataclasses import dataclass, field, replace
from pathlib import Path
from typing import Any, Dict, List, Optional, Set, Tuple

from .items import NO_TABLE, VALIDATION, Call, Item, Malformed, Schema, decide, key_asked, normal_item
from .turns import Failure, Fork, Frame, Machine, Why
from .values import BadJson, read, written

MOST_REMAINING, MOST_IN_ALL = 65_536, 1_000_000
MOST_NUMBER, MOST_STEPS = 4_294_967_295, 65_536
_NUMBER = r"(?:0|[1-9][0-9]*)"
_NAME = r"[A-Za-z0-9_-]{1,64}"
_THREAD = rf"{_NAME}(?:/[1-9][0-9]*\.{_NUMBER}){{0,31}}"
_LINES = {
    word: re.compile(form, re.DOTALL)
    for word, form in {
        "table": r"([A-Za-z0-9_.-]{1,255}) (([^ :\[][^ :]*:[SN])(?: ([^ :\[][^ :]*:[SN]))?) (.*)",
        "define": rf"({_NAME}) (.*)",
        "start": rf"({_NAME}) ({_NAME}) (.*)",
        "step": rf"({_THREAD})",
        "drive": rf"({_NUMBER})",
        "undo": rf"({_THREAD}#{_NUMBER})",
        "plan": rf"({_THREAD}#{_NUMBER})",
        "rollback": rf"({_THREAD}#{_NUMBER})",
        "hold": rf"({_THREAD}#{_NUMBER})",
        "show": rf"({_THREAD})",
        "settle": "",
        "items": "",
        "history": "",
        "held": "",
    }.items()
}
JOURNALED = ("table", "define", "start", "step", "undo", "rollback", "settle", "hold")
Names = Tuple[Any, ...]


class No(Exception):
    """A refusal, as the words behind `no`."""


def path_of(thread: str) -> Names:
    """A thread's execution and branches. Sorting by it is the order of `drive`."""
    execution, *branches = thread.split("/")
    return (execution, *(tuple(map(int, branch.split("."))) for branch in branches))


@dataclass
class Thread:
    """A thread that is there: its frame, and the entry that brought it there."""

    frame: Frame
    entry: int


@dataclass
class Access:
    """What a call did to an item."""

    key: str
    writes: bool
    before: Optional[Item]
    after: Optional[Item]
    answer: Any
    error: Optional[str]


@dataclass(eq=False)
class Step:
    """A step that remains, with what its undoing restores."""

    thread: str
    number: int
    kind: str
    before: Optional[Frame]
    after: Frame
    entry: int
    bound: int = 0  # of the Map above, if it is the first move of a branch
    access: Optional[Access] = None
    call: Any = None  # a Task's effective input
    failure: Optional[Failure] = None  # the error of the turn, handled or not
    closed: Dict[str, Thread] = field(default_factory=dict)

    @property
    def name(self) -> str:
        return f"{self.thread}#{self.number}"

    @property
    def path(self) -> Names:
        return path_of(self.thread)


def waited_for(later: Step, path: Names) -> bool:
    """Whether a first move of a branch waited for the branch of this path, or for one below it."""
    own = later.path
    above = own[:-1]
    if not later.bound or len(path) <= len(above) or path[: len(above)] != above:
        return False
    (fork, branch), (other, earlier) = own[-1], path[len(above)]
    return bool(other == fork and earlier + later.bound <= branch)


def reason(later: Step, earlier: Step) -> Optional[str]:
    """The first reason for which a step depends directly on an earlier one, or nothing."""
    own, other = later.path, earlier.path
    if own == other:
        return "thread"
    if earlier.number == 0 and other == own[:1]:
        return "start"
    if earlier.kind == "fork" and _under(own, other, earlier.number):
        return "fork"
    if later.kind in ("join", "terminate") and _under(other, own, later.number - 1):
        return "join"
    if later.access and earlier.access and later.access.key == earlier.access.key:
        if later.access.writes or earlier.access.writes:
            return "item"
    return "bound" if waited_for(later, other) else None


def _under(path: Names, thread: Names, fork: int) -> bool:
    return len(path) > len(thread) and path[: len(thread)] == thread and bool(path[len(thread)][0] == fork)


@dataclass
class Execution:
    """An execution that is there."""

    machine: str
    input: Any


@dataclass
class Entry:
    """An accepted line, and what it did."""

    line: str
    step: Optional[str] = None
    kind: Optional[str] = None
    undone: List[str] = field(default_factory=list)
    branches: List[str] = field(default_factory=list)  # that a join or a terminate took out
    held: int = 0


class Book:
    """A book that is given lines."""

    def __init__(self) -> None:
        self.schema: Optional[Schema] = None
        self.items: Dict[str, Item] = {}
        self.machines: Dict[str, Machine] = {}
        self.executions: Dict[str, Execution] = {}
        self.threads: Dict[str, Thread] = {}
        self.steps: List[Step] = []
        self.settled: Set[str] = set()
        self.entries: List[Entry] = []
        self.hold: Optional[Step] = None
        self.left: List[Step] = []
        self._changes: List[Tuple[int, str]] = []  # entries with the threads whose rows they changed

    # ---- lines

    def ask(self, line: str) -> List[str]:
        """The lines of the reply to a line. A `work` is no line here."""
        if not line:
            return []
        try:
            return self._asked(line)
        except No as refusal:
            return [f"no {refusal}"]

    def take(self, line: str) -> str:
        """The answer to a line of a journal: `ok`, or `no N`."""
        if line.split(" ", 1)[0] not in JOURNALED:
            return "no 20"
        words = self.ask(line)[0].split(" ")
        return "ok" if words[0] == "ok" else " ".join(words[:2])

    def _asked(self, line: str) -> List[str]:
        word, blank, rest = line.partition(" ")
        form = _LINES.get(word)
        found = form.fullmatch(rest) if form is not None else None
        if found is None or bool(blank) != bool(found.re.pattern) or len(line.encode(errors="replace")) > 1 << 20:
            raise No("20")
        words = found.groups()
        self._look_at(word, words)
        if word == "table" and self.schema is not None:
            raise No("22")
        if word != "table" and self.schema is None:
            raise No("21")
        before = len(self.entries)
        reply: List[str] = getattr(self, f"_{word}")(*words)
        if word in JOURNALED:
            assert len(self.entries) == before + 1
            self.entries[-1].line = line
        return reply

    @staticmethod
    def _look_at(word: str, words: Tuple[str, ...]) -> None:
        """Numbers of names fit 32 bits, and a drive has at most so many steps."""
        for text in words[:1] if word in ("step", "show", "undo", "plan", "rollback", "hold") else ():
            if any(int(digits) > MOST_NUMBER for digits in re.findall(r"[/.#]([0-9]+)", text)):
                raise No("20")
        if word == "drive" and not 1 <= int(words[0]) <= MOST_STEPS:
            raise No("20")

    # ---- the beginning

    def _table(self, name: str, _: str, first: str, second: Optional[str], text: str) -> List[str]:
        items = self._json(text)
        keys = tuple(tuple(key.rsplit(":", 1)) for key in (first, second) if key)
        schema = Schema(name, keys)  # type: ignore[arg-type]
        found = {}
        try:
            if not isinstance(items, list):
                raise Malformed(1)
            for value in items:
                item = normal_item(value)
                found[schema.key_of(item)] = item
        except Malformed as fault:
            raise No(f"23 {fault.fault}") from None
        self.schema, self.items = schema, found
        self.entries.append(Entry(""))
        return ["ok"]

    @staticmethod
    def _json(text: str) -> Any:
        try:
            return read(text)
        except BadJson as fault:
            raise No(f"25 {fault.fault}") from None

    def _define(self, name: str, text: str) -> List[str]:
        try:
            read(text)
        except BadJson as fault:
            if fault.fault == 1:
                raise No("25 1") from None
        if name in self.machines:
            raise No("2")
        if is_faulty(text):
            raise No("3")
        self._has_room(1)
        self.machines[name] = Machine(name, text)
        self.entries.append(Entry(""))
        return ["ok"]

    def _has_room(self, adds: int) -> None:
        full = adds == 2 and len(self.steps) >= MOST_REMAINING
        if full or len(self.entries) - 1 + len(self.steps) + adds > MOST_IN_ALL:
            raise No("10")

    # ---- steps

    def _start(self, name: str, machine: str, text: str) -> List[str]:
        value = self._json(text)
        if machine not in self.machines:
            raise No("1")
        if name in self.executions:
            raise No("4")
        self._has_room(2)
        frame = self.machines[machine].first((), value)
        self.executions[name] = Execution(machine, value)
        self._add(Step(name, 0, "start", None, frame, len(self.entries)))
        return [f"ok {name}#0"]

    def _step(self, name: str) -> List[str]:
        step = self.next_step(name)
        self.refuse_held(step)
        self._has_room(2)
        self._add(step)
        return [f"ok {step.name} {step.kind}"]

    def next_step(self, name: str, waits: bool = True) -> Step:
        """The step that a thread would take; without waiting, also if its Map's bound doesn't let it yet."""
        thread = self.threads.get(name)
        if thread is None:
            raise No("5")
        move = self.move(name)
        if move is None and not waits and thread.frame.phase == "ready":
            move = "step"
        if move is None:
            raise No(f"6 {thread.frame.phase if thread.frame.phase in ('done', 'failed') else 'waiting'}")
        frame, number = thread.frame, thread.frame.moves + 1
        machine = self.machines[frame.machine]
        if move in ("join", "terminate"):
            return self._closing(name, frame, machine, move)
        step = Step(name, number, "plain", frame, frame, len(self.entries), self._bound(name, number))
        try:
            found = machine.tried(frame)
        except Failure as failure:
            step.failure, step.after = failure, machine.handled(frame, failure)
            return step
        if isinstance(found, Call):
            self._call(step, machine, found)
        elif isinstance(found, Fork):
            step.kind, step.after = "fork", found.parked
        else:
            step.after = found
        return step

    def _bound(self, name: str, number: int) -> int:
        if number != 1 or "/" not in name:
            return 0
        return self.threads[name.rpartition("/")[0]].frame.bound

    def _call(self, step: Step, machine: Machine, call: Call) -> None:
        assert step.before is not None and self.schema is not None
        step.call = call
        try:
            if call.table != self.schema.table:
                raise Failure(NO_TABLE, Why("table", ("Parameters", "TableName")), origin="call")
            try:
                key = key_asked(self.schema, call)
            except Malformed as fault:
                of = "Item" if call.action == "putItem" else "Key"
                raise Failure(VALIDATION, Why("key", ("Parameters", of, fault.field)), origin="call") from None
            decided = decide(call, self.items.get(key))
            step.kind = "call"
            step.access = Access(key, decided.writes, self.items.get(key), decided.after, decided.answer, decided.error)
            if decided.error is not None:
                raise Failure(decided.error, Why("condition", ("Parameters", "ConditionExpression")), origin="call")
            step.after = machine.after_result(step.before, decided.answer)
        except Failure as failure:
            step.failure, step.after = failure, machine.handled(step.before, failure)

    def _closing(self, name: str, frame: Frame, machine: Machine, move: str) -> Step:
        branches = self.branches(name)
        step = Step(name, frame.moves + 1, move, frame, frame, len(self.entries))
        try:
            if move == "terminate":
                failed = next(branch for branch in branches if self.threads[branch].frame.phase == "failed")
                raise machine.branch_failure(frame, self.threads[failed].frame)
            step.after = machine.after_result(frame, [self.threads[branch].frame.output for branch in branches])
        except Failure as failure:
            step.failure, step.after = failure, machine.handled(frame, failure)
        step.closed = {below: self.threads[below] for branch in branches for below in self._below(branch)}
        return step

    def branches(self, name: str) -> List[str]:
        """The branches of a parked thread."""
        frame = self.threads[name].frame
        return [f"{name}/{frame.moves}.{number}" for number in range(frame.branches)]

    def _below(self, name: str) -> List[str]:
        """A thread and all threads below it."""
        found = [name]
        if self.threads[name].frame.phase == "parked":
            for branch in self.branches(name):
                found += self._below(branch)
        return found

    def move(self, name: str) -> Optional[str]:
        """The move that a thread has: step, join, terminate, or nothing. Holds aren't looked at."""
        frame = self.threads[name].frame
        if frame.phase == "ready":
            return None if frame.moves == 0 and self._waits(name) else "step"
        if frame.phase == "parked":
            phases = {self.threads[branch].frame.phase for branch in self.branches(name)}
            return "terminate" if "failed" in phases else "join" if phases <= {"done"} else None
        return None

    def _waits(self, name: str) -> bool:
        """Whether a branch waits for earlier ones, under its Map's bound."""
        above, _, branch = name.rpartition("/")
        bound = self.threads[above].frame.bound if above else 0
        number = int(branch.rpartition(".")[2]) if above else 0
        others = self.branches(above)[: max(number - bound + 1, 0)] if bound else []
        return any(self.threads[other].frame.phase != "done" for other in others)

    def _add(self, step: Step) -> None:
        entry = len(self.entries)
        self.entries.append(Entry("", step.name, step.kind, branches=sorted(step.closed, key=path_of)))
        self.steps.append(step)
        for name in step.closed:
            del self.threads[name]
            self._note(entry, name)
        self.threads[step.thread] = Thread(step.after, entry)
        if step.kind == "fork":
            found = self.machines[step.after.machine].turn(step.before)  # type: ignore[arg-type]
            assert isinstance(found, Fork)
            for name, frame in zip(self.branches(step.thread), found.branches):
                self.threads[name] = Thread(frame, entry)
                self._note(entry, name)
        if step.access and step.access.writes:
            self._put(step.access.key, step.access.after)
        self._note_around(entry, step.thread)

    def _put(self, key: str, item: Optional[Item]) -> None:
        if item is None:
            self.items.pop(key, None)
        else:
            self.items[key] = item

    def _note(self, entry: int, name: str) -> None:
        self._changes.append((entry, name))

    def _note_around(self, entry: int, name: str) -> None:
        """Notes a thread, and those whose moves may come or go with its end: the one above it, and its siblings under a bound."""
        self._note(entry, name)
        above, _, branch = name.rpartition("/")
        if above and above in self.threads:
            self._note(entry, above)
            bound = self.threads[above].frame.bound
            if bound:
                for other in self.branches(above)[int(branch.rpartition(".")[2]) + bound :]:
                    self._note(entry, other)

    def changed_since(self, entry: int) -> List[str]:
        """The threads whose rows an entry after this one has changed, there or gone, in the order of `drive`."""
        at = bisect.bisect_left(self._changes, (entry + 1, ""))
        return sorted({name for _, name in self._changes[at:]}, key=path_of)

    def was_there(self, name: str) -> bool:
        """Whether an accepted line has changed this thread."""
        return any(name == other for _, other in self._changes)

    def last_change(self, execution: str) -> int:
        """The last entry that changed a thread of an execution."""
        return max(entry for entry, name in self._changes if name.split("/")[0] == execution)

    def _drive(self, count: str) -> List[str]:
        taken: List[str] = []
        passed: Set[str] = set()
        while len(taken) < int(count):
            name = next((n for n in sorted(self.threads, key=path_of) if n not in passed and self.move(n)), None)
            if name is None:
                break
            reply = self.ask(f"step {name}")
            if reply[0].startswith("no 13"):
                passed.add(name)
            elif reply[0].startswith("no"):
                if not taken:
                    return reply
                break
            else:
                taken.append(reply[0].split(" ")[1])
        return [f"ok {len(taken)}", *taken]

    # ---- taking back

    def remaining(self, name: str) -> Step:
        """The step of this name."""
        for step in reversed(self.steps):
            if step.name == name:
                return step
        raise No("12" if name in self.settled else "7")

    def planned(self, step: Step) -> List[Step]:
        """A step and all steps that depend on it, the latest first."""
        at = self.steps.index(step)
        found = [step]
        for later in self.steps[at + 1 :]:
            if any(reason(later, earlier) for earlier in found):
                found.append(later)
        return found[::-1]

    def _undo(self, name: str) -> List[str]:
        step = self.remaining(name)
        for later in self.steps[self.steps.index(step) + 1 :]:
            if reason(later, step):
                raise No(f"8 {later.name}")
        entry = len(self.entries)
        self.entries.append(Entry("", undone=[name]))
        self._take_back(step, entry)
        return ["ok"]

    def _rollback(self, name: str) -> List[str]:
        planned = self.planned(self.remaining(name))
        entry = len(self.entries)
        names = [step.name for step in planned]
        self.entries.append(Entry("", undone=names))
        for step in planned:
            self._take_back(step, entry)
        return [f"ok {len(names)}", *names]

    def _take_back(self, step: Step, entry: int) -> None:
        self.steps.remove(step)
        if step.kind == "fork":
            for name in self.branches(step.thread):
                del self.threads[name]
                self._note(entry, name)
        if step.before is None:
            del self.threads[step.thread]
            del self.executions[step.thread]
        else:
            self.threads[step.thread] = Thread(step.before, entry)
        for name, thread in step.closed.items():
            self.threads[name] = replace(thread, entry=entry)
            self._note(entry, name)
        if step.access and step.access.writes:
            self._put(step.access.key, step.access.before)
        self._note_around(entry, step.thread)
        if step in self.left:
            self.left.remove(step)
        if step is self.hold:
            self.hold, self.left = None, []

    def _plan(self, name: str) -> List[str]:
        planned = self.planned(self.remaining(name))
        return [f"ok {len(planned)}", *(step.name for step in planned)]

    def _hold(self, name: str) -> List[str]:
        step = self.remaining(name)
        if self.hold is not None:
            raise No(f"13 {self.hold.name}")
        self._has_room(1)
        self.hold, self.left = step, self.planned(step)
        self.entries.append(Entry("", held=len(self.left)))
        return [f"ok {len(self.left)}"]

    def holder(self, step: Step) -> Optional[Step]:
        """The earliest step left of the hold on which a next step would depend directly."""
        return next((earlier for earlier in self.steps if earlier in self.left and reason(step, earlier)), None)

    def refuse_held(self, step: Step) -> None:
        holder = self.holder(step) if self.left else None
        if holder is not None:
            raise No(f"13 {holder.name}")

    def _held(self) -> List[str]:
        return [f"ok {len(self.left)}", *(step.name for step in self.left)]

    def _settle(self) -> List[str]:
        if self.hold is not None:
            raise No(f"13 {self.hold.name}")
        self._has_room(1)
        self.settled.update(step.name for step in self.steps)
        self.steps.clear()
        self.entries.append(Entry(""))
        return ["ok"]

    # ---- looking

    def _show(self, name: str) -> List[str]:
        thread = self.threads.get(name)
        if thread is None:
            raise No("5")
        frame = thread.frame
        if frame.phase == "done":
            return [f"ok done {written(frame.output)}"]
        if frame.phase == "failed":
            return [f"ok failed {written(frame.error)} {written(frame.cause)}"]
        branches = f" {frame.branches}" if frame.phase == "parked" else ""
        return [f"ok {frame.phase} {written(frame.state)} {frame.moves}{branches}"]

    def _items(self) -> List[str]:
        listed = [written(item) for item in self.items_in_order()]
        return [f"ok {len(listed)}", *listed]

    def items_in_order(self) -> List[Item]:
        """The items by their keys."""
        return sorted(self.items.values(), key=self.schema.order) if self.schema else []

    def _history(self) -> List[str]:
        return [f"ok {len(self.steps)}", *(step.name for step in self.steps)]


def is_faulty(text: str) -> bool:
    """Whether a definition is refused: by the client's linter, which is tested to agree with the program."""
    sys.path.insert(0, str(Path(__file__).resolve().parents[2] / "clients/python"))
    from rollback_client.lint import lint_definition

    return not text.lstrip().startswith("{") or any(found.severity == "error" for found in lint_definition(text))

"""Which thread is next. Executions take turns in the order in which they became ready, a step each; clocks hold threads up."""
from __future__ import annotations

import heapq
import itertools
from collections import deque
from dataclasses import dataclass, field
from typing import Any, Callable, Deque, Dict, Iterable, List, Mapping, Optional, Set, Tuple

from ..values import Step
from .clock_file import Arrival
from .clocks import Due, due_of, state_at

Row = Mapping[str, Any]
IsPaused = Callable[[str, str], bool]


@dataclass(eq=False)
class Known:
    """A thread that has a move, as it was looked at."""

    row: Row
    arrived: float
    due: Optional[Due]
    held_by: Optional[str] = None
    thread: str = field(init=False)
    execution: str = field(init=False)

    def __post_init__(self) -> None:
        self.thread = self.row["thread"]
        self.execution = self.thread.split("/", 1)[0]


class Schedule:
    """The threads that have a move, and when each of them is stepped.

    `complain` hears a line of each field that gives no moment. All moments are seconds since 1970, and `now` is said by who calls.
    """

    def __init__(self, complain: Callable[[str], None], takes: Callable[[str], bool] = lambda machine: True):
        self._complain, self._takes = complain, takes
        self._known: Dict[str, Known] = {}
        self._turns: Deque[str] = deque()  # executions
        self._ready: Dict[str, Deque[Known]] = {}  # of each, its threads that are due
        self._later: List[Tuple[float, int, Known]] = []
        self._numbers = itertools.count()
        self._paused: List[Known] = []
        self._aside: Set[Known] = set()
        self._arrivals: Dict[str, Arrival] = {}
        self.definitions: Dict[str, Any] = {}  # of machines
        self.changes: Dict[
            str, Optional[Arrival]
        ] = {}  # arrivals to be kept, and threads whose arrivals aren't any more

    def begin(self, arrivals: Mapping[str, Arrival]) -> None:
        """Knows nothing but arrivals that were kept, of which those count that fit."""
        self._known.clear()
        self._turns.clear()
        self._ready.clear()
        self._later.clear()
        self._paused.clear()
        self._aside.clear()
        self.changes.clear()
        self._arrivals = dict(arrivals)

    def arrivals(self) -> Dict[str, Arrival]:
        """When the threads that have clocks came to their places."""
        return {
            thread: (int(known.row["entry"]), known.arrived)
            for thread, known in self._known.items()
            if known.due is not None
        }

    def end_of_beginning(self) -> None:
        """Forgets the kept arrivals that fit nothing."""
        for thread in self._arrivals:
            known = self._known.get(thread)
            if known is None or known.due is None:
                self.changes.setdefault(thread, None)
        self._arrivals = {}

    def unknown_machines(self, rows: Iterable[Row]) -> Set[str]:
        """The machines of rows whose definitions aren't known."""
        return {row["machine"] for row in rows if row["machine"] not in self.definitions and row["move"] == "step"}

    # ---- what is told

    def learn(self, rows: Iterable[Row], gone: Iterable[str], now: float) -> None:
        """Takes over how threads are. One that is as it was keeps its turn and its clock."""
        for thread in gone:
            self._forget(thread)
        for row in sorted(rows, key=lambda row: int(row["entry"])):
            self._learn_one(row, now)

    def _learn_one(self, row: Row, now: float) -> None:
        thread = row["thread"]
        old = self._known.get(thread)
        if old is not None and (old.row["entry"], old.row["move"]) == (row["entry"], row["move"]):
            return
        if row["move"] is None or not self._takes(row["machine"]):
            self._forget(thread)
            return
        self._forget(thread)
        arrived = self._arrival(thread, row["entry"], now)
        due = due_of(row, state_at(self.definitions.get(row["machine"]), row["at"]), arrived)
        known = self._known[thread] = Known(row, arrived, due)
        if due is not None and due.fault:
            self._complain(f"{thread} in {row['state']}: {due.fault}, so it is due now")
        if due is not None and due.moment > now:
            self.changes[thread] = (row["entry"], arrived)
            heapq.heappush(self._later, (due.moment, next(self._numbers), known))
        else:
            self._queue(known)

    def _arrival(self, thread: str, entry: int, now: float) -> float:
        kept = self._arrivals.get(thread)
        return kept[1] if kept is not None and kept[0] == entry and kept[1] <= now else now

    def _forget(self, thread: str) -> None:
        known = self._known.pop(thread, None)
        if known is not None:
            self._aside.discard(known)
            if known.due is not None:
                self.changes[thread] = None

    def _queue(self, known: Known) -> None:
        waiting = self._ready.setdefault(known.execution, deque())
        if not waiting:
            self._turns.append(known.execution)
        waiting.append(known)

    # ---- turns

    def has_due(self, now: float) -> bool:
        """Whether there is a turn to be taken."""
        self._wake(now)
        return bool(self._turns)

    def _wake(self, now: float) -> None:
        while self._later and self._later[0][0] <= now:
            _, _, known = heapq.heappop(self._later)
            if self._is_current(known):
                self._queue(known)

    def _is_current(self, known: Known) -> bool:
        return self._known.get(known.thread) is known

    def take(self, most: int, now: float, is_paused: IsPaused) -> List[Known]:
        """The next turns, at most so many, which no longer wait for theirs. None of them moves another one away.

        What is paused is set aside, until `resume`.
        """
        self._wake(now)
        found: List[Known] = []
        executions: Set[str] = set()
        closing: Set[str] = set()
        while self._turns and len(found) < most:
            execution = self._turns[0]
            known = self._first(execution)
            if known is None:
                self._turns.popleft()
                continue
            if is_paused(execution, known.row["machine"]):
                self._paused.append(known)
                self._ready[execution].popleft()
                continue
            # the end of a fork takes its branches away
            is_end = known.row["move"] != "step"
            if execution in closing or is_end and execution in executions:
                break
            self._turns.popleft()
            self._ready[execution].popleft()
            found.append(known)
            executions.add(execution)
            if is_end:
                closing.add(execution)
            if self._first(execution) is not None:
                self._turns.append(execution)
        return found

    def _first(self, execution: str) -> Optional[Known]:
        waiting = self._ready.get(execution, deque())
        while waiting and not self._is_current(waiting[0]):
            waiting.popleft()
        if not waiting:
            self._ready.pop(execution, None)
            return None
        return waiting[0]

    def put_back(self, known: Known) -> None:
        """Gives a thread that wasn't stepped the next turn."""
        if not self._is_current(known):
            return
        waiting = self._ready.setdefault(known.execution, deque())
        if waiting:
            self._turns.remove(known.execution)
        waiting.appendleft(known)
        self._turns.appendleft(known.execution)

    def resume(self, is_paused: IsPaused) -> None:
        """Gives turns to what is paused no more."""
        waiting, self._paused = self._paused, []
        for known in waiting:
            if not self._is_current(known):
                continue
            if is_paused(known.execution, known.row["machine"]):
                self._paused.append(known)
            else:
                self._queue(known)

    # ---- holds

    @property
    def has_aside(self) -> bool:
        """Whether threads were set aside for a hold."""
        return bool(self._aside)

    def set_aside(self, known: Known, held: str) -> None:
        """Gives a thread no turn while this step is held."""
        if self._is_current(known):
            known.held_by = held
            self._aside.add(known)

    def release(self, left: Set[Step]) -> None:
        """Gives turns to threads that wait for none of the steps that are left of a hold."""
        names = {str(step) for step in left}
        for known in sorted(self._aside, key=lambda known: int(known.row["entry"])):
            if known.held_by not in names:
                known.held_by = None
                self._aside.discard(known)
                self._queue(known)

    # ---- what it waits for

    def next_moment(self) -> Optional[float]:
        """When the next clock ends, if there is one."""
        while self._later and not self._is_current(self._later[0][2]):
            heapq.heappop(self._later)
        return self._later[0][0] if self._later else None

    def waits(self, now: float) -> List[Tuple[str, Optional[float], str]]:
        """For which threads it waits, until when, and why, the next one first."""
        clocks = [
            (known.thread, known.due.moment, known.due.why)
            for known in self._known.values()
            if known.due is not None and known.due.moment > now
        ]
        held = [(known.thread, None, f"{known.held_by} is held") for known in self._aside]
        return [*sorted(clocks, key=lambda wait: (wait[1], wait[0])), *sorted(held)]

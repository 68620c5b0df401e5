"""What a runner asks and gives, one after another. It is the same within a server and alone: who runs it does what it yields."""
from __future__ import annotations

import json
from collections import deque
from dataclasses import dataclass
from typing import Any, Callable, Deque, Dict, FrozenSet, Generator, List, Optional, Set, Union

from .. import commands, questions
from ..commands import Command
from ..faults import Full, Held, JournalRefused, NoFollower, NoTable, OutOfMemory, Refusal
from .clock_file import Arrival, ClockFile, is_paused
from .schedule import Known, Schedule

PAGE = 250  # rows of one answer
FIRST_PAUSE, LONGEST_PAUSE = 1.0, 60.0  # seconds before it tries again, if the journal takes no line
AGAIN = 0.2  # seconds before it asks a follower again that isn't there, and looks at a hold
SMOOTH = 0.02  # seconds over which a rate is kept
OF_WRITES = "aws-"  # with which the names of machines begin that a server defines for writes from outside


@dataclass(frozen=True)
class Options:
    """What a runner was told. `rate` is in steps a second; `settle_at` is a number of remaining steps."""

    rate: Optional[float] = None
    only: FrozenSet[str] = frozenset()
    exceptions: FrozenSet[str] = frozenset()
    settle_at: Optional[int] = None

    def takes(self, machine: str) -> bool:
        """Whether it steps executions of a machine. Those of a write from outside are stepped by who writes."""
        if machine.startswith(OF_WRITES):
            return False
        return (not self.only or machine in self.only) and machine not in self.exceptions


@dataclass(frozen=True)
class Look:
    """Asks what an entry after this one changed: an answer, nothing if nothing was accepted since, or a `Refusal`.

    With `is_turn` the lines of others wait until steps are given.
    """

    since: int
    is_turn: bool = False


@dataclass(frozen=True)
class Steps:
    """Gives steps of threads that were looked at. Each comes back as nothing, or as the refusal."""

    threads: List[Known]


@dataclass(frozen=True)
class Ask:
    """Gives one command, and asks for its value or its `Refusal`."""

    command: Command[Any]


@dataclass(frozen=True)
class Sleep:
    """Waits until a moment, or for news."""

    until: Optional[float]


Talk = Generator[Union[Look, Steps, Ask, Sleep], Any, None]


class Limit:
    """At most so many steps a second."""

    def __init__(self, rate: Optional[float]):
        count = 1 if rate is None else max(1, int(rate * SMOOTH))
        self._window = 0.0 if rate is None else count / rate
        self._taken: Deque[float] = deque(maxlen=count)
        self._is_bounded = rate is not None

    def room(self, now: float, most: int) -> int:
        """How many steps may be taken now."""
        if not self._is_bounded:
            return most
        fresh = sum(1 for moment in self._taken if now - self._window < moment <= now)
        return min(most, (self._taken.maxlen or 0) - fresh)

    def took(self, now: float) -> None:
        """Notes a step."""
        self._taken.append(now)

    def next_moment(self) -> float:
        """When there is room again, if there is none."""
        return self._taken[0] + self._window if self._taken else 0.0


class Running:
    """A runner of one book. `now` gives seconds since 1970, `say` hears what an operator should know, `batch` how many steps go at once."""

    def __init__(
        self,
        options: Options,
        clock_file: ClockFile,
        now: Callable[[], float],
        say: Callable[[str], None],
        batch: Callable[[], int] = lambda: 16,
    ):
        self.options, self.clock_file, self.now, self.say, self._batch = options, clock_file, now, say, batch
        self.paused: Set[Any] = clock_file.paused
        self.kept_arrivals: Dict[str, Arrival] = {}  # beside those of the file
        self.schedule = Schedule(self.say, options.takes)
        self._entries = 0  # accepted lines that it knows of
        self._own = 0  # lines of its own among those that it doesn't know of yet
        self._is_held = False
        self._held_at = 0.0  # when it looked at the hold
        self._must_look_at_hold = False
        self._limit = Limit(options.rate)
        self._not_before = 0.0
        self._pause = FIRST_PAUSE
        self._is_full = False
        self._has_said_full = False
        self._remaining = 0  # at most so many steps remain
        self._is_near_its_end = False  # the log has no room for a settlement

    def is_paused(self, execution: str, machine: str) -> bool:
        """Whether it may step an execution."""
        return is_paused(self.paused, execution, machine)

    def run(self) -> Talk:
        """Runs without an end."""
        yield from self._begin()
        while True:
            now = self.now()
            if self._must_look_at_hold and now >= self._held_at + AGAIN:
                yield from self._look_at_hold()
            can_give = not self._is_full and now >= self._not_before and self._limit.room(now, 1) > 0
            if can_give and self.schedule.has_due(now):
                yield from self._turn()
            elif (yield from self._look(Look(self._since))):
                if self._has_many and now >= self._not_before:
                    yield from self._settle()
                yield from self._rest()
            # else it looks again before it rests: the news of a follower may have come in the pause after the look

    def changed_pauses(self) -> None:
        """Takes over that something was paused or resumed."""
        self.schedule.resume(self.is_paused)

    # ---- looking

    @property
    def _since(self) -> int:
        return max(self._entries - 1, 0)

    def _begin(self) -> Talk:
        """Looks at all threads that have a move, with the clocks that were kept."""
        self.schedule.begin({**self.clock_file.arrivals(), **self.kept_arrivals})
        rows: List[Any] = []
        first: Optional[int] = None
        after = None
        while True:
            told = yield Ask(questions.threads(None, None, after, PAGE))
            if isinstance(told, Refusal):
                yield Sleep(self.now() + AGAIN)
                continue
            first = told["entries"] if first is None else first
            rows += told["threads"]
            if not told["more"]:
                break
            after = told["threads"][-1]["thread"]
        self._entries = first
        yield from self._learn(rows, [])
        yield from self._look(Look(self._since))
        self.schedule.end_of_beginning()
        self._keep()
        yield from self._look_at_hold()
        if self.options.settle_at is not None:
            yield from self._count()

    def _look(self, look: Look) -> Generator[Any, Any, bool]:
        """Learns what changed. It is false if there is no follower now."""
        told = yield look
        if told is None:
            return True
        rows, gone, entries = [], [], self._entries
        while not isinstance(told, Refusal):
            rows += told["threads"]
            gone += told["gone"]
            entries = max(entries, told["entries"])
            if not told["more"]:
                yield from self._learn(rows, gone)
                self._note_entries(entries)
                return True
            told = yield Ask(questions.threads(None, look.since, told["threads"][-1]["thread"], PAGE))
        if not isinstance(told, NoFollower):
            self.say(f"the follower doesn't say what changed: {told}")
        yield Steps([])
        yield Sleep(self.now() + AGAIN)
        return False

    def _note_entries(self, entries: int) -> None:
        others = entries - self._entries - self._own
        self._remaining += entries - self._entries
        self._entries, self._own = entries, 0
        if others > 0:
            self._is_full = False
            self._must_look_at_hold = self._must_look_at_hold or self._is_held or self.schedule.has_aside

    def _learn(self, rows: List[Any], gone: List[str]) -> Talk:
        for machine in sorted(self.schedule.unknown_machines(rows)):
            told = yield Ask(questions.question(f"machine {machine} definition"))
            # without one its Waits are due at once, and it is asked for again with the next row
            if not isinstance(told, Refusal):
                self.schedule.definitions[machine] = _definition(told["definition"])
        self.schedule.learn(rows, gone, self.now())
        self._keep()

    def _keep(self) -> None:
        changes, self.schedule.changes = self.schedule.changes, {}
        self.clock_file.keep(changes)

    def _look_at_hold(self) -> Talk:
        told = yield Ask(commands.held())
        self._must_look_at_hold = isinstance(told, Refusal) and not isinstance(told, NoTable)
        self._held_at = self.now()
        if not isinstance(told, Refusal):
            self._is_held = bool(told)
            self.schedule.release(set(told))

    # ---- stepping

    def _turn(self) -> Talk:
        """Looks, gives the next steps, and takes over what came of them."""
        is_known = yield from self._look(Look(self._since, True))
        if not is_known:
            return
        now = self.now()
        taken = self.schedule.take(self._limit.room(now, self._batch()), now, self.is_paused)
        outcomes = yield Steps(taken)
        for known, outcome in zip(reversed(taken), reversed(outcomes)):
            self._came(known, outcome)
        for outcome in outcomes:
            if outcome is None:
                self._limit.took(now)
        if self._is_full:
            yield from self._make_room()
        elif self._has_many:
            yield from self._settle()

    @property
    def _has_many(self) -> bool:
        """Whether perhaps as many steps remain as are to be settled."""
        return self.options.settle_at is not None and self._remaining + self._own >= self.options.settle_at

    def _came(self, known: Known, outcome: Optional[Refusal]) -> None:
        """What came of a step."""
        if outcome is None:
            self._own += 1
            self._has_said_full = False
            self._pause = FIRST_PAUSE
        elif isinstance(outcome, Held):
            self._is_held = True
            self.schedule.set_aside(known, str(outcome.step))
        elif isinstance(outcome, Full):
            self._is_full = True
            self.schedule.put_back(known)
        elif isinstance(outcome, (JournalRefused, OutOfMemory)):
            self._back_off(outcome)
            self.schedule.put_back(known)
        # else somebody was first, or took it back: what changed says where it is now

    def _back_off(self, refusal: Refusal) -> None:
        now = self.now()
        if now >= self._not_before:
            if self._pause == FIRST_PAUSE:
                self.say(f"no step is taken, and tried again by and by: {refusal}")
            self._not_before = now + self._pause
            self._pause = min(2 * self._pause, LONGEST_PAUSE)

    def _rest(self) -> Talk:
        """Waits for the next moment or for news."""
        now = self.now()
        moments = [self.schedule.next_moment(), self._held_at + AGAIN if self._must_look_at_hold else None]
        if self.schedule.has_due(now):
            if now < self._not_before:
                moments.append(self._not_before)
            elif not self._is_full and self._limit.room(now, 1) <= 0:
                moments.append(self._limit.next_moment())
            elif not self._is_full:
                return
        ahead = [moment for moment in moments if moment is not None]
        yield Sleep(min(ahead) if ahead else None)

    # ---- a full book

    def _make_room(self) -> Talk:
        if not self._has_said_full:
            self._has_said_full = True
            self.say("the book is full, and no step is taken until there is room")
        if self.options.settle_at is not None:
            yield from self._settle()

    def _count(self) -> Talk:
        told = yield Ask(commands.history())
        if not isinstance(told, Refusal):
            self._remaining = len(told)

    def _settle(self) -> Talk:
        """Settles, if so many steps remain, and nothing is held or paused."""
        if self._is_near_its_end or self._is_held or self.paused:
            return
        told = yield Ask(commands.history())
        if isinstance(told, Refusal):
            return
        self._remaining = len(told) - self._own
        if not told or self.paused or len(told) < (self.options.settle_at or 0) and not self._is_full:
            return
        outcome = yield Ask(commands.settle())
        if outcome is None:
            self._own += 1
            self._remaining, self._is_full = -self._own, False
            self.say(f"{len(told)} steps are settled")
        elif isinstance(outcome, Held):
            self._is_held = True
        elif isinstance(outcome, Full):
            self._is_near_its_end = True
            self.say("the log is near its end: it has no room for a settlement, and none is tried any more")
        elif isinstance(outcome, (JournalRefused, OutOfMemory)):
            self._back_off(outcome)


def _definition(text: str) -> Any:
    try:
        return json.loads(text)
    except (ValueError, RecursionError):
        return {}

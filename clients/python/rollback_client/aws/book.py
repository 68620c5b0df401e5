"""What is asked of the book: lines by a named caller, questions, and when each line was accepted."""
from __future__ import annotations

import asyncio
import json
import re
import time
from contextvars import ContextVar
from dataclasses import dataclass
from typing import Any, Awaitable, Callable, Dict, List, Optional, Protocol, Set, Tuple

from ..server.follower import accepted
from ..server.within import Elsewhere, Ended
from .store import Machine, Store
from .wire import Fault

PATIENCE = 20.0  # seconds for a follower that is begun again
AGAIN = 0.05
PAGE = 1000  # rows of one answer
ELSEWHERE = 40  # the refusal of a server of a cluster
# of the call at hand
HAS_CHANGED: ContextVar[bool] = ContextVar("has_changed", default=False)
IS_CONFIRMED: ContextVar[bool] = ContextVar("is_confirmed", default=False)


def begin_call() -> None:
    """Begins a call, of which nothing is done yet."""
    HAS_CHANGED.set(False)
    IS_CONFIRMED.set(False)


_KEY = re.compile(r"[^ :\[][^ :]*:[SN]")
Answer = Dict[str, Any]


class Lines(Protocol):
    """Gives lines to the program, each as it is, and questions to the follower. Lines that are given in a row keep their order."""

    async def give(self, name: str, line: bytes) -> bytes:
        """The reply to a line of a caller of this name, with its line feeds."""

    async def ask(self, question: bytes) -> bytes:
        """The answer to a question."""

    async def ask_follower(self, question: bytes) -> bytes:
        """The same, also if this server of a cluster doesn't lead."""

    async def confirm(self) -> None:
        """Raises `Elsewhere` if this server of a cluster doesn't lead."""


@dataclass(frozen=True)
class Table:
    """The book's table: its name, and its key, which is of one attribute or two, each with its type."""

    name: str
    key: Tuple[Tuple[str, str], ...]

    @staticmethod
    def of_line(line: str) -> Table:
        """That of a `table` line which the book has accepted."""
        words = line.split(" ", 4)
        name, first = words[1], words[2]
        keys = [first, *(words[3:4] if _KEY.fullmatch(words[3]) else [])]
        return Table(name, tuple((key.rpartition(":")[0], key.rpartition(":")[2]) for key in keys))

    def key_of(self, item: Answer) -> Answer:
        """An item's key."""
        return {name: item[name] for name, _ in self.key}


class Watch:
    """Hears of each accepted line, and keeps its moment."""

    def __init__(self, store: Store, entries: int, now: Callable[[], float] = time.time):
        self._store, self.entries, self._now = store, entries, now
        self.table: Optional[Table] = None
        self.known: Set[str] = set()  # executions whose start was heard of, so what the store has of it is theirs

    def follow(self, line: bytes, reply: bytes) -> int:
        """Takes a line with its reply, as the follower does, and says how many lines were accepted."""
        lines = accepted(line, reply)
        if not lines:
            return 0
        moment = self._now()
        for at in range(len(lines)):
            self._store.accepted(self.entries + at, moment)
        words = lines[0].decode().split(" ", 3)
        if words[0] == "start":
            self._store.started(words[1], self.entries, words[3])
            self.known.add(words[1])
        elif words[0] == "define":
            # what is known of this name is of another book
            self._store.keep_machine(words[1], Machine(moment))
        elif words[0] == "table":
            self.table = Table.of_line(lines[0].decode())
            self._store.keep_fact("created", moment)
        elif words[0] in ("undo", "rollback"):
            undone = words[1:] if words[0] == "undo" else reply.decode().split("\n")[1:-1]
            self.known.difference_update(name[:-2] for name in undone if name.endswith("#0"))
        self.entries += len(lines)
        return len(lines)


class Book:
    """The book that answers. `caller` is who gives lines, as the log has it."""

    def __init__(self, lines: Lines, store: Store, watch: Watch):
        self._lines, self.store, self.watch = lines, store, watch
        self._items: Tuple[int, List[Answer]] = (-1, [])
        self._listed: Tuple[int, List[Answer]] = (-1, [])

    # ---- lines

    async def give(self, caller: str, *lines: str) -> List[str]:
        """The replies to lines that are given in a row. Lines of others may come between."""
        data = [line.encode() for line in lines]
        replies = await asyncio.gather(*(self._lines.give(caller, line) for line in data))
        if any(accepted(line, reply) for line, reply in zip(data, replies)):
            HAS_CHANGED.set(True)
        IS_CONFIRMED.set(True)
        return [reply.decode().rstrip("\n") for reply in replies]

    async def items(self, caller: str) -> List[Answer]:
        """All items in the order of their keys."""
        entries = self.watch.entries
        if self._items[0] != entries:
            (reply,) = await self.give(caller, "items")
            if refusal_of(reply) not in (None, 21):
                raise own_fault(reply)
            # many are read beside other callers' lines
            rows = await asyncio.get_running_loop().run_in_executor(None, _rows_of, reply)
            if self.watch.entries == entries:
                self._items = (entries, rows)
            return rows
        return self._items[1]

    # ---- questions

    async def ask(self, question: str) -> Answer:
        """The answer to a question. One that has none has `error`."""
        answer = await self._answer(self._lines.ask, question)
        IS_CONFIRMED.set(True)
        return answer

    async def confirm(self) -> None:
        """Has whatever a call was answered from be the book's, if the call has neither given a line nor asked a question."""
        if not IS_CONFIRMED.get():
            await self._lines.confirm()
            IS_CONFIRMED.set(True)

    async def count(self) -> int:
        """How many lines the book has, before any is given."""
        return int((await self._answer(self._lines.ask_follower, "machines"))["entries"])

    async def _answer(self, ask: Callable[[bytes], Awaitable[bytes]], question: str) -> Answer:
        ends = time.monotonic() + PATIENCE
        while True:
            answer = json.loads(await ask(f"? {question}".encode()))
            # an answer with entries may have the error of an execution
            why = None if "entries" in answer else answer.get("error")
            if why == "out of memory":
                raise Fault("InternalServerError", "the book's follower is out of memory", 500)
            if why != "no follower":
                assert isinstance(answer, dict)
                return answer
            if time.monotonic() >= ends:
                raise Fault("ServiceUnavailable", "the book's follower is begun again: ask later", 503)
            await asyncio.sleep(AGAIN)

    async def machines(self) -> List[str]:
        """The names of the machines that the server doesn't define itself."""
        answer = await self.ask("machines")
        return sorted(name for name in answer.get("machines", ()) if not name.startswith("aws-"))

    async def definition(self, machine: str) -> Optional[str]:
        """A machine's definition as its line gave it, or nothing if there is none of this name."""
        answer = await self.ask(f"machine {machine} definition")
        return answer.get("definition")

    async def shown(self, execution: str) -> Optional[Answer]:
        """An execution with its threads and steps, or nothing if there is none of this name."""
        answer = await self.ask(f"show {execution}")
        return answer if "execution" in answer else None

    async def thread(self, execution: str) -> Optional[Answer]:
        """Where an execution's own thread is, or nothing if there is none of this name. Its `state` is null once it has ended."""
        rows = (await self.ask(f"threads {execution}")).get("threads")
        return rows[0] if rows else None

    async def executions(self) -> List[Answer]:
        """The rows of all executions of machines that the server doesn't define itself, the latest start first."""
        entries = self.watch.entries
        if self._listed[0] == entries:
            return self._listed[1]
        rows: List[Answer] = []
        after = ""
        while True:
            answer = await self.ask(f"list{after} most {PAGE}")
            rows += answer.get("executions", ())
            if not answer.get("more") or not answer["executions"]:
                break
            after = f" after {answer['executions'][-1]['execution']}"
        found = [row for row in rows if not row["machine"].startswith("aws-")]
        found.sort(key=lambda row: (-self.start_of(row["execution"]), row["execution"]))
        if self.watch.entries == entries:
            self._listed = (entries, found)
        return found

    def start_of(self, execution: str) -> int:
        """The line of an execution's start, or 0 if it isn't known."""
        return self.store.start_entry(execution) or 0


def _rows_of(reply: str) -> List[Answer]:
    return [json.loads(line) for line in reply.split("\n")[1:]] if reply.startswith("ok") else []


def refusal_of(reply: str) -> Optional[int]:
    """The code of a refusal, or nothing if it is none."""
    words = reply.split(" ")
    return int(words[1]) if words[0] == "no" and len(words) > 1 and words[1].isdigit() else None


def canonical(value: Any) -> str:
    """A value in one spelling, so that equal values have equal texts."""
    return json.dumps(value, sort_keys=True, separators=(",", ":"), ensure_ascii=False)


def elsewhere_fault(why: Elsewhere) -> Fault:
    """What is answered while another server of a cluster leads, or none, if this call has changed nothing.

    Tools give a call with a status from 500 on again, which helps if this server may soon lead. A call for another machine is told so.
    If this call has changed something it is an `Ended`, since nobody knows whether all of it is done.
    """
    if HAS_CHANGED.get():
        raise Ended
    text = f"{why}: nothing was changed"
    return Fault("NotLeader", text, 421) if why.is_led else Fault("ServiceUnavailable", text, 503)


def own_fault(reply: str) -> Fault:
    """What is answered of a refusal that isn't the caller's doing."""
    code = refusal_of(reply)
    if code == ELSEWHERE:
        raise Elsewhere(reply.encode())
    why = {11: "out of memory", 24: "the journal takes no line now: see to the server's disk"}
    return Fault("InternalServerError", why.get(code or 0, f"the book answers {reply[:200]!r}"), 500)

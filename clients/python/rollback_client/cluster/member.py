"""One life of a server after another: its journal is opened, it stands by, leads, and gives up."""
from __future__ import annotations

import asyncio
import contextlib
import sqlite3
import time
from dataclasses import dataclass
from typing import Callable, List, Optional, Protocol

from .faults import BrokenLog, Deposed, Differs, ProgramGone, Resigned, Unreachable
from .journal import Belongs, InUse, common_length, cut, rows_of
from .leading import Leadership
from .log import Log
from .replica import Replica
from .seeding import Seeding
from .standing import Standby
from .tasks import first_of
from .turns import ClusterTurns, Role

PAUSE = 0.2  # seconds between two tries
LEAST_WAIT = 5.0  # seconds for the program of an earlier life to end


class Programs(Protocol):
    """What starts and ends the program on the journal, in the main thread, and what runs at the leader alone."""

    async def start_program(self) -> None:
        """Starts it, and waits until it has opened the journal. Raises `ProgramGone`."""

    async def program_gone(self) -> None:
        """Waits until it has ended by itself, and raises `ProgramGone`."""

    async def end_program(self) -> None:
        """Ends it, after what it was given, and the copies of its journal."""

    async def begin_leading(self, log: Log) -> None:
        """Begins what runs at the leader alone. The book has all lines, and none is taken yet."""

    async def end_leading(self) -> None:
        """Ends that. It may be called although nothing was begun."""


@dataclass(frozen=True)
class Identity:
    """Who this server is: where callers reach it, the book, the program with its version, and the journal."""

    address: str
    book: str
    program: str
    version: str
    journal: str
    is_seed: bool = False
    wait: float = 0.0


class Member:
    """A server's part in the cluster. `tell` hears what the log file should have: a word, a sentence, and fields."""

    def __init__(
        self, who: Identity, log: Log, turns: ClusterTurns, programs: Programs, tell: Callable[..., None]
    ) -> None:
        self._who, self._log, self._turns, self._programs, self._tell = who, log, turns, programs, tell
        self.replica: Optional[Replica] = None

    async def live_on(self) -> None:
        """Lives until something is met that this server can't go on with: each of these is a `Stopped`."""
        while True:
            try:
                await self._live()
            except Unreachable as fault:
                self._refuse_with(fault.reason, str(fault))
            except Deposed:
                self._refuse_with("election", "another server leads, or may: the book is opened again from the log")
            except Resigned as fault:
                self._refuse_with(fault.reason, str(fault))
            except (OSError, sqlite3.Error) as fault:
                raise ProgramGone(f"the journal, or what is kept beside it, can't be written: {fault}") from fault
            await asyncio.sleep(PAUSE)

    @property
    def lines(self) -> int:
        """How many lines of the log this server's book has."""
        return self.replica.position if self.replica else 0

    def _refuse_with(self, reason: str, why: str) -> None:
        if self._turns.refusal != reason:
            self._turns.refusal = reason
            self._tell(reason, why)

    async def _live(self) -> None:
        rows = await self._opened()
        await self._programs.start_program()
        self._turns.begin_life()
        replica = self.replica = Replica(rows, self._turns.enter)
        begun, rows = len(rows), []
        try:
            await first_of(self._take_part(replica), self._keep_place(replica))
        except Resigned as fault:
            self._turns.refusal = fault.reason
            raise
        except Differs as fault:
            await self._end_life()
            # With that row it would lead once it is begun again: the journal would be a beginning of the log.
            count = cut(self._who.journal, fault.number)
            self._tell("differs", f"{count} rows are cut from the journal from line {fault.number} on", cut=count)
            raise
        finally:
            await self._end_life()
            if replica.position > begun:
                self._belongs(replica.position).write(self._who.journal)

    async def _keep_place(self, replica: Replica) -> None:
        """Keeps beside the journal how far it certainly is the log's, so that rows before are never cut."""
        kept = replica.position
        while True:
            await asyncio.sleep(self._log.ttl)
            if replica.position > kept:
                kept = replica.position
                await asyncio.to_thread(self._belongs(kept).write, self._who.journal)

    def _belongs(self, lines: int) -> Belongs:
        return Belongs(self._log.etcd.cluster_id or "", self._who.book, lines)

    async def _take_part(self, replica: Replica) -> None:
        log, turns, gone = self._log, self._turns, self._programs.program_gone
        standby = Standby(log, replica, turns, self._who.address, self._who.version, self._tell)
        await first_of(standby.stand_by(), standby.answer_questions(), gone())
        turns.refusal = "election"
        leadership = Leadership(log, replica, turns, self._tell)
        await first_of(leadership.renew(), self._take_over(standby, leadership, replica), gone())

    async def _take_over(self, standby: Standby, leadership: Leadership, replica: Replica) -> None:
        """Leads, once the book has what was put before the leader's key was there."""
        await standby.catch_up()
        if replica.position < await self._log.seeded():
            raise Resigned("election", "the log isn't filled yet: begin the server with --seed again")
        await self._programs.begin_leading(self._log)
        await leadership.lead()

    async def _end_life(self) -> None:
        turns = self._turns
        was_leader, turns.role = turns.role is Role.LEADER, Role.OUT
        turns.refusal = turns.refusal or "election"
        turns.drop_all()
        turns.go_on()
        await self._programs.end_leading()
        with contextlib.suppress(Exception):
            await self._log.resign()
        await self._programs.end_program()
        turns.journal_failed.clear()
        if was_leader:
            self._tell("led", "leads no more")

    # ---- the journal

    async def _opened(self) -> List[bytes]:
        """The journal's lines, all of which the log has: others are cut first. Or the log is filled with them."""
        who = self._who
        rows = await self._rows()
        await self._log.join(who.address, who.version)
        cluster_id = self._log.etcd.cluster_id or ""
        belongs = Belongs.read(who.journal)
        if belongs and (belongs.cluster_id, belongs.book) != (cluster_id, who.book):
            raise BrokenLog(
                f"{who.journal} belongs to the book {belongs.book} in the etcd {belongs.cluster_id}, and this is "
                f"{who.book} in {cluster_id}: nothing was cut. Move {who.journal} and {who.journal}.cluster away"
            )
        common, has_more = await common_length(rows, self._log)
        if common < len(rows):
            if belongs is None and who.is_seed and not has_more:
                await Seeding(self._log, who.address, who.version, self._tell).fill(who.program, rows, common)
                common = len(rows)
            else:
                self._cut(belongs, rows, common, has_more)
        self._belongs(common).write(who.journal)
        self._tell("opened", f"the journal has {common} lines of the log", lines=common)
        return rows[:common]

    async def _rows(self) -> List[bytes]:
        ends = time.monotonic() + max(self._who.wait, LEAST_WAIT)
        while True:
            try:
                return await asyncio.to_thread(rows_of, self._who.journal)
            except InUse as fault:
                if time.monotonic() > ends:
                    raise ProgramGone(str(fault)) from fault
            await asyncio.sleep(PAUSE)

    def _cut(self, belongs: Optional[Belongs], rows: List[bytes], common: int, has_more: bool) -> None:
        """Cuts rows that the log hasn't, if this journal was never anything but the log's beginning and such rows."""
        journal = self._who.journal
        if belongs is None and not has_more:
            why = f"{journal} has {len(rows)} lines, and the log {common} of them"
            raise BrokenLog(f"{why}: nothing was cut. Give --seed to fill the log, or move {journal} away")
        if belongs is None or common < belongs.lines:
            why = f"{journal} has another line {common} than the log" if has_more else f"the log lacks line {common}"
            raise BrokenLog(f"{why}, so it is of another book: nothing was cut. Move {journal} away")
        count = cut(journal, common)
        self._tell("cut", f"{count} rows that the log hasn't are cut, and kept in {journal}.cut", cut=count)

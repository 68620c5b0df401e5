"""A server that stands by: it enters the log's lines as they come, answers questions, and tries to lead if nobody does."""
from __future__ import annotations

import asyncio
from typing import Callable, Optional

from .faults import Unreachable
from .log import Batch, Leader, Log
from .replica import Replica
from .tasks import within
from .turns import ClusterTurns, Role

PAUSE = 0.2  # seconds between two tries


class Standby:
    """One server's standing by. `tell` hears what the log file should have."""

    def __init__(
        self, log: Log, replica: Replica, turns: ClusterTurns, address: str, version: str, tell: Callable[..., None]
    ):
        self._log, self._replica, self._turns = log, replica, turns
        self._address, self._version, self._tell = address, version, tell

    async def stand_by(self) -> None:
        """Ends once this server has the leader's key. It may lack lines that were put before."""
        while True:
            try:
                leader = await self._log.leader()
                if leader and leader.version != self._version:
                    await self._stand_aside(leader)
                    continue
                self._say_who(leader)  # also while there is much to catch up with
                await self.catch_up()
                self._turns.role = Role.STANDBY
                if leader is None:
                    if await self._log.campaign(self._address, self._version):
                        return
                    self._say_who(await self._log.leader())
                await self._follow()
            except Unreachable as fault:
                self._meet(fault.reason, str(fault))
                await asyncio.sleep(PAUSE)

    async def catch_up(self) -> None:
        """Enters what the log has and the book lacks."""
        async for batch in self._log.batches(self._replica.read_from):
            await self._replica.take(batch)
        self._replica.read_from = self._replica.position

    async def answer_questions(self) -> None:
        """Answers questions that were asked here, once this book has all that the log had when they were asked."""
        turns = self._turns
        while True:
            await turns.has_asked.wait()
            turns.has_asked.clear()
            asking, turns.asking = turns.asking, []
            try:
                newest = await self._log.newest(self._replica.position)
                is_there = await within(self._log.ttl, self._replica.has_passed(newest))
            except Unreachable as fault:
                self._meet(fault.reason, str(fault))
                is_there = False
            except BaseException:
                turns.asking = asking + turns.asking  # they are refused where all is
                raise
            for given in asking:
                if is_there and turns.role is Role.STANDBY:
                    turns.give_question(given)
                else:
                    turns.refuse_question(given)
            turns.go_on()

    async def _follow(self) -> None:
        """Enters batches as they come, until the leader changes or nothing came for a while."""
        changes = self._log.changes()
        try:
            async for change in changes:
                if not isinstance(change, Batch):
                    return
                await self._replica.take(change)
        finally:
            await changes.aclose()  # type: ignore[attr-defined]

    async def _stand_aside(self, leader: Leader) -> None:
        """Equal replies don't mean equal books: a server of another version than the leader's doesn't follow it."""
        if self._turns.role is not Role.ASIDE:
            self._tell("aside", f"the leader has {leader.version}, and this server {self._version}: it stands aside")
        self._turns.role = Role.ASIDE
        self._say_who(leader)
        await asyncio.sleep(self._log.ttl / 3)

    def _say_who(self, leader: Optional[Leader]) -> None:
        # The key of an earlier life of this server goes with its lease.
        is_other = leader is not None and leader.address != self._address
        refusal = f"leader {leader.address}" if leader and is_other else "election"
        self._meet(refusal, f"{leader.address} leads" if leader and is_other else "nobody leads")

    def _meet(self, refusal: str, why: str) -> None:
        if refusal != self._turns.refusal:
            self._turns.refusal = refusal
            self._tell(refusal.split(" ")[0], why)

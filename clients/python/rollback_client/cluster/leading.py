"""The server that leads: it takes lines, and hands out a reply only when the log has all lines before it."""
from __future__ import annotations

import asyncio
import time
from typing import Callable, List

from .entries import Entry
from .faults import Deposed, NoSpace, ProgramGone, Resigned, Unreachable
from .log import Log
from .replica import Replica
from .turns import ClusterTurns, Role

PAUSE = 0.2  # seconds between two tries
PATIENCE = 2  # times the TTL that callers wait for etcd


class Leadership:
    """One term of this server. `tell` hears what the log file should have."""

    def __init__(self, log: Log, replica: Replica, turns: ClusterTurns, tell: Callable[..., None]):
        self._log, self._replica, self._turns, self._tell = log, replica, turns, tell

    async def lead(self) -> None:
        """Takes lines from now on. Ends only by `Deposed`, `Resigned`, or another fault."""
        turns, gate = self._turns, self._turns.gate
        gate.position = self._replica.position
        turns.role, turns.refusal = Role.LEADER, ""
        turns.give_questions()
        self._tell("leads", f"leads from line {gate.position} on", term=self._log.term)
        try:
            await self._hand_out_on()
        except Deposed:
            turns.refusal = "election"
            raise

    async def _hand_out_on(self) -> None:
        turns, gate = self._turns, self._turns.gate
        while True:
            await gate.something()
            part, last = gate.next()
            if part:
                await self._put(part)
                gate.has_passed(part)
                turns.hand_out(gate.take(last))
            else:
                is_guarded = await self._is_guarded()
                turns.hand_out(gate.take(last), None if is_guarded else turns.refused())
            if turns.journal_failed.is_set() and gate.is_empty():
                raise ProgramGone("the journal takes no line (no 24): this server gives up leading")

    async def renew(self) -> None:
        """Keeps the lease. `Deposed` is raised here only if no line is at hand: else the lines see it, and what became of them."""
        while True:
            try:
                await self._log.renew()
                await self._log.guard()
                self._recover(Unreachable.reason)
            except Unreachable as fault:
                self._meet(fault)
            except Deposed:
                if self._turns.gate.is_empty():
                    raise
            await asyncio.sleep(self._log.ttl / 3)

    async def _put(self, part: List[Entry]) -> None:
        """Puts lines into the log, however long etcd doesn't answer.

        The same bytes are sent again until it is known what became of them. Callers are let go if it takes too long; so they are if this
        ends otherwise than by a known outcome.
        """
        began, is_known = time.monotonic(), True
        try:
            while True:
                try:
                    await self._log.append(self._replica.position, self._replica.chain, part)
                    break
                except NoSpace as fault:
                    self._meet(fault)
                    if is_known:
                        raise Resigned(fault.reason, str(fault)) from fault
                except Unreachable as fault:
                    is_known = False
                    self._meet(fault)
                if time.monotonic() - began > PATIENCE * self._log.ttl:
                    self._let_go()
                await asyncio.sleep(PAUSE)
        except (Deposed, Resigned):
            raise
        except BaseException:
            self._let_go()
            raise
        self._replica.add([line for _, line in part])
        self._recover(Unreachable.reason, NoSpace.reason)

    async def _is_guarded(self) -> bool:
        """Whether this server leads now, by one read for all that is at hand: questions and refusals alone, which change nothing."""
        try:
            await self._log.guard()
            return True
        except Unreachable as fault:
            self._meet(fault)
            return False

    def _let_go(self) -> None:
        """Lets the callers go whose lines may stand or not, and refuses the questions of the others."""
        turns = self._turns
        turns.leave_begun_open()
        refused, left_open = turns.gate.take_questions_of_others()
        turns.leave_open(left_open)
        turns.hand_out(refused, turns.refused())

    def _meet(self, fault: Unreachable) -> None:
        if self._turns.refusal != fault.reason:
            self._turns.refusal = fault.reason
            self._tell(fault.reason, str(fault))

    def _recover(self, *reasons: str) -> None:
        if self._turns.refusal in reasons:
            self._turns.refusal = ""
            self._tell("goes on", "etcd answers again")

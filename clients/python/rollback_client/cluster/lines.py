"""Lines that the console and Amazon's calls give within a server of a cluster."""
from __future__ import annotations

import time
from typing import TYPE_CHECKING, Callable

from ..server.callers import HEAD, Asked, Caller
from ..server.within import Elsewhere, Lines, look_at
from .turns import ClusterTurns

if TYPE_CHECKING:
    from ..server.running import Server


class ClusterLines(Lines):
    """Lines go as any caller's do. So do questions: what they answer is in the log, and isn't old."""

    def __init__(self, server: Server, turns: ClusterTurns):
        super().__init__(server, turns)
        self._cluster = turns

    async def ask(self, question: bytes) -> bytes:
        look_at(question)
        return (await self._came(question, self._cluster.take_question)).rstrip(b"\n")

    async def confirm(self) -> None:
        await self._came(b"?", self._cluster.confirm)

    async def _came(self, question: bytes, take: Callable[[Caller, Asked], None]) -> bytes:
        """The answer. That of a server that doesn't lead is an `Elsewhere`."""
        asked = Asked(question, question[:HEAD], len(question), time.monotonic())
        asked.is_logged = False
        with self._called("question") as caller:
            reply = caller.expect()
            caller.owed += 1
            take(caller, asked)
            answer = await reply
        if answer.startswith(b"no 40 "):
            raise Elsewhere(answer)
        return answer

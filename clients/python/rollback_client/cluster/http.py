"""The console and Amazon's calls of a server of a cluster: it listens all the time, and serves the book while it leads."""
from __future__ import annotations

import asyncio
import time
from typing import TYPE_CHECKING, Any, Dict, Optional

from aiohttp import web

from ..aws.serving import Amazon, credentials_of, elsewhere_response
from ..aws.wire import Fault
from ..server.follower import Follower
from ..server.runners import Runners
from ..server.within import Elsewhere, Ended
from ..web.serving import Web
from .faults import ProgramGone
from .status import Status, look
from .turns import ClusterTurns, Role
from .words import ClusterWords

if TYPE_CHECKING:
    from .serving import ClusterServer

PAUSE = 0.2  # seconds between two tries
FRESH = 2.0  # seconds for which one look at the cluster serves all pages


class Http:
    """What is served at `--http`. The texts and times of Amazon's calls stay on this machine; it hears of each line as it comes."""

    def __init__(self, server: ClusterServer, words: ClusterWords, turns: ClusterTurns):
        self._server, self._words, self._turns = server, words, turns
        self._credentials = credentials_of(words) if words.aws else None
        self._amazon: Optional[Amazon] = None
        self._begins_table: Optional[asyncio.Task[None]] = None
        self._looking: Optional[asyncio.Task[Status]] = None
        self._fresh_until = 0.0
        self._web = Web(server, words)
        self._web.elsewhere = self.elsewhere
        self._web.cluster_status = self.status
        if words.aws:
            self._web.amazon = self._call

    # ---- the server's beginning and end

    async def listen(self) -> None:
        """Listens. A place that can't be had is an `OSError`, and a file of tokens that others reach a `ValueError`."""
        await self._web.begin()

    def say_where(self) -> None:
        """Shows the links."""
        self._web.say_where()

    def stop(self) -> None:
        """Takes no further request."""
        self._web.stop()

    async def end(self) -> None:
        """Ends what is still at hand."""
        await self._web.end()
        if self._looking is not None:
            self._looking.cancel()

    # ---- lives

    async def begin_life(self) -> None:
        """Hears of each line of the book that is open now."""
        if not self._words.aws:
            return
        self._amazon = Amazon(self._server, self._words, self._credentials)
        try:
            await self._amazon.begin()
        except Fault as fault:
            raise ProgramGone(fault.message) from fault

    def end_life(self) -> None:
        """Keeps what it heard."""
        amazon, self._amazon = self._amazon, None
        if amazon is not None:
            amazon.end()

    async def begin_leading(self, follower: Follower, entries: int) -> None:
        """Serves the book, which has so many lines, from the moment on at which lines are taken."""
        if self._amazon is not None and self._amazon.wants_table():
            self._begins_table = asyncio.ensure_future(self._begin_table(self._amazon))
        await self._web.attach(follower, entries)

    def attach_runners(self, runners: Optional[Runners]) -> None:
        """Shows who runs the book, and what is paused."""
        self._web.attach_runners(runners)

    def end_leading(self) -> None:
        """Serves it no more."""
        if self._begins_table is not None:
            self._begins_table.cancel()
            self._begins_table = None
        self._web.detach()

    async def _begin_table(self, amazon: Amazon) -> None:
        """Begins the book by `--table` as soon as lines are taken. Another server may have done so."""
        try:
            while (reply := await amazon.begin_table()).startswith("no 40"):
                await asyncio.sleep(PAUSE)
        except Ended:
            return
        if reply not in ("ok", "no 22"):
            self._server.tell("table", f"the book can't be begun by --table: it answers {reply}")

    # ---- who leads

    def elsewhere(self) -> Optional[Elsewhere]:
        """Why the book isn't served here, if it isn't."""
        return None if self._turns.role is Role.LEADER else Elsewhere(self._turns.refused())

    async def _call(self, request: web.Request) -> web.StreamResponse:
        """Answers a tool of Amazon's."""
        found = self.elsewhere()
        if found is not None or self._amazon is None:
            return elsewhere_response(request, found or Elsewhere(self._turns.refused()))
        return await self._amazon.handle(request)

    async def status(self) -> Dict[str, Any]:
        """How the cluster is, for pages: one look serves all that ask within some seconds."""
        if self._looking is None or self._looking.done() and time.monotonic() > self._fresh_until:
            self._looking = asyncio.ensure_future(self._look())
        found = await asyncio.shield(self._looking)
        return {**found.as_json(), "here": self._server.name}

    async def _look(self) -> Status:
        try:
            found = await look(self._words)
        except OSError as fault:  # certificates that can't be read now
            found = Status(self._words.book, fault=str(fault))
        self._fresh_until = time.monotonic() + FRESH
        return found

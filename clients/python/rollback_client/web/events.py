"""Server-sent events: each says how far the book is, whether it is followed, and what is paused. A page then asks what moved."""
from __future__ import annotations

import asyncio
import json
import secrets
from typing import TYPE_CHECKING, Any, Dict, Set

from aiohttp import web

from .guards import Refused

if TYPE_CHECKING:
    from .serving import Web

MOST_STREAMS = 256
TOGETHER = 0.1  # seconds: what comes within them is said once
QUIET = 15.0  # seconds after which a stream that has nothing to say shows that it is there


class Events:
    """The streams that are open."""

    def __init__(self, console: Web):
        self._console = console
        self._open: Set[asyncio.Event] = set()
        self.begun = ""
        self.begin()

    def begin(self) -> None:
        """Says that it is another server, or another life of one: a page reads all anew."""
        self.begun = secrets.token_hex(8)

    def news(self) -> None:
        """Has each stream say what is so now."""
        for stream in self._open:
            stream.set()

    def state(self) -> Dict[str, Any]:
        """What is so now."""
        console = self._console
        return {
            "begun": self.begun,
            "entries": console.seen.entries,
            "follows": console.follows(),
            "paused": console.paused(),
            "runs": console.runs(),
        }

    async def stream(self, request: web.Request) -> web.StreamResponse:
        """Says it at first, and whenever it has changed, until the page or the server ends."""
        if len(self._open) >= MOST_STREAMS:
            raise Refused(429, f"there are {MOST_STREAMS} streams of events already: close a page")
        response = web.StreamResponse(headers={"Content-Type": "text/event-stream", "X-Accel-Buffering": "no"})
        news = asyncio.Event()
        self._open.add(news)
        try:
            await response.prepare(request)
            await self._say(response, news)
        except (ConnectionResetError, asyncio.CancelledError):
            pass  # the page has gone
        finally:
            self._open.discard(news)
        return response

    async def _say(self, response: web.StreamResponse, news: asyncio.Event) -> None:
        said = None
        while not self._console.is_ending and self._console.elsewhere() is None:
            news.clear()
            state = self.state()
            await response.write(b": \n\n" if state == said else f"data: {json.dumps(state)}\n\n".encode())
            said = state
            try:
                await asyncio.wait_for(news.wait(), QUIET)
                await asyncio.sleep(TOGETHER)
            except asyncio.TimeoutError:
                pass

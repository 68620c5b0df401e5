"""What a page asks: each is a GET, and changes nothing."""
from __future__ import annotations

import json
import os
from typing import TYPE_CHECKING, Any, Dict, List

from aiohttp import web

from .guards import Refused, single
from .requests import answer_reply, json_reply, line_of

if TYPE_CHECKING:
    from .serving import Web

MOST_ROWS = 1000
MOST_TIMES = 5000
MOST_SEARCHED = 20_000  # lines of the journal, back from the last one
PAGE = 1000


class Reads:
    """Handlers of questions."""

    def __init__(self, console: Web):
        self._console = console

    def add_to(self, router: web.UrlDispatcher) -> None:
        """Adds their routes."""
        router.add_get("/ask", self._ask, allow_head=False)
        router.add_get("/book", self._book, allow_head=False)
        router.add_get("/entries", self._entries, allow_head=False)
        router.add_get("/taken", self._taken, allow_head=False)
        router.add_get("/times", self._times, allow_head=False)
        router.add_get("/waits", self._waits, allow_head=False)

    async def _ask(self, request: web.Request) -> web.StreamResponse:
        question = single(request.query.getall("q", []))
        if question is None:
            raise Refused(400, "a question is asked as /ask?q=list")
        return answer_reply(await self._console.server.lines.ask(b"? " + line_of(question)))

    async def _book(self, request: web.Request) -> web.StreamResponse:
        console, words = self._console, self._console.words
        said = {
            **console.events.state(),
            "caller": str(request["caller"]).removeprefix("token "),
            "file": os.path.basename(words.journal) if words.journal is not None else None,
            "has_log": words.log is not None,
            "read_only": words.read_only,
            "cluster": console.cluster_status is not None,
            "runner_within": words.run,
        }
        return json_reply(said)

    async def _entries(self, request: web.Request) -> web.StreamResponse:
        """Lines of the journal before a number, the last ones, with who gave them and when."""
        count = _number(request, "count", 100)
        before = _number(request, "before", self._console.seen.entries)
        count = min(count, MOST_ROWS, before)
        told = await self._question(f"log {before - count} {count}")
        if "log" in told:
            self._console.seen.add_to(told["log"])
        return json_reply({**told, "from": before - count, "has_log": self._console.words.log is not None})

    async def _taken(self, request: web.Request) -> web.StreamResponse:
        """Which line took a step back, the last one that did."""
        step = single(request.query.getall("step", []))
        if step is None:
            raise Refused(400, "it is asked as /taken?step=order-2%233")
        end = self._console.seen.entries
        least = max(0, end - MOST_SEARCHED)
        while end > least:
            first = max(least, end - PAGE)
            told = await self._question(f"log {first} {end - first}")
            for row in reversed(told.get("log", [])):
                if step in row.get("undone", ()) or row["command"] == "undo" and row.get("step") == step:
                    self._console.seen.add_to([row])
                    return json_reply({"by": {name: row[name] for name in ("command", "entry", "who", "when")}})
            end = first
        return json_reply({"by": None})

    async def _times(self, request: web.Request) -> web.StreamResponse:
        return json_reply({"times": self._console.seen.times(MOST_TIMES)})

    async def _waits(self, request: web.Request) -> web.StreamResponse:
        runners = self._console.runners
        waits = await runners.waits() if runners is not None else None
        return json_reply({"waits": None if waits is None else [json.loads(line) for line in waits]})

    async def _question(self, text: str) -> Dict[str, Any]:
        told: Dict[str, Any] = json.loads(await self._console.server.lines.ask(f"? {text}".encode()))
        return told


def _number(request: web.Request, name: str, without: int) -> int:
    texts: List[str] = request.query.getall(name, [])
    if not texts:
        return without
    text = single(texts)
    if text is None or not (text.isascii() and text.isdecimal() and len(text) < 10):
        raise Refused(400, f"{name} is a whole number")
    return int(text)

"""What a page gives: each is a POST with a body of JSON."""
from __future__ import annotations

import asyncio
from typing import TYPE_CHECKING, Any, Dict, List

from aiohttp import web

from .. import lines
from ..faults import BadLine, RollbackError, refusal_of
from ..lint import lint_text
from ..shell.refusing import Names, explained
from ..server.within import Elsewhere
from .guards import Refused
from .requests import json_reply, line_of, read_body, text_of

if TYPE_CHECKING:
    from .serving import Web

MOST_FINDINGS = 200
_NOBODY = Names(lambda: (), lambda: ())


class Gives:
    """Handlers of lines."""

    def __init__(self, console: Web):
        self._console = console

    def add_to(self, router: web.UrlDispatcher) -> None:
        """Adds their routes."""
        router.add_post("/line", self._line)
        router.add_post("/rollback", self._rollback)
        router.add_post("/lint", self._lint)

    async def _line(self, request: web.Request) -> web.StreamResponse:
        """Gives a line as it is."""
        line = line_of(text_of(await read_body(request), "line"))
        self._look_at_rights()
        reply = await self._console.server.lines.give(request["caller"], line, lambda: request.transport is None)
        return _replied(line.decode(), reply)

    async def _rollback(self, request: web.Request) -> web.StreamResponse:
        """Takes back, or holds, what was shown, and no other: the plan is compared with no other line between."""
        body = await read_body(request)
        step, shown = text_of(body, "step"), _names(body)
        try:
            lines.step_name(step)
        except ValueError as fault:
            raise Refused(400, str(fault)) from None
        self._look_at_rights()
        line = f"hold {step}" if body.get("hold") is True else f"rollback {step}"
        async with self._console.server.lines.turn(request["caller"]) as turn:
            plan = await turn.give(f"plan {step}".encode())
            if not plan.startswith(b"ok"):
                return _replied(line, plan)
            now = plan.decode().split("\n")[1:-1]
            if sorted(now) != sorted(shown):
                sentence = f"the plan of {step} has changed, and nothing was done: look at it again"
                return json_reply({"changed": True, "plan": now, "reply": None, "sentence": sentence}, 409)
            reply = await turn.give(line.encode())
        return _replied(line, reply)

    async def _lint(self, request: web.Request) -> web.StreamResponse:
        """Looks at a definition, and gives nothing."""
        text = text_of(await read_body(request), "definition")
        found = await asyncio.get_running_loop().run_in_executor(None, lint_text, text)
        return json_reply({"count": len(found), "findings": [finding.as_json() for finding in found[:MOST_FINDINGS]]})

    def _look_at_rights(self) -> None:
        if self._console.words.read_only:
            raise Refused(403, "the console gives no line: the server was begun with --read-only")


def _names(body: Dict[str, Any]) -> List[str]:
    found = body.get("plan")
    if not isinstance(found, list) or not all(isinstance(name, str) for name in found):
        raise Refused(400, "the body has the steps that were shown, as a list 'plan'")
    return found


def _replied(line: str, reply: bytes) -> web.Response:
    """The reply, and of a refusal what it means. That of a cluster is an `Elsewhere`."""
    text = reply.decode(errors="replace")
    if not text.startswith("no "):
        return json_reply({"reply": text})
    if text.startswith("no 40 "):
        raise Elsewhere(reply)
    try:
        refusal = refusal_of(text.rstrip("\n"), line)
        sentence = str(explained(refusal, line, _NOBODY))
        if refusal.code == BadLine.code and len(line.encode()) <= lines.MOST_BYTES:
            sentence = f"there is no line {lines.short(line.split(' ', 1)[0], 40)} of this form: docs/REFERENCE.md has all of them"
    except (RollbackError, ValueError):
        sentence = "it is refused, and nothing was changed"
    return json_reply({"reply": text, "sentence": sentence}, 409)

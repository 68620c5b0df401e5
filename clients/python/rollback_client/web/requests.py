"""Bodies that are read, and replies that are written."""
from __future__ import annotations

import json
from typing import Any, Dict

from aiohttp import web

from .guards import Refused

MOST_BODY = 8 << 20  # bytes: a line's million, each written as an escape


async def read_body(request: web.Request) -> Dict[str, Any]:
    """The JSON object that a request gives. Another body is 400, and one that is too large 413."""
    if request.content_type != "application/json":
        raise Refused(400, "a body is JSON: its Content-Type is application/json")
    data = await request.read()
    try:
        found = json.loads(data.decode())
    except (ValueError, RecursionError):
        raise Refused(400, "the body isn't JSON") from None
    if not isinstance(found, dict):
        raise Refused(400, "the body is a JSON object")
    return found


def text_of(body: Dict[str, Any], name: str) -> str:
    """A text of a body. Without it the body can't be read."""
    found = body.get(name)
    if not isinstance(found, str):
        raise Refused(400, f"the body has a text {name!r}")
    return found


def line_of(text: str) -> bytes:
    """The bytes of a line. A text that isn't one line is 400."""
    try:
        line = text.encode()
    except UnicodeEncodeError:
        raise Refused(400, "a lone surrogate has no bytes") from None
    if not line or b"\n" in line or line.endswith(b"\r"):
        raise Refused(400, "a line isn't empty, and has no end within")
    return line


def json_reply(value: Any, status: int = 200) -> web.Response:
    """A response of JSON."""
    return web.Response(text=json.dumps(value, ensure_ascii=True), content_type="application/json", status=status)


def answer_reply(answer: bytes) -> web.Response:
    """An answer of the follower, as it is."""
    return web.Response(body=answer, content_type="application/json")

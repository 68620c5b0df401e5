"""What each request has to be: its host is this machine, its origin is the page itself, and it has a token.

A browser sends the cookie with whatever any page asks of this host. So a request counts only if it names this host, and comes from the
console's own page. Cookies know no port: `Sec-Fetch-Site` tells another server of this machine from this one.
"""
from __future__ import annotations

import re
from typing import Awaitable, Callable, List, Optional

from aiohttp import web

POLICY = "; ".join(
    (
        "default-src 'none'",
        "script-src 'self'",
        "style-src 'self'",
        "img-src 'self' data:",
        "connect-src 'self'",
        "frame-ancestors 'none'",
        "base-uri 'none'",
        "form-action 'none'",
        "require-trusted-types-for 'script'",
    )
)
HEADERS = {
    "Content-Security-Policy": POLICY,
    "X-Content-Type-Options": "nosniff",
    "Referrer-Policy": "no-referrer",
    "Cache-Control": "no-store",
}
_HOST = re.compile(r"(?:127\.0\.0\.1|\[::1\]|localhost)(?::[0-9]{1,5})?", re.IGNORECASE)
Handler = Callable[[web.Request], Awaitable[web.StreamResponse]]


class Refused(Exception):
    """A request that isn't done, with its status and a sentence."""

    def __init__(self, status: int, why: str):
        super().__init__(why)
        self.status, self.why = status, why


def look_at_host(request: web.Request) -> None:
    """Refuses a request to another host's name: a name that was made to mean this machine belongs to somebody else."""
    hosts: List[str] = request.headers.getall("Host", [])
    if len(hosts) != 1 or not _HOST.fullmatch(hosts[0]):
        raise Refused(403, "this server is 127.0.0.1, [::1] or localhost, and no other host")


def look_at_origin(request: web.Request) -> None:
    """Refuses what another page asks, and what is given without an origin."""
    origins: List[str] = request.headers.getall("Origin", [])
    if not origins and request.method in ("GET", "HEAD"):
        return
    if origins != [f"http://{request.headers['Host']}"]:
        raise Refused(403, "the console's own page asks, and no other: the Origin isn't this host")


def look_at_site(request: web.Request) -> None:
    """Refuses data to all but the console's own page."""
    if request.headers.getall("Sec-Fetch-Site", []) != ["same-origin"]:
        raise Refused(403, "the console's own page asks, and no other: Sec-Fetch-Site isn't same-origin")


def look_at_no_origin(request: web.Request) -> None:
    """Refuses what any page asks: programs send no Origin."""
    if "Origin" in request.headers:
        raise Refused(403, "a program asks here, and no page: it sends no Origin")


def header_setter() -> Callable[[web.Request, web.StreamResponse], Awaitable[None]]:
    """Sets the headers of each response."""

    async def set_headers(request: web.Request, response: web.StreamResponse) -> None:
        response.headers.update(HEADERS)
        response.headers.pop("Server", None)

    return set_headers


def single(values: List[str]) -> Optional[str]:
    """The value, if there is one and no other."""
    return values[0] if len(values) == 1 else None

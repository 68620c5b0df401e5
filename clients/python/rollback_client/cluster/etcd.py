"""The calls of etcd's JSON gateway that a replicated book needs, over aiohttp.

A call goes to the member that answered last, and to the others in turn if that one doesn't answer in time. So a call may be carried
out twice, and later than its caller gave up: whoever makes one through here has to allow that.
"""
from __future__ import annotations

import asyncio
import json
import os
import ssl
from typing import Any, AsyncIterator, Optional, Sequence, Tuple

import aiohttp

from .faults import BrokenLog, EtcdFault, NoLease, NoSpace, Unreachable
from .wire import end_of, text

OVERLOADED = 429  # a member that has too much to do, or was given too much


def client_tls(files: Tuple[str, str, str]) -> ssl.SSLContext:
    """What a caller with a certificate needs: the files of the certificate, of its key, and of the authority of the other side."""
    certificate, key, authority = files
    found = ssl.create_default_context(ssl.Purpose.SERVER_AUTH, cafile=authority)
    found.load_cert_chain(certificate, key)
    return found


class Etcd:
    """The members of one etcd, of which each call asks one. `timeout` is how many seconds a member has to answer."""

    def __init__(self, members: Sequence[str], timeout: float, tls: Optional[ssl.SSLContext] = None):
        self.members = list(members)
        self.cluster_id: Optional[str] = None  # known from the first answer on
        self._timeout = aiohttp.ClientTimeout(total=timeout)
        self._http = aiohttp.ClientSession(connector=aiohttp.TCPConnector(ssl=tls) if tls else None)

    async def close(self) -> None:
        """Ends all connections."""
        await self._http.close()

    async def call(self, path: str, body: dict[str, Any]) -> dict[str, Any]:
        """Asks members until one answers. Raises `Unreachable`, `NoSpace`, `NoLease`, `EtcdFault`, `BrokenLog`."""
        causes = []
        for member in list(self.members):
            try:
                status, answer = await self.ask(member, path, body)
            except (aiohttp.ClientError, asyncio.TimeoutError, ValueError) as fault:
                causes.append(f"{member}: {_why(fault)}")
                continue
            said = json.dumps(answer.get("error", ""))
            if "database space exceeded" in said:
                raise NoSpace("the quota of etcd's database is used up")
            if "lease not found" in said:
                raise NoLease
            if status >= 500 or status == OVERLOADED:
                causes.append(f"{member}: {said}")
                continue
            self.members.remove(member)
            self.members.insert(0, member)
            if status != 200:
                raise EtcdFault(f"etcd refuses {path}: {said}")
            self._look_at_id(member, answer)
            return answer
        raise Unreachable("etcd doesn't answer: " + "; ".join(causes))

    async def ask(self, member: str, path: str, body: dict[str, Any]) -> Tuple[int, dict[str, Any]]:
        """One call to one member: the status and the answer."""
        async with self._http.post(f"{member}/v3/{path}", json=body, timeout=self._timeout) as response:
            answer = json.loads(await response.read())
            if not isinstance(answer, dict):
                raise ValueError("an answer is an object")
            return response.status, answer

    async def watch(self, prefix: bytes, revision: int, most_idle: float) -> AsyncIterator[list[dict[str, Any]]]:
        """Each change of the keys that begin so, from a revision on.

        It ends if the member goes away, and if nothing came for so many seconds: a member that is cut off from the others says nothing.
        """
        asked = {"key": text(prefix), "range_end": text(end_of(prefix)), "start_revision": revision, "fragment": True}
        timeout = aiohttp.ClientTimeout(total=None, sock_connect=most_idle, sock_read=most_idle)
        url, rest = f"{self.members[0]}/v3/watch", b""
        try:
            async with self._http.post(url, json={"create_request": asked}, timeout=timeout) as response:
                # A line of the stream may have megabytes, which aiohttp's own readline refuses.
                async for piece in response.content.iter_any():
                    *lines, rest = (rest + piece).split(b"\n")
                    for line in lines:
                        result = json.loads(line).get("result", {})
                        if result.get("canceled"):
                            return
                        yield result.get("events", [])
        except (aiohttp.ClientError, asyncio.TimeoutError, ValueError):
            return

    def _look_at_id(self, member: str, answer: dict[str, Any]) -> None:
        header = answer.get("header") or answer.get("result", {}).get("header") or {}
        found = header.get("cluster_id")
        if found and self.cluster_id not in (None, found):
            raise BrokenLog(f"{member} is of another etcd: its cluster_id is {found}, and not {self.cluster_id}")
        self.cluster_id = found or self.cluster_id


def _why(fault: Exception) -> str:
    """Why a member doesn't answer, in few words."""
    if isinstance(fault, asyncio.TimeoutError):
        return "no answer in time"
    if isinstance(fault, aiohttp.ClientConnectorError) and not isinstance(fault, aiohttp.ClientSSLError):
        # that a name isn't found has a negative number, which isn't the system's
        return os.strerror(fault.errno) if fault.errno and fault.errno > 0 else fault.strerror or str(fault)
    return str(fault) or type(fault).__name__

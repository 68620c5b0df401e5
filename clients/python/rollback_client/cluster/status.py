"""Who leads a book, how far each of its servers is in the log, and whether etcd is well: asked, shown, and no more."""
from __future__ import annotations

import asyncio
import json
import ssl
from dataclasses import asdict, dataclass, field
from typing import Any, Dict, List, Optional

import aiohttp

from ..links import host_and_port
from .entries import MOST_LINES
from .etcd import Etcd, client_tls
from .faults import Stopped, Unreachable
from .log import Leader, Log
from .turns import PLACE
from .words import ClusterWords

PATIENCE = 3.0  # seconds that a server has to answer


@dataclass(frozen=True)
class Server:
    """A server of the book. `why` says why it doesn't answer, or what it refuses lines with."""

    address: str
    does: str
    lines: Optional[int]
    version: str
    why: str = ""


@dataclass(frozen=True)
class EtcdMember:
    """A member of etcd, by the URL that was asked. `size` is in bytes."""

    url: str
    answers: bool
    leads: bool = False
    size: int = 0
    version: str = ""


@dataclass
class Status:
    """What was found. `lines` is how many lines the log has; without a majority of etcd it isn't known, nor who leads."""

    book: str
    leader: Optional[Leader] = None
    lines: Optional[int] = None
    servers: List[Server] = field(default_factory=list)
    etcd: List[EtcdMember] = field(default_factory=list)
    alarms: List[str] = field(default_factory=list)
    fault: str = ""

    @property
    def is_well(self) -> bool:
        """Whether all was found, a server leads, all others stand by, and all members of etcd answer without an alarm."""
        does = sorted(server.does for server in self.servers)
        stand_by = does[:1] == ["leads"] and set(does[1:]) <= {"stands by"}
        etcd_is_well = all(member.answers for member in self.etcd) and not self.alarms
        return bool(self.leader and stand_by and etcd_is_well and not self.fault)

    def behind(self, server: Server) -> Optional[int]:
        """How many lines of the log a server lacks."""
        return None if self.lines is None or server.lines is None else max(0, self.lines - server.lines)

    def as_json(self) -> Dict[str, Any]:
        """All of it, for a page."""
        return {
            "book": self.book,
            "leader": self.leader.address if self.leader else None,
            "lines": self.lines,
            "is_well": self.is_well,
            "servers": [{**asdict(server), "behind": self.behind(server)} for server in self.servers],
            "etcd": [asdict(member) for member in self.etcd],
            "alarms": self.alarms,
            "fault": self.fault,
        }

    def text(self) -> str:
        """All of it, for people."""
        who = f"{self.leader.address} leads since revision {self.leader.term}" if self.leader else "nobody leads"
        of_log = "" if self.lines is None else f", and the log has {self.lines} lines"
        said = [f"book {self.book}: {self.fault or who + of_log}"]
        for server in self.servers:
            behind = self.behind(server)
            place = (
                ""
                if server.lines is None
                else f", {server.lines} lines" + ("" if behind is None else f", {behind} behind")
            )
            said.append(f"  {server.address}  {server.does}{place}{server.why and ': ' + server.why}")
        for member in self.etcd:
            about = f"answers, {member.size / 1e6:.1f} MB, etcd {member.version}" + (
                ", leads etcd" if member.leads else ""
            )
            said.append(f"  {member.url}  {about if member.answers else 'does not answer'}")
        said += [f"  alarm of etcd: {alarm}" for alarm in self.alarms]
        return "\n".join(said)


async def show_status(words: ClusterWords) -> int:
    """Shows the status. Gives 0 if all is well, and else 1."""
    found = await look(words)
    print(found.text())
    return 0 if found.is_well else 1


async def look(words: ClusterWords) -> Status:
    """Asks etcd, and each server that has taken part."""
    tls = client_tls(words.tls) if words.tls else None
    etcd = Etcd(words.cluster, PATIENCE, client_tls(words.etcd_tls) if words.etcd_tls else None)
    log, found = Log(etcd, f"/rollback/{words.book}", words.ttl), Status(words.book)
    try:
        found.etcd = list(await asyncio.gather(*(_etcd_member(etcd, url) for url in words.cluster)))
        found.leader = await log.leader()
        members = await log.members()
        found.servers = list(await asyncio.gather(*(_server(address, version, tls) for address, version in members)))
        furthest = max((server.lines or 0 for server in found.servers), default=0)
        found.lines = furthest
        # of the batches before the last one the keys say enough
        async for batch in log.batches(max(0, await log.newest(max(0, furthest - MOST_LINES)))):
            found.lines = max(found.lines, batch.end)
        alarms = await etcd.call("maintenance/alarm", {"action": "GET"})
        found.alarms = [
            f"{each.get('alarm')} at member {int(each.get('memberID', 0)):x}" for each in alarms.get("alarms", [])
        ]
    except (Unreachable, Stopped) as fault:
        found.fault = str(fault)
    finally:
        await etcd.close()
    return found


async def _etcd_member(etcd: Etcd, url: str) -> EtcdMember:
    try:
        _, answer = await etcd.ask(url, "maintenance/status", {})
    except (aiohttp.ClientError, asyncio.TimeoutError, ValueError):
        return EtcdMember(url, False)
    is_leader = answer.get("leader") == answer.get("header", {}).get("member_id")
    return EtcdMember(url, True, is_leader, int(answer.get("dbSize", 0)), str(answer.get("version", "")))


async def _server(address: str, version: str, tls: Optional[ssl.SSLContext]) -> Server:
    try:
        said = await asyncio.wait_for(_place(address, tls), PATIENCE)
    except (OSError, ValueError, asyncio.TimeoutError) as fault:
        return Server(address, "doesn't answer", None, version, str(fault) or type(fault).__name__)
    refusal = said["refusal"]
    return Server(
        address, said["does"], said["lines"], said["version"], "" if refusal.startswith("leader ") else refusal
    )


async def _place(address: str, tls: Optional[ssl.SSLContext]) -> Any:
    host, port = host_and_port(address) or ("", 0)
    reader, writer = await asyncio.open_connection(host, port, ssl=tls)
    try:
        writer.write(b"!place\n")
        said = await reader.readline()
        if not said.startswith(PLACE):
            raise ValueError(f"it says {said.decode(errors='replace').strip()[:80]!r}")
        return json.loads(said)
    finally:
        writer.close()

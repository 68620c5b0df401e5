"""An empty log that is filled from a journal: a book of one machine becomes one of three."""
from __future__ import annotations

import asyncio
import subprocess
import time
from typing import Callable, List

from ..lines import LISTS, Replies
from .entries import MOST_LINES, Entry, batch_length, chained, hash_of, word_of
from .faults import BrokenLog, Unreachable
from .log import Log
from .tasks import end

PAUSE = 0.2  # seconds between two tries
PATIENCE = 2.0  # seconds beyond the lease of a server that may be gone
_LISTS = frozenset(word.encode() for word in LISTS)


def replayed(program: str, rows: List[bytes]) -> List[Entry]:
    """What the log gets of a journal's lines, by a replay in memory. It takes as long as the program takes for the lines."""
    given = b"".join(line + b"\n" for line in rows)
    done = subprocess.run([program], input=given, stdout=subprocess.PIPE, stderr=subprocess.DEVNULL, check=False)
    replies = Replies()
    replies.feed(done.stdout)
    found: List[Entry] = []
    for number, line in enumerate(rows):
        reply = replies.next(word_of(line) in _LISTS)
        if reply is None or not reply.startswith(b"ok"):
            raise BrokenLog(f"line {number} of the journal is answered {reply!r} by {program}: the log isn't filled")
        found.append((hash_of(line, reply), line))
    return found


class Seeding:
    """The filling of a log that has the first `common` lines of the journal, as leader."""

    def __init__(self, log: Log, address: str, version: str, tell: Callable[..., None]):
        self._log, self._address, self._version, self._tell = log, address, version, tell

    async def fill(self, program: str, rows: List[bytes], common: int) -> None:
        """Puts the lines that the log lacks. Nobody leads before the log has all. Raises `BrokenLog` if another server leads."""
        entries = await asyncio.to_thread(replayed, program, rows)
        await self._come_to_lead()
        renewing = asyncio.ensure_future(self._renew())
        try:
            if await self._log.newest(common) >= common:
                raise BrokenLog("the log has got other lines meanwhile, and isn't filled")
            await self._log.keep("seed", str(len(rows)).encode())
            chain = chained("", rows[:common])
            while common < len(rows):
                part = entries[common : common + batch_length(entries[common : common + MOST_LINES])]
                await self._append(common, chain, part)
                common += len(part)
                chain = chained(chain, (line for _, line in part))
        finally:
            await end(renewing)
            await self._log.resign()
        self._tell("seeded", f"the log is filled with the {len(rows)} lines of the journal")

    async def _come_to_lead(self) -> None:
        """Leads. The key of a server that is gone is waited for: it ends with its lease."""
        ends = time.monotonic() + self._log.ttl + PATIENCE
        while not await self._log.campaign(self._address, self._version):
            if time.monotonic() > ends:
                raise BrokenLog(
                    "another server leads, so the log isn't filled: end it, and begin this one with --seed first"
                )
            await asyncio.sleep(PAUSE)

    async def _append(self, number: int, chain: str, part: List[Entry]) -> None:
        while True:
            try:
                await self._log.append(number, chain, part)
                return
            except Unreachable as fault:
                self._tell(fault.reason, str(fault))
                await asyncio.sleep(PAUSE)

    async def _renew(self) -> None:
        while True:
            try:
                await self._log.renew()
            except Unreachable:
                pass  # the next batch sees what has become of the term
            await asyncio.sleep(self._log.ttl / 3)

"""Replies that wait until the log has all lines before them, in the order in which the program gave them."""
from __future__ import annotations

import asyncio
from collections import deque
from dataclasses import dataclass
from itertools import islice
from typing import Deque, Dict, List, Tuple

from ..server.callers import Caller, Given
from .entries import Entry, batch_length, entries_of, size_of

MOST_HELD = 4096  # replies, or lines, that wait: beyond these no further line is given to the program
MOST_HELD_BYTES = 16 << 20


@dataclass(frozen=True)
class Held:
    """A reply, the `serial`-th. The lines of its own begin at `first`, and the log needs all before `mark`."""

    given: Given
    reply: bytes
    first: int
    mark: int
    serial: int

    @property
    def has_lines(self) -> bool:
        """Whether the log gets something of it."""
        return self.mark > self.first


class Gate:
    """The lines that the book has and the log hasn't, and the replies that wait for them.

    `position` is how many lines the log has. A reply to a question or a refusal has no line of its own, and waits for those before.
    """

    def __init__(self) -> None:
        self.position = 0
        self.more = asyncio.Event()
        self._entries: Deque[Entry] = deque()
        self._held: Deque[Held] = deque()
        self._begun: Dict[Given, int] = {}  # lines of which steps are noted, and whose reply isn't kept yet
        self._counts: Dict[Caller, int] = {}
        self._size = 0
        self._serial = 0

    # ---- what comes in

    def note(self, given: Given, line: bytes, reply: bytes) -> None:
        """Notes what the log gets of a line that the program answered. Of a long `drive` it is called for each piece."""
        found = entries_of(line, reply)
        if found:
            self._begun.setdefault(given, self.end)
            self._entries.extend(found)
            self._size += sum(map(size_of, found))
            self.more.set()

    def keep(self, given: Given, reply: bytes) -> None:
        """Keeps the whole reply to a line."""
        self._serial += 1
        self._held.append(Held(given, reply, self._begun.pop(given, self.end), self.end, self._serial))
        self._counts[given.caller] = self._counts.get(given.caller, 0) + 1
        self._size += len(reply)
        self.more.set()

    # ---- what goes out

    @property
    def end(self) -> int:
        """How many lines the book has."""
        return self.position + len(self._entries)

    @property
    def has_room(self) -> bool:
        """Whether further lines may be given to the program."""
        return len(self._held) < MOST_HELD and len(self._entries) < MOST_HELD and self._size < MOST_HELD_BYTES

    def holds(self, caller: Caller) -> bool:
        """Whether a reply to this caller waits here."""
        return caller in self._counts

    def is_empty(self) -> bool:
        """Whether nothing waits."""
        return not self._entries and not self._held

    def has_no_lines(self) -> bool:
        """Whether the log has all lines of the book."""
        return not self._entries

    async def something(self) -> None:
        """Waits until something waits here."""
        while self.is_empty():
            self.more.clear()
            await self.more.wait()

    def next(self) -> Tuple[List[Entry], int]:
        """The next batch of lines, which may be none, and the serial of the last reply here that can leave once the log has it."""
        part = list(islice(self._entries, batch_length(self._entries)))
        last = 0
        for held in self._held:
            if held.mark > self.position + len(part):
                break
            last = held.serial
        return part, last

    def has_passed(self, part: List[Entry]) -> None:
        """The log has these lines."""
        for entry in part:
            self._entries.popleft()
            self._size -= size_of(entry)
        self.position += len(part)

    def take(self, last: int) -> List[Held]:
        """The replies up to a serial, which wait no more. Of some of them the callers may have been let go meanwhile."""
        found = []
        while self._held and self._held[0].serial <= last:
            found.append(self._taken())
        return found

    def partly_in_log(self, given: Given) -> bool:
        """Whether the log has some steps of a line whose reply isn't kept yet."""
        return self._begun.get(given, self.position) < self.position

    def take_questions_of_others(self) -> Tuple[List[Held], List[Held]]:
        """All replies, of two kinds: those to callers none of whose lines may come into the log, and the others."""
        open_callers = {held.given.caller for held in self._held if held.has_lines}
        open_callers.update(given.caller for given in self._begun)
        taken = self.take(self._serial)
        return (
            [held for held in taken if held.given.caller not in open_callers],
            [held for held in taken if held.given.caller in open_callers],
        )

    def begun(self) -> List[Given]:
        """Lines of which steps are noted, and whose reply isn't kept yet."""
        return list(self._begun)

    def forget(self) -> List[Held]:
        """All replies that wait, and nothing of the lines any more."""
        taken = self.take(self._serial)
        self._entries.clear()
        self._begun.clear()
        self._size = 0
        return taken

    def _taken(self) -> Held:
        held = self._held.popleft()
        self._size -= len(held.reply)
        caller = held.given.caller
        self._counts[caller] -= 1
        if not self._counts[caller]:
            del self._counts[caller]
        return held

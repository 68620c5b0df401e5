"""A server's own book: the program over its journal, and how far it is in the log."""
from __future__ import annotations

import asyncio
from typing import Awaitable, Callable, List

from .entries import MOST_LINES, chained, hash_of
from .faults import BrokenLog, Differs, ProgramGone
from .log import Batch

NOT_NOW = (b"no 11\n", b"no 24\n")  # refusals that aren't a difference: begun again, the program may take the line


class Replica:
    """The book, which has the first `position` lines of the log. `enter` gives a line to the program."""

    def __init__(self, rows: List[bytes], enter: Callable[[bytes], Awaitable[bytes]]):
        self.position, self.chain = len(rows), chained("", rows)
        self.read_from = max(0, len(rows) - MOST_LINES)  # a batch that the book has in part begins here or later
        self._enter = enter
        self._moved = asyncio.Event()

    async def take(self, batch: Batch) -> None:
        """Enters the lines of a batch that the book lacks. Only the first one after the journal was opened may have others.

        Raises `BrokenLog`, `Differs` and `ProgramGone`.
        """
        if batch.end <= self.position:
            return  # met twice, by a read and by a watch
        is_next = batch.number == self.position and batch.chain == self.chain
        is_begun = self.read_from <= batch.number < self.position
        if not is_next and not is_begun:
            raise BrokenLog(f"the log has a gap: a batch at line {batch.number} doesn't follow line {self.position}")
        entries = batch.entries[self.position - batch.number :]
        replies = [self._enter(line) for _, line in entries]
        for number, ((wanted, line), coming) in enumerate(zip(entries, replies), self.position):
            said = await coming
            if said in NOT_NOW:
                raise ProgramGone(f"line {number} of the log is answered {said.decode().strip()} here")
            if not said.startswith(b"ok") or hash_of(line, said) != wanted:
                shown = f"line {number} of the log, {line[:80]!r}, is answered {said[:80]!r} here, and otherwise at its leader"
                raise Differs(shown, number)
        self.add([line for _, line in entries])
        self.read_from = self.position

    def add(self, lines: List[bytes]) -> None:
        """The book has these lines, and the log too."""
        self.position += len(lines)
        self.chain = chained(self.chain, lines)
        self._moved.set()

    async def has_passed(self, number: int) -> None:
        """Waits until the book has the whole batch that begins at this line."""
        while self.position <= number:
            self._moved.clear()
            await self._moved.wait()

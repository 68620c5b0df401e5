"""A long `drive` or `work`, given in pieces between other callers' lines, and answered as one line."""
from __future__ import annotations

import re
from typing import List, Optional

from ..lines import MOST_STEPS, lines_after

MOST_OF_A_PIECE = 256
LEAST_OF_A_PIECE = 16
# A piece of a drive is made shorter, if the last one took longer than this: each of its steps may wait for a slow disk.
LONG, SHORT = 0.1, 0.025  # seconds
_LONG = re.compile(rb"(drive|work [1-8]) ([1-9][0-9]{0,4})")


class Pieces:
    """What is left of such a line, and the steps of the pieces that were answered."""

    def __init__(self, words: bytes, most: int):
        self._words, self._left = words, most
        self._is_work = words != b"drive"
        self._is_last = False
        self._size = MOST_OF_A_PIECE
        self._given = 0
        self._count = 0
        self._names: List[bytes] = []
        self._refusal: Optional[bytes] = None
        self.is_over = False

    def next_line(self) -> bytes:
        """The next piece as a line."""
        self._given = self._left if self._is_last else min(self._left, self._size)
        return b"%s %d\n" % (self._words, self._given)

    def take(self, reply: bytes, seconds: float = 0.0) -> None:
        """Takes the reply to the piece that was given last, so many seconds ago."""
        if seconds > LONG and not self._is_work:
            self._size = max(LEAST_OF_A_PIECE, self._size // 2)
        elif seconds < SHORT:
            self._size = min(MOST_OF_A_PIECE, 2 * self._size)
        first, _, names = reply.partition(b"\n")
        if not first.startswith(b"ok "):
            self._refusal = reply
            self.is_over = True
            return
        count = lines_after(first)
        self._count += count
        self._left -= count
        self._names.append(names)
        is_short = count < self._given
        # A drive that takes fewer has come to its end. Workers may be short though moves are left, so they try the rest at once.
        self.is_over = self._left <= 0 or is_short and (self._is_last or not self._is_work)
        self._is_last = is_short

    def reply(self) -> bytes:
        """The reply to the whole line: all steps, or the refusal if no step was taken."""
        if self._refusal is not None and not self._count:
            return self._refusal
        return b"ok %d\n%s" % (self._count, b"".join(self._names))


def pieces_of(line: bytes) -> Optional[Pieces]:
    """The pieces of a line that is longer than one, or nothing."""
    found = _LONG.fullmatch(line)
    if not found or not MOST_OF_A_PIECE < int(found[2]) <= MOST_STEPS:
        return None
    return Pieces(found[1], int(found[2]))

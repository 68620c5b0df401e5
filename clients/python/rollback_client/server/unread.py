"""How much of replies may wait for callers that don't read them, over all callers."""
from __future__ import annotations

from typing import Set

from .callers import Caller


class Unread:
    """Lets the caller go that leaves most unread, when all of them together leave more than so many bytes."""

    def __init__(self, most: int):
        self._most = most
        self._step = min(most // 16, 1 << 20)
        self._since = 0
        self._behind: Set[Caller] = set()

    def note(self, caller: Caller, count: int) -> None:
        """Notes that so many bytes were sent to a caller that hasn't read all."""
        self._behind.add(caller)
        self._since += count
        if self._since >= self._step:
            self._since = 0
            self._look()

    def forget(self, caller: Caller) -> None:
        """Forgets a caller that is gone."""
        self._behind.discard(caller)

    def _look(self) -> None:
        sizes = {caller: caller.unread for caller in self._behind}
        self._behind = {caller for caller, size in sizes.items() if size}
        total = sum(sizes.values())
        for caller in sorted(sizes, key=lambda caller: sizes[caller], reverse=True):
            if total <= self._most:
                break
            total -= sizes[caller]
            self._behind.discard(caller)
            caller.leave()

"""Who gave which lines of the journal, and when: as far as this server saw it, and as its log says of those before it."""
from __future__ import annotations

import bisect
import json
import os
from dataclasses import dataclass
from datetime import datetime
from typing import Any, Callable, Dict, List, Optional, Tuple

from ..server.callers import Given

MOST_KEPT = 50_000
MOST_OF_LOG = 16 << 20  # bytes of its end that are read


@dataclass
class Kept:
    """Lines of the journal in a row that one caller gave within a second."""

    first: int
    count: int
    who: str
    word: str
    when: float

    @property
    def end(self) -> int:
        """The number behind the last of them."""
        return self.first + self.count


class Seen:
    """Accepted lines in the order of their numbers, at most so many in a row."""

    def __init__(self, entries: int, now: Callable[[], float]):
        self.entries = entries
        self._now = now
        self._kept: List[Kept] = []
        self._firsts: List[int] = []  # of each of them

    def kept(self, given: Given, count: int) -> None:
        """Notes that so many lines were accepted by one that was given."""
        first, self.entries = self.entries, self.entries + count
        given.asked.entries.append((first, count))
        word = given.line.split(b" ", 1)[0].strip().decode(errors="replace")
        self._note(Kept(first, count, who_of(given.caller.peer), word, self._now()))

    def _note(self, found: Kept) -> None:
        last = self._kept[-1] if self._kept else None
        if last is not None and (last.who, last.word, last.end) == (found.who, found.word, found.first):
            if found.when - last.when < 1:
                last.count += found.count
                return
        self._kept.append(found)
        self._firsts.append(found.first)
        if len(self._kept) > MOST_KEPT:
            del self._kept[: MOST_KEPT // 2]
            del self._firsts[: MOST_KEPT // 2]

    def take(self, logged: List[Kept]) -> None:
        """Takes what the log says of lines before, as `logged_in` has it. Nothing is noted yet."""
        found = {kept.first: kept for kept in logged if kept.end <= self.entries}
        for first in sorted(found):
            self._note(found[first])

    def of(self, entry: int) -> Optional[Kept]:
        """Who gave a line of the journal, and when, if it is known."""
        place = bisect.bisect_right(self._firsts, entry) - 1
        return self._kept[place] if place >= 0 and entry < self._kept[place].end else None

    def add_to(self, rows: List[Dict[str, Any]]) -> None:
        """Adds `who` and `when` to rows of the log, null if they aren't known."""
        for row in rows:
            kept = self.of(row["entry"])
            if kept is not None and not _is_of(kept.word, row["command"]):
                kept = None  # the log is that of another book
            row["who"], row["when"] = (kept.who, round(kept.when * 1000)) if kept is not None else (None, None)

    def times(self, most: int) -> List[Tuple[int, int, int]]:
        """First number, number behind the last, and milliseconds since 1970, of the latest lines."""
        return [(kept.first, kept.end, round(kept.when * 1000)) for kept in self._kept[-most:]]


def _is_of(word: str, command: str) -> bool:
    return command == "step" if word in ("drive", "work") else command == word


def who_of(peer: Any) -> str:
    """A caller's name: a person's token, the runner, or a user of the socket."""
    if isinstance(peer, dict):
        return str(peer.get("name") or f"user {peer.get('uid')}")
    return str(peer).removeprefix("token ")


def logged_in(path: str) -> List[Kept]:
    """What a log says of lines of the journal. What isn't a line of it is passed over. It takes a second for a long one."""
    found: List[Kept] = []
    try:
        with open(path, "rb") as file:
            file.seek(max(0, os.fstat(file.fileno()).st_size - MOST_OF_LOG))
            for line in file:
                found += _logged(line)
    except OSError:
        pass
    return found


def _logged(line: bytes) -> List[Kept]:
    try:
        told = json.loads(line)
        if not told["reply"].startswith("ok"):
            return []  # on three machines: another leader's line may have that number
        when = datetime.fromisoformat(told["time"].replace("Z", "+00:00")).timestamp()
        who, word = who_of(told["caller"]), told["line"].split(" ", 1)[0]
        return [Kept(int(first), int(count), who, word, when) for first, count in told.get("entries", [])]
    except (ValueError, KeyError, TypeError, AttributeError):
        return []

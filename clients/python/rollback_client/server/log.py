"""The audit log: a line of JSON for each line answered."""
from __future__ import annotations

import json
import os
import stat
from datetime import datetime, timezone
from typing import Any, List, Tuple

from .callers import HEAD, Asked
from .speaking import say

Entry = Tuple[Any, Asked, bytes, float]  # who gave a line, the line, its reply, and when it was answered


class Log:
    """A file to which entries are appended, each whole. If it can't be written, that is said once, and lines go on."""

    def __init__(self, path: str):
        self._path = path
        self._file = _opened(path)
        self._rest = b""  # what isn't written yet, perhaps from the middle of an entry on
        self._is_failing = False
        self._lost = 0

    def write(self, entries: List[Entry]) -> None:
        """Appends entries."""
        self._append(b"".join(map(_line_of, entries)))

    def event(self, does: str, why: str, **more: Any) -> None:
        """Appends what the server itself does or meets."""
        self._append(
            json.dumps({"time": _now(), "event": does, "why": why, **more}, ensure_ascii=False).encode() + b"\n"
        )

    def _append(self, data: bytes) -> None:
        self._rest += data
        try:
            while self._rest:
                self._rest = self._rest[os.write(self._file, self._rest) :]
        except OSError as fault:
            self._fail(fault)
            return
        if self._is_failing:
            say(f"the log {self._path} is written again, and lacks {self._lost} lines")
            self._is_failing, self._lost = False, 0

    def reopen(self) -> None:
        """Goes on in the file that is at the path now."""
        try:
            found = _opened(self._path)
        except OSError as fault:
            say(f"the log isn't opened again, and goes on in the file that it has: {fault}")
            return
        os.close(self._file)
        self._file = found
        if self._rest:
            # It may be the end of an entry that began in the other file.
            self._rest, self._lost = b"", self._lost + 1

    def _fail(self, fault: OSError) -> None:
        if not self._is_failing:
            say(f"the log {self._path} can't be written, and lines go on without it: {fault}")
        self._is_failing = True
        # An entry that was written in part is kept, so that the next one begins a line.
        kept = self._rest.index(b"\n") + 1
        self._lost += self._rest.count(b"\n") - 1
        self._rest = self._rest[:kept]


def _opened(path: str) -> int:
    found = os.open(path, os.O_WRONLY | os.O_APPEND | os.O_CREAT | os.O_CLOEXEC | os.O_NOCTTY | os.O_NONBLOCK, 0o600)
    if not stat.S_ISREG(os.fstat(found).st_mode):
        os.close(found)
        raise OSError(f"a log is a file, and {path} isn't one")
    return found


def _now() -> str:
    return datetime.now(timezone.utc).isoformat(timespec="milliseconds").replace("+00:00", "Z")


def _line_of(entry: Entry) -> bytes:
    peer, asked, reply, now = entry
    taken = {
        "time": _now(),
        "caller": peer,
        "line": asked.head.decode(errors="replace"),
        "reply": reply[: reply.index(b"\n")][:HEAD].decode(errors="replace"),
        "length": asked.length,
        "milliseconds": round((now - asked.since) * 1000, 3),
        **({"entries": asked.entries} if asked.entries else {}),
    }
    return json.dumps(taken, ensure_ascii=False).encode() + b"\n"

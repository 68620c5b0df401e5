"""The rows of a server's own journal: whose they are, and those that are cut since the log hasn't them.

    FILE            the journal, which the program alone writes while it runs
    FILE.cluster    the etcd and the book that it belongs to, and how many of its lines the log had when it was opened last
    FILE.cut        rows that were cut, each with when, its number and its line, as lines of JSON
"""
from __future__ import annotations

import json
import os
import sqlite3
import tempfile
from contextlib import closing
from dataclasses import asdict, dataclass
from datetime import datetime, timezone
from typing import List, Optional, Tuple

from ..server.program import is_in_use, why_not_opened
from .entries import MOST_LINES, chained
from .faults import BrokenLog
from .log import Log

_SCHEMA = [("table", "entry")]


class InUse(Exception):
    """Another process has the journal."""


@dataclass(frozen=True)
class Belongs:
    """What a journal belongs to."""

    cluster_id: str
    book: str
    lines: int  # that the log had for certain

    def write(self, journal: str) -> None:
        """Keeps it beside the journal, whole or not at all."""
        place = f"{journal}.cluster"
        opened, made = tempfile.mkstemp(prefix=f".{os.path.basename(place)}.", dir=os.path.dirname(place) or ".")
        with os.fdopen(opened, "w", encoding="utf-8") as file:
            file.write(json.dumps(asdict(self)) + "\n")
            file.flush()
            os.fsync(file.fileno())
        os.replace(made, place)
        _sync_folder(place)

    @classmethod
    def read(cls, journal: str) -> Optional[Belongs]:
        """What was kept, or nothing if the journal was none of a cluster."""
        try:
            with open(f"{journal}.cluster", encoding="utf-8") as file:
                return cls(**json.loads(file.read()))
        except FileNotFoundError:
            return None
        except (ValueError, TypeError) as fault:
            raise BrokenLog(f"{journal}.cluster isn't what a server writes there: {fault}") from fault


def rows_of(journal: str) -> List[bytes]:
    """The lines of a journal, none of a file that isn't there. Another kind of file is a `BrokenLog`, one that is used `InUse`."""
    if not os.path.exists(journal) or os.path.isfile(journal) and os.path.getsize(journal) == 0:
        return []
    if is_in_use("rollback: store", journal):
        raise InUse(f"{journal} is in use by another process")
    try:
        with closing(sqlite3.connect(f"file:{_quoted(journal)}?mode=rw", uri=True)) as file:
            names = file.execute("select type, name from sqlite_master").fetchall()
            if not names:
                return []
            if names != _SCHEMA:
                raise BrokenLog(f"{journal} is no journal: it has {names[:4]}. Move it away")
            rows = file.execute("select no, line from entry order by no").fetchall()
    except (sqlite3.Error, UnicodeError) as fault:
        why = why_not_opened(journal) if os.path.isfile(journal) else f"{journal} is no file"
        raise BrokenLog(f"{why} ({fault}): nothing was cut. Move it away") from fault
    if [number for number, _ in rows] != list(range(len(rows))):
        raise BrokenLog(
            f"{journal} has a gap: nothing was cut. Move it away, and the server takes the log from the start"
        )
    return [line.encode() for _, line in rows]


def cut(journal: str, length: int) -> int:
    """Cuts the rows from this number on, once they are kept in FILE.cut, and gives how many they were."""
    with closing(sqlite3.connect(journal)) as file, file:
        rows = file.execute("select no, line from entry where no >= ? order by no", (length,)).fetchall()
        if rows:
            _keep(journal, rows)
            file.execute("delete from entry where no >= ?", (length,))
    return len(rows)


async def common_length(rows: List[bytes], log: Log) -> Tuple[int, bool]:
    """How many lines a journal and the log begin with in common, and whether the log has more than these.

    The chain of a batch near the journal's end says whether all before agrees; the whole log is read only if it doesn't.
    """
    near = max(0, len(rows) - MOST_LINES)
    found = await _common_from(rows, log, near)
    if found is None and near:
        found = await _common_from(rows, log, 0)
    return found or (0, False)


async def _common_from(rows: List[bytes], log: Log, first: int) -> Optional[Tuple[int, bool]]:
    common: Optional[int] = None
    async for batch in log.batches(first):
        if common is None:
            if batch.number > len(rows) or chained("", rows[: batch.number]) != batch.chain:
                return None if first else (0, True)
            common = batch.number
        for _, line in batch.entries:
            if common == len(rows) or rows[common] != line:
                return common, True
            common += 1
    return None if common is None else (common, False)


def _keep(journal: str, rows: List[tuple[int, str]]) -> None:
    place, now = f"{journal}.cut", datetime.now(timezone.utc).isoformat(timespec="seconds")
    said = "".join(json.dumps({"time": now, "no": no, "line": line}, ensure_ascii=False) + "\n" for no, line in rows)
    opened = os.open(place, os.O_WRONLY | os.O_APPEND | os.O_CREAT | os.O_CLOEXEC, 0o600)
    with os.fdopen(opened, "w", encoding="utf-8") as file:
        file.write(said)
        file.flush()
        os.fsync(file.fileno())
    _sync_folder(place)


def _sync_folder(path: str) -> None:
    folder = os.open(os.path.dirname(os.path.abspath(path)), os.O_RDONLY | os.O_DIRECTORY)
    try:
        os.fsync(folder)
    finally:
        os.close(folder)


def _quoted(path: str) -> str:
    from urllib.parse import quote

    return quote(os.path.abspath(path))

"""A small file beside the journal: when threads came to where they are, and what is paused. It is a hint, and any of it may be lost."""
from __future__ import annotations

import contextlib
import os
import sqlite3
from typing import Callable, Dict, Iterable, Iterator, Mapping, Optional, Set, Tuple

Arrival = Tuple[int, float]  # the entry that brought a thread to its place, and when, in seconds since 1970
Whom = Tuple[str, str]  # ("all", ""), ("machine", NAME) or ("execution", NAME)
_TABLES = (
    "CREATE TABLE IF NOT EXISTS arrival(thread TEXT PRIMARY KEY, entry INTEGER NOT NULL, moment REAL NOT NULL) STRICT",
    "CREATE TABLE IF NOT EXISTS paused(kind TEXT, name TEXT, PRIMARY KEY(kind, name)) STRICT",
)


class ClockFile:
    """The file, or nothing but memory if there is no path, or the file can't be used. Then `say` hears why, once."""

    def __init__(self, path: Optional[str], say: Callable[[str], None]):
        self._path, self._say = path, say
        self._store: Optional[sqlite3.Connection] = None
        self.paused: Set[Whom] = set()
        if path is not None and os.path.exists(path):
            self._open(path)

    def _open(self, path: str) -> None:
        with self._minding():
            self._open_or_begin(path)

    def _open_or_begin(self, path: str) -> None:
        try:
            self._store = self._opened(path)
        except sqlite3.DatabaseError as fault:
            if isinstance(fault, sqlite3.OperationalError):
                raise
            # a damaged one is begun anew
            os.replace(path, f"{path}.damaged")
            self._say(f"{path} is damaged, so each clock begins now: it is {path}.damaged from now on")
            self._store = self._opened(path)

    def _opened(self, path: str) -> sqlite3.Connection:
        os.close(os.open(path, os.O_RDWR | os.O_CREAT | os.O_CLOEXEC, 0o600))
        store = sqlite3.connect(path, timeout=5, isolation_level=None)
        try:
            # what is lost with the machine's power is no loss
            store.execute("PRAGMA synchronous=OFF")
            for table in _TABLES:
                store.execute(table)
            found = store.execute("SELECT kind, name FROM paused").fetchall()
            store.execute("SELECT thread, entry, moment FROM arrival LIMIT 1").fetchall()
        except BaseException:
            store.close()
            raise
        self.paused.update((kind, name) for kind, name in found)
        return store

    @contextlib.contextmanager
    def _minding(self) -> Iterator[None]:
        """Goes on without the file, if it can't be used."""
        try:
            yield
        except (sqlite3.Error, OSError) as fault:
            self._say(f"{self._path} can't be used, so clocks and pauses don't outlast this process: {fault}")
            self._store = self._path = None

    def arrivals(self) -> Dict[str, Arrival]:
        """When each thread came to its place, as far as it is known."""
        found: Dict[str, Arrival] = {}
        if self._store is not None:
            with self._minding():
                for thread, entry, moment in self._store.execute("SELECT thread, entry, moment FROM arrival"):
                    found[thread] = (entry, moment)
        return found

    def forget(self) -> None:
        """Forgets all arrivals."""
        self._do([("DELETE FROM arrival", [()])])

    def keep(self, changes: Mapping[str, Optional[Arrival]]) -> None:
        """Keeps arrivals, and drops those of threads that have none any more."""
        dropped = [(thread,) for thread, arrival in changes.items() if arrival is None]
        if len(dropped) == len(changes) and self._store is None:
            return
        kept = [(thread, *arrival) for thread, arrival in changes.items() if arrival is not None]
        if changes:
            self._do(
                [("DELETE FROM arrival WHERE thread = ?", dropped), ("REPLACE INTO arrival VALUES(?, ?, ?)", kept)]
            )

    def pause(self, whom: Whom) -> None:
        """Keeps a pause."""
        self.paused.add(whom)
        self._do([("REPLACE INTO paused VALUES(?, ?)", [whom])])

    def resume(self, whom: Whom) -> None:
        """Ends a pause; that of all ends the others, too."""
        if whom[0] == "all":
            self.paused.clear()
            self._do([("DELETE FROM paused", [()])])
        else:
            self.paused.discard(whom)
            self._do([("DELETE FROM paused WHERE kind = ? AND name = ?", [whom])])

    def _do(self, changes: Iterable[Tuple[str, Iterable[Tuple[object, ...]]]]) -> None:
        if self._store is None and self._path is not None:
            # it is made once there is something to keep
            self._open(self._path)
        if self._store is None:
            return
        with self._minding():
            self._store.execute("BEGIN")
            for text, rows in changes:
                self._store.executemany(text, rows)
            self._store.execute("COMMIT")

    def close(self) -> None:
        """Closes the file."""
        if self._store is not None:
            with contextlib.suppress(sqlite3.Error):
                self._store.close()
            self._store = None


def is_paused(paused: Set[Whom], execution: str, machine: str) -> bool:
    """Whether an execution of a machine is paused."""
    return bool(paused) and (
        ("all", "") in paused or ("execution", execution) in paused or ("machine", machine) in paused
    )

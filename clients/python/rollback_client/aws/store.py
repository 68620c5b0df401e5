"""What the journal doesn't hold, in a file beside it: texts as given, roles, tags and times. Any of it may be lost.

If it is, the book's own spelling is answered, and the time of what came before is that of the file's beginning.
"""
from __future__ import annotations

import contextlib
import json
import os
import sqlite3
from array import array
from dataclasses import dataclass, field
from typing import Any, Callable, Dict, Iterator, List, Optional, Tuple

_TABLES = (
    "CREATE TABLE IF NOT EXISTS machine(name TEXT PRIMARY KEY, moment REAL, given TEXT NOT NULL) STRICT",
    "CREATE TABLE IF NOT EXISTS execution(name TEXT PRIMARY KEY, entry INTEGER NOT NULL, input TEXT NOT NULL) STRICT",
    "CREATE TABLE IF NOT EXISTS moment(entry INTEGER PRIMARY KEY, moment REAL NOT NULL) STRICT",
    "CREATE TABLE IF NOT EXISTS fact(name TEXT PRIMARY KEY, given TEXT NOT NULL) STRICT",
)
Rows = List[Tuple[Any, ...]]


@dataclass
class Machine:
    """What was given with a state machine."""

    moment: Optional[float] = None
    definition: Optional[str] = None
    role: Optional[str] = None
    tags: Dict[str, str] = field(default_factory=dict)
    more: Dict[str, Any] = field(default_factory=dict)  # further members, which come back as they were given

    def text(self) -> str:
        """It as the file has it."""
        found = {"definition": self.definition, "role": self.role, "tags": self.tags, "more": self.more}
        return json.dumps(found)


class Store:
    """The file, or nothing but memory if there is no path, or the file can't be used. Then `say` hears why, once.

    What changes is written by and by: `flush` does it, and `wants_flush` says that there is something to be written.
    """

    def __init__(self, path: Optional[str], now: float, say: Callable[[str], None]):
        self._path, self._say = path, say
        self._file: Optional[sqlite3.Connection] = None
        self._unwritten: Dict[str, Dict[Any, Tuple[Any, ...]]] = {}
        self._moments = array("d")
        self._entries: Dict[str, int] = {}  # of the starts of executions
        self._inputs: Dict[str, str] = {}  # that aren't in the file
        self._machines: Dict[str, Machine] = {}
        self._facts: Dict[str, Any] = {}
        self.begun = now
        if path is not None:
            with self._minding():
                self._open(path)
        self.begun = float(self._facts.setdefault("begun", now))
        self._write("fact", "begun", (json.dumps(self.begun),))

    # ---- the file

    def _open(self, path: str) -> None:
        try:
            self._file = self._opened(path)
        except sqlite3.DatabaseError as fault:
            if isinstance(fault, sqlite3.OperationalError):
                raise
            os.replace(path, f"{path}.damaged")
            self._say(f"{path} is damaged, so the book's own spelling counts: it is {path}.damaged from now on")
            self._file = self._opened(path)

    def _opened(self, path: str) -> sqlite3.Connection:
        os.close(os.open(path, os.O_RDWR | os.O_CREAT | os.O_CLOEXEC, 0o600))
        file = sqlite3.connect(path, timeout=5, isolation_level=None)
        try:
            # what is lost with the machine's power is no loss
            file.execute("PRAGMA synchronous=OFF")
            for table in _TABLES:
                file.execute(table)
            self._load(file)
        except BaseException:
            file.close()
            raise
        return file

    def _load(self, file: sqlite3.Connection) -> None:
        self._facts = {name: json.loads(given) for name, given in file.execute("SELECT name, given FROM fact")}
        for name, moment, given in file.execute("SELECT name, moment, given FROM machine"):
            self._machines[name] = Machine(moment, **json.loads(given))
        self._entries = dict(file.execute("SELECT name, entry FROM execution").fetchall())
        for entry, moment in file.execute("SELECT entry, moment FROM moment ORDER BY entry"):
            self._set_moment(entry, moment)

    @contextlib.contextmanager
    def _minding(self) -> Iterator[None]:
        """Goes on without the file, if it can't be used."""
        try:
            yield
        except (sqlite3.Error, OSError, ValueError, TypeError) as fault:
            self._say(f"{self._path} can't be used, so what it has doesn't outlast this process: {fault}")
            self._file = self._path = None

    def _write(self, table: str, key: Any, row: Tuple[Any, ...]) -> None:
        if self._path is not None:
            self._unwritten.setdefault(table, {})[key] = (key, *row)

    @property
    def wants_flush(self) -> bool:
        """Whether something is to be written."""
        return bool(self._unwritten)

    def flush(self) -> None:
        """Writes what changed."""
        unwritten, self._unwritten = self._unwritten, {}
        if self._file is None or not unwritten:
            return
        with self._minding():
            self._file.execute("BEGIN")
            for table, rows in unwritten.items():
                marks = ", ".join("?" * len(next(iter(rows.values()))))
                self._file.executemany(f"REPLACE INTO {table} VALUES({marks})", rows.values())
            self._file.execute("COMMIT")
            for key in unwritten.get("execution", {}):
                self._inputs.pop(key, None)

    def close(self) -> None:
        """Writes what changed, and closes the file."""
        self.flush()
        if self._file is not None:
            with contextlib.suppress(sqlite3.Error):
                self._file.close()
            self._file = None

    # ---- times

    def forget_from(self, entries: int) -> None:
        """Forgets what is of lines that the journal hasn't, as of another book's file; of a new book all."""
        if not entries:
            self._forget_names()
        if len(self._moments) <= entries:
            return
        del self._moments[entries:]
        self._entries = {name: entry for name, entry in self._entries.items() if entry < entries}
        if self._file is not None:
            with self._minding():
                self._file.execute("DELETE FROM moment WHERE entry >= ?", (entries,))
                self._file.execute("DELETE FROM execution WHERE entry >= ?", (entries,))

    def _forget_names(self) -> None:
        self._machines.clear()
        self._entries.clear()
        self._facts = {"begun": self.begun}
        if self._file is not None:
            with self._minding():
                for table in ("machine", "execution", "fact"):
                    self._file.execute(f"DELETE FROM {table}")

    def accepted(self, entry: int, moment: float) -> None:
        """Keeps when a line was accepted."""
        self._set_moment(entry, moment)
        self._write("moment", entry, (moment,))

    def _set_moment(self, entry: int, moment: float) -> None:
        if entry >= len(self._moments):
            self._moments.extend([0.0] * (entry + 1 - len(self._moments)))
        self._moments[entry] = moment

    def moment(self, entry: Optional[int]) -> float:
        """When a line was accepted. If that isn't known, it is the moment of the nearest line before whose moment is."""
        at = -1 if entry is None else min(entry, len(self._moments) - 1)
        while at >= 0 and not self._moments[at]:
            at -= 1
        return self._moments[at] if at >= 0 else self.begun

    # ---- executions

    def started(self, name: str, entry: int, input: str) -> None:
        """Keeps the line of an execution's start, and its input."""
        self._entries[name] = entry
        self._inputs[name] = input
        self._write("execution", name, (entry, input))

    def keep_input(self, name: str, text: str) -> None:
        """Keeps an input as it was given."""
        if name in self._entries:
            self._inputs[name] = text
            self._write("execution", name, (self._entries[name], text))

    def start_entry(self, name: str) -> Optional[int]:
        """The line of an execution's start, if it is known."""
        return self._entries.get(name)

    def input(self, name: str) -> Optional[str]:
        """An input as it was given, if that is known."""
        if name in self._inputs:
            return self._inputs[name]
        if self._file is not None:
            with self._minding():
                found = self._file.execute("SELECT input FROM execution WHERE name = ?", (name,)).fetchone()
                return None if found is None else str(found[0])
        return None

    # ---- machines and the table

    def machine(self, name: str) -> Machine:
        """What is known of a machine."""
        return self._machines.get(name) or Machine()

    def keep_machine(self, name: str, machine: Machine) -> None:
        """Keeps what was given with a machine."""
        self._machines[name] = machine
        self._write("machine", name, (machine.moment, machine.text()))

    def fact(self, name: str) -> Any:
        """Something about the book, as its table's members."""
        return self._facts.get(name)

    def keep_fact(self, name: str, value: Any) -> None:
        """Keeps something about the book."""
        self._facts[name] = value
        self._write("fact", name, (json.dumps(value),))

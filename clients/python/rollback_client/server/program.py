"""The program as the server's child, which never outlives it, and what its last words mean."""
from __future__ import annotations

import asyncio
import ctypes
import fcntl
import os
import signal
import stat
import struct
import subprocess
import tempfile
from typing import Any, Callable, Optional, cast

_SET_DEATH_SIGNAL = 1  # PR_SET_PDEATHSIG of prctl
_SQLITE = b"SQLite format 3\0"


class Program(asyncio.Protocol):
    """The process, with its input and its output. What it answers is kept until somebody takes it."""

    def __init__(self, command: list[str]):
        self._command = command
        self._first = b""
        self._take: Optional[Callable[[bytes], None]] = None
        self._said = tempfile.TemporaryFile()
        self._input: asyncio.WriteTransport
        self._process: subprocess.Popen[bytes]
        self.answered = asyncio.Event()  # the line that it was asked first
        self.ended = asyncio.Event()  # its output has ended

    async def start(self) -> None:
        """Starts the process. This has to be the main thread, before there is another one: the child ends with the thread that made it."""
        self._process = subprocess.Popen(
            self._command,
            stdin=subprocess.PIPE,
            stdout=subprocess.PIPE,
            stderr=self._said,
            start_new_session=True,
            preexec_fn=_ending_with(os.getpid()),
        )
        loop = asyncio.get_running_loop()
        await loop.connect_read_pipe(lambda: self, self._process.stdout)
        transport, _ = await loop.connect_write_pipe(asyncio.Protocol, self._process.stdin)
        self._input = transport

    def data_received(self, data: bytes) -> None:
        """Hands on what the program answers."""
        if self._take is not None:
            self._take(data)
            return
        self._first += data
        if self._first.endswith(b"\n"):
            self.answered.set()

    def take_by(self, take: Callable[[bytes], None]) -> None:
        """Has all further replies taken by this. The first one says that a word is no command, or this is another program."""
        if self._first != b"no 20\n":
            self._process.kill()
            raise ValueError(f"{self._command[0]} isn't rollback: it answered {self._first[:200]!r}")
        self._take = take

    def connection_lost(self, fault: Optional[BaseException]) -> None:
        """Its output has ended."""
        self.ended.set()

    def write(self, data: bytes) -> None:
        """Gives lines."""
        self._input.write(data)

    @property
    def waiting(self) -> int:
        """Bytes that it hasn't read."""
        return self._input.get_write_buffer_size()

    def kill(self) -> None:
        """Ends it at once, with what it was given."""
        self._process.kill()
        if not self._input.is_closing():
            self._input.abort()

    async def reaped(self) -> None:
        """Waits for its end."""
        await self.status()

    def end_input(self) -> None:
        """Ends its input, after what was given."""
        self._input.close()

    async def status(self) -> int:
        """Its status, once it has ended."""
        while self._process.poll() is None:
            await asyncio.sleep(0.005)
        return cast(int, self._process.returncode)

    def said(self) -> str:
        """What it wrote on standard error."""
        self._said.seek(0)
        return self._said.read().decode(errors="replace").strip()


def _ending_with(parent: int) -> Callable[[], None]:
    """What the child does before it becomes the program: it asks to be killed at its parent's end, and sees that it isn't there yet."""
    library: Any = ctypes.CDLL(None)

    def ask() -> None:
        library.prctl(_SET_DEATH_SIGNAL, signal.SIGKILL)
        if os.getppid() != parent:
            os._exit(1)

    return ask


# ---- what its words mean

_MEANINGS = {
    "damaged": "a line of the journal isn't what its place needs: the file was changed, or it is of a later program",
    "gap": "a line of the journal is missing: the file was changed",
    "input": "its input couldn't be read",
    "output": "its output couldn't be written",
    "memory": "it was out of memory",
}


def meaning(said: str, journal: Optional[str]) -> Optional[str]:
    """A sentence on what the program's last words usually mean."""
    word = said.removeprefix("rollback: ").split(" ")[0]
    if word != "store" or journal is None:
        return _MEANINGS.get(word)
    try:
        return why_not_opened(journal)
    except OSError as fault:
        return str(fault)


def is_in_use(said: str, journal: Optional[str]) -> bool:
    """Whether the program has ended since another process has the journal."""
    try:
        return said == "rollback: store" and journal is not None and os.path.isfile(journal) and _is_locked(journal)
    except OSError:
        return False


def why_not_opened(journal: str) -> str:
    """Why a file gives no journal, as far as it can be seen."""
    folder = os.path.dirname(os.path.abspath(journal))
    try:
        about = os.stat(journal)
    except FileNotFoundError:
        if not os.path.isdir(folder):
            return f"there is no folder {folder}"
        return _no_right(folder) or _no_room(folder) or f"{journal} couldn't be made"
    except OSError as fault:
        return str(fault)
    if stat.S_ISDIR(about.st_mode):
        return f"{journal} is a folder"
    if not stat.S_ISREG(about.st_mode):
        return f"{journal} is no file that keeps what is written"
    for place in (journal, folder, f"{journal}-wal"):
        if os.path.exists(place) and _no_right(place):
            return _no_right(place) or ""
    if about.st_nlink > 1:
        return f"{journal} has a second name, a hard link"
    if _is_locked(journal):
        return f"{journal} is in use by another process"
    with open(journal, "rb") as file:
        if file.read(len(_SQLITE)) not in (_SQLITE, b""):
            return f"{journal} is no journal: it is no SQLite database"
    return _no_room(folder) or f"{journal} is a damaged database, or one that isn't a journal"


def _no_right(place: str) -> Optional[str]:
    return None if os.access(place, os.R_OK | os.W_OK) else f"there is no right to read and write {place}"


def _no_room(folder: str) -> Optional[str]:
    about = os.statvfs(folder)
    return f"there is no room on the disk of {folder}" if about.f_bavail == 0 else None


def _is_locked(path: str) -> bool:
    """Whether another process has a lock of the file, of either kind."""
    with open(path, "rb+") as file:
        asked = struct.pack("hhqqi4x", fcntl.F_WRLCK, os.SEEK_SET, 0, 0, 0)
        if struct.unpack("hhqqi4x", fcntl.fcntl(file, fcntl.F_GETLK, asked))[0] != fcntl.F_UNLCK:
            return True
        try:
            fcntl.flock(file, fcntl.LOCK_EX | fcntl.LOCK_NB)
        except BlockingIOError:
            return True
    return False

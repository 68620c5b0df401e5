"""A socket to the program, as a child or through a server, and what is known of it: open, closed, or broken in the middle of a reply."""
from __future__ import annotations

import errno
import os
import socket
import subprocess
import tempfile
import time
from typing import Optional, Sequence, Tuple, Union

from .faults import BookClosed, Busy, ConnectionLost, NoServer, OtherProcess, ProgramEnded, RollbackError, StreamBroken
from .lines import short

CHUNK = 1 << 16
FIRST_PAUSE, LONGEST_PAUSE = 0.01, 1.0  # seconds between two attempts, or two looks
PATIENCE = 10.0  # seconds that a child has to end once it has ended its output
Address = Union[str, "os.PathLike[str]"]
Tls = Tuple[str, str, str]  # paths: a certificate, its key, and the authority of the other side
CLUSTER = "cluster:"  # begins an address of several servers, of which one leads


class StreamEnded(Exception):
    """The other side has ended the stream, or nothing came from it for as long as the caller waits."""


class Link:
    """A socket, over which one call at a time is under way.

    `begin` marks it, and `end` takes the mark away once the whole reply was read. So whatever interrupts a call, the next one finds
    the mark, and never a part of an earlier reply.
    """

    def __init__(self, name: str, sock: socket.socket):
        self.name, self.socket = name, sock
        self._process_id = os.getpid()
        self._under_way: Optional[str] = None
        self._why: Optional[str] = None  # it is broken, if there is one
        self._is_closed = False

    @property
    def state(self) -> str:
        """One word for `repr`."""
        return "closed" if self._is_closed else "broken" if self._why or self._under_way is not None else "open"

    def look_at_process(self) -> None:
        """Raises an error in a forked process, and touches nothing of the stream."""
        if os.getpid() != self._process_id:
            raise OtherProcess()

    def look(self) -> None:
        """Raises what keeps a call from being made."""
        self.look_at_process()
        if self._is_closed:
            raise BookClosed()
        if self._under_way is not None:
            self.break_off(f"a call was interrupted before its reply was whole: {short(self._under_way)}")
        if self._why is not None:
            raise StreamBroken(
                f"the stream is broken: {self._why}. Nothing was sent: open a new one, and look at history"
            )

    def begin(self, line: str) -> None:
        """Marks that a call of this line is under way."""
        self.look()
        self._under_way = line

    def end(self) -> None:
        """Marks that the reply was read."""
        self._under_way = None

    def failed(self, fault: BaseException, line: str) -> BaseException:
        """Breaks the stream off after a fault of the call under way, and gives the error to raise.

        Only an error of the system's has a number: a `TimeoutError` that a caller's own signal raises is raised as it is.
        """
        if isinstance(fault, StreamEnded) or isinstance(fault, OSError) and fault.errno is not None:
            error = self.lost(str(fault), line)
            self.break_off(str(error))
            return error
        is_own = isinstance(fault, RollbackError)
        self.break_off(str(fault) if is_own else f"a call was interrupted before its reply was whole: {short(line)}")
        return fault

    def break_off(self, why: str) -> None:
        """Closes the stream at once, and says why from now on."""
        self._why = self._why or why
        self.cut()
        self._under_way = None

    def mark_closed(self) -> bool:
        """Whether it was open, and is closed by this call. One that is broken or closed needs no more."""
        self.look_at_process()
        if self._under_way is not None:
            self.break_off("a call was interrupted")
        was_open = not self._is_closed and self._why is None
        self._is_closed = True
        return was_open

    def cut(self) -> None:
        """Closes the socket at once."""
        self.socket.close()

    def lost(self, why: str, line: str) -> RollbackError:
        """The error of a stream that has ended."""
        return ConnectionLost(why, line)

    def finish(self) -> Optional[RollbackError]:
        """Ends the stream in order. What went wrong is given back."""
        self.socket.close()
        return None


class ChildLink(Link):
    """The program as a child, in a session of its own: what a terminal sends to its caller's group doesn't reach it."""

    def __init__(self, words: Sequence[str], journal: Optional[str]):
        ours, theirs = socket.socketpair()
        self._said = tempfile.TemporaryFile()
        try:
            self._child = subprocess.Popen(
                words, stdin=theirs.fileno(), stdout=theirs.fileno(), stderr=self._said, start_new_session=True
            )
        except (OSError, ValueError) as fault:  # of a name that no file has, too
            self._said.close()
            ours.close()
            raise RollbackError(f"the program can't be started: {fault}") from fault
        finally:
            theirs.close()
        super().__init__(f"of {journal or 'a book in memory'} by {words[0]}", ours)

    def cut(self) -> None:
        # It is killed before its input ends, since a line that was sent in part would be taken for a whole one at the end. It is waited
        # for, so that its file can be opened again at once.
        self._child.kill()
        self._child.wait()
        self.socket.close()
        self._said.close()

    def lost(self, why: str, line: str) -> RollbackError:
        return self._ended(line, PATIENCE)

    def finish(self) -> Optional[RollbackError]:
        # It may have much to write into its file.
        ended = self._ended("", None)
        return ended if ended.status != 0 else None

    def _ended(self, line: str, patience: Optional[float]) -> ProgramEnded:
        """Ends the input, and waits for the program's end."""
        try:
            self.socket.shutdown(socket.SHUT_WR)
            self.socket.settimeout(patience)
            while self.socket.recv(CHUNK):
                pass  # no reply keeps it from ending
        except OSError:
            pass
        self.socket.close()
        try:
            status = self._child.wait(patience)
        except subprocess.TimeoutExpired:
            self._child.kill()
            status = self._child.wait()
        self._said.seek(0)
        said = self._said.read().decode(errors="replace")
        self._said.close()
        return ProgramEnded(status, said, line)


def open_child(journal: Optional[Address], program: Address) -> ChildLink:
    """Starts the program on a journal's file, or in memory."""
    file = None if journal is None else os.fspath(journal)
    return ChildLink([os.fspath(program), *(("--journal", file) if file is not None else ())], file)


# ---- addresses


def host_and_port(address: str) -> Optional[Tuple[str, int]]:
    """Host and port of an address, or nothing if it is a path."""
    host, colon, port = address.rpartition(":")
    if not colon or "/" in address or not (port.isascii() and port.isdecimal()):
        return None
    if int(port) > 65535:
        raise ValueError(f"a port is from 0 to 65535, and not {port}")
    return host.strip("[]"), int(port)


def unix_socket(address: str) -> socket.socket:
    """Connects to a Unix socket without waiting. A full queue is EAGAIN."""
    try:
        path = os.fsencode(address)
    except UnicodeEncodeError:
        raise ValueError(f"no file has this name: {address!r}") from None
    found = socket.socket(socket.AF_UNIX, socket.SOCK_STREAM)
    try:
        found.setblocking(False)
        found.connect(path)
    except BaseException:
        found.close()
        raise
    return found


class Retry:
    """Says after each attempt to connect that failed whether there is another one, and after which pause.

    A full queue of callers is tried again until `timeout`. A server that isn't there, or is busy, is tried again until `retry`.
    """

    def __init__(self, address: str, timeout: Optional[float], retry: Optional[float]):
        self._address = address
        self._ends = time.monotonic() + (retry or 0.0)
        self._queue_ends = (
            None if timeout is None and retry is None else time.monotonic() + max(timeout or 0.0, retry or 0.0)
        )
        self._pause = FIRST_PAUSE

    def pause_after(self, fault: Exception) -> float:
        """The pause before another attempt. The error is raised if there is none."""
        is_queue_full = isinstance(fault, OSError) and fault.errno == errno.EAGAIN
        may_come = isinstance(fault, (FileNotFoundError, ConnectionRefusedError, Busy, ConnectionLost))
        ends = self._queue_ends if is_queue_full else self._ends if may_come else 0.0
        if ends is not None and time.monotonic() >= ends:
            raise self._error(fault, is_queue_full) from fault
        pause, self._pause = self._pause, min(2 * self._pause, LONGEST_PAUSE)
        return pause if ends is None else min(pause, max(0.0, ends - time.monotonic()))

    def _error(self, fault: Exception, is_queue_full: bool) -> Exception:
        if is_queue_full:
            return Busy(f"the server at {self._address} takes no caller now: too many wait for it")
        return NoServer(f"no server at {self._address}: {fault}") if isinstance(fault, OSError) else fault

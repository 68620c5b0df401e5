"""TLS to a server beyond this machine, behind a socket like any other.

A thread of its own passes bytes between the secured connection and one end of a pair of sockets; the other end is what a stream has.
So streams, and asyncio, which takes no secured socket, know nothing of it.
"""
from __future__ import annotations

import select
import socket
import ssl
import threading
from typing import Optional, Tuple

from .faults import ConnectionLost, RollbackError
from .links import CHUNK, Link, Tls


def context_of(tls: Tls) -> ssl.SSLContext:
    """What a caller with a certificate needs. Files that aren't there, or don't fit, are an `OSError`, as `ssl.SSLError` is."""
    certificate, key, authority = tls
    found = ssl.create_default_context(ssl.Purpose.SERVER_AUTH, cafile=authority)
    found.load_cert_chain(certificate, key)
    return found


class Passing(threading.Thread):
    """Passes bytes until one side ends. `fault` says what TLS found wrong, and `has_heard` whether anything ever came."""

    def __init__(self, secured: ssl.SSLSocket):
        super().__init__(name="rollback-tls", daemon=True)
        self.ours, self._theirs = socket.socketpair()
        self.fault: Optional[str] = None
        self.has_heard = False
        self._secured = secured
        secured.setblocking(False)
        self._theirs.setblocking(False)

    def run(self) -> None:
        out, back = b"", b""
        try:
            while True:
                out, back = self._moved(out, back)
        except ssl.SSLError as fault:
            self.fault = str(fault)
        except (OSError, EOFError):
            pass
        finally:
            self._secured.close()
            self._theirs.close()

    def _moved(self, out: bytes, back: bytes) -> Tuple[bytes, bytes]:
        """Moves what can be moved, and waits if nothing can. Each way has one piece under way at most."""
        has_moved, wants_write = False, bool(out)
        if not out:
            out = _read(self._theirs)
            has_moved = bool(out)
        if out:
            sent, wants_write = self._send(out)
            out, has_moved = out[sent:], has_moved or sent > 0
        if not back:
            back = self._receive()
            has_moved = has_moved or bool(back)
        if back:
            count = _write(self._theirs, back)
            back, has_moved = back[count:], has_moved or count > 0
        if not has_moved:
            self._wait(not out, wants_write, not back, bool(back))
        return out, back

    def _wait(self, reads_ours: bool, writes_theirs: bool, reads_theirs: bool, writes_ours: bool) -> None:
        waiting = select.poll()
        of_pair = (select.POLLIN if reads_ours else 0) | (select.POLLOUT if writes_ours else 0)
        of_other = (select.POLLIN if reads_theirs else 0) | (select.POLLOUT if writes_theirs else 0)
        # A side of which nothing is awaited may have hung up, which poll says again and again.
        for sock, events in ((self._theirs, of_pair), (self._secured, of_other)):
            if events:
                waiting.register(sock, events)
        waiting.poll()

    def _send(self, data: bytes) -> Tuple[int, bool]:
        try:
            return self._secured.send(data), False
        except ssl.SSLWantReadError:
            return 0, False
        except ssl.SSLWantWriteError:
            return 0, True

    def _receive(self) -> bytes:
        try:
            found = self._secured.recv(CHUNK)
        except (ssl.SSLWantReadError, ssl.SSLWantWriteError):
            return b""
        if not found:
            raise EOFError
        self.has_heard = True
        return found


def _read(sock: socket.socket) -> bytes:
    try:
        found = sock.recv(CHUNK)
    except BlockingIOError:
        return b""
    if not found:
        raise EOFError
    return found


def _write(sock: socket.socket, data: bytes) -> int:
    try:
        return sock.send(data)
    except BlockingIOError:
        return 0


class SecuredLink(Link):
    """A link over TLS."""

    def __init__(self, name: str, passing: Passing):
        super().__init__(name, passing.ours)
        self._passing = passing

    def lost(self, why: str, line: str) -> RollbackError:
        """A server that refuses a certificate says so with its first bytes, or only ends the connection."""
        self._passing.join(1.0)
        said = self._passing.fault
        if said is None and not self._passing.has_heard:
            said = "nothing ever came, so the server may refuse this certificate"
        return ConnectionLost(f"{why}: {said}" if said else why, line)


def secured(plain: socket.socket, host: str, tls: Tls, timeout: Optional[float]) -> Passing:
    """Secures a connection, and begins to pass bytes. A certificate of another host or authority is an `ssl.SSLError`."""
    plain.settimeout(timeout)
    found = context_of(tls).wrap_socket(plain, server_hostname=host)
    passing = Passing(found)
    passing.start()
    return passing

"""A stream of lines that threads may share: one call at a time holds it, from the first byte written to the last byte read."""
from __future__ import annotations

import select
import socket
import threading
import time
from typing import List, Optional, Sequence, TypeVar, Union

from .commands import Command, greeting
from .faults import Refusal, RollbackError, StreamBroken
from .lines import Replies
from .links import CHUNK, CLUSTER, Link, Retry, StreamEnded, Tls, host_and_port, unix_socket

T = TypeVar("T")


class Stream:
    """Gives lines, and hands back what their replies say."""

    def __init__(self, link: Link, timeout: Optional[float] = None):
        self.link, self._timeout = link, timeout
        self._lock = threading.Lock()
        self._holder: Optional[int] = None  # the thread whose call is under way

    def call(self, command: Command[T]) -> T:
        """Gives a command's line. A refusal is raised; whatever else keeps its reply from being read breaks the stream."""
        data = command.encoded()
        self._look()
        with self._lock:
            try:
                self._holder = threading.get_ident()
                (outcome,) = self._exchange([command], data)
            finally:
                self._holder = None
        if isinstance(outcome, Refusal):
            raise outcome
        return outcome

    def call_all(self, asked: Sequence[Command[T]]) -> List[Union[T, Refusal]]:
        """Gives the lines of some commands at once, and hands back what each came to. They have to be few and short."""
        data = b"".join(command.encoded() for command in asked)
        if not asked:
            return []
        self._look()
        with self._lock:
            try:
                self._holder = threading.get_ident()
                return self._exchange(asked, data)
            finally:
                self._holder = None

    def close(self) -> None:
        """Ends the stream, after the call under way. A program that ends with another status than 0 is an error."""
        self._look()
        with self._lock:
            fault = self.link.finish() if self.link.mark_closed() else None
        if fault is not None:
            raise fault

    def _look(self) -> None:
        # A lock that another thread held at a fork is never free in the forked process, so the process is looked at first.
        self.link.look_at_process()
        if self._holder == threading.get_ident():
            raise RollbackError(
                "a call of this book is under way in this thread: what interrupts it can't make another"
            )

    def _exchange(self, asked: Sequence[Command[T]], data: bytes) -> List[Union[T, Refusal]]:
        line = asked[0].line if asked else ""
        self.link.begin(line)
        try:
            outcomes = self._replies(asked, data)
            self.link.end()
            return outcomes
        except BaseException as fault:
            error = self.link.failed(fault, line)
            if error is fault:
                raise
            raise error from fault

    def _replies(self, asked: Sequence[Command[T]], data: bytes) -> List[Union[T, Refusal]]:
        unsent: Optional[OSError] = None
        try:
            self._send(data)
        except (BrokenPipeError, ConnectionResetError) as fault:
            unsent = fault  # what the server said before it closed is read first
        replies = Replies()
        outcomes: List[Union[T, Refusal]] = []
        for command in asked:
            reply = replies.next(command.is_list)
            while reply is None:
                chunk = self._receive()
                if not chunk:
                    raise unsent or StreamEnded("the connection has ended")
                replies.feed(chunk)
                reply = replies.next(command.is_list)
            outcomes.append(command.outcome(reply))
        if unsent:
            raise unsent
        if replies.rest():
            raise StreamBroken("more bytes came than those of the reply")
        return outcomes

    def _send(self, data: bytes) -> None:
        left = memoryview(data)
        while left:
            try:
                left = left[self.link.socket.send(left, socket.MSG_DONTWAIT) :]
            except BlockingIOError:
                self._wait_for(select.POLLOUT)

    def _receive(self) -> bytes:
        self._wait_for(select.POLLIN)
        return self.link.socket.recv(CHUNK)

    def _wait_for(self, event: int) -> None:
        waiting = select.poll()
        waiting.register(self.link.socket, event)
        if not waiting.poll(None if self._timeout is None else self._timeout * 1000):
            raise StreamEnded(f"no byte came or went for {self._timeout} seconds")


def connect(address: str, timeout: Optional[float], retry: Optional[float], tls: Optional[Tls] = None) -> Stream:
    """A stream to a server of lines that has a place for this caller, or to whichever server of a cluster leads."""
    if address.startswith(CLUSTER):
        from .following import FollowingStream

        return FollowingStream.to(address, timeout, retry, tls)
    attempts = Retry(address, timeout, retry)
    while True:
        try:
            stream = Stream(link_to(address, timeout, tls), timeout)
            try:
                stream.call(greeting())
            except Refusal:
                pass  # that the word is no command says that there is a place
            return stream
        except (OSError, RollbackError) as fault:
            pause = attempts.pause_after(fault)
        time.sleep(pause)


def connected_socket(address: str, timeout: Optional[float], tls: Optional[Tls] = None) -> socket.socket:
    """A plain connection to a server of lines, or to the one of a cluster that leads; or `NoServer`, `Busy` or `Unavailable`."""
    if address.startswith(CLUSTER):
        from .following import FollowingStream

        found = FollowingStream.to(address, timeout, None, tls).link.socket
        found.settimeout(timeout)
        return found
    attempts = Retry(address, timeout, None)
    while True:
        try:
            found = link_to(address, timeout, tls).socket
            found.settimeout(timeout)
            return found
        except OSError as fault:
            pause = attempts.pause_after(fault)
        time.sleep(pause)


def link_to(address: str, timeout: Optional[float], tls: Optional[Tls] = None) -> Link:
    """A connection to a server of lines, secured if there are files of TLS. Raises `OSError`."""
    place = host_and_port(address)
    if tls is not None and place is None:
        raise ValueError("TLS is for host:port, and not for a Unix socket")
    found = unix_socket(address) if place is None else socket.create_connection(place, timeout)
    if tls is not None and place is not None:
        from .secured import SecuredLink, secured

        try:
            passing = secured(found, place[0], tls, timeout)
        except BaseException:
            found.close()
            raise
        return SecuredLink(f"at {address}", passing)
    found.setblocking(True)
    return Link(f"at {address}", found)

"""A stream to a book on several machines: it goes to the server that leads, and to another one if that one is gone or leads no more.

A line that is refused since another server leads has changed nothing, and is given again there. A line that was under way when the
connection ended is a `ConnectionLost`, and never given again: whether it is done isn't known. The call after it goes to whoever leads.
"""
from __future__ import annotations

import asyncio
import socket
import ssl
import time
from typing import Any, List, Optional, Sequence, Tuple, TypeVar, Union

from . import async_streams, streams
from .commands import Command, greeting
from .faults import Busy, ConnectionLost, NoServer, NotLeader, Refusal, RollbackError, Unavailable
from .links import CLUSTER, Link, StreamEnded, Tls, host_and_port

T = TypeVar("T")
PATIENCE = 15.0  # seconds that a new leader is waited for, if a call says nothing else
TIMEOUT = 30.0  # seconds that a call waits for the next byte: a machine that is gone, or stopped, says nothing
MOST_CONNECT = 3.0  # seconds for a connection to one server
FIRST_PAUSE, LONGEST_PAUSE = 0.02, 0.5  # seconds between two tries
_KEEP_ALIVE = ((socket.TCP_KEEPIDLE, 5), (socket.TCP_KEEPINTVL, 2), (socket.TCP_KEEPCNT, 3))


def addresses_of(address: str) -> List[str]:
    """The servers that an address names: `cluster:host:port,host:port,..`."""
    found = [each.strip() for each in address[len(CLUSTER) :].split(",")]
    if any(host_and_port(each) is None for each in found):
        raise ValueError(f"a cluster's address is {CLUSTER}host:port,host:port,.., and not {address!r}")
    return found


def settled(address: str, timeout: Optional[float], retry: Optional[float], tls: Optional[Tls]) -> Tuple[Route, float]:
    """The way to a cluster, and how long a call waits for the next byte. Files of TLS that can't be read are an `OSError`."""
    if tls is not None:
        from .secured import context_of

        context_of(tls)
    return Route(addresses_of(address), PATIENCE if retry is None else retry), TIMEOUT if timeout is None else timeout


class Route:
    """Where the next try goes, and for how long there are others."""

    def __init__(self, addresses: List[str], patience: float):
        self.addresses, self._patience = addresses, patience
        self.at = addresses[0]
        self._ends, self._pause = 0.0, FIRST_PAUSE
        self._unavailable = 0  # servers in a row that had no majority of etcd, or no space in it

    def begin(self) -> None:
        """Begins the tries of one call."""
        self._ends, self._pause, self._unavailable = time.monotonic() + self._patience, FIRST_PAUSE, 0

    def pause_after(self, fault: Exception) -> float:
        """Where a refusal or a failed connection leads to, and after which pause. The fault is raised if there is no other try."""
        if isinstance(fault, NotLeader) and fault.leader != self.at:
            self.at, pause = fault.leader, 0.0
        else:
            self._turn()
            pause, self._pause = self._pause, min(2 * self._pause, LONGEST_PAUSE)
        if isinstance(fault, Unavailable) and fault.why != "election":
            self._unavailable += 1
            if self._unavailable >= len(self.addresses):
                raise fault
        else:
            self._unavailable = 0
        if time.monotonic() + pause >= self._ends:
            raise fault
        return pause

    def _turn(self) -> None:
        """Goes to the next server of those that the address names."""
        where = self.addresses.index(self.at) if self.at in self.addresses else -1
        self.at = self.addresses[(where + 1) % len(self.addresses)]


def is_elsewhere(outcome: object) -> bool:
    """Whether a refusal says that this server doesn't take lines now."""
    return isinstance(outcome, (NotLeader, Unavailable))


def may_be_elsewhere(fault: Exception) -> bool:
    """Whether a connection that failed says nothing of the other servers. One that has a wrong certificate is refused at once."""
    return not isinstance(fault, ssl.SSLCertVerificationError) and isinstance(
        fault, (OSError, Busy, ConnectionLost, NoServer, StreamEnded)
    )


def no_server(fault: Exception) -> Exception:
    """What is raised if the last try to connect failed so."""
    return NoServer(f"no server of the cluster answers: {fault}") if isinstance(fault, OSError) else fault


def keep_alive(link: Link) -> Link:
    """Has a connection end whose other machine is gone, also while nothing is sent."""
    if link.socket.family in (socket.AF_INET, socket.AF_INET6):
        link.socket.setsockopt(socket.SOL_SOCKET, socket.SO_KEEPALIVE, 1)
        for option, value in _KEEP_ALIVE:
            link.socket.setsockopt(socket.IPPROTO_TCP, option, value)
    return link


def look_if_closed(link: Link) -> None:
    """Raises `BookClosed` if the book was closed, so that no call connects it again."""
    if link.state == "closed":
        link.look()


class FollowingStream(streams.Stream):
    """Gives lines to whichever server leads."""

    def __init__(self, link: Link, route: Route, timeout: float, tls: Optional[Tls]):
        super().__init__(link, timeout)
        self._route, self._tls, self._is_lost = route, tls, False

    @classmethod
    def to(cls, address: str, timeout: Optional[float], retry: Optional[float], tls: Optional[Tls]) -> FollowingStream:
        """A stream to the server that leads. Raises `NoServer`, `Busy`, `ConnectionLost`, `Unavailable`."""
        route, seconds = settled(address, timeout, retry, tls)
        route.begin()
        return cls(_leading_link(route, seconds, tls), route, seconds, tls)

    def _exchange(self, asked: Sequence[Command[T]], data: bytes) -> List[Union[T, Refusal]]:
        self._route.begin()
        while True:
            if self._is_lost:
                look_if_closed(self.link)
                self.link = _leading_link(self._route, self._timeout or TIMEOUT, self._tls)
                self._is_lost = False
            try:
                outcomes = super()._exchange(asked, data)
            except ConnectionLost:
                self._is_lost = True
                raise
            elsewhere = [outcome for outcome in outcomes if isinstance(outcome, (NotLeader, Unavailable))]
            if not elsewhere:
                return outcomes
            self._is_lost = True
            self.link.cut()
            try:
                pause = self._route.pause_after(elsewhere[-1])
            except Refusal:
                return outcomes
            if len(elsewhere) < len(outcomes):
                return outcomes  # some were done: who gave them together sees which
            time.sleep(pause)


def _leading_link(route: Route, timeout: float, tls: Optional[Tls]) -> Link:
    while True:
        try:
            link = keep_alive(streams.link_to(route.at, min(timeout, MOST_CONNECT), tls))
            link.socket.setblocking(True)
            _greet(streams.Stream(link, timeout))
            return link
        except (OSError, RollbackError) as fault:
            if not (may_be_elsewhere(fault) or is_elsewhere(fault)):
                raise
            try:
                pause = route.pause_after(fault)
            except OSError as last:
                raise no_server(last) from last
        time.sleep(pause)


def _greet(stream: streams.Stream) -> None:
    try:
        stream.call(greeting())
    except (NotLeader, Unavailable):
        stream.link.cut()
        raise
    except Refusal:
        pass  # that the word is no command says that this server leads, and has a place


class AsyncFollowingStream(async_streams.AsyncStream):
    """The same for asyncio."""

    def __init__(self, link: Link, route: Route, timeout: float, tls: Optional[Tls]):
        super().__init__(link, timeout)
        self._route, self._tls, self._is_lost = route, tls, False

    @classmethod
    async def to(
        cls, address: str, timeout: Optional[float], retry: Optional[float], tls: Optional[Tls]
    ) -> AsyncFollowingStream:
        """A stream to the server that leads. Raises `NoServer`, `Busy`, `ConnectionLost`, `Unavailable`."""
        route, seconds = settled(address, timeout, retry, tls)
        route.begin()
        return cls(await _async_leading_link(route, seconds, tls), route, seconds, tls)

    async def call(self, command: Command[T]) -> T:
        """Gives a command's line, as `AsyncStream.call` does, to whichever server leads."""
        data = command.encoded()
        self.link.look_at_process()
        await self._turn.acquire()
        exchange: asyncio.Task[Any] = asyncio.ensure_future(self._followed(command, data))
        exchange.add_done_callback(self._have_ended)
        outcome: Union[T, Refusal] = await asyncio.shield(exchange)
        if isinstance(outcome, Refusal):
            raise outcome
        return outcome

    async def _followed(self, command: Command[T], data: bytes) -> Union[T, Refusal]:
        self._route.begin()
        while True:
            if self._is_lost:
                look_if_closed(self.link)
                self.link = await _async_leading_link(self._route, self._timeout or TIMEOUT, self._tls)
                self._is_lost = False
            self.link.begin(command.line)
            try:
                outcome = await self._exchange(command, memoryview(data), self._send_some(data))
            except ConnectionLost:
                self._is_lost = True
                raise
            if not isinstance(outcome, (NotLeader, Unavailable)):
                return outcome
            self._is_lost = True
            self.link.cut()
            try:
                pause = self._route.pause_after(outcome)
            except Refusal:
                return outcome
            await asyncio.sleep(pause)


async def _async_leading_link(route: Route, timeout: float, tls: Optional[Tls]) -> Link:
    while True:
        try:
            link = keep_alive(await async_streams.link_to(route.at, min(timeout, MOST_CONNECT), tls))
            await _async_greet(async_streams.AsyncStream(link, timeout))
            return link
        except (OSError, RollbackError) as fault:
            if not (may_be_elsewhere(fault) or is_elsewhere(fault)):
                raise
            try:
                pause = route.pause_after(fault)
            except OSError as last:
                raise no_server(last) from last
        await asyncio.sleep(pause)


async def _async_greet(stream: async_streams.AsyncStream) -> None:
    try:
        await stream.call(greeting())
    except (NotLeader, Unavailable):
        stream.link.cut()
        raise
    except Refusal:
        pass

"""A stream of lines for asyncio: calls wait for their turns, and one that was sent takes its reply off the stream, cancelled or not."""
from __future__ import annotations

import asyncio
import os
import socket
from typing import Any, Awaitable, Optional, TypeVar, Union

from .commands import Command, greeting
from .faults import Refusal, RollbackError, StreamBroken
from .lines import Replies
from .links import CHUNK, CLUSTER, Link, Retry, StreamEnded, Tls, host_and_port, unix_socket

T = TypeVar("T")


class AsyncStream:
    """Gives lines, and hands back what their replies say. It belongs to the loop in which it was made."""

    def __init__(self, link: Link, timeout: Optional[float] = None):
        self.link, self._timeout = link, timeout
        self._turn = asyncio.Lock()
        link.socket.setblocking(False)

    async def call(self, command: Command[T]) -> T:
        """Gives a command's line. A refusal is raised; whatever else keeps its reply from being read breaks the stream.

        Cancelled before its turn, it is never sent. Cancelled later, its reply is read before the next call has its turn.
        """
        data = command.encoded()
        self.link.look_at_process()
        await self._turn.acquire()
        try:
            self.link.begin(command.line)
            sent = self._send_some(data)
            exchange: asyncio.Task[Any] = asyncio.ensure_future(self._exchange(command, memoryview(data), sent))
        except BaseException:
            self._turn.release()
            raise
        exchange.add_done_callback(self._have_ended)
        outcome: Union[T, Refusal] = await asyncio.shield(exchange)
        if isinstance(outcome, Refusal):
            raise outcome
        return outcome

    async def close(self) -> None:
        """Ends the stream, after the calls before. A program that ends with another status than 0 is an error."""
        self.link.look_at_process()
        async with self._turn:
            fault = None
            if self.link.mark_closed():
                fault = await asyncio.get_running_loop().run_in_executor(None, self.link.finish)
        if fault is not None:
            raise fault

    def _have_ended(self, exchange: asyncio.Task[Any]) -> None:
        self._turn.release()
        if not exchange.cancelled():
            exchange.exception()  # of a call that was cancelled nobody else asks

    def _send_some(self, data: bytes) -> Union[int, OSError]:
        """Sends what can be sent at once, so that nothing can cancel a call between its turn and its line."""
        try:
            return self.link.socket.send(data)
        except BlockingIOError:
            return 0
        except OSError as fault:
            return fault

    async def _exchange(self, command: Command[T], data: memoryview, sent: Union[int, OSError]) -> Union[T, Refusal]:
        try:
            outcome = await self._reply(command, data, sent)
            self.link.end()
            return outcome
        except BaseException as fault:
            if isinstance(fault, Exception):
                error = await asyncio.get_running_loop().run_in_executor(None, self.link.failed, fault, command.line)
            else:
                error = self.link.failed(fault, command.line)
            if error is fault:
                raise
            raise error from fault

    async def _reply(self, command: Command[T], data: memoryview, sent: Union[int, OSError]) -> Union[T, Refusal]:
        loop = asyncio.get_running_loop()
        unsent: Optional[OSError] = None
        try:
            if isinstance(sent, OSError):
                raise sent
            if sent < len(data):
                await self._in_time(loop.sock_sendall(self.link.socket, data[sent:]))
        except (BrokenPipeError, ConnectionResetError) as fault:
            unsent = fault  # what the server said before it closed is read first
        replies = Replies()
        reply = None
        while reply is None:
            chunk = await self._in_time(loop.sock_recv(self.link.socket, CHUNK))
            if not chunk:
                raise unsent or StreamEnded("the connection has ended")
            replies.feed(chunk)
            reply = replies.next(command.is_list)
        outcome = command.outcome(reply)
        if unsent:
            raise unsent
        if replies.rest():
            raise StreamBroken("more bytes came than those of the reply")
        return outcome

    async def _in_time(self, what: Awaitable[T]) -> T:
        if self._timeout is None:
            return await what
        try:
            return await asyncio.wait_for(what, self._timeout)
        except asyncio.TimeoutError:
            raise StreamEnded(f"no byte came or went for {self._timeout} seconds") from None


async def connect(
    address: str, timeout: Optional[float], retry: Optional[float], tls: Optional[Tls] = None
) -> AsyncStream:
    """A stream to a server of lines that has a place for this caller, or to whichever server of a cluster leads."""
    if address.startswith(CLUSTER):
        from .following import AsyncFollowingStream

        return await AsyncFollowingStream.to(address, timeout, retry, tls)
    attempts = Retry(address, timeout, retry)
    while True:
        try:
            return await _connected(address, timeout, tls)
        except (OSError, RollbackError) as fault:
            pause = attempts.pause_after(fault)
        await asyncio.sleep(pause)


async def _connected(address: str, timeout: Optional[float], tls: Optional[Tls]) -> AsyncStream:
    stream = AsyncStream(await link_to(address, timeout, tls), timeout)
    try:
        await stream.call(greeting())
    except Refusal:
        pass  # that the word is no command says that there is a place
    except BaseException:
        stream.link.cut()
        raise
    return stream


async def link_to(address: str, timeout: Optional[float], tls: Optional[Tls] = None) -> Link:
    """A connection to a server of lines, secured if there are files of TLS. Raises `OSError`."""
    place = host_and_port(address)
    if tls is None:
        found = unix_socket(address) if place is None else await _tcp_socket(place[0], place[1], timeout)
        return Link(f"at {address}", found)
    if place is None:
        raise ValueError("TLS is for host:port, and not for a Unix socket")
    from .secured import SecuredLink, secured

    plain = await _tcp_socket(place[0], place[1], timeout)
    try:
        passing = await asyncio.get_running_loop().run_in_executor(None, secured, plain, place[0], tls, timeout)
    except BaseException:
        plain.close()
        raise
    return SecuredLink(f"at {address}", passing)


async def _tcp_socket(host: str, port: int, timeout: Optional[float]) -> socket.socket:
    loop = asyncio.get_running_loop()
    fault: OSError = OSError("no such host")
    for family, kind, number, _, place in await loop.getaddrinfo(host, port, type=socket.SOCK_STREAM):
        found = socket.socket(family, kind, number)
        found.setblocking(False)
        try:
            await asyncio.wait_for(loop.sock_connect(found, place), timeout)
            return found
        except asyncio.TimeoutError:
            found.close()
            fault = TimeoutError(f"no connection within {timeout} seconds")
        except OSError as refused:
            found.close()
            fault = refused
        except BaseException:
            found.close()
            raise
    raise fault

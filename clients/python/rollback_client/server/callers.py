"""Connections of callers, and the lines that come from them."""
from __future__ import annotations

import asyncio
import fcntl
import re
import select
import socket
import struct
import termios
from collections import deque
from typing import TYPE_CHECKING, Any, Callable, Deque, List, Optional, Tuple, Union, cast

from ..lines import MOST_BYTES
from .pieces import Pieces, pieces_of

if TYPE_CHECKING:
    from .running import Server

MOST_AT_HAND = 64  # whole lines of one caller that wait for their turn
MOST_UNCUT = 1 << 16  # further bytes of it
HEAD = 4096  # bytes of a line that are kept for the log
# lines that the server answers itself
OWN = re.compile(rb"!copy|!runner|!waits|!(?:pause|resume)(?: (?:execution|machine) [A-Za-z0-9_-]{1,64})?")


class Asked:
    """A line that came whole. `line` is given as it is, and `own` is the server's own reply, if it isn't given.

    `entries` has the lines of the journal that it became, if somebody counts them: the first one's number, and how many.
    """

    __slots__ = ("line", "head", "length", "since", "own", "entries", "is_logged")

    def __init__(self, line: bytes, head: bytes, length: int, since: float, own: Optional[bytes] = None):
        self.line, self.head, self.length, self.since, self.own = line, head, length, since, own
        self.entries: List[Tuple[int, int]] = []
        self.is_logged = True

    @property
    def is_for_server(self) -> bool:
        """Whether it is a question, or one of the server's own lines, and is no line of the program."""
        return self.own is None and self.head[:1] in (b"!", b"?")


class Cutter:
    """Cuts the bytes of a caller into lines. One that is too long is passed over, and keeps its head and its length."""

    def __init__(self) -> None:
        self._data = bytearray()
        self._looked = 0
        self._passed = 0
        self._head = b""

    def __len__(self) -> int:
        return len(self._data)

    def feed(self, data: bytes) -> None:
        """Takes bytes that came."""
        self._data += data

    def clear(self) -> None:
        """Drops what isn't cut yet."""
        self._data.clear()
        self._looked = 0

    def next(self, now: float) -> Optional[Asked]:
        """The next line that isn't empty, or nothing if none is whole."""
        data = self._data
        while True:
            end = data.find(b"\n", self._looked)
            if end < 0:
                self._looked = len(data)
                if len(data) > MOST_BYTES + 1:
                    self._pass_over()
                return None
            line = bytes(data[:end])
            del data[: end + 1]
            self._looked = 0
            text = line[:-1] if line.endswith(b"\r") else line
            if self._passed or len(text) > MOST_BYTES:
                length, head = self._passed + len(text), self._head or text[:HEAD]
                self._passed, self._head = 0, b""
                return Asked(b"", head, length, now, b"no 20\n")
            if text:
                own = b"no 20\n" if text.startswith(b"!") and not OWN.fullmatch(text) else None
                return Asked(line, text[:HEAD], len(text), now, own)

    def _pass_over(self) -> None:
        """Drops the bytes of a line that is too long, but for the last one: a carriage return at a line's end isn't counted."""
        self._head = self._head or bytes(self._data[:HEAD])
        self._passed += len(self._data) - 1
        del self._data[:-1]
        self._looked = 1


class Given:
    """What was given to the program and waits for its reply, or for the turn of the server's own reply."""

    __slots__ = ("caller", "asked", "line", "is_list", "pieces", "since")

    def __init__(self, caller: Caller, asked: Asked, line: bytes, is_list: bool, pieces: Optional[Pieces] = None):
        self.caller, self.asked, self.line, self.is_list, self.pieces = caller, asked, line, is_list, pieces
        self.since = 0.0  # when a piece was given


class Caller(asyncio.Protocol):
    """A connection. It reads on while few of its lines wait, and while its replies are read."""

    def __init__(self, server: Server):
        self.server = server
        self.transport: asyncio.Transport
        self.peer: Any = None
        self.lines: Deque[Asked] = deque()
        self.under_way: Optional[Given] = None  # a line in pieces, of which one is answered
        self.owed = 0  # lines that came, and whose reply wasn't handed on
        self.last = 0.0  # when something came from it, or went to it
        self.is_queued = False  # for a turn
        self.is_held = False  # its next line waits for the whole reply to the one before
        self.is_copying = False  # bytes of a copy are still to be sent
        self.is_gone = False
        self.takes: Optional[Callable[[bytes], None]] = None  # its bytes, if they are no lines
        self._cutter = Cutter()
        self._has_ended = False
        self._is_paused = False
        self._readable = asyncio.Event()
        self._readable.set()

    # ---- the connection

    def connection_made(self, transport: asyncio.BaseTransport) -> None:
        """Takes a place, or hears that there is none."""
        self.transport = cast(asyncio.Transport, transport)
        self.last = self.server.time()
        self.peer = _peer_of(transport)
        if not self.server.takes(self):
            self.is_gone = True
            self.transport.write(b"busy\n")
            self.transport.close()

    def connection_lost(self, fault: Optional[BaseException]) -> None:
        """The caller is gone. What it was given goes on to its end."""
        self.is_gone = True
        self._readable.set()
        self.lines.clear()
        self._cutter.clear()
        self.server.leaves(self)

    def data_received(self, data: bytes) -> None:
        """Takes bytes of lines."""
        if self.is_gone or self.server.is_ending:
            return
        self.last = self.server.time()
        if self.takes is not None:
            self.takes(data)
            return
        self._cutter.feed(data)
        self.cut()
        self.server.turns.want(self)
        self.server.turns.go_on()

    def eof_received(self) -> bool:
        """It gives no further line, and gets the replies to those that it gave. The last bytes without a line feed are dropped."""
        self._has_ended = True
        self.close_if_answered()
        return True

    def pause_writing(self) -> None:
        """It doesn't read its replies."""
        self._readable.clear()

    def resume_writing(self) -> None:
        """It has read most of its replies."""
        self._readable.set()
        if not self.is_gone:
            self.server.turns.want(self)
            self.server.turns.go_on()

    # ---- lines

    def cut(self) -> None:
        """Takes whole lines from its bytes, and reads on unless many wait."""
        now = self.last
        while len(self.lines) < MOST_AT_HAND:
            asked = self._cutter.next(now)
            if asked is None:
                break
            self.lines.append(asked)
            self.owed += 1
        wants_pause = len(self._cutter) > MOST_UNCUT and len(self.lines) >= MOST_AT_HAND
        if wants_pause != self._is_paused and not self.transport.is_closing():
            self._is_paused = wants_pause
            (self.transport.pause_reading if wants_pause else self.transport.resume_reading)()

    @property
    def wants_turn(self) -> bool:
        """Whether it has something to give, and reads its replies."""
        has_line = self.under_way is not None or bool(self.lines) and not self.is_held and not self._waits_for_own()
        return has_line and self._readable.is_set() and not self.is_gone

    def _waits_for_own(self) -> bool:
        """Whether its next line is a question or for the server, which come after the replies to its lines before."""
        asked = self.lines[0]
        return asked.is_for_server and asked.head != b"!copy" and self.owed > len(self.lines)

    def next_turn(self) -> Union[Given, Asked, None]:
        """What it gives at its turn: a line, or the next piece of one. A line that is the server's own comes as it was asked.

        Nothing comes of a line that the server keeps, to give it later.
        """
        if self.under_way is not None:
            given, self.under_way = self.under_way, None
            assert given.pieces is not None
            given.line = given.pieces.next_line()
            return given
        asked = self.lines.popleft()
        if asked.own is not None:
            return Given(self, asked, b"", False)
        if asked.is_for_server:
            return asked
        pieces = pieces_of(asked.head)
        if pieces is not None:
            self.is_held = True
            return Given(self, asked, pieces.next_line(), True, pieces)
        return Given(self, asked, asked.line + b"\n", asked.head.split(b" ", 1)[0] in LISTS)

    def tell(self, data: bytes, count: int) -> None:
        """Hands on replies to so many of its lines."""
        self.owed -= count
        if self.is_gone or self.transport.is_closing():
            return
        self.last = self.server.time()
        self.write(data)
        self.cut()
        self.close_if_answered()

    def write(self, data: bytes) -> None:
        """Sends bytes. For a caller that is gone nothing is sent or said."""
        if self.is_gone or self.transport.is_closing():
            return
        self.transport.write(data)
        if self.unread:
            self.server.unread.note(self, len(data))

    async def has_read(self) -> None:
        """Waits until it has read most of what was sent, or is gone."""
        await self._readable.wait()

    def has_gone(self) -> bool:
        """Whether nobody hears its replies. Who ends its lines, but not its connection, still does."""
        if self._has_ended and not self.is_gone and not self.transport.is_closing():
            ends = select.poll()
            ends.register(self.transport.get_extra_info("socket").fileno(), 0)
            if any(event & (select.POLLHUP | select.POLLERR) for _, event in ends.poll(0)):
                self.leave()
        return self.is_gone

    @property
    def unread(self) -> int:
        """Bytes that it hasn't read, beyond those that its socket has."""
        return self.transport.get_write_buffer_size()

    # ---- ends

    @property
    def is_idle(self) -> bool:
        """Whether nothing is owed to it."""
        return not self.owed and not self.unread and self.takes is None

    def close_if_answered(self) -> None:
        """Ends a connection whose caller has ended its lines, once it has all replies."""
        if self._has_ended and not self.owed:
            self.transport.close()

    def stop(self) -> None:
        """Takes no further line, and ends one in pieces with the piece at hand. What still comes is read and dropped."""
        self._cutter.clear()
        if self._is_paused and not self.transport.is_closing():
            self._is_paused = False
            self.transport.resume_reading()

    def drop_lines(self) -> None:
        """Forgets lines that the program wasn't given."""
        self.owed -= len(self.lines)
        self.lines.clear()

    def close_if_read(self) -> None:
        """Ends the connection, if all that it was sent is on its side."""
        if not self.is_copying and not self.unread and not self._in_flight():
            self.transport.close()

    def _in_flight(self) -> int:
        """Bytes that aren't on its side. What was sent over a Unix socket is."""
        sock = self.transport.get_extra_info("socket")
        if sock is None or sock.family == socket.AF_UNIX:
            return 0
        try:
            return int(struct.unpack("i", fcntl.ioctl(sock.fileno(), termios.TIOCOUTQ, b"\0" * 4))[0])
        except OSError:
            return 0

    def leave(self) -> None:
        """Ends the connection at once."""
        self.is_gone = True
        self.transport.abort()


LISTS = frozenset((b"items", b"history", b"plan", b"rollback", b"drive", b"work", b"held"))


def _peer_of(transport: asyncio.BaseTransport) -> Any:
    """Who calls: the user and the process on a Unix socket, else the address."""
    sock = transport.get_extra_info("socket")
    if sock.family == socket.AF_UNIX:
        process, user, _ = struct.unpack("iII", sock.getsockopt(socket.SOL_SOCKET, socket.SO_PEERCRED, 12))
        return {"uid": user, "pid": process}
    host, port = (transport.get_extra_info("peername") or ("unknown", 0))[:2]
    return f"[{host}]:{port}" if ":" in host else f"{host}:{port}"

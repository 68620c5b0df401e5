"""A runner that is a caller of a server. It has two connections: one for its lines, and one on which the server speaks to it."""
from __future__ import annotations

import json
import select
import socket
import time
from typing import Any, Callable, Dict, Generator, Optional

from ..book import Book
from ..commands import Command, step
from ..faults import Busy, ConnectionLost, NoServer, NotLeader, Refusal, StreamBroken, Unavailable
from ..links import CHUNK, Tls
from ..questions import threads
from ..streams import connected_socket
from .clock_file import Arrival, ClockFile
from .clocks import wait_line
from .running import PAGE, Ask, Look, Options, Running, Sleep, Steps

LOOKS = 0.2  # seconds between two looks at what changed
BATCH = 64  # steps that are given at once
GONE = (NoServer, Busy, ConnectionLost, StreamBroken, NotLeader, Unavailable, OSError)


class NoQuestions(Exception):
    """The server answers no questions, so no runner can run by it."""


class Clock:
    """The machine's clock."""

    def now(self) -> float:
        """Seconds since 1970."""
        return time.time()

    def sleep(self, until: Optional[float], most: float, heard: Optional[socket.socket]) -> None:
        """Sleeps until a moment, at most so many seconds, and no longer than until something comes on the connection."""
        seconds = most if until is None else min(max(until - self.now(), 0.0), most)
        if heard is None:
            time.sleep(seconds)
        else:
            select.select([heard], [], [], seconds)


class Control:
    """The connection on which the server says what is paused, and asks for what is waited for."""

    def __init__(self, address: str, timeout: Optional[float], tls: Optional[Tls] = None):
        self.socket = connected_socket(address, timeout, tls)
        self._rest = b""
        self.socket.sendall(b"!runner\n")
        first = self._line()
        self.socket.setblocking(False)
        if not first.startswith(b"ok "):
            self.socket.close()
            if first == b"busy":
                raise Busy()
            raise NoQuestions(f"the server at {address} answers no questions: begin it with --ask")
        self.first = first[3:].decode()

    def _line(self) -> bytes:
        while b"\n" not in self._rest:
            chunk = self.socket.recv(CHUNK)
            if not chunk:
                raise ConnectionLost("the server has ended the connection")
            self._rest += chunk
        line, _, self._rest = self._rest.partition(b"\n")
        return line

    def next_line(self) -> Optional[str]:
        """The next line, if one has come. A connection that has ended is a `ConnectionLost`."""
        while b"\n" not in self._rest:
            try:
                chunk = self.socket.recv(CHUNK)
            except BlockingIOError:
                return None
            if not chunk:
                raise ConnectionLost("the server has ended the connection")
            self._rest += chunk
        line, _, self._rest = self._rest.partition(b"\n")
        return line.decode()

    def answer(self, *lines: str) -> None:
        """Answers a line of the server's."""
        self.socket.setblocking(True)
        try:
            self.socket.sendall("".join(line + "\n" for line in lines).encode())
        finally:
            self.socket.setblocking(False)


class Alone:
    """Runs the book of a server, and waits for it if it is gone, at most `wait` seconds."""

    def __init__(
        self,
        address: str,
        options: Options,
        clock_file: ClockFile,
        wait: float,
        say: Callable[[str], None],
        clock: Optional[Clock] = None,
        tls: Optional[Tls] = None,
    ):
        self._tls = tls
        self._address, self._options, self._clock_file, self._wait = address, options, clock_file, wait
        self._say, self._clock = say, clock or Clock()
        self._arrivals: Dict[str, Arrival] = {}
        self._said_gone = False
        self._has_run = False

    def run(self) -> None:
        """Runs until the server is gone for good, which raises why. `NoQuestions` says that it can't be run by."""
        ends: Optional[float] = time.monotonic() + self._wait
        while True:
            try:
                self._serve()
            except GONE as fault:
                if self._has_run:
                    # it was there: it is waited for from now on
                    ends, self._has_run = time.monotonic() + self._wait, False
                    self._say(f"the server at {self._address} is gone, and waited for: {fault}")
                if ends is not None and time.monotonic() >= ends:
                    raise
            time.sleep(min(0.1, self._wait))

    def _serve(self) -> None:
        control = Control(self._address, 60.0, self._tls)
        try:
            with Book.connect(self._address, tls=self._tls) as book:
                self._has_run = True
                running = Running(self._options, self._clock_file, self._clock.now, self._say, lambda: BATCH)
                self._stand_by(control, running)
                try:
                    _Runs(book, control, running, self._clock).run(self._arrivals)
                finally:
                    self._arrivals = running.schedule.arrivals() or self._arrivals
        finally:
            control.socket.close()

    def _stand_by(self, control: Control, running: Running) -> None:
        """Waits until this runner is the one that runs."""
        word, _, rest = control.first.partition(" ")
        if word == "stand":
            self._say("another runner runs: this one stands by")
        while word != "run":
            select.select([control.socket], [], [])
            word, _, rest = (control.next_line() or "").partition(" ")
        running.paused = _paused_of(rest)


def _paused_of(text: str) -> set[Any]:
    return {(kind, name) for kind, name in json.loads(text)}


class _Runs:
    """Does what a `Running` yields, over the two connections."""

    def __init__(self, book: Book, control: Control, running: Running, clock: Clock):
        self._book, self._control, self._running, self._clock = book, control, running, clock

    def run(self, arrivals: Dict[str, Arrival]) -> None:
        """Runs until a connection ends."""
        self._running.kept_arrivals = arrivals
        talk: Generator[Any, Any, None] = self._running.run()
        sent: Any = None
        while True:
            asked = talk.send(sent)
            if isinstance(asked, (Look, Sleep)):
                # not between the choice of steps and these: nothing is stepped after a pause was answered
                self._hear()
            if isinstance(asked, Look):
                sent = self._ask(threads(None, asked.since, None, PAGE))
            elif isinstance(asked, Steps):
                outcomes = self._book.give_all([step(known.thread) for known in asked.threads])
                sent = [outcome if isinstance(outcome, Refusal) else None for outcome in outcomes]
            elif isinstance(asked, Ask):
                sent = self._ask(asked.command)
            else:
                sent = None
                self._sleep(asked)

    def _ask(self, command: Command[Any]) -> Any:
        try:
            return self._book.give(command)
        except Refusal as refusal:
            return refusal

    def _sleep(self, asked: Sleep) -> None:
        if asked.until is None or asked.until > self._clock.now():
            self._clock.sleep(asked.until, LOOKS, self._control.socket)

    def _hear(self) -> None:
        """Answers what the server says. None of this runner's lines is under way."""
        while (line := self._control.next_line()) is not None:
            word, _, rest = line.partition(" ")
            if word == "paused":
                self._running.paused = _paused_of(rest)
                self._running.changed_pauses()
                self._control.answer("ok")
            elif word == "waits":
                told = [wait_line(*wait) for wait in self._running.schedule.waits(self._running.now())]
                self._control.answer(f"ok {len(told)}", *told)

"""Who runs the book: the runner within the server, or callers that made themselves known as runners. And what is paused."""
from __future__ import annotations

import asyncio
import json
from collections import deque
from typing import Callable, Deque, List, Optional, Tuple

from ..runner.clock_file import ClockFile, Whom
from ..runner.clocks import wait_line
from .callers import Asked, Caller
from .inside import InsideRunner

NO_RUNNER = b"no 31\n"
Answer = Callable[[Caller, Asked, bytes], None]


class OutsideRunner:
    """A caller that runs the book. It is sent lines, and answers each with `ok`, or `ok N` and N lines."""

    def __init__(self, caller: Caller):
        self.caller = caller
        self._waiting: Deque[asyncio.Future[List[bytes]]] = deque()
        self._lines: List[bytes] = []
        self._rest = b""

    def take(self, data: bytes) -> None:
        """Takes bytes of answers."""
        *lines, self._rest = (self._rest + data).split(b"\n")
        for line in lines:
            self._lines.append(line)
            count = int(self._lines[0][3:]) if self._lines[0][3:].isdigit() else 0
            if len(self._lines) == count + 1:
                told, self._lines = self._lines, []
                if self._waiting:
                    self._waiting.popleft().set_result(told)

    def push(self, line: bytes) -> None:
        """Sends a line that isn't answered."""
        self.caller.write(line + b"\n")

    async def ask(self, line: bytes) -> Optional[List[bytes]]:
        """Sends a line, and waits for its answer; nothing if its connection has ended."""
        answer: asyncio.Future[List[bytes]] = asyncio.get_running_loop().create_future()
        self._waiting.append(answer)
        self.push(line)
        try:
            return await answer
        except asyncio.CancelledError:
            if answer.cancelled() and self.caller.is_gone:
                return None
            raise

    def has_gone(self) -> None:
        """Its connection has ended."""
        for answer in self._waiting:
            answer.cancel()
        self._waiting.clear()


class Runners:
    """The runner, those that stand by, and what is paused."""

    def __init__(self, clock_file: ClockFile, answer: Answer):
        self._clock_file, self._answer = clock_file, answer
        self.inside: Optional[InsideRunner] = None
        self.changed: Callable[[], None] = lambda: None  # what is paused, or who runs
        self._outside: List[OutsideRunner] = []  # the first one runs, if there is none inside
        self._turn = asyncio.Lock()

    async def take(self, caller: Caller, asked: Asked) -> None:
        """Answers a line for the runner."""
        if asked.head == b"!runner":
            self._answer(caller, asked, self._come(caller))
            return
        async with self._turn:
            if asked.head == b"!waits":
                self._answer(caller, asked, await self._waits())
                return
            verb, whom = _meant(asked.head)
            (self._clock_file.pause if verb == b"!pause" else self._clock_file.resume)(whom)
            await self._tell_pauses()
            self.changed()
            self._answer(caller, asked, b"ok\n")

    def paused(self) -> bytes:
        """What is paused, as JSON."""
        return json.dumps(sorted(self._clock_file.paused)).encode()

    async def end(self) -> None:
        """Ends the runner, and lets callers go that ran or stood by."""
        if self.inside is not None:
            await self.inside.end()
        for runner in list(self._outside):
            runner.caller.leave()
        self._clock_file.close()

    async def _tell_pauses(self) -> None:
        """Waits until the runner has stopped what is paused."""
        if self.inside is not None:
            await self.inside.changed_pauses()
        elif self._outside:
            await self._outside[0].ask(b"paused " + self.paused())

    @property
    def is_there(self) -> bool:
        """Whether a runner takes steps."""
        return self.inside is not None or bool(self._outside)

    async def waits(self) -> Optional[List[bytes]]:
        """What waits, a line of JSON for each; nothing if no runner runs."""
        if self.inside is not None:
            running = self.inside.running
            return [wait_line(*wait).encode() for wait in running.schedule.waits(running.now())]
        found = await self._outside[0].ask(b"waits") if self._outside else None
        return None if found is None else found[1:]

    async def _waits(self) -> bytes:
        told = await self.waits()
        if told is None:
            return NO_RUNNER
        return b"".join(line + b"\n" for line in (b"ok %d" % len(told), *told))

    # ---- callers that run

    def _come(self, caller: Caller) -> bytes:
        runner = OutsideRunner(caller)
        caller.takes = runner.take
        self._outside.append(runner)
        self.changed()
        if self.inside is None and len(self._outside) == 1:
            return b"ok run " + self.paused() + b"\n"
        return b"ok stand\n"

    def leaves(self, caller: Caller) -> None:
        """Has the next one run, if the one that ran is gone."""
        for runner in self._outside:
            if runner.caller is caller:
                was_first = runner is self._outside[0]
                self._outside.remove(runner)
                runner.has_gone()
                self.changed()
                if was_first and self._outside and self.inside is None:
                    self._outside[0].push(b"run " + self.paused())
                return


def _meant(head: bytes) -> Tuple[bytes, Whom]:
    verb, *words = head.split(b" ")
    return verb, (words[0].decode(), words[1].decode()) if words else ("all", "")

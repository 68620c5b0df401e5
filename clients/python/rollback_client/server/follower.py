"""The follower: a second process with the same book, which is fed each accepted line and answers callers' questions.

It begins on a copy of the journal, as `rollback_client.copy` has one. If it ends, or refuses a line, it is begun again on a new copy. Until
then a question is answered that there is no follower, and lines go on.
"""
from __future__ import annotations

import asyncio
import os
import shutil
import sqlite3
import tempfile
import time
from collections import deque
from typing import Any, Callable, Coroutine, Deque, List, Optional

from ..commands import GREETING
from .program import Program
from .speaking import say
from .turns import Turns

NO_FOLLOWER = b'{"rollback_graph":1,"error":"no follower"}'
FIRST_PAUSE, LONGEST_PAUSE = 0.1, 30.0  # seconds before it is begun again
PATIENCE = 5.0  # seconds that it has to end
STEADY = 10.0  # seconds after which one that ends is begun again at once
MOST_WAITING = 256 << 20  # bytes of lines that it hasn't read
_KEPT = frozenset((b"table", b"define", b"start", b"step", b"undo", b"rollback", b"settle", b"hold"))
_MOVING = frozenset((b"drive", b"work"))
Take = Callable[[bytes], None]


def accepted(line: bytes, reply: bytes) -> List[bytes]:
    """The journal's lines of a line that was answered so: none of a question or a refusal, and each step of a drive."""
    if not reply.startswith(b"ok"):
        return []
    word = line.split(b" ", 1)[0].rstrip()
    if word in _KEPT:
        line = line[:-1] if line.endswith(b"\n") else line
        return [line[:-1] if line.endswith(b"\r") else line]
    if word in _MOVING:
        return [b"step " + name.rpartition(b"#")[0] for name in reply.split(b"\n")[1:-1]]
    return []


class Follower:
    """The process at hand, if there is one, and what waits for its answers."""

    def __init__(self, turns: Turns, graph: str, journal: Optional[str]):
        self._turns, self._graph, self._journal = turns, graph, journal
        self._process: Optional[Program] = None
        self._asked: Deque[Optional[Take]] = deque()  # for each line that it wasn't heard on: who takes the answer
        self._unsent: List[bytes] = []
        self._since: Optional[List[bytes]] = None  # what was accepted since the copy on which it is begun
        self._data = bytearray()
        self._looked = 0
        self._pause = FIRST_PAUSE
        self._began = 0.0
        self._is_ending = False
        self._is_lost = asyncio.Event()
        self._tasks: set[asyncio.Task[None]] = set()
        self.count = 0  # lines that were accepted since the beginning
        self.heard: Callable[[], None] = lambda: None  # something was accepted
        self.begun: Callable[[], None] = lambda: None  # it was begun again
        self.moved: Callable[[], None] = lambda: None  # any of both, or it was lost: pages look again

    # ---- lines and questions

    @property
    def is_there(self) -> bool:
        """Whether it answers questions now."""
        return self._process is not None

    def follow(self, line: bytes, reply: bytes) -> int:
        """Feeds the accepted lines of a line that the program has answered so, and says how many these are."""
        lines = accepted(line, reply)
        if not lines:
            return 0
        self.count += len(lines)
        if self._process is not None:
            self._feed(lines)
        elif self._since is not None:
            self._since += lines
        self.heard()
        self.moved()
        return len(lines)

    def _feed(self, lines: List[bytes]) -> None:
        if not self._unsent:
            asyncio.get_running_loop().call_soon(self._send)
        self._unsent += lines

    def _send(self) -> None:
        """Sends what it is to be fed, all at once."""
        lines, self._unsent = self._unsent, []
        if self._process is None or not lines:
            return
        self._asked.extend([None] * len(lines))
        self._process.write(b"".join(b"= " + line + b"\n" for line in lines))
        if self._process.waiting > MOST_WAITING:
            self._lose("it doesn't read its lines")

    def ask(self, question: bytes, take: Take) -> None:
        """Has a question answered: `take` gets the answer without its line feed, later and never at once."""
        if self._process is None:
            asyncio.get_running_loop().call_soon(take, NO_FOLLOWER)
            return
        self._send()
        if self._process is None:
            asyncio.get_running_loop().call_soon(take, NO_FOLLOWER)
            return
        self._asked.append(take)
        self._process.write(question + b"\n")

    def _take(self, process: Program, data: bytes) -> None:
        if process is not self._process:
            return
        self._data += data
        while True:
            end = self._data.find(b"\n", self._looked)
            if end < 0:
                self._looked = len(self._data)
                return
            answer = bytes(self._data[:end])
            del self._data[: end + 1]
            self._looked = 0
            if not self._asked:
                self._lose("it answers what it wasn't asked")
                return
            take = self._asked.popleft()
            if take is not None:
                take(answer)
                if process is not self._process:
                    return
            elif answer != b"ok":
                self._lose(f"it refuses a line: {answer[:200].decode(errors='replace')}")
                return

    # ---- the process

    async def begin(self) -> None:
        """Begins it before any line is given. A program that can't follow is a `ValueError`."""
        try:
            await self._start(await asyncio.to_thread(self._copied))
        except (OSError, sqlite3.Error) as fault:
            raise ValueError(f"{self._graph} can't be begun: {fault}") from fault
        if self._process is None:
            raise ValueError(f"{self._graph} answers no questions: it is another program, or an earlier one")
        self._spawn(self._keep_up())

    def _copied(self) -> Optional[str]:
        """A copy of the journal in a folder of its own, in one file. The program has to be quiet, and the server goes on meanwhile."""
        if self._journal is None:
            return None
        place = os.path.abspath(self._journal)
        room = tempfile.mkdtemp(prefix=f".{os.path.basename(place)}-", dir=os.path.dirname(place))
        made = os.path.join(room, "book")
        try:
            for end in ("", "-wal"):
                if os.path.exists(place + end):
                    shutil.copyfile(place + end, made + end)
            store = sqlite3.connect(made)
            store.execute("PRAGMA journal_mode=DELETE")
            store.close()
        except BaseException:
            shutil.rmtree(room, ignore_errors=True)
            raise
        if self._is_ending:
            shutil.rmtree(room, ignore_errors=True)  # nobody waits for it any more
        return made

    async def _start(self, made: Optional[str]) -> None:
        process = Program([self._graph, *([made] if made is not None else []), "--serve"])
        try:
            await process.start()
            process.write(f"{GREETING}\n".encode())
            try:
                await _first_of(process.answered, process.ended)
            except asyncio.CancelledError:
                process.kill()
                raise
            if process.answered.is_set():
                process.take_by(lambda data: self._take(process, data))
        except ValueError:
            await process.status()
            return
        finally:
            if made is not None:
                shutil.rmtree(os.path.dirname(made), ignore_errors=True)
        if process.ended.is_set():
            await process.status()
            return
        self._process, self._began = process, time.monotonic()
        self._spawn(self._watch(process))

    async def _watch(self, process: Program) -> None:
        await process.ended.wait()
        if process is self._process and not self._is_ending:
            self._lose("it has ended")

    def _lose(self, why: str) -> None:
        """Goes on without it, and has it begun again."""
        process, self._process = self._process, None
        if process is None:
            return
        if time.monotonic() - self._began > STEADY:
            self._pause = FIRST_PAUSE
        process.kill()
        self._spawn(process.reaped())
        asked, self._asked, self._unsent = self._asked, deque(), []
        self._data, self._looked = bytearray(), 0
        for take in asked:
            if take is not None:
                asyncio.get_running_loop().call_soon(take, NO_FOLLOWER)
        if self._journal is None:
            say(f"the follower is gone, and a book in memory has no journal to begin it again on: {why}")
        elif not self._is_ending:
            say(f"the follower is begun again: {why}")
            self._is_lost.set()
        self.moved()

    async def _keep_up(self) -> None:
        """Begins it again whenever it is lost."""
        while True:
            await self._is_lost.wait()
            self._is_lost.clear()
            while self._process is None:
                await asyncio.sleep(self._pause)
                self._pause = min(2 * self._pause, LONGEST_PAUSE)
                await self._begin_again()

    async def _begin_again(self) -> None:
        """Begins it on a copy that is made between two lines. It has the lines that came since before it is asked anything."""
        is_quiet = asyncio.Event()
        self._turns.when_quiet(is_quiet.set)
        self._turns.go_on()
        await is_quiet.wait()
        try:
            try:
                made = await asyncio.to_thread(self._copied)
            finally:
                self._since = []
                self._turns.go_on_after_copy()
            await self._start(made)
        except (OSError, sqlite3.Error) as fault:
            say(f"the follower can't be begun: {fault}")
        since, self._since = self._since, None
        if self._process is not None:
            self._feed(since or [])
            self.begun()
            self.moved()

    def _spawn(self, work: Coroutine[Any, Any, None]) -> None:
        task = asyncio.ensure_future(work)
        self._tasks.add(task)
        task.add_done_callback(self._tasks.discard)

    async def end(self) -> None:
        """Ends it, and all that was under way."""
        self._is_ending = True
        process, self._process = self._process, None
        for task in list(self._tasks):
            task.cancel()
        if process is None:
            return
        process.end_input()
        try:
            await asyncio.wait_for(process.status(), PATIENCE)
        except asyncio.TimeoutError:
            process.kill()
            await process.status()


async def _first_of(*events: asyncio.Event) -> None:
    tasks = [asyncio.ensure_future(event.wait()) for event in events]
    await asyncio.wait(tasks, return_when=asyncio.FIRST_COMPLETED)
    for task in tasks:
        task.cancel()


def graph_beside(program: str, named: Optional[str]) -> str:
    """The path of `rollback_graph`: as it is named, or beside the program, or on the path. None is a `ValueError`."""
    if named is not None:
        found = shutil.which(named)
        if found is None:
            raise ValueError(f"no program {named}: --graph is the path of rollback_graph")
        return found
    at = shutil.which(program)
    beside = [os.path.join(os.path.dirname(of), "rollback_graph") for of in (at, os.path.realpath(at))] if at else []
    found = next((path for path in beside if os.access(path, os.X_OK)), None) or shutil.which("rollback_graph")
    if found is None:
        raise ValueError("no rollback_graph beside the program or on the path: name it by --graph")
    return found

"""The server's beginning, its callers, and its end."""
from __future__ import annotations

import asyncio
import logging
import os
import signal
import time
from typing import TYPE_CHECKING, Any, Callable, Coroutine, Dict, Optional, Set, Tuple

from ..commands import GREETING
from ..runner.clock_file import ClockFile
from .callers import Asked, Caller
from .follower import NO_FOLLOWER, Follower, graph_beside
from .inside import InsideRunner
from .places import UnixPlace, loopback
from .program import Program, is_in_use, meaning
from .runners import NO_RUNNER, Answer, Runners
from .speaking import say, say_bytes
from .turns import Turns
from .unread import Unread
from .within import Lines
from .words import Words

if TYPE_CHECKING:
    import ssl

    from ..aws.serving import Amazon
    from ..web.serving import Web

BACKLOG = 512  # callers that wait to be taken
ENDING = (signal.SIGTERM, signal.SIGINT, signal.SIGQUIT)


class Server:
    """One program, and the callers whose lines it is given."""

    def __init__(self, words: Words):
        self.words = words
        self.turns = Turns(self._write, self._own)
        self.unread = Unread(words.unread << 20)
        self.callers: Set[Caller] = set()
        self.is_ending = False
        self._program: Program
        self._place = UnixPlace(words.socket, words.mode, words.group) if words.socket else None
        self._asked_to_end = asyncio.Event()
        self._is_hurried = False
        self._copies: Set[asyncio.Task[None]] = set()
        self._follower: Optional[Follower] = None
        self._runners: Optional[Runners] = None
        self.lines = Lines(self, self.turns)
        self._web: Optional[Web] = None
        self._amazon: Optional[Amazon] = None

    # ---- callers

    def time(self) -> float:
        """Seconds of a clock that only goes on."""
        return time.monotonic()

    def takes(self, caller: Caller) -> bool:
        """Gives a caller a place, if there is one, or one that idles makes room."""
        if self.is_ending or len(self.callers) >= self.words.callers and not self._make_room():
            return False
        self.callers.add(caller)
        return True

    def leaves(self, caller: Caller) -> None:
        """Forgets a caller that is gone."""
        self.callers.discard(caller)
        self.unread.forget(caller)
        self.turns.end_pieces(caller)
        if self._runners is not None:
            self._runners.leaves(caller)

    def _make_room(self) -> bool:
        if self.words.idle is None:
            return False
        longest = self.time() - self.words.idle
        idle = [caller for caller in self.callers if caller.is_idle and caller.last <= longest]
        if not idle:
            return False
        caller = min(idle, key=lambda caller: caller.last)
        self.callers.discard(caller)
        caller.leave()
        return True

    def _write(self, data: bytes) -> None:
        self._program.write(data)

    def _own(self, caller: Caller, asked: Asked) -> None:
        """Answers a line that isn't the program's."""
        if asked.head == b"!copy":
            self.turns.when_quiet(lambda: self._copy(caller, asked))
        elif asked.head.startswith(b"?"):
            self._ask(caller, asked)
        elif self._runners is None:
            self._answer(caller, asked, NO_RUNNER)
        else:
            self._keep(self._runners.take(caller, asked))

    def _answer(self, caller: Caller, asked: Asked, reply: bytes) -> None:
        """Answers such a line, later and never at once."""
        asyncio.get_running_loop().call_soon(self._answer_now, caller, asked, reply)

    def _answer_now(self, caller: Caller, asked: Asked, reply: bytes) -> None:
        self.turns.log_own(caller, asked, reply)
        self.turns.answered(caller, reply)

    def _ask(self, caller: Caller, asked: Asked) -> None:
        """Has the follower answer a question."""
        if self._follower is None:
            self._answer(caller, asked, NO_FOLLOWER + b"\n")
            return
        question = asked.line[:-1] if asked.line.endswith(b"\r") else asked.line
        self._follower.ask(question, lambda answer: self._answer_now(caller, asked, answer + b"\n"))

    def _copy(self, caller: Caller, asked: Asked) -> None:
        from .copy import send_copy  # who never asks for a copy doesn't need it

        self._keep(send_copy(self.turns, self.words.journal, caller, asked))

    def _keep(self, work: Coroutine[Any, Any, None]) -> None:
        task = asyncio.ensure_future(work)
        self._copies.add(task)
        task.add_done_callback(self._copies.discard)

    # ---- the beginning

    async def run(self) -> int:
        """Serves until a signal, or the program's end. The program's status comes back."""
        self._take_signals()
        if self._place:
            self._place.clear()
        if self.words.log is not None:
            from .log import Log

            self.turns.log = Log(self.words.log)
        if not await self._open_program():
            return await self._status()
        try:
            await self._begin_follower()
            await self._begin_amazon()
            self._begin_runner(ClockFile(None if self.words.journal is None else f"{self.words.journal}-clock", say))
            await self._begin_web()
            listening = await self._listen()
        except (OSError, ValueError):
            if self._place:
                self._place.remove()
            if self._web is not None:
                await self._web.end()
            self._program.end_input()
            await self._program.status()
            raise
        await self._first_of(self._asked_to_end, self._program.ended)
        await self._end(listening)
        return await self._status()

    def _take_signals(self) -> None:
        loop = asyncio.get_running_loop()
        for number in ENDING:
            loop.add_signal_handler(number, self._ask_to_end)
        loop.add_signal_handler(signal.SIGHUP, self._hang_up)

    def _ask_to_end(self) -> None:
        # A second signal is impatient: nobody is waited for any more.
        self._is_hurried = self._asked_to_end.is_set()
        self._asked_to_end.set()

    def _hang_up(self) -> None:
        if self.turns.log is not None:
            self.turns.log.reopen()
        else:
            self._ask_to_end()

    async def _open_program(self) -> bool:
        """Starts the program, and waits until it answers, and so has opened its journal."""
        journal = ("--journal", self.words.journal) if self.words.journal is not None else ()
        ends = self.time() + self.words.wait
        was_free = False
        while True:
            self._program = Program([self.words.program, *journal])
            await self._program.start()
            self._program.write(f"{GREETING}\n".encode())
            await self._first_of(self._asked_to_end, self._program.ended, self._program.answered)
            if self._program.answered.is_set():
                self._program.take_by(self.turns.feed)
                return True
            self._program.end_input()
            await self._program.status()
            is_free = not is_in_use(self._program.said(), self.words.journal)
            # it may have become free since the program was refused
            if self._asked_to_end.is_set() or self.time() >= ends or is_free and was_free:
                return False
            was_free = is_free
            await asyncio.sleep(min(0.1, max(0.0, ends - self.time())))

    async def _begin_follower(self) -> None:
        words = self.words
        if not words.ask:
            return
        follower = self._follower = Follower(self.turns, graph_beside(words.program, words.graph), words.journal)
        await follower.begin()
        self.turns.follow = follower.follow
        self.lines.follower = follower

    async def _begin_amazon(self) -> None:
        """Learns what the book has, before any line is given."""
        if self.words.aws:
            from ..aws.serving import Amazon, credentials_of  # a server without --aws doesn't need it

            self._amazon = Amazon(self, self.words, credentials_of(self.words))
            await self._amazon.begin()
            if self._amazon.wants_table():
                reply = await self._amazon.begin_table()
                if reply != "ok":
                    raise ValueError(f"the book can't be begun by --table: it answers {reply}")

    def _begin_runner(self, clock_file: ClockFile, answer: Optional[Answer] = None) -> None:
        words, follower = self.words, self._follower
        if follower is None:
            return
        self._runners = Runners(clock_file, answer or self._answer)
        if words.run:
            self._runners.inside = InsideRunner(self, self.turns, follower, words.runner_options(), clock_file)
            self._runners.inside.begin()

    async def _begin_web(self) -> None:
        if self.words.http is None or self._follower is None:
            return
        from ..web.serving import Web  # who serves no pages needs no aiohttp

        self._web = Web(self, self.words)
        if self._amazon is not None:
            self._web.amazon = self._amazon.handle
        await self._web.attach(self._follower)
        self._web.attach_runners(self._runners)
        await self._web.begin()

    async def _listen(self) -> asyncio.AbstractServer:
        loop = asyncio.get_running_loop()
        if self._place:
            made = self._place.bind()
            listening = await loop.create_unix_server(self._new_caller, sock=made, backlog=BACKLOG)
            name = os.fsencode(self._place.path)
            if self._place.others_reach_it():
                does = "lets them in" if self._place.mode & 0o006 else "alone keeps them out"
                say(
                    f"others can reach the folder of {self._place.path}: the socket's mode {self._place.mode:04o} {does}"
                )
        else:
            host, port = self._host_and_port()
            listening = await loop.create_server(self._new_caller, host, port, backlog=BACKLOG, ssl=self._tls())
            port = listening.sockets[0].getsockname()[1]
            name = f"{(self.words.listen or '').rpartition(':')[0]}:{port}".encode()
        try:
            os.write(1, b"serving on %s\n" % name)
        except OSError:
            pass  # nobody hears it
        if self._web is not None:
            self._web.say_where()
        return listening

    def _new_caller(self) -> Caller:
        return Caller(self)

    def _host_and_port(self) -> Tuple[str, int]:
        return loopback(self.words.listen or "")

    def _tls(self) -> Optional[ssl.SSLContext]:
        return None

    async def _first_of(self, *events: asyncio.Event) -> None:
        tasks = [asyncio.ensure_future(event.wait()) for event in events]
        await asyncio.wait(tasks, return_when=asyncio.FIRST_COMPLETED)
        for task in tasks:
            task.cancel()

    # ---- the end

    async def _end(self, listening: asyncio.AbstractServer) -> None:
        """Answers what is at hand, ends the program, and waits until callers have read their replies."""
        ends = self.time() + self.words.grace
        self.is_ending = self.turns.is_ending = True
        listening.close()
        if self._web is not None:
            self._web.stop()
        if self._runners is not None and self._runners.inside is not None:
            await self._runners.inside.end()
        if self._place:
            self._place.remove()
        for caller in list(self.callers):
            caller.stop()
            self.turns.end_pieces(caller)
        self.lines.stop()
        await self._until(self._is_answered, ends)
        for caller in self.callers:
            caller.drop_lines()
        self.lines.end()
        if self._web is not None:
            await self._web.end()
        await self._until(lambda: not self.turns.given, None)
        if self._amazon is not None:
            self._amazon.end()
        self._program.end_input()
        await self._program.status()
        if self._follower is not None:
            await self._follower.end()
        await self._until(self._have_read, None if self._is_hurried else ends)
        cut = sum(1 for caller in self.callers if not caller.transport.is_closing())
        if cut:
            say(f"{cut} {'caller was' if cut == 1 else 'callers were'} cut, with replies that weren't read")
        for caller in list(self.callers):
            caller.leave()
        for task in list(self._copies):
            task.cancel()

    def _is_answered(self) -> bool:
        is_owed = self.lines.is_owed or any(caller.owed for caller in self.callers)
        return self._program.ended.is_set() or not is_owed and not self.turns.given

    def _have_read(self) -> bool:
        for caller in list(self.callers):
            caller.close_if_read()
        return not self.callers

    async def _until(self, is_so: Callable[[], bool], ends: Optional[float]) -> None:
        """Looks again and again until something is so, or its time is over, or somebody is impatient."""
        pause = 0.001
        while not is_so() and not (ends is None and self._program.ended.is_set()):
            if self._is_hurried or ends is not None and self.time() >= ends:
                return
            await asyncio.sleep(pause)
            pause = min(2 * pause, 0.05)

    async def _status(self) -> int:
        """The program's status as the server's, with its words. It is never 0 if nobody asked for the end."""
        status = await self._program.status()
        said = self._program.said()
        if said:
            say_bytes(f"{said}\n".encode())
            why = meaning(said, self.words.journal)
            if why:
                say(why)
        if not self._asked_to_end.is_set() and status == 0:
            say("the program ended by itself")
            return 1
        return status if status >= 0 else 128 - status


def _say_fault(loop: asyncio.AbstractEventLoop, context: Dict[str, Any]) -> None:
    say(f"{context.get('message')}: {context.get('exception')!r}")


def _server_of(words: Words) -> Server:
    if words.cluster is None:
        return Server(words)
    from ..cluster.serving import ClusterServer  # who has no cluster doesn't need it, nor aiohttp

    return ClusterServer(words)  # type: ignore[arg-type]


async def serve(words: Words) -> int:
    """Serves, in the main thread."""
    # Of a caller that is gone asyncio would write a line for each reply.
    logging.getLogger("asyncio").addHandler(logging.NullHandler())
    logging.getLogger("asyncio").propagate = False
    asyncio.get_running_loop().set_exception_handler(_say_fault)
    try:
        return await _server_of(words).run()
    finally:
        # All is done: a further signal doesn't take the place of the status.
        signal.pthread_sigmask(signal.SIG_BLOCK, (*ENDING, signal.SIGHUP))

"""A server of a cluster: its beginning, its callers and its end."""
from __future__ import annotations

import asyncio
import json
import ssl
import subprocess
from typing import TYPE_CHECKING, Any, Optional, Tuple, Union, cast

from ..links import host_and_port
from ..runner.clock_file import ClockFile
from ..server.callers import Asked, Caller, Given
from ..server.follower import Follower, graph_beside
from ..server.running import Server
from ..server.speaking import say
from .etcd import Etcd, client_tls
from .faults import Deposed, ProgramGone, Stopped, Unreachable
from .lines import ClusterLines
from .log import Log
from .member import Identity, Member
from .turns import PLACE, ClusterTurns, Role
from .words import ClusterWords

if TYPE_CHECKING:
    from .http import Http

PAUSED = "paused"  # the key in etcd of what is paused
PAUSE = 0.2  # seconds between two tries
MOST_PLACE = 10.0  # seconds that a snapshot of the journal may take at the end of a life


class ClusterCaller(Caller):
    """A connection, whose lines go as the server's role allows."""

    server: ClusterServer

    def connection_made(self, transport: asyncio.BaseTransport) -> None:
        super().connection_made(transport)
        certificate = transport.get_extra_info("peercert") or {}
        names = dict(pair for part in certificate.get("subject", ()) for pair in part)
        if names:
            self.peer = {"name": names.get("commonName", ""), "address": self.peer}

    def next_turn(self) -> Union[Given, Asked, None]:
        turn = super().next_turn()
        if isinstance(turn, Given) and turn.asked.head == b"!place":
            turn.asked.own = self.server.place()
        return turn


class ClusterServer(Server):
    """One of the servers of a book, with a program and a journal of its own."""

    turns: ClusterTurns
    words: ClusterWords

    def __init__(self, words: ClusterWords):
        super().__init__(words)
        self.turns = ClusterTurns(self._write, self._own)
        self.turns.ask = self._ask_follower
        self.lines = ClusterLines(self, self.turns)
        self.name = words.listen  # as the others tell it to callers
        self._log: Log
        self._member: Member
        self._version = ""
        self._http: Optional[Http] = None

    # ---- the beginning and the end

    async def run(self) -> int:
        """Serves until a signal, or something that it can't go on with. Gives the status."""
        words = self.words
        self._take_signals()
        if words.log is not None:
            from ..server.log import Log as LogFile

            self.turns.log = LogFile(words.log)
        self._version = version_of(words.program)
        if words.ask:
            await self._look_at_graph()
        tls = client_tls(words.etcd_tls) if words.etcd_tls else None
        self._log = Log(Etcd(words.cluster, words.ttl / 4, tls), f"/rollback/{words.book}", words.ttl)
        try:
            if words.http is not None:
                from .http import Http  # a server without pages doesn't need it

                self._http = Http(self, words, self.turns)
            try:
                if self._http is not None:
                    await self._http.listen()
                listening = await self._listen()
            except ssl.SSLError:
                raise
            except OSError as fault:
                # An address that isn't there yet may come: unlike wrong words it is worth another try.
                places = " or ".join(place for place in (words.listen, words.http) if place is not None)
                self.tell("ends", f"{places} can't be listened on: {fault}")
                return 1
            port = cast(asyncio.base_events.Server, listening).sockets[0].getsockname()[1]
            self.name = f"{words.listen.rpartition(':')[0]}:{port}"
            who = Identity(self.name, words.book, words.program, self._version, words.journal, words.seed, words.wait)
            self._member = Member(who, self._log, self.turns, self, self.tell)
            return await self._serve(listening)
        finally:
            if self._http is not None:
                await self._http.end()
            await self._log.etcd.close()

    async def _serve(self, listening: asyncio.AbstractServer) -> int:
        if self._http is not None:
            self._http.say_where()
        life = asyncio.ensure_future(self._member.live_on())
        ending = asyncio.ensure_future(self._asked_to_end.wait())
        await asyncio.wait([life, ending], return_when=asyncio.FIRST_COMPLETED)
        ends = self.time() + self.words.grace
        listening.close()
        # What is at hand is answered, and what comes from now on refused, so that callers know of each line what became of it.
        self.turns.is_ending = True
        self.turns.refusal = self.turns.refusal or "election"
        if self._http is not None:
            self._http.stop()
        if self._runners is not None and self._runners.inside is not None:
            await self._runners.inside.end()  # its steps would always be at hand
        for caller in list(self.callers):
            self.turns.end_pieces(caller)
        self.lines.stop()
        self.turns.go_on()
        await self._until(lambda: life.done() or self.turns.is_done(), ends)
        ending.cancel()
        status = await self._end_of(life)
        self.is_ending = True
        self.lines.end()
        for caller in list(self.callers):
            caller.stop()
            caller.drop_lines()
        await self._until(self._have_read, ends)
        for caller in list(self.callers):
            caller.leave()
        for task in list(self._copies):
            task.cancel()
        return status

    async def _end_of(self, life: asyncio.Future[None]) -> int:
        """Gives up what this server still has, the lease first, and says why it ends."""
        life.cancel()
        try:
            await life
        except asyncio.CancelledError:
            return 0
        except ProgramGone as fault:
            self.tell("ends", f"{type(fault).__name__}: {fault}")
            return max(1, await self._status()) if self._has_program() else fault.status
        except Stopped as fault:
            self.tell("ends", f"{type(fault).__name__}: {fault}")
            return fault.status
        except ValueError as fault:
            self.tell("ends", str(fault))  # words that the book doesn't fit
            return 2
        return 1

    # ---- the program

    async def _look_at_graph(self) -> None:
        """Looks whether the follower's program can follow. Another one is a `ValueError`, as other words are."""
        follower = Follower(self.turns, graph_beside(self.words.program, self.words.graph), None)
        await follower.begin()
        await follower.end()

    async def start_program(self) -> None:
        """Starts the program on the journal."""
        if not await self._open_program():
            raise ProgramGone("the program doesn't open the journal")
        try:
            await self._begin_follower()
        except ValueError as fault:
            # It could follow when this server began: unlike wrong words it is worth another try.
            await self.end_program()
            raise ProgramGone(str(fault)) from fault
        if self._http is not None:
            try:
                await self._http.begin_life()
            except BaseException:
                await self.end_program()
                raise

    async def program_gone(self) -> None:
        """Waits until the program has ended by itself."""
        await self._program.ended.wait()
        raise ProgramGone(f"the program has ended with status {await self._program.status()}")

    async def end_program(self) -> None:
        """Lets the program close its journal."""
        follower, self._follower, self.turns.follow = self._follower, None, None
        if self._http is not None:
            self._http.end_life()
        if follower is not None:
            await follower.end()
        if self._copies:
            await self._until(lambda: not self.turns.is_stopped, self.time() + MOST_PLACE)
        self.turns.end_quiet()
        self._program.end_input()
        await self._program.status()

    async def begin_leading(self, log: Log) -> None:
        """Begins what runs at the leader alone: the runner, with what is paused, which outlasts the leader before, and the pages."""
        clock_file = ClockFile(f"{self.words.journal}-clock", say)
        clock_file.paused = {(kind, name) for kind, name in json.loads(await log.kept(PAUSED) or b"[]")}
        if self._http is not None and self._follower is not None:
            await self._http.begin_leading(self._follower, self._member.lines)
        # From here to the leader's role nothing is waited for: a step that the runner gave before would be in no batch.
        self._begin_runner(clock_file, self._answer_for_runner)
        if self._http is not None:
            self._http.attach_runners(self._runners)

    async def end_leading(self) -> None:
        """Ends what runs at the leader alone."""
        if self._http is not None:
            self._http.end_leading()
        runners, self._runners = self._runners, None
        if runners is not None:
            await runners.end()

    def _answer_for_runner(self, caller: Caller, asked: Asked, reply: bytes) -> None:
        """Answers a line for the runner, once etcd keeps what is paused."""
        if asked.head.startswith((b"!pause", b"!resume")) and reply == b"ok\n":
            self._keep(self._keep_paused(caller, asked))
        else:
            self._answer(caller, asked, reply)

    async def _keep_paused(self, caller: Caller, asked: Asked) -> None:
        runners, is_known = self._runners, True
        # What is paused is that of one term: behind it etcd has what counts.
        while runners is not None and runners is self._runners:
            try:
                await self._log.keep(PAUSED, runners.paused())
                self._answer(caller, asked, b"ok\n")
                return
            except Unreachable:
                is_known = False
                await asyncio.sleep(PAUSE)
            except (Deposed, Stopped):
                break
        if is_known:
            self._answer(caller, asked, self.turns.refused())
        else:
            self.turns.log_own(caller, asked, b"open\n")
            caller.leave()

    def _has_program(self) -> bool:
        return hasattr(self, "_program")

    # ---- callers

    def _new_caller(self) -> Caller:
        return ClusterCaller(self)

    def _host_and_port(self) -> Tuple[str, int]:
        found = host_and_port(self.words.listen)
        assert found is not None
        return found

    def _tls(self) -> Optional[ssl.SSLContext]:
        if self.words.tls is None:
            return None
        certificate, key, authority = self.words.tls
        found = ssl.create_default_context(ssl.Purpose.CLIENT_AUTH, cafile=authority)
        found.load_cert_chain(certificate, key)
        found.verify_mode = ssl.CERT_REQUIRED
        return found

    def place(self) -> bytes:
        """What this server does, and how many lines of the log its book has, as an answer to `!place`."""
        turns = self.turns
        said = {
            "does": turns.role.value,
            "lines": self._member.lines,
            "version": self._version,
            "refusal": turns.refusal,
        }
        return PLACE + json.dumps(said).encode()[1:] + b"\n"

    def _own(self, caller: Caller, asked: Asked) -> None:
        if asked.head.startswith(b"?"):
            self.turns.take_question(caller, asked)
        elif self.turns.role is Role.LEADER and not self.turns.refusal:
            super()._own(caller, asked)
        else:
            self._answer(caller, asked, self.turns.refused())

    def _ask_follower(self, given: Given) -> None:
        """Has the follower answer a question, which is fed what this book's program accepts."""
        if self._follower is None:
            self.turns.ask_nobody(given)
            return
        question = given.asked.line.removesuffix(b"\r")
        self._follower.ask(question, lambda answer: self.turns.finish(given, answer + b"\n"))

    def _copy(self, caller: Caller, asked: Asked) -> None:
        task = asyncio.ensure_future(self._copy_behind_guard(caller, asked))
        self._copies.add(task)
        task.add_done_callback(self._copies.discard)

    async def _copy_behind_guard(self, caller: Caller, asked: Asked) -> None:
        """Sends a copy of a book that is the log's: no line waits for the log now, and this server leads."""
        from ..server.copy import send_copy

        is_guarded = False
        try:
            if self.turns.role is Role.LEADER and not self.turns.refusal:
                await self._log.guard()
                is_guarded = True
        except (Unreachable, Deposed, Stopped):
            pass
        if is_guarded and self.turns.role is Role.LEADER:
            await send_copy(self.turns, self.words.journal, caller, asked)
            return
        reply = self.turns.refused()
        self.turns.go_on_after_copy()
        self._answer_now(caller, asked, reply)

    # ---- what is said

    def tell(self, does: str, why: str, **more: Any) -> None:
        """Says what this server does now, on standard error and in the log file."""
        say(f"{does}: {why}")
        if self.turns.log is not None:
            self.turns.log.event(does, why, **more)


def version_of(program: str) -> str:
    """What the program says of its version. Another program is a `ValueError`."""
    try:
        done = subprocess.run([program, "--version"], stdin=subprocess.DEVNULL, stdout=subprocess.PIPE, check=False)
    except OSError as fault:
        raise ValueError(f"the program can't be started: {fault}") from fault
    said = done.stdout.decode(errors="replace").strip()
    if done.returncode or not said or "\n" in said:
        raise ValueError(f"{program} isn't rollback: --version says {said[:200]!r}")
    return said

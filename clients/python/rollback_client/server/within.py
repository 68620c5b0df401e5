"""Lines that are given within the server, by callers that have a name and no connection."""
from __future__ import annotations

import asyncio
import contextlib
import time
from typing import TYPE_CHECKING, AsyncIterator, Callable, Iterator, Optional, Set

from ..lines import MOST_BYTES
from .callers import HEAD, OWN, Asked, Caller
from .follower import NO_FOLLOWER, Follower
from .turns import Turns

if TYPE_CHECKING:
    from .running import Server

LOOKS_AGAIN = 0.5  # seconds after which a turn that is waited for may have been refused
_CONNECTED = (b"!copy", b"!runner")  # lines for which a caller needs a connection


class Ended(Exception):
    """The server ends. Whether the line is done isn't known."""


class Elsewhere(Exception):
    """The book isn't served here now, and nothing was changed: another server of the cluster leads, or none does."""

    def __init__(self, reply: bytes):
        super().__init__(where(reply))
        self.reply = reply
        self.is_led = reply.startswith(b"no 40 leader ")  # so it can be asked elsewhere


def where(reply: bytes) -> str:
    """A sentence on a refusal of a cluster, without its end."""
    why, _, address = reply.decode(errors="replace").strip().removeprefix("no 40 ").partition(" ")
    return {
        "leader": f"the book is served by {address}, which leads",
        "election": "no server leads the book now: another one soon does",
        "quorum": "most members of etcd don't answer, so the book takes no line and answers nothing",
        "space": "the quota of etcd's database is used up, so the book takes no line",
    }.get(why, f"the book isn't served here now: {why}")


class NamedCaller(Caller):
    """Gives one line, or one after the other, and counts for no place."""

    def __init__(self, server: Server, name: str, has_left: Callable[[], bool]):
        super().__init__(server)
        self.peer = name
        self._has_left = has_left
        self._reply: Optional[asyncio.Future[bytes]] = None

    def expect(self) -> asyncio.Future[bytes]:
        """The reply that is to come."""
        self._reply = asyncio.get_running_loop().create_future()
        return self._reply

    def take(self, line: bytes) -> None:
        """Has it give a line at its next turn."""
        self.lines.append(_asked(line))
        self.owed += 1

    def tell(self, data: bytes, count: int) -> None:
        """Takes the reply."""
        self.owed -= count
        if self._reply is not None and not self._reply.done():
            self._reply.set_result(data)

    def has_gone(self) -> bool:
        """Whether nobody waits for the reply any more."""
        return self.is_gone or self._has_left()

    def leave(self) -> None:
        """Gives up: whether its line is done isn't known."""
        self.is_gone = True
        if self._reply is not None and not self._reply.done():
            self._reply.set_exception(Ended())


class Turn:
    """A turn in which no other caller's line is given. If it was refused, so is each line."""

    def __init__(self, turns: Turns, caller: NamedCaller, refusal: Optional[bytes]):
        self._turns, self._caller, self._refusal = turns, caller, refusal

    async def give(self, line: bytes) -> bytes:
        """Gives a short line, and answers its reply."""
        look_at(line)
        refusal = self._refusal or self._turns.refusal_now()
        if refusal is not None:
            return refusal
        reply = self._caller.expect()
        self._caller.owed += 1
        self._turns.give_at_once(self._caller, [line])
        return await reply


class Lines:
    """Gives lines to the program, and questions to the follower.

    Each line is given as it is, without its line feed, and each reply comes with its line feeds. `name` is the caller in the log.
    """

    def __init__(self, server: Server, turns: Turns):
        self._server, self._turns = server, turns
        self._callers: Set[NamedCaller] = set()
        self.follower: Optional[Follower] = None

    async def give(self, name: str, line: bytes, has_left: Callable[[], bool] = lambda: False) -> bytes:
        """Gives a line at its turn, and answers the reply. A long drive is given in pieces, and `!pause` goes to the runner.

        `has_left` says whether nobody waits for the reply any more: a drive ends then with the piece at hand.
        """
        look_at(line)
        with self._called(name, has_left) as caller:
            reply = caller.expect()
            caller.take(line)
            self._turns.want(caller)
            self._turns.go_on()
            return await reply

    @contextlib.asynccontextmanager
    async def turn(self, name: str) -> AsyncIterator[Turn]:
        """A turn for several lines with no other line between: `async with lines.turn(name) as turn: await turn.give(line)`."""
        with self._called(name) as caller:
            refusal = self._turns.refusal_now() or await self._begin_turn()
            try:
                yield Turn(self._turns, caller, refusal)
            finally:
                if refusal is None:
                    self._turns.go_on_after_copy()

    async def ask(self, question: bytes) -> bytes:
        """Has the follower answer a question, as `? list`: a line of JSON without its line feed. It isn't in the log.

        In a cluster it raises `Elsewhere`, if this server doesn't lead.
        """
        return await self.ask_follower(question)

    async def ask_follower(self, question: bytes) -> bytes:
        """Has the follower answer a question, wherever this server is in the log."""
        look_at(question)
        if self.follower is None:
            return NO_FOLLOWER
        answer: asyncio.Future[bytes] = asyncio.get_running_loop().create_future()
        self.follower.ask(question, lambda told: None if answer.done() else answer.set_result(told))
        return await answer

    async def confirm(self) -> None:
        """Answers if this server's book is the book now. In a cluster it raises `Elsewhere`, if this server doesn't lead."""

    @property
    def is_owed(self) -> bool:
        """Whether a reply is still to come."""
        return bool(self._callers)

    def stop(self) -> None:
        """Ends a long line with the piece at hand."""
        for caller in list(self._callers):
            self._turns.end_pieces(caller)

    def end(self) -> None:
        """Gives up what isn't answered."""
        for caller in list(self._callers):
            caller.drop_lines()
            caller.leave()

    @contextlib.contextmanager
    def _called(self, name: str, has_left: Callable[[], bool] = lambda: False) -> Iterator[NamedCaller]:
        if self._turns.is_ending:
            raise Ended()
        caller = NamedCaller(self._server, name, has_left)
        self._callers.add(caller)
        try:
            yield caller
        finally:
            # a line that nobody waits for any more is done to its end, or isn't given
            caller.is_gone = True
            self._callers.discard(caller)

    async def _begin_turn(self) -> Optional[bytes]:
        """Waits for the turn. In a cluster that takes no lines any more it is refused meanwhile, by the reply that comes back."""
        is_quiet = self._turns.quiet()
        refusal = None
        try:
            while not is_quiet.done() and refusal is None:
                await asyncio.wait([is_quiet], timeout=LOOKS_AGAIN)
                refusal = None if is_quiet.done() else self._turns.refusal_now()
        except asyncio.CancelledError:
            if is_quiet.done():
                self._turns.go_on_after_copy()
            raise
        finally:
            is_quiet.cancel()
        return refusal


def look_at(line: bytes) -> None:
    """Refuses what isn't one line, by a `ValueError`."""
    if not line or b"\n" in line or line.endswith(b"\r"):
        raise ValueError("a line isn't empty, and has no end within")


def _asked(line: bytes) -> Asked:
    is_refused = len(line) > MOST_BYTES or line in _CONNECTED or line.startswith(b"!") and not OWN.fullmatch(line)
    return Asked(line, line[:HEAD], len(line), time.monotonic(), b"no 20\n" if is_refused else None)

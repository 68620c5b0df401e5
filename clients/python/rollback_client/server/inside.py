"""The runner within the server: it gives steps as one more caller, each only if its thread is still where it was looked at."""
from __future__ import annotations

import asyncio
import time
from typing import TYPE_CHECKING, Any, Deque, List, Optional, Union

from ..commands import Command, step
from ..faults import NoFollower, Refusal
from ..questions import threads
from ..runner.clock_file import ClockFile
from ..runner.running import PAGE, Ask, Look, Options, Running, Sleep, Steps
from .callers import Caller
from .follower import Follower
from .speaking import say
from .turns import Turns

if TYPE_CHECKING:
    from .running import Server

ALONE, BESIDE_OTHERS = 64, 16  # steps that are given at once
MOST_UNSEEN = 1024  # of its own steps, before it looks what came of them
TOGETHER = 0.005  # seconds
PATIENCE = 1.0  # seconds for which others' lines wait for an answer of the follower


class RunnerCaller(Caller):
    """The runner among the callers: it has no connection, counts for no place and never idles."""

    def __init__(self, server: Server):
        super().__init__(server)
        self.peer = "runner"
        self._waiting: Deque[asyncio.Future[bytes]] = Deque()

    @property
    def wants_turn(self) -> bool:
        """It gives its lines at its own turns."""
        return False

    def has_gone(self) -> bool:
        """It never is."""
        return False

    def expect(self, count: int) -> List[asyncio.Future[bytes]]:
        """Replies that are to come."""
        found = [asyncio.get_running_loop().create_future() for _ in range(count)]
        self._waiting.extend(found)
        return found

    def tell(self, data: bytes, count: int) -> None:
        """Takes replies. Those to steps have a line each, and any other comes alone."""
        replies = [data] if count == 1 else [line + b"\n" for line in data.split(b"\n")[:-1]]
        for reply in replies:
            future = self._waiting.popleft()
            if not future.done():
                future.set_result(reply)

    def leave(self) -> None:
        """Of a line it isn't known whether it stands. Refused, it looks again where its thread is."""
        self.tell(b"no 40 quorum\n", 1)

    @property
    def is_waiting(self) -> bool:
        """Whether it has lines with the program."""
        return bool(self._waiting)


class InsideRunner:
    """Does what a `Running` yields, within the server."""

    def __init__(self, server: Server, turns: Turns, follower: Follower, options: Options, clock_file: ClockFile):
        self._turns, self._follower = turns, follower
        self._caller = RunnerCaller(server)
        self.running = Running(options, clock_file, time.time, _say, self._batch)
        self._news = asyncio.Event()
        self._looked = -1  # lines that were accepted before it looked
        self._own = 0  # lines of its own that were accepted
        self._own_looked = 0
        self._must_look = False
        self._has_turn = False
        self._task: Optional[asyncio.Task[None]] = None
        follower.heard = follower.begun = self._news.set

    def begin(self) -> None:
        """Begins to run."""
        self._task = asyncio.ensure_future(self._run())

    async def end(self) -> None:
        """Gives no further line."""
        if self._task is not None:
            self._task.cancel()
            await asyncio.gather(self._task, return_exceptions=True)
        self._end_turn()

    async def changed_pauses(self) -> None:
        """Takes over what is paused, and waits until none of its lines is with the program."""
        self.running.changed_pauses()
        self._news.set()
        while self._caller.is_waiting:
            await asyncio.sleep(0.001)

    def _batch(self) -> int:
        return BESIDE_OTHERS if self._turns.are_waiting else ALONE

    # ---- what is yielded

    async def _run(self) -> None:
        talk = self.running.run()
        sent: Any = None
        try:
            while True:
                asked = talk.send(sent)
                if isinstance(asked, Look):
                    sent = await self._look(asked)
                elif isinstance(asked, Steps):
                    sent = await self._steps(asked)
                elif isinstance(asked, Ask):
                    sent = await self._ask(asked.command)
                else:
                    await self._sleep(asked)
                    sent = None
        except asyncio.CancelledError:
            raise
        except Exception as fault:
            say(f"the runner has ended by a fault: {fault!r}")
        finally:
            self._end_turn()

    async def _look(self, look: Look) -> Union[None, Refusal, Any]:
        if look.is_turn:
            await self._begin_turn()
        count, own = self._follower.count, self._own
        if self._looked == count:
            return None
        if look.is_turn and self._looked - self._own_looked == count - own and not self._must_look:
            # Only its own steps were taken since. They move no thread that waits for its turn.
            return None
        # what is accepted from here on is looked at again
        self._news.clear()
        told = await self._question(threads(None, look.since, None, PAGE))
        if not isinstance(told, Refusal):
            self._looked, self._own_looked, self._must_look = count, own, False
        return told

    async def _begin_turn(self) -> None:
        is_quiet = self._turns.quiet()
        try:
            await is_quiet
        finally:
            self._has_turn = not is_quiet.cancelled()

    def _end_turn(self) -> None:
        if self._has_turn:
            self._has_turn = False
            self._turns.go_on_after_copy()

    async def _question(self, command: Command[Any]) -> Any:
        answer: asyncio.Future[bytes] = asyncio.get_running_loop().create_future()
        self._follower.ask(command.line.encode(), lambda told: None if answer.done() else answer.set_result(told))
        try:
            return command.outcome(await asyncio.wait_for(answer, PATIENCE if self._has_turn else None) + b"\n")
        except asyncio.TimeoutError:
            return NoFollower(0, "no follower", command.line)

    async def _steps(self, asked: Steps) -> List[Optional[Refusal]]:
        replies = self._give([b"step " + known.thread.encode() for known in asked.threads])
        self._end_turn()
        outcomes: List[Optional[Refusal]] = []
        for known, reply in zip(asked.threads, replies):
            told = await reply
            outcome = None if told.startswith(b"ok ") else step(known.thread).outcome(told)
            outcomes.append(outcome if isinstance(outcome, Refusal) else None)
            self._own += outcome is None
            # the end of a fork takes its branches away
            self._must_look = self._must_look or outcome is not None or known.row["move"] != "step"
        self._must_look = self._must_look or self._own - self._own_looked >= MOST_UNSEEN
        return outcomes

    def _give(self, lines: List[bytes]) -> List[asyncio.Future[bytes]]:
        replies = self._caller.expect(len(lines))
        if lines:
            self._turns.give_at_once(self._caller, lines)
        return replies

    async def _ask(self, command: Command[Any]) -> Any:
        if command.line.startswith("?"):
            return await self._question(command)
        await self._begin_turn()
        if command.line == "settle" and self.running.paused:
            # it was paused while others' lines were answered
            self._end_turn()
            return Refusal(0, "paused", command.line)
        (reply,) = self._give([command.line.encode()])
        self._end_turn()
        told = await reply
        self._own += command.line == "settle" and told.startswith(b"ok")
        return command.outcome(told)

    async def _sleep(self, asked: Sleep) -> None:
        self._end_turn()
        left = None if asked.until is None else asked.until - time.time()
        if left is None or left > 0:
            # the clock of the machine may be set meanwhile
            most = 60.0 if left is None else min(left, 60.0)
            try:
                await asyncio.wait_for(self._news.wait(), most)
            except asyncio.TimeoutError:
                pass
            else:
                # many lines of others are looked at together
                await asyncio.sleep(TOGETHER)
        self._news.clear()


def _say(text: str) -> None:
    say(f"runner: {text}")

"""Whose line the program is given next: callers take turns, a line each, and few lines are with the program at once."""
from __future__ import annotations

import asyncio
import time
from collections import deque
from typing import TYPE_CHECKING, Callable, Deque, Dict, List, Optional, Tuple, Union

from ..lines import Replies
from .callers import HEAD, LISTS, Asked, Caller, Given

if TYPE_CHECKING:
    from .log import Log

MOST_GIVEN = 16
# Replies come once the program has used up what it read. So it is given the lines in two halves: one waits for it while it is at the
# other, and it never waits for the server.
HALF = MOST_GIVEN // 2
Finished = Tuple[Given, bytes]


class Turns:
    """Callers that wait for their turn, and what the program was given, in order.

    Lines that the server answers itself go to `own`, which ends by `answered`. For a copy no further line is given; once all that were
    given are answered it is made, and ends by `go_on_after_copy`.
    """

    def __init__(self, write: Callable[[bytes], None], own: Callable[[Caller, Asked], None]):
        self._write, self._own = write, own
        self._waiting: Deque[Caller] = deque()
        self._given: Deque[Given] = deque()
        self._replies = Replies()
        self._quiet: Deque[Callable[[], None]] = deque()  # what waits until no line is with the program
        self._is_quiet = False  # one of these is under way
        # takes each line with its reply, before the reply is handed on
        self.follow: Optional[Callable[[bytes, bytes], int]] = None
        # hears how many lines of the journal one that was given became
        self.kept: Optional[Callable[[Given, int], None]] = None
        self.is_stopped = False  # no line is given
        self.is_ending = False  # no further piece is given
        self.log: Optional[Log] = None

    def feed(self, data: bytes) -> None:
        """Takes what the program answers."""
        self._replies.feed(data)
        self.go_on()

    @property
    def given(self) -> int:
        """How many lines are with the program."""
        return len(self._given)

    def want(self, caller: Caller) -> None:
        """Has a caller wait for a turn, if it has something to give."""
        if not caller.is_queued and caller.wants_turn:
            caller.is_queued = True
            self._waiting.append(caller)

    def go_on(self) -> None:
        """Gives lines and hands on replies, as far as it goes. The program has its next lines before replies are handed on."""
        while True:
            finished = self._finished()
            self._give()
            self._hand_on(finished)
            if not finished and not self._can_give() and not (self._given and self._given[0].asked.own):
                break
        if self._quiet and self._has_nothing_at_hand() and not self._is_quiet:
            self._is_quiet = True
            self._quiet.popleft()()

    def when_quiet(self, action: Callable[[], None]) -> None:
        """Gives no further line, and does this once all that were given are answered. It ends by `go_on_after_copy`."""
        self._quiet.append(action)
        self.is_stopped = True

    def quiet(self) -> asyncio.Future[None]:
        """Comes as `when_quiet` does. It ends by `go_on_after_copy`; if it is cancelled before it comes, it ends by itself."""
        loop = asyncio.get_running_loop()
        found: asyncio.Future[None] = loop.create_future()

        def begin() -> None:
            if found.cancelled():
                loop.call_soon(self.go_on_after_copy)
            else:
                found.set_result(None)

        self.when_quiet(begin)
        self.go_on()
        return found

    def admit(self, turn: Union[Given, Asked]) -> Union[Given, Asked, None]:
        """What becomes of a line at its turn. In a cluster not every server takes it."""
        return turn

    def refusal_now(self) -> Optional[bytes]:
        """The reply to a line that isn't taken now, if lines aren't."""
        return None

    def give_at_once(self, caller: Caller, lines: List[bytes]) -> None:
        """Gives lines before those that wait."""
        now = time.monotonic()
        for line in lines:
            asked = Asked(line, line[:HEAD], len(line), now)
            self._given.append(Given(caller, asked, line, line.split(b" ", 1)[0] in LISTS))
        self._write(b"".join(line + b"\n" for line in lines))

    def end_pieces(self, caller: Caller) -> None:
        """Answers a line in pieces that waits for its next turn by the steps that were taken."""
        given, caller.under_way = caller.under_way, None
        if given is not None and given.pieces is not None:
            caller.is_held = False
            self._hand_on([(given, given.pieces.reply())])

    def go_on_after_copy(self) -> None:
        """Gives lines again."""
        self._is_quiet = False
        self.is_stopped = bool(self._quiet)
        self.go_on()

    def log_own(self, caller: Caller, asked: Asked, reply: bytes) -> None:
        """Logs a line that the server answers itself."""
        if self.log is not None:
            self.log.write([(caller.peer, asked, reply, time.monotonic())])

    def answered(self, caller: Caller, data: bytes = b"") -> None:
        """Goes on with a caller whose line the server has answered itself."""
        caller.is_held = False
        caller.tell(data, 1)
        self.want(caller)
        self.go_on()

    def _replied(self, given: Given, reply: bytes) -> None:
        """Hears of each reply of the program, also to a piece. A server of a cluster keeps what was accepted."""
        count = self.follow(given.line, reply) if self.follow is not None else 0
        if count and self.kept is not None:
            self.kept(given, count)

    def _has_nothing_at_hand(self) -> bool:
        return not self._given

    @property
    def are_waiting(self) -> bool:
        """Whether callers wait for a turn."""
        return bool(self._waiting)

    def _can_give(self) -> bool:
        return bool(self._waiting) and len(self._given) < MOST_GIVEN and not self.is_stopped

    def _give(self) -> None:
        lines: List[bytes] = []
        while self._can_give() and len(lines) < HALF:
            caller = self._waiting.popleft()
            caller.is_queued = False
            if not caller.wants_turn:
                continue
            turn = caller.next_turn()
            turn = self.admit(turn) if turn is not None else None
            if turn is None:
                continue
            if isinstance(turn, Asked):
                caller.is_held = True
                self._own(caller, turn)
                continue
            self._given.append(turn)
            if turn.pieces is not None:
                turn.since = time.monotonic()
            if turn.asked.own is None:
                lines.append(turn.line)
            self.want(caller)
        if lines:
            self._write(b"".join(lines))

    def _finished(self) -> List[Finished]:
        """What is answered whole. A line in pieces waits for its next turn until the last one is answered."""
        found: List[Finished] = []
        while self._given:
            given = self._given[0]
            reply = given.asked.own or self._replies.next(given.is_list)
            if reply is None:
                break
            self._given.popleft()
            if given.asked.own is None:
                self._replied(given, reply)
            if given.pieces is not None:
                given.pieces.take(reply, time.monotonic() - given.since)
                if not (given.pieces.is_over or self.is_ending or given.caller.has_gone()):
                    given.caller.under_way = given
                    self.want(given.caller)
                    continue
                given.caller.is_held = False
                reply = given.pieces.reply()
            found.append((given, reply))
        return found

    def _hand_on(self, finished: List[Finished]) -> None:
        if finished and self.log is not None:
            now = time.monotonic()
            self.log.write(
                [(given.caller.peer, given.asked, reply, now) for given, reply in finished if given.asked.is_logged]
            )
        replies: Dict[Caller, List[bytes]] = {}
        for given, reply in finished:
            replies.setdefault(given.caller, []).append(reply)
        for caller, of_caller in replies.items():
            caller.tell(b"".join(of_caller), len(of_caller))
            self.want(caller)

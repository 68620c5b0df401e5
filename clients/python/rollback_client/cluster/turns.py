"""Callers' turns at a server of a cluster: what a line comes to while the server leads, stands by, or has no book open."""
from __future__ import annotations

import asyncio
import enum
import time
from typing import Callable, List, Optional, Set, Union

from ..lines import LISTS, Replies
from ..server.callers import HEAD, Asked, Caller, Given
from ..server.follower import NO_FOLLOWER
from ..server.pieces import Pieces
from ..server.turns import MOST_GIVEN, Finished, Turns
from .entries import QUESTIONS, word_of
from .faults import ProgramGone
from .gate import Gate, Held

PLACE = b'{"rollback_cluster":1,'  # the reply to `!place` begins so
_LISTS = frozenset(word.encode() for word in LISTS)


class Role(enum.Enum):
    """What a server does."""

    OUT = "has no book open"
    ASIDE = "stands aside"
    STANDBY = "stands by"
    LEADER = "leads"


class Entered(Given):
    """A line of the log, whose reply a standby compares."""

    __slots__ = ("coming",)

    def __init__(self, line: bytes, coming: asyncio.Future[bytes]):
        asked = Asked(line, b"", len(line), 0.0)
        super().__init__(None, asked, line + b"\n", word_of(line) in _LISTS)  # type: ignore[arg-type]
        self.coming = coming


class ClusterTurns(Turns):
    """Gives lines as the role allows.

    At the leader replies wait at the gate. A standby keeps questions in `asking` until it has all that the log has. Whatever isn't
    taken is refused with `refusal`, and has changed nothing.
    """

    def __init__(self, write: Callable[[bytes], None], own: Callable[[Caller, Asked], None]):
        super().__init__(write, own)
        self.role = Role.OUT
        self.refusal = "election"  # empty while the leader takes lines
        self.gate = Gate()
        self.asking: List[Given] = []
        self.has_asked = asyncio.Event()
        self.journal_failed = asyncio.Event()  # the program has answered `no 24`
        self.ask: Callable[[Given], None] = self.ask_nobody  # has the follower answer a question, by `finish`
        self._following: Set[Given] = set()  # questions that the follower was asked
        self._later: List[Entered] = []  # lines of the log that wait until a copy of the journal is made
        self._holding: Set[Given] = set()  # lines whose callers' next lines wait for their replies
        self._is_cut_off = False  # what the program still says counts no more

    # ---- what a caller's turn gives

    def admit(self, turn: Union[Given, Asked]) -> Union[Given, Asked, None]:
        """What becomes of a line at its turn: it is given, refused, or kept until this book has what the log has."""
        if isinstance(turn, Asked):
            return turn  # a line that the server answers itself
        asked = turn.asked
        if self.role is Role.LEADER and not self.refusal:
            return turn
        if turn.pieces is not None:
            return self._refused_piece(turn, turn.pieces)
        if asked.own is not None:
            return turn
        if self.role is Role.STANDBY and is_question(asked):
            self._hold(turn)
            self.asking.append(turn)
            self.has_asked.set()
            return None
        asked.own = self.refused()
        return turn

    def refusal_now(self) -> Optional[bytes]:
        return None if self.role is Role.LEADER and not self.refusal else self.refused()

    def give_at_once(self, caller: Caller, lines: List[bytes]) -> None:
        """Gives lines before those that wait, while this server leads, and else refuses each: a runner may not know yet."""
        if self.refusal_now() is None:
            super().give_at_once(caller, lines)
            return
        now = time.monotonic()
        for line in lines:
            self._refuse(Given(caller, Asked(line, line[:HEAD], len(line), now), line, False))

    def take_question(self, caller: Caller, asked: Asked) -> None:
        """Answers a line that begins with `?`: at the leader now, at a standby once this book has what the log has."""
        given = Given(caller, asked, b"", False)
        self._hold(given)
        if self.role is Role.LEADER and not self.refusal:
            self.give_question(given)
        elif self.role is Role.STANDBY:
            self.asking.append(given)
            self.has_asked.set()
        else:
            self._following.add(given)
            asyncio.get_running_loop().call_soon(self.finish, given, self.refused())

    def confirm(self, caller: Caller, asked: Asked) -> None:
        """Answers nothing, once it is certain that this server leads, and that the log has all lines of its book."""
        given = Given(caller, asked, b"", False)
        refusal = self.refusal_now()
        if refusal is None:
            self.gate.keep(given, b"")
        else:
            self._following.add(given)
            asyncio.get_running_loop().call_soon(self.finish, given, refusal)

    def refused(self) -> bytes:
        """The reply to a line that isn't taken."""
        return f"no 40 {self.refusal or 'election'}\n".encode()

    def _refused_piece(self, given: Given, pieces: Pieces) -> Given:
        """A long line, or what is left of one, that isn't taken: it ends with the steps before."""
        pieces.take(self.refused())
        given.asked.own = pieces.reply()
        given.pieces = None
        self._hold(given)
        return given

    def _hold(self, given: Given) -> None:
        given.caller.is_held = True
        self._holding.add(given)

    def _let_on(self, given: Given) -> None:
        if given in self._holding or given.pieces is not None:
            self._holding.discard(given)
            given.caller.is_held = False

    def give_question(self, given: Given) -> None:
        """Gives a question that was kept, now that this book has what the log has."""
        if given.asked.head.startswith(b"?"):
            self._following.add(given)
            self.ask(given)
            return
        self._given.append(given)
        self._write(given.line)

    def finish(self, given: Given, answer: bytes) -> None:
        """Hands on the follower's answer. It knows lines that the log hasn't, so at the leader it waits as any reply does."""
        if given in self._following:
            self._following.discard(given)
            self._hand_on([(given, answer)])
            self.go_on()

    def ask_nobody(self, given: Given) -> None:
        """Answers that there is no follower."""
        asyncio.get_running_loop().call_soon(self.finish, given, NO_FOLLOWER + b"\n")

    def refuse_question(self, given: Given) -> None:
        """Refuses a question that was kept."""
        given.asked.own = self.refused()
        self._given.append(given)

    def give_questions(self) -> None:
        """Gives all questions that were kept: this server leads now."""
        asking, self.asking = self.asking, []
        for given in asking:
            self.give_question(given)

    def enter(self, line: bytes) -> asyncio.Future[bytes]:
        """Gives a line of the log. Its reply will come."""
        coming: asyncio.Future[bytes] = asyncio.get_running_loop().create_future()
        entered = Entered(line, coming)
        if self.is_stopped:
            self._later.append(entered)
        else:
            self._give_entered(entered)
        return coming

    def _give_entered(self, entered: Entered) -> None:
        self._given.append(entered)
        self._write(entered.line)

    def go_on_after_copy(self) -> None:
        later, self._later = self._later, []
        for entered in later:
            self._give_entered(entered)
        super().go_on_after_copy()

    def end_quiet(self) -> None:
        """Ends the waiting for a copy: what waited for it sees for itself that there is no book."""
        actions = list(self._quiet)
        self._quiet.clear()
        self._is_quiet = self.is_stopped = False
        for action in actions:
            action()

    # ---- replies

    def hand_out(self, taken: List[Held], instead: Optional[bytes] = None) -> None:
        """Has replies leave, or another one in the place of each."""
        super()._hand_on([(held.given, instead or held.reply) for held in taken])
        self.go_on()

    def leave_open(self, taken: List[Held]) -> None:
        """Ends the connections of callers, since it isn't known whether their lines will stand."""
        for held in taken:
            self._leave_open(held.given)

    def leave_begun_open(self) -> None:
        """Ends the connections of callers with a long line of which steps may stand."""
        for given in self.gate.begun():
            self._leave_open(given)

    def drop_all(self) -> None:
        """Refuses all lines at hand: the log hasn't them, and won't. One of which the log has a part is left open."""
        self._is_cut_off = True
        begun = self.gate.begun()
        in_part = {given for given in begun if self.gate.partly_in_log(given)}
        for held in self.gate.forget():
            self._drop(held.given, held.first < self.gate.position < held.mark)
        waiting, self.asking = [*self._given, *self._later, *self._following, *self.asking], []
        self._given.clear()
        self._later.clear()
        self._following.clear()
        self._replies = Replies()
        for given in waiting:
            if isinstance(given, Entered):
                if not given.coming.done():
                    given.coming.set_exception(ProgramGone("the program takes no lines now"))
                    given.coming.exception()  # nobody may wait for it any more
            else:
                self._drop(given, given in in_part)
        for given in begun:
            if given.caller.under_way is given:
                given.caller.under_way = None
                self._drop(given, given in in_part)

    def begin_life(self) -> None:
        """What the program says counts again: it is another one."""
        self._is_cut_off = False

    def is_done(self) -> bool:
        """Whether no line is at hand."""
        return not self._given and self.gate.is_empty() and not self.asking and not self._following

    def feed(self, data: bytes) -> None:
        if not self._is_cut_off:
            super().feed(data)

    def _replied(self, given: Given, reply: bytes) -> None:
        super()._replied(given, reply)
        if self.role is Role.LEADER and not isinstance(given, Entered):
            self.gate.note(given, given.line.rstrip(b"\n").removesuffix(b"\r"), reply)
            if reply.startswith(b"no 24"):
                self.refusal = "election"
                self.journal_failed.set()

    def _hand_on(self, finished: List[Finished]) -> None:
        at_once: List[Finished] = []
        for given, reply in finished:
            if isinstance(given, Entered):
                if not given.coming.done():
                    given.coming.set_result(reply)
                continue
            self._let_on(given)
            if self.role is not Role.LEADER or is_at_once(given.asked) and not self.gate.holds(given.caller):
                at_once.append((given, reply))
            else:
                self.gate.keep(given, reply)
        super()._hand_on(at_once)

    def _drop(self, given: Given, stands_in_part: bool) -> None:
        if stands_in_part:
            self._leave_open(given)
        else:
            self._refuse(given)

    def _refuse(self, given: Given) -> None:
        self._let_on(given)
        super()._hand_on([(given, self.refused())])

    def _leave_open(self, given: Given) -> None:
        self._let_on(given)
        self.log_own(given.caller, given.asked, b"open\n")
        given.caller.leave()

    def _can_give(self) -> bool:
        # A line that is refused isn't given to the program, so neither quiet nor room is waited for. A standby takes questions.
        if self.refusal and self.role is not Role.STANDBY:
            return bool(self._waiting) and len(self._given) < MOST_GIVEN
        return super()._can_give() and self.gate.has_room

    def _has_nothing_at_hand(self) -> bool:
        # Questions that wait for a read change nothing, and there may always be some.
        return super()._has_nothing_at_hand() and self.gate.has_no_lines()


def is_at_once(asked: Asked) -> bool:
    """Whether the reply says nothing of the book, and so waits for no other."""
    return asked.own is not None and asked.own.startswith((b"no 40 ", PLACE))


def is_question(asked: Asked) -> bool:
    """Whether a line asks something that a standby answers too."""
    return asked.head.startswith(b"?") or word_of(asked.head) in QUESTIONS

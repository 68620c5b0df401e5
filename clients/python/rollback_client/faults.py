"""What can go wrong: a refusal of the program, each code as a class of its own, and streams that end or break."""
from __future__ import annotations

import enum
from typing import TYPE_CHECKING, Any, Dict, Optional, Sequence, Tuple, Type, Union

from .lines import short
from .values import Step, texts_of

if TYPE_CHECKING:
    from .lint import Finding


class RollbackError(Exception):
    """Each error of this package, but for the `ValueError` and `TypeError` of a call's own words."""


class BookClosed(RollbackError):
    """The book was closed before the call. Nothing was sent."""

    def __init__(self, message: str = "this book is closed"):
        super().__init__(message)


class OtherProcess(RollbackError):
    """The book was opened before a fork, and this is the forked process. Nothing was sent: open a book of its own."""

    def __init__(self, message: str = "this book was opened by another process: open one in this process"):
        super().__init__(message)


class StreamBroken(RollbackError):
    """No later reply can be trusted to be that of its call, so the stream was closed.

    An earlier call was interrupted before its reply was whole, or a reply isn't of its command's form. Whether that command is
    in the journal isn't known: open the journal again, or connect again, and look at `history`.
    """


class NoServer(RollbackError):
    """No server answers at the address. Nothing was sent."""


class Busy(RollbackError):
    """All places of the server are taken. Nothing was done: connect again later, or with `retry`."""

    def __init__(self, message: str = "all places of the server are taken: connect again later"):
        super().__init__(message)


def _in_doubt(line: str) -> str:
    return f"; whether the command at hand is done isn't known: {short(line)}" if line else ""


class ProgramEnded(RollbackError):
    """The program has ended. Whether the command at hand is done isn't known: open the journal again, and look at `history`.

    `status` is the program's, `said` what it wrote on standard error, and `line` the line that it was given.
    """

    def __init__(self, status: Optional[int], said: str, line: str = ""):
        words = said.strip() or "nothing was said"
        super().__init__(f"the program ended with status {status}: {words}{_in_doubt(line)}")
        self.status, self.said, self.line = status, said, line

    def __reduce__(self) -> Tuple[Type[ProgramEnded], Tuple[Any, ...]]:
        return type(self), (self.status, self.said, self.line)


class ConnectionLost(RollbackError):
    """The connection to the server has ended. Whether the command at hand is done isn't known: connect again, and look at `history`.

    `line` is the line that was given.
    """

    def __init__(self, why: str = "the connection has ended", line: str = ""):
        super().__init__(f"{why}{_in_doubt(line)}")
        self.why, self.line = why, line

    def __reduce__(self) -> Tuple[Type[ConnectionLost], Tuple[Any, ...]]:
        return type(self), (self.why, self.line)


# ---- the numbers behind codes


class _Worded(enum.IntEnum):
    """A number of a detail, with its words."""

    words: str

    def __new__(cls, number: int, words: str) -> Any:
        found = int.__new__(cls, number)
        found._value_, found.words = number, words
        return found


class MachineFaultKind(_Worded):
    """What is faulty in a definition."""

    MISSING = 1, "a field is missing"
    UNKNOWN = 2, "no field of this name may be there"
    LEFT_OUT = 3, "left out"
    BAD_VALUE = 4, "a bad value"
    NO_STATE = 5, "no state of this name at that level"
    NEXT_AND_END = 6, 'the state has both Next and "End": true'
    STATES_ALL = 7, "States.ALL isn't alone in its list, or not in the last retrier or catcher"
    TOO_DEEP = 8, "States objects nest more than 32 deep"


class BeginningFaultKind(_Worded):
    """What is faulty in the items of a `table` line."""

    BAD_VALUE = 1, "a bad value, or no list"
    BAD_NUMBER = 2, "a bad number"
    NO_KEY = 3, "an item without its key"
    KEY_TYPE = 4, "a key of another type"
    EMPTY_KEY = 5, "an empty key"


class JsonFaultKind(_Worded):
    """What is faulty in a line's JSON."""

    NOT_JSON = 1, "no JSON, or nested deeper than 127"
    NOT_WHOLE = 2, "a number that isn't whole, or doesn't fit 64 bits"


def _kind(kinds: Type[_Worded], number: int) -> int:
    """The number as one of its kinds. A number that this client doesn't know stays a number."""
    try:
        return kinds(number)  # type: ignore[call-arg]
    except ValueError:
        return number


def _words(what: str, number: int) -> str:
    return f"{what} {int(number)}, {number.words}" if isinstance(number, _Worded) else f"{what} {number}"


# ---- refusals


class Refusal(RollbackError):
    """A refusal, which has changed nothing.

    `code` and `detail` are those of the reply, and `line` is the line that was refused. `means` says why, and `advice` what to do.
    """

    code = 0
    means = "refused"
    advice = "see the codes in docs/REFERENCE.md"

    def __init__(self, code: int, detail: str, line: str = ""):
        self.code, self.detail, self.line = code, detail, line
        refused = f"{short(line)}: " if line else ""
        words = self._in_words()
        super().__init__(
            f"{refused}{self.means} (no {code} {type(self).__name__}{', ' + words if words else ''}). {self._next()}"
        )

    def _in_words(self) -> str:
        return self.detail

    def _next(self) -> str:
        return self.advice[0].upper() + self.advice[1:]

    def __reduce__(self) -> Tuple[Type[Refusal], Tuple[Any, ...]]:
        return type(self), (self.code, self.detail, self.line)


class NoMachine(Refusal):
    """There is no machine of this name."""

    code, means, advice = 1, "no machine of this name", "define it"


class MachineTaken(Refusal):
    """The machine's name is taken."""

    code, means = 2, "the machine's name is taken"
    advice = "take another name: a machine can't be changed or removed"


class MachineFault(Refusal):
    """The definition is faulty. `fault` is a `MachineFaultKind`, and `name` the field, state or name that is named with it.

    `faults` are the linter's errors, if it was asked before anything was sent: then the text names each. If none of them is a
    fault of a machine, but of its JSON, `fault` is 0.
    """

    code, means, advice = 3, "the definition is faulty", "correct the field or state that is named"

    def __init__(self, code: int, detail: str, line: str = "", faults: Sequence[Finding] = ()):
        values = texts_of(detail) or [0]
        self.fault = _kind(MachineFaultKind, values[0])
        self.name: Optional[str] = values[1] if len(values) > 1 else None
        self.faults = tuple(faults)
        super().__init__(code, detail, line)
        if faults:
            listed = "".join(f"\n{fault.severity}: {fault} [{fault.code}]" for fault in faults)
            self.args = (f"{short(line)}: {self.means}, and nothing was sent:{listed}",)

    def _in_words(self) -> str:
        named = self.detail.partition(" ")[2]
        return _words("machine fault", self.fault) + (f": {named}" if named else "")

    def __reduce__(self) -> Tuple[Type[Refusal], Tuple[Any, ...]]:
        return type(self), (self.code, self.detail, self.line, self.faults)


class ExecutionTaken(Refusal):
    """The execution's name is taken."""

    code, means = 4, "the execution's name is taken"
    advice = "take another name, or roll back its start to free it"


class NoThread(Refusal):
    """There is no such thread."""

    code, means = 5, "no such thread"
    advice = "look at history; a branch has a frame only between its fork and its join or terminate"


class NoMove(Refusal):
    """The thread has no move. `why` is `done`, `failed` or `waiting`."""

    code, means = 6, "the thread has no move"
    advice = "nothing where it is done; see show where it failed; step its branches, or those before it, where it waits"

    @property
    def why(self) -> str:
        """`done`, `failed` or `waiting`."""
        return self.detail


class NoStep(Refusal):
    """No such step remains."""

    code, means, advice = 7, "no such step remains", "look at history"


class _OfStep(Refusal):
    def __init__(self, code: int, detail: str, line: str = ""):
        self.step = Step.read(detail)
        super().__init__(code, detail, line)


class HasDependents(_OfStep):
    """A step depends on this one. `step` is the first that depends directly on it."""

    code, means = 8, "a step depends on this one"
    advice = "undo that one first, or plan and rollback"


class Full(Refusal):
    """The book is full."""

    code, means, advice = 10, "full", "see The end of a book in docs/USER_GUIDE.md"


class OutOfMemory(Refusal):
    """The program is out of memory."""

    code, means, advice = 11, "out of memory", "give the line again once there is memory"


class Settled(Refusal):
    """The step is settled."""

    code, means = 12, "the step is settled"
    advice = "it can't be taken back: put right what it did by new steps"


class Held(_OfStep):
    """A held step is in the way. `step` is that step."""

    code, means = 13, "a held step is in the way"
    advice = "see held: undo what is left, or go on with other threads"


class BadLine(Refusal):
    """The line is no command."""

    code, means, advice = 20, "no command", "correct the line"


class NoTable(Refusal):
    """There is no table yet."""

    code, means, advice = 21, "no table yet", "begin with a table line"


class TableTaken(Refusal):
    """The table is there."""

    code, means, advice = 22, "the table is there", "go on: a book has one table"


class _OfNumber(Refusal):
    _kinds: Type[_Worded]
    _what: str

    def __init__(self, code: int, detail: str, line: str = ""):
        self.fault = _kind(self._kinds, int(detail))
        super().__init__(code, detail, line)

    def _in_words(self) -> str:
        return _words(self._what, self.fault)


class BadBeginning(_OfNumber):
    """The items of a `table` line are faulty. `fault` is a `BeginningFaultKind`."""

    code, means, advice = 23, "a bad beginning", "correct the items of the table line"
    _kinds, _what = BeginningFaultKind, "beginning fault"


class JournalRefused(Refusal):
    """The journal takes no line now."""

    code, means = 24, "the journal takes no line now"
    advice = (
        "see to the disk, and give the line again. Where it is still refused, end the session and open the file again. "
        "After a work the session has ended: open the file again"
    )


class Unavailable(Refusal):
    """The book takes no line now. `why` is `election` while no server leads, `quorum` without a majority of etcd, or `space`."""

    code, means = 40, "the book takes no line now"
    advice = "give the line again later: it has changed nothing"
    _reasons = {
        "election": "no server leads now",
        "quorum": "the majority of etcd doesn't answer",
        "space": "the quota of etcd's database is used up",
    }

    def __init__(self, code: int, detail: str, line: str = ""):
        self.why = detail
        super().__init__(code, detail, line)

    def _in_words(self) -> str:
        return self._reasons.get(self.why, self.why)


class NotLeader(Refusal):
    """Another server of the book leads. `leader` is its address. A book that was connected by `cluster:` goes there by itself."""

    code, means, advice = (
        40,
        "another server leads",
        "connect to that one, or by cluster:HOST:PORT,.. to whichever leads",
    )

    def __init__(self, code: int, detail: str, line: str = ""):
        self.leader = detail.partition(" ")[2]
        super().__init__(code, detail, line)


class BadJson(_OfNumber):
    """The line's JSON is faulty. `fault` is a `JsonFaultKind`."""

    code, means, advice = 25, "bad JSON", "correct J"
    _kinds, _what = JsonFaultKind, "JSON fault"


class NoRunner(Refusal):
    """No runner takes steps of this book, and the server keeps nothing for one."""

    code, means = 31, "no runner takes steps of this book"
    advice = "serve it by rollback-serve --run, or run rollback-run beside a server with --ask"


class NoAnswer(Refusal):
    """A question has no answer. `detail` says why, as `order-9 is no execution`."""

    means = "no answer"

    def __init__(self, code: int, detail: str, line: str = ""):
        super().__init__(code, detail, line)
        self.args = (f"{short(line)}: {detail}" if line else detail,)


class NoFollower(NoAnswer):
    """Nobody answers questions here: there is no server, or it has no follower, or begins it again just now."""

    advice = "serve the book by rollback-serve --ask, and give the question again"

    def __init__(self, code: int, detail: str, line: str = ""):
        super().__init__(code, detail, line)
        self.args = (f"{self.args[0]}: {self.advice}",)


REFUSALS: Tuple[Type[Refusal], ...] = (
    NoMachine,
    MachineTaken,
    MachineFault,
    ExecutionTaken,
    NoThread,
    NoMove,
    NoStep,
    HasDependents,
    Full,
    OutOfMemory,
    Settled,
    Held,
    BadLine,
    NoTable,
    TableTaken,
    BadBeginning,
    JournalRefused,
    BadJson,
)
_CLASSES: Dict[int, Type[Refusal]] = {**{refusal.code: refusal for refusal in REFUSALS}, NoRunner.code: NoRunner}


def refusal_of(first: str, line: str = "") -> Refusal:
    """The refusal that the first line of a reply says. Another text is a `ValueError`."""
    word, _, rest = first.partition(" ")
    code, _, detail = rest.partition(" ")
    if word != "no" or not (code.isascii() and code.isdecimal()):
        raise ValueError(f"no refusal: {short(first)!r}")
    if code == "40":  # of a server of a cluster, and not of the program
        kind = NotLeader if detail.startswith("leader ") else Unavailable
        return kind(int(code), detail, line)
    return _CLASSES.get(int(code), Refusal)(int(code), detail, line)

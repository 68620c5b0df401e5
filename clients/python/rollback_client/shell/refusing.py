"""What is refused, in words, and what to do then."""
from __future__ import annotations

import difflib
from typing import Callable, Iterable

from ..faults import BadLine, Refusal
from ..lines import MOST_BYTES


_MOST_COMPARED = 5000


class Refused(Exception):
    """What a line asks for isn't done, and why. Nothing was changed."""

    def __init__(self, message: str, help: str = ""):
        super().__init__(f"{message}: {help}" if help else message)


def meant(name: str, names: Iterable[str]) -> str:
    """*did you mean*, if one of the names nearly fits, or nothing."""
    among = list(names)
    if len(among) > _MOST_COMPARED:
        among = [other for other in among if other[:3] == name[:3]][:_MOST_COMPARED]
    found = difflib.get_close_matches(name, among, 1, 0.6)
    return f" (did you mean {found[0]}?)" if found else ""


class Names:
    """Where names come from that nearly fit. Each is asked only if it is needed."""

    def __init__(self, machines: Callable[[], Iterable[str]], steps: Callable[[], Iterable[str]]):
        self.machines, self.steps = machines, steps

    def threads(self) -> set[str]:
        """The threads of the remaining steps."""
        return {step.rpartition("#")[0] for step in self.steps()}


def explained(refusal: Refusal, line: str, names: Names) -> Refused:
    """A refusal of the program in words. `line` is the line that it refused."""
    if refusal.code == BadLine.code and len(line.encode("utf-8", "replace")) > MOST_BYTES:
        return Refused(f"the line has more than {MOST_BYTES} bytes", "give it less text")
    words = [*line.split(" ", 3), "", "", ""]
    of_code = _EXPLAINED.get(refusal.code)
    if of_code is None:
        return Refused(f"refused: {refusal}")
    message, advice = of_code(words, refusal.detail, names)
    return Refused(message, advice)


_Explained = tuple[str, str]


def _no_machine(words: list[str], detail: str, names: Names) -> _Explained:
    return f"there is no machine {words[2]}{meant(words[2], names.machines())}", "define it first"


def _machine_taken(words: list[str], detail: str, names: Names) -> _Explained:
    return f"there is a machine {words[1]}", "take another name, since a machine can't be changed or removed"


def _machine_fault(words: list[str], detail: str, names: Names) -> _Explained:
    return f"the definition of {words[1]} is faulty ({detail})", "see docs/REFERENCE.md, and correct it"


def _execution_taken(words: list[str], detail: str, names: Names) -> _Explained:
    name = words[1]
    return f"there is an execution {name}", f"take another name, or roll back {name}#0 if all of it is wrong"


def _no_thread(words: list[str], detail: str, names: Names) -> _Explained:
    name = words[1]
    advice = "look at history"
    if "/" in name:
        advice = "a branch is there only between its fork and its join or terminate"
    return f"there is no thread {name}{meant(name, names.threads())}", advice


def _no_move(words: list[str], detail: str, names: Names) -> _Explained:
    name = words[1]
    return {
        "done": (f"{name} is done and has no step left", f"show {name} has its output"),
        "failed": (f"{name} has failed and has no step left", f"show {name}, and roll back the step that led to it"),
        "waiting": (f"{name} waits for branches", "step those, or drive"),
    }.get(detail, (f"{name} has no step now", f"show {name}"))


def _no_step(words: list[str], detail: str, names: Names) -> _Explained:
    name = words[1]
    return f"no step {name} remains{meant(name, names.steps())}", "it was taken back, or never taken: look at history"


def _has_dependents(words: list[str], detail: str, names: Names) -> _Explained:
    return f"{detail} depends on {words[1]}", f"undo {detail} first, or see plan {words[1]} and roll it back"


def _full(words: list[str], detail: str, names: Names) -> _Explained:
    return "the book is full", "settle if all is right, or take back what is wrong; else begin a new book"


def _memory(words: list[str], detail: str, names: Names) -> _Explained:
    return "the program is out of memory, and nothing was changed", "give the line again later"


def _settled(words: list[str], detail: str, names: Names) -> _Explained:
    return f"{words[1]} is settled and can't be taken back", "put right what it did by new steps"


def _held(words: list[str], detail: str, names: Names) -> _Explained:
    advice = "see held, and undo what is left, or go on with other threads"
    if words[0] in ("hold", "settle"):
        return f"{detail} is held, and there is one hold at a time", f"undo what is left of it, or roll back {detail}"
    return f"{words[1]} needs {detail}, which is held", advice


def _bad_line(words: list[str], detail: str, names: Names) -> _Explained:
    return f"this program has no line {words[0]} of this form", f"see help {words[0]}"


def _no_table(words: list[str], detail: str, names: Names) -> _Explained:
    return "there is no table yet", "begin the book, as by: table orders id:S []"


def _table_taken(words: list[str], detail: str, names: Names) -> _Explained:
    return "the book has its table", "go on: a book has one table"


def _bad_beginning(words: list[str], detail: str, names: Names) -> _Explained:
    what = {
        "1": "an item has a bad value, or the items are no list",
        "2": "an item has a bad number",
        "3": "an item has no key",
        "4": "an item's key is of another type",
        "5": "an item's key is empty",
    }
    return f"the table can't begin: {what.get(detail, detail)}", "correct the items"


def _journal_refused(words: list[str], detail: str, names: Names) -> _Explained:
    return "the journal takes no line now, and nothing was changed", "see to the disk, and give the line again"


def _not_here(words: list[str], detail: str, names: Names) -> _Explained:
    """The refusals of a server on three machines."""
    why, _, leader = detail.partition(" ")
    again = "nothing was changed: give the line again"
    return {
        "leader": (
            f"another server leads, {leader}, and takes this line",
            f"begin the shell anew, as: rollback-shell {leader}",
        ),
        "election": ("no server leads now", f"{again} in some seconds"),
        "quorum": (
            "most members of etcd don't answer",
            f"{again} once they do, and see rollback-serve .. --cluster-status",
        ),
        "space": ("the quota of etcd's database is used up", f"{again} once there is room: docs/CLUSTER.md"),
    }.get(why, (f"the book takes no line now ({detail})", again))


def _bad_json(words: list[str], detail: str, names: Names) -> _Explained:
    if detail == "2":
        return (
            "the JSON has a number that isn't whole, or doesn't fit 64 bits",
            "write it as a text, or in a smaller unit",
        )
    return "this isn't JSON, or nests deeper than 127 levels", "correct it"


_EXPLAINED: dict[int, Callable[[list[str], str, Names], _Explained]] = {
    1: _no_machine,
    2: _machine_taken,
    3: _machine_fault,
    4: _execution_taken,
    5: _no_thread,
    6: _no_move,
    7: _no_step,
    8: _has_dependents,
    10: _full,
    11: _memory,
    12: _settled,
    13: _held,
    20: _bad_line,
    21: _no_table,
    22: _table_taken,
    23: _bad_beginning,
    24: _journal_refused,
    25: _bad_json,
    40: _not_here,
}

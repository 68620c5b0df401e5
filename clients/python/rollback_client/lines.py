"""Lines and replies as bytes: what is looked at before a line is sent, and where its reply ends."""
from __future__ import annotations

import re
from typing import Any, Optional

MOST_BYTES = 1_048_576  # of a line, without its end
MOST_STEPS = 65_536  # of one drive or work
MOST_WORKERS = 8
MOST_NUMBER = 4_294_967_295  # of a step, a fork or a branch in a name
MOST_BRANCHES = 31  # that a thread lies under

LISTS = ("items", "history", "plan", "rollback", "drive", "work", "held", "!waits")
COUNT = re.compile(r"0|[1-9][0-9]{0,9}")
_NAME = re.compile(r"[A-Za-z0-9_-]{1,64}")
_TABLE = re.compile(r"[A-Za-z0-9_.-]{1,255}")
_THREAD = re.compile(r"[A-Za-z0-9_-]{1,64}(?:/[1-9][0-9]*\.(?:0|[1-9][0-9]*))*")
_NUMBER = re.compile(r"0|[1-9][0-9]*")


class Replies:
    """Cuts the bytes of a stream into replies. What of a reply was looked at once isn't looked at again."""

    def __init__(self) -> None:
        self._data = bytearray()
        self._looked = 0
        self._left: Optional[int] = None  # lines of the reply that aren't whole, once its first line is

    def feed(self, data: bytes) -> None:
        """Takes bytes that came."""
        self._data += data

    def next(self, is_list: bool) -> Optional[bytes]:
        """The next whole reply with its line feeds, or nothing if it isn't whole yet."""
        data = self._data
        if self._left is None:
            end = data.find(b"\n", self._looked)
            if end < 0:
                self._looked = len(data)
                return None
            self._looked = end + 1
            self._left = lines_after(bytes(data[: end if is_list else 0]))
        if self._left and not self._skip():
            return None
        with memoryview(data) as view:
            reply = bytes(view[: self._looked])
        del data[: self._looked]
        self._looked, self._left = 0, None
        return reply

    def _skip(self) -> bool:
        """Goes over the lines that are left, as far as they are there."""
        assert self._left is not None
        count = self._data.count(b"\n", self._looked)
        if count < self._left:
            self._left -= count
            self._looked = len(self._data)
            return False
        while self._left:
            self._looked = self._data.index(b"\n", self._looked) + 1
            self._left -= 1
        return True

    def rest(self) -> bytes:
        """The bytes behind the replies that were taken."""
        return bytes(self._data)


def lines_after(first: bytes) -> int:
    """How many lines follow the first line of a list. It may be a refusal, which none follow."""
    if not first.startswith(b"ok "):
        return 0
    count = first[3:].decode("ascii", "replace")
    return int(count) if COUNT.fullmatch(count) else 0


def encoded(line: str) -> bytes:
    """The bytes of a line that is sent. One that would have another reply than one of its own is a `ValueError`."""
    if not line or "\n" in line:
        raise ValueError("a command is one line, and not empty")
    if line.endswith("\r"):
        raise ValueError("a line doesn't end with a carriage return, since one before the line feed is dropped")
    return utf8(line) + b"\n"


def utf8(text: str) -> bytes:
    """The text's bytes. One with a lone surrogate has none, which is a `ValueError`."""
    try:
        return text.encode()
    except UnicodeEncodeError as fault:
        raise ValueError(f"a lone surrogate at character {fault.start} of {short(text)!r}") from None


def short(line: str, most: int = 200) -> str:
    """A line as an error names it."""
    return line if len(line) <= most else line[:most] + ".."


# ---- words of a line


def name(what: str, value: Any) -> str:
    """A name of a machine or an execution."""
    return _matched(what, value, _NAME, "has 1 to 64 ASCII letters, digits, _ and -")


def table_name(value: Any) -> str:
    """A name of a table."""
    return _matched("the name of a table", value, _TABLE, "has 1 to 255 ASCII letters, digits, _, - and points")


def thread(value: Any) -> str:
    """A name of a thread."""
    found = _matched("a thread", value, _THREAD, "is an execution's name, and then branches as /2.0")
    branches = found.split("/")[1:]
    if len(branches) > MOST_BRANCHES:
        raise ValueError(
            f"a thread lies under at most {MOST_BRANCHES} branches, and {short(found)!r} under {len(branches)}"
        )
    for branch in branches:
        for number in branch.split("."):
            count("a number of a fork or a branch", int(number), 0, MOST_NUMBER)
    return found


def step_name(value: Any) -> str:
    """A name of a step: a `Step`, or its text."""
    found = str(value) if not isinstance(value, str) and hasattr(value, "thread") else value
    if not isinstance(found, str):
        raise TypeError(f"a step is a Step or its name as a text, and not {type(found).__name__}")
    of_thread, sign, number = found.rpartition("#")
    if not sign or not _NUMBER.fullmatch(number):
        raise ValueError(f"a step is a thread, # and a number, as order-1#3, and not {short(found)!r}")
    thread(of_thread)
    count("the number of a step", int(number), 0, MOST_NUMBER)
    return found


def count(what: str, value: Any, least: int, most: int) -> int:
    """A whole number within its bounds."""
    if isinstance(value, bool) or not isinstance(value, int):
        raise TypeError(f"{what} is a whole number, and not {type(value).__name__}")
    if not least <= value <= most:
        raise ValueError(f"{what} is from {least:,} to {most:,}, and not {value:,}")
    return value


def _matched(what: str, value: Any, form: re.Pattern[str], meaning: str) -> str:
    if not isinstance(value, str):
        raise TypeError(f"{what} is a text, and not {type(value).__name__}")
    if not form.fullmatch(value):
        raise ValueError(f"{what} {meaning}, and {short(value)!r} isn't so")
    return value

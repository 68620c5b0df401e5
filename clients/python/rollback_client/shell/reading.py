"""The words of a line, and the JSON text behind them."""
from __future__ import annotations

import os
import re
from typing import Callable, Optional

from .refusing import Refused

_STRING = re.compile(r'"(?:[^"\\\n]|\\.)*"')
_STRING_OR_SPACE = re.compile(r'("(?:[^"\\]|\\.)*")|[ \t\r\n]+')

More = Callable[[], Optional[str]]


def split(text: str, count: int) -> tuple[list[str], str]:
    """So many words of a line, or fewer, and what is left of it."""
    parts = text.strip().split(None, count)
    return parts[:count], parts[count].strip() if len(parts) > count else ""


class Brackets:
    """How deep the brackets of a JSON text are open behind the lines that were added. Strings end in their lines."""

    def __init__(self) -> None:
        self._depth = 0
        self._is_faulty = False

    def add(self, line: str) -> None:
        """Goes on by a line."""
        bare = _STRING.sub("", line)
        self._depth += sum(bare.count(sign) for sign in "{[") - sum(bare.count(sign) for sign in "}]")
        self._is_faulty = self._is_faulty or '"' in bare

    @property
    def are_open(self) -> bool:
        """Whether the text goes on in the next line. One that can't be JSON any more doesn't."""
        return self._depth > 0 and not self._is_faulty


def one_line(text: str) -> str:
    """A JSON text without the blanks and line ends between its parts."""
    return _STRING_OR_SPACE.sub(lambda found: found[1] or "", text)


class Given:
    """The text of a definition, an input or items, as it was given, and the file if it came from one."""

    def __init__(self, text: str, file: str = ""):
        self.text, self.file = text, file

    @property
    def line(self) -> str:
        """The text as a part of one line."""
        return one_line(self.text)


def json_text(rest: str, more: More, what: str) -> Given:
    """The JSON text that a line ends with: of a file behind `@`, or the text itself, as many lines as it has."""
    if rest.startswith("@"):
        return from_file(rest[1:].strip())
    lines, brackets = [rest], Brackets()
    brackets.add(rest)
    while brackets.are_open or not rest and len(lines) == 1:
        following = more()
        if following is None and brackets.are_open:
            raise Refused(f"{what} isn't whole", "close its brackets")
        if following is None:
            break
        brackets.add(following)
        lines.append(following)
    text = "\n".join(lines)
    if not text.strip():
        raise Refused(f"{what} is missing", "write it as JSON, or @ and a file's name")
    return Given(text)


def from_file(name: str) -> Given:
    """The text of a file. A byte order mark at its beginning is left out."""
    try:
        with open(os.path.expanduser(name), "rb") as stream:
            data = stream.read()
    except OSError as fault:
        raise Refused(f"the file {name} can't be read: {fault.strerror}", "look at its name and its rights") from None
    try:
        return Given(data.decode("utf-8-sig"), name)
    except UnicodeDecodeError as fault:
        raise Refused(f"the file {name} isn't UTF-8, at byte {fault.start}", "save it as UTF-8") from None

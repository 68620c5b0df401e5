"""What the shell writes: plain text, with colours on a terminal alone."""
from __future__ import annotations

import io
import os
import shutil
import sys
import unicodedata
from typing import Mapping, Optional, Sequence, TextIO

_RED, _PLAIN, _CLEAR_LINE = "\x1b[31m", "\x1b[0m", "\r\x1b[K"
_LEAST_COLUMN = 8


class Output:
    """A stream for people: a terminal, or a file or a pipe, which gets no colour and no progress."""

    def __init__(self, stream: Optional[TextIO] = None, environment: Mapping[str, str] = os.environ):
        self.stream = sys.stdout if stream is None else stream
        self.is_terminal = self.stream.isatty()
        is_dumb = environment.get("TERM", "dumb") == "dumb"
        self._has_colours = self.is_terminal and not is_dumb and not environment.get("NO_COLOR")
        self._can_clear = self.is_terminal and not is_dumb
        self._is_progress_shown = False
        if isinstance(self.stream, io.TextIOWrapper):
            # a name that the terminal can't show is no reason to end
            self.stream.reconfigure(errors="backslashreplace")

    @property
    def width(self) -> Optional[int]:
        """How many columns the terminal has. Other streams have as many as are asked for."""
        return shutil.get_terminal_size().columns if self.is_terminal else None

    def say(self, text: str = "") -> None:
        """Writes a line."""
        self._clear()
        self.stream.write(text + "\n")
        self.stream.flush()

    def refuse(self, text: str) -> None:
        """Writes what was refused."""
        self.say(f"{_RED}{text}{_PLAIN}" if self._has_colours else text)

    def progress(self, text: str) -> None:
        """Shows on a terminal how far long work is. The next text takes its place."""
        if self._can_clear:
            self.stream.write(_CLEAR_LINE + text)
            self.stream.flush()
            self._is_progress_shown = True

    def _clear(self) -> None:
        if self._is_progress_shown:
            self.stream.write(_CLEAR_LINE)
            self._is_progress_shown = False


# ---- tables


def columns_of(text: str) -> int:
    """How many columns of a terminal a text takes."""
    return sum(
        0 if unicodedata.combining(sign) else 2 if unicodedata.east_asian_width(sign) in "WF" else 1 for sign in text
    )


def fitted(text: str, width: int) -> str:
    """A text in exactly so many columns, cut by two points if it is longer."""
    text = "".join(sign if sign.isprintable() else " " for sign in text)
    if columns_of(text) > width:
        while columns_of(text) > max(width - 2, 0):
            text = text[:-1]
        text = (text + "..")[:width]
    return text + " " * (width - columns_of(text))


def laid_out(heads: Sequence[str], rows: Sequence[Sequence[str]], width: Optional[int]) -> list[str]:
    """The lines of a table. One that is too wide has its widest columns cut, and then its last ones left out."""
    wide = [max(columns_of(row[at]) for row in [heads, *rows]) for at in range(len(heads))]
    kept = len(heads)
    if width is not None:
        while kept > 1 and sum(min(size, _LEAST_COLUMN) + 2 for size in wide[:kept]) - 2 > width:
            kept -= 1
        wide = wide[:kept]
        while sum(wide) + 2 * (kept - 1) > width and max(wide) > 1:
            wide[wide.index(max(wide))] -= 1
    lines = ["  ".join(fitted(text, size) for text, size in zip(row, wide)).rstrip() for row in [heads, *rows]]
    if kept < len(heads):
        lines.append(f"(left out: {', '.join(heads[kept:])})")
    return lines

"""A follower: accepted lines and questions come in, a line for each goes out. It stands in for `rollback_graph --serve`.

`= LINE` takes an accepted command's line, and answers `ok`, or `no N` if it isn't accepted. `? QUESTION` answers one line of JSON: an object
with `rollback_graph` (the format's version) and `entries` (how many accepted lines it speaks of), or with `error`. Fields are written in the
order of their bytes. It ends with status 0 at the end of its input.
"""
from __future__ import annotations

import sqlite3
import sys
from typing import IO, Optional, Sequence

from .book import Book
from .questions import NoAnswer, answer
from .values import written

VERSION = 1


def answered(book: Book, line: str) -> str:
    """The answer to a line."""
    if line.startswith("= "):
        return book.take(line[2:])
    if not line.startswith("? "):
        return "no 20"
    try:
        found = {**answer(book, line[2:]), "entries": len(book.entries)}
    except NoAnswer as fault:
        found = {"error": str(fault)}
    return written({**found, "rollback_graph": VERSION})


def opened(journal: Optional[str]) -> Book:
    """The book of a journal's file, which is read once and never written, or an empty one."""
    book = Book()
    if journal is not None:
        with sqlite3.connect(f"file:{journal}?mode=ro", uri=True) as store:
            for number, line in store.execute("SELECT no, line FROM entry ORDER BY no"):
                if book.take(line) != "ok":
                    raise ValueError(f"damaged {number}")
    return book


def follow(lines: IO[bytes], out: IO[bytes], book: Book) -> None:
    """Answers each line, to the end of the input."""
    for data in lines:
        try:
            said = answered(book, data.rstrip(b"\n").decode())
        except UnicodeDecodeError:
            said = "no 20"
        out.write(said.encode() + b"\n")
        out.flush()


def show(words: Sequence[str]) -> bool:
    """Writes the viewer, or a page, if the words ask for one: `--viewer script|style`, or `FILE --html [--from STEP]`."""
    from .viewer import named, page, viewer

    if len(words) == 2 and words[0] == "--viewer" and words[1] in ("script", "style"):
        sys.stdout.write(viewer(words[1]))
        return True
    if len(words) in (2, 4) and words[1] == "--html" and (len(words) == 2 or words[2] == "--from"):
        sys.stdout.write(page(opened(words[0]), named(words[0]), words[3] if len(words) == 4 else None))
        return True
    return False


def main(words: Sequence[str]) -> int:
    """Follows as the words say: `[FILE] --serve`, in either order; or shows what `show` can."""
    if show(words):
        return 0
    files = [word for word in words if word != "--serve"]
    if "--serve" not in words or len(files) > 1:
        print("usage: plain_book [FILE] --serve", file=sys.stderr)
        return 2
    follow(sys.stdin.buffer, sys.stdout.buffer, opened(files[0] if files else None))
    return 0

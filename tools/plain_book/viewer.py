"""The viewer's script and style, as crates/graph_viewer has them, and a page that a browser shows by itself.

The page is the one that `rollback_graph --html` writes: docs/CONSOLE.md has its form, byte by byte.
"""
from __future__ import annotations

import base64
import hashlib
import html
import os
import pathlib
import re
from typing import Any, Dict, List, Optional

from .book import Book
from .questions import answer
from .values import written

SOURCES = pathlib.Path(__file__).resolve().parents[2] / "crates/graph_viewer/src"
MOST_STEPS = 65536
_TEXT = re.compile(r'const [A-Z_]+: &str = r####"(.*)"####;\n', re.DOTALL)
_PART = re.compile(r"        (\w+)::text\(\),\n")


def _text(path: pathlib.Path) -> str:
    found = _TEXT.search(path.read_text(encoding="utf-8"))
    if found is None:
        raise ValueError(f"{path} has no text")
    return found[1]


def viewer(part: str) -> str:
    """The `script` or the `style`."""
    if part == "style":
        return _text(SOURCES / "style.rt")
    names = _PART.findall((SOURCES / "script.rt").read_text(encoding="utf-8"))
    return "".join(_text(SOURCES / "script" / f"{name}.rt") for name in names)


def page(book: Book, name: str, step: Optional[str]) -> str:
    """A page of a book whose journal's file has this name, at a step if one is given."""
    data = {
        "list": _answer(book, "list"),
        "machines": _answer(book, "machines"),
        "name": name,
        "show": step,
        "steps": _answer(book, f"steps 0 {MOST_STEPS}"),
    }
    return page_of(written(data), _rows(data["steps"]["steps"]), name, step)


def page_of(data: str, rows: str, name: str, step: Optional[str]) -> str:
    """The page, with its data and its table's rows."""
    script, style = viewer("script"), viewer("style")
    policy = (
        f"default-src 'none'; script-src 'sha256-{_hash(script)}'; style-src 'sha256-{_hash(style)}'; img-src data:; "
        "base-uri 'none'; form-action 'none'; require-trusted-types-for 'script'"
    )
    title = _escaped(name if step is None else f"{name}: {step}")
    head = "".join(f"<th>{word}</th>" for word in ("Step", "Kind", "State", "Key", "Went to", "Depends on"))
    return (
        '<!DOCTYPE html>\n<html lang="en">\n<head>\n<meta charset="utf-8">\n'
        f'<meta http-equiv="Content-Security-Policy" content="{policy}">\n'
        '<meta name="viewport" content="width=device-width, initial-scale=1">\n'
        f'<title>{title}</title>\n<link rel="icon" href="data:,">\n<style>{style}</style>\n</head>\n<body>\n'
        f"<noscript>\n<h1>{title}</h1>\n<table>\n<tr>{head}</tr>\n{rows}</table>\n</noscript>\n"
        f'<script type="application/json" id="book">{data.replace("<", chr(92) + "u003c")}</script>\n'
        f"<script>{script}</script>\n</body>\n</html>\n"
    )


def _escaped(text: str) -> str:
    """A text as the program escapes it: a single quote means nothing there."""
    return html.escape(text, quote=False).replace('"', "&quot;")


def _hash(text: str) -> str:
    return base64.b64encode(hashlib.sha256(text.encode()).digest()).decode()


def _answer(book: Book, question: str) -> Dict[str, Any]:
    return {**answer(book, question), "entries": len(book.entries), "rollback_graph": 1}


def _rows(steps: List[Dict[str, Any]]) -> str:
    return "".join(
        "<tr>" + "".join(f"<td>{_escaped(text)}</td>" for text in _cells(row)) + "</tr>\n" for row in steps
    )


def _cells(row: Dict[str, Any]) -> List[str]:
    outcome = row["outcome"]
    went = [outcome["to"], *(str(outcome[name]) for name in ("state", "error", "branches") if name in outcome)]
    return [
        row["step"],
        row["kind"],
        row["state"] or "",
        "" if row["key"] is None else f"{row['access']} {written(row['key'])}",
        " ".join(went),
        ", ".join(f"{on['step']} ({on['reason']})" for on in row["on"]),
    ]


def named(journal: Optional[str]) -> str:
    """The name of a journal's file, as a page has it."""
    return "" if journal is None else os.path.basename(journal)

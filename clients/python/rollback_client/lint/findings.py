"""What the linter finds, and where."""
from __future__ import annotations

import json
import re
from dataclasses import dataclass
from typing import Optional, Sequence, Union

from .codes import ERRORS
from .scanner import Node, Scanner

Path = tuple[Union[str, int], ...]
_WORD = re.compile(r"[\w-]+(\.\$)?")
_MOST_FOUND = 80
# What a command line says of its text as a whole, and what a definition without its fields is refused for.
BAD_LINE, BAD_JSON = "20", "25 1"


@dataclass(frozen=True)
class Finding:
    """A fault of a definition.

    `path` leads to it, and `pointer` says the same by RFC 6901. `line` and `column` count from 1, in characters.
    `found` is what is there, as JSON, and `replacement`, if there is a sure one, is JSON that goes in its place.
    `refusal` is what `define` answers for this fault, behind its `no`; a warning has none.
    """

    file: str
    path: Path
    line: int
    column: int
    code: str
    found: str
    message: str
    help: str
    replacement: Optional[str] = None
    refusal: Optional[str] = None

    @property
    def severity(self) -> str:
        return "error" if self.code in ERRORS else "warning"

    @property
    def pointer(self) -> str:
        return pointer_of(self.path)

    @property
    def place(self) -> str:
        return place_of(self.path)

    def as_json(self) -> dict[str, Union[str, int]]:
        """The fields that `--json` writes."""
        fields: dict[str, Union[str, int]] = {
            "file": self.file,
            "pointer": self.pointer,
            "line": self.line,
            "column": self.column,
            "severity": self.severity,
            "code": self.code,
            "found": self.found,
            "message": self.message,
            "help": self.help,
        }
        if self.replacement is not None:
            fields["replacement"] = self.replacement
        return fields

    def __str__(self) -> str:
        advice = f": {self.help}" if self.help else ""
        return f"{self.place} (line {self.line}): {self.message}{advice}"


def pointer_of(path: Path) -> str:
    """A path by RFC 6901."""
    return "".join("/" + str(part).replace("~", "~0").replace("/", "~1") for part in path)


def place_of(path: Path) -> str:
    """A path as people write it: `States.Check.Branches[1].Resource`."""
    if not path:
        return "the definition"
    said = ""
    for part in path:
        if isinstance(part, int):
            said += f"[{part}]"
        elif _WORD.fullmatch(part):
            said += f".{part}" if said else part
        else:
            said += f"[{json.dumps(part, ensure_ascii=False)}]"
    return said


def json_string(text: Optional[str]) -> Optional[str]:
    """A text as JSON writes it, if there is one."""
    return None if text is None else json.dumps(text, ensure_ascii=False)


def refusal_of(fault: int, name: Optional[str] = None) -> str:
    """What `define` answers for a fault of this number, of a field, a state or a name."""
    return f"3 {fault}" + ("" if name is None else f" {json.dumps(name, ensure_ascii=False)}")


MISSING, UNKNOWN, LEFT_OUT, BAD, NO_TARGET, BOTH, ALL_PLACE, TOO_DEEP = range(1, 9)


class Report:
    """Collects what is found in one text."""

    def __init__(self, source: Scanner, file: str):
        self.source, self.file = source, file
        self.findings: list[Finding] = []

    def found(self, start: int, end: int) -> str:
        """A part of the text, on one line and not too long."""
        text = re.sub(r"\s+", " ", self.source.text[start:end])
        return text if len(text) <= _MOST_FOUND else text[: _MOST_FOUND - 2] + ".."

    def shown(self, node: Node) -> str:
        """A value as a message has it: a string is shown without its quotes."""
        text = self.found(node.start, node.end)
        return text[1:-1] if node.kind == "string" and text.endswith('"') and "\\" not in text else text

    def at(
        self,
        span: tuple[int, int],
        path: Path,
        code: str,
        message: str,
        help: str,
        refusal: Optional[str] = None,
        replacement: Optional[str] = None,
        found: Optional[str] = None,
    ) -> None:
        """Adds what is found at a part of the text."""
        line, column = self.source.place(span[0])
        there = self.found(*span) if found is None else found
        self.findings.append(Finding(self.file, path, line, column, code, there, message, help, replacement, refusal))

    def value(
        self,
        node: Node,
        path: Path,
        code: str,
        message: str,
        help: str,
        refusal: Optional[str] = None,
        replacement: Optional[str] = None,
    ) -> None:
        """Adds what is found of a value."""
        self.at((node.start, node.end), path, code, message, help, refusal, replacement)

    def name(
        self,
        node: Node,
        name: str,
        path: Path,
        code: str,
        message: str,
        help: str,
        refusal: Optional[str] = None,
        replacement: Optional[str] = None,
    ) -> None:
        """Adds what is found of a field's name. `path` leads to the object."""
        member = node.fields[name]
        self.at((member.start, member.end), (*path, name), code, message, help, refusal, replacement)

    def object(self, node: Node, path: Path, code: str, message: str, help: str, refusal: Optional[str] = None) -> None:
        """Adds what an object lacks, or is as a whole. The place is its bracket."""
        self.at((node.start, node.start + 1), path, code, message, help, refusal, found="")

    def missing(self, node: Node, path: Path, name: str, help: str) -> None:
        """Adds that an object lacks a required field."""
        self.object(node, path, "MISSING_FIELD", f"{name} is missing", help, refusal_of(MISSING, name))

    def bad(
        self,
        node: Node,
        path: Path,
        field: str,
        message: str,
        help: str,
        code: str = "BAD_VALUE",
        replacement: Optional[str] = None,
    ) -> None:
        """Adds a bad value, which `define` names by this field."""
        self.value(node, path, code, message, help, refusal_of(BAD, field), replacement)

    def sorted(self) -> list[Finding]:
        """All of them, in the order of the text."""
        return sorted(self.findings, key=lambda finding: (finding.line, finding.column, finding.severity))


def names_listed(names: Sequence[str]) -> str:
    """Names as a sentence lists them: `a, b or c`."""
    return " or ".join([", ".join(names[:-1]), names[-1]] if len(names) > 1 else names)

"""JSON with places: each value of a text, and where in the text it begins.

It reads what the program reads, RFC 8259 in UTF-8 with at most 127 levels. After a value that isn't JSON but whose end
can be seen (`NaN`, a lone surrogate) it goes on, so that one run shows as many faults as it can.
"""
from __future__ import annotations

import bisect
import re
from dataclasses import dataclass, field
from typing import Optional, Union

MOST_LEVELS = 127
_SMALLEST, _LARGEST = -(2**63), 2**63 - 1
_SPACE = re.compile(r"[ \t\n\r]*")
_NUMBER = re.compile(r"-?(?:0|[1-9][0-9]*)(?P<rest>(?:\.[0-9]+)?(?:[eE][+-]?[0-9]+)?)")
_WORD = re.compile(r"true|false|null")
_NO_NUMBER = re.compile(r"NaN|[+-]?Infinity")
_PLAIN = re.compile(r'[^"\\\x00-\x1f\ud800-\udfff]*')
_HEXADECIMAL = re.compile(r"[0-9A-Fa-f]{4}")
_ESCAPES = {
    '"': '"', "\\": "\\", "/": "/", "b": "\b", "f": "\f", "n": "\n", "r": "\r", "t": "\t",
}  # fmt: skip
_WORDS = {"true": True, "false": False, "null": None}

Scalar = Union[None, bool, int, float, str]


@dataclass
class Member:
    """A field of an object: its name, where the name begins and ends, and its value."""

    name: str
    start: int
    end: int
    value: Node


@dataclass
class Node:
    """A value: an object, array, string, number, boolean or null, as `kind` says."""

    kind: str
    start: int
    end: int = 0
    scalar: Scalar = None
    items: list[Node] = field(default_factory=list)
    fields: dict[str, Member] = field(default_factory=dict)
    repeated: list[Member] = field(default_factory=list)
    whole: bool = False

    def get(self, name: str) -> Optional[Node]:
        """The value of an object's field. Of a field that is repeated the last one counts."""
        found = self.fields.get(name)
        return found.value if found else None

    def text(self) -> Optional[str]:
        """A string's text, and nothing of another value."""
        return self.scalar if isinstance(self.scalar, str) else None

    def text_of(self, name: str) -> Optional[str]:
        """The text of an object's field, if the field is there and a string."""
        value = self.get(name)
        return value.text() if value else None


@dataclass(frozen=True)
class Flaw:
    """What makes a text no JSON, or none to the program. `code` is that of the linter."""

    start: int
    end: int
    code: str
    message: str
    help: str


class _Stop(Exception):
    """Nothing behind this place can be read."""


class Scanner:
    """Reads one text. `root` is its value, if it could be read to its end, and `flaws` are what isn't JSON in it."""

    def __init__(self, text: str):
        self.text = text
        self.flaws: list[Flaw] = []
        self.root: Optional[Node] = None
        self._lines = [0, *(found.end() for found in re.finditer("\n", text))]
        try:
            self.root = self._whole()
        except _Stop:
            pass

    def place(self, at: int) -> tuple[int, int]:
        """The line and the column of a character, both from 1."""
        line = bisect.bisect_right(self._lines, at)
        return line, at - self._lines[line - 1] + 1

    def _flaw(self, start: int, end: int, code: str, message: str, help: str) -> None:
        self.flaws.append(Flaw(start, end, code, message, help))

    def _stop(self, at: int, message: str, help: str) -> _Stop:
        self._flaw(at, min(at + 1, len(self.text)), "NOT_JSON", message, help)
        return _Stop()

    def _skip(self, at: int) -> int:
        found = _SPACE.match(self.text, at)
        return found.end() if found else at

    def _at(self, at: int) -> str:
        return self.text[at : at + 1]

    def _shown(self, at: int) -> str:
        return repr(self._at(at)) if at < len(self.text) else "the end of the text"

    def _whole(self) -> Node:
        if self._at(0) == "\ufeff":
            self._flaw(0, 1, "NOT_JSON", "a byte order mark isn't JSON", "save the file as UTF-8 without it")
        root = self._value(self._skip(1 if self.flaws else 0), 1)
        behind = self._skip(root.end)
        if behind < len(self.text):
            raise self._stop(
                behind,
                f"{self._shown(behind)} behind the definition's end",
                "remove it, or a bracket too many before it",
            )
        return root

    def _value(self, at: int, level: int) -> Node:
        first = self._at(at)
        if first == '"':
            text, end = self._string(at)
            return Node("string", at, end, text)
        if first in ("{", "["):
            if level > MOST_LEVELS:
                self._flaw(at, at + 1, "TOO_NESTED", f"nested deeper than {MOST_LEVELS} levels", "nest it less deep")
                raise _Stop()
            return self._object(at, level) if first == "{" else self._array(at, level)
        return self._scalar(at)

    def _scalar(self, at: int) -> Node:
        word = _WORD.match(self.text, at)
        if word:
            kind = "null" if word[0] == "null" else "boolean"
            return Node(kind, at, word.end(), _WORDS[word[0]])
        none = _NO_NUMBER.match(self.text, at)
        if none:
            self._flaw(at, none.end(), "NOT_JSON", f"{none[0]} isn't JSON", "write a whole number, or null")
            return Node("number", at, none.end(), 0.0)
        number = _NUMBER.match(self.text, at)
        if not number:
            raise self._stop(at, f"a value is due here, and not {self._shown(at)}", self._hint(at))
        return self._number(number)

    def _number(self, found: re.Match[str]) -> Node:
        start, end = found.span()
        if found["rest"] or found[0] == "-0" or len(found[0]) > 20:
            value = float(found[0])
            if value in (float("inf"), float("-inf")):
                self._flaw(
                    start,
                    end,
                    "NOT_JSON",
                    "the number is too large for any reader of JSON",
                    "write a whole number of 64 bits, or a string",
                )
            return Node("number", start, end, value)
        whole = int(found[0])
        return Node("number", start, end, whole, whole=_SMALLEST <= whole <= _LARGEST)

    def _hint(self, at: int) -> str:
        if self._at(at) == "'":
            return 'write strings within double quotes, "so"'
        if self.text.startswith(("//", "/*"), at) or self._at(at) == "#":
            return "JSON has no comments: use a field Comment"
        if self._at(at) in ("}", "]"):
            return "remove the comma before it"
        return "look for a quote or a comma that is missing before it"

    def _array(self, start: int, level: int) -> Node:
        node = Node("array", start)
        at = self._skip(start + 1)
        while self._at(at) != "]" or node.items:
            value = self._value(at, level + 1)
            node.items.append(value)
            at = self._skip(value.end)
            if self._at(at) == "]":
                break
            at = self._comma(at, "]")
        node.end = at + 1
        return node

    def _object(self, start: int, level: int) -> Node:
        node = Node("object", start)
        at = self._skip(start + 1)
        while self._at(at) != "}" or node.fields:
            member = self._member(at, level)
            earlier = node.fields.pop(member.name, None)
            if earlier:
                node.repeated.append(earlier)
            node.fields[member.name] = member
            at = self._skip(member.value.end)
            if self._at(at) == "}":
                break
            at = self._comma(at, "}")
        node.end = at + 1
        return node

    def _member(self, at: int, level: int) -> Member:
        if self._at(at) != '"':
            raise self._stop(at, f"a field's name is due here, and not {self._shown(at)}", self._hint(at))
        name, end = self._string(at)
        colon = self._skip(end)
        if self._at(colon) != ":":
            raise self._stop(
                colon, f"a colon is due here, and not {self._shown(colon)}", "put a colon behind the field's name"
            )
        return Member(name, at, end, self._value(self._skip(colon + 1), level + 1))

    def _comma(self, at: int, closing: str) -> int:
        if self._at(at) != ",":
            hint = (
                self._hint(at)
                if self._at(at) in ("/", "#")
                else "look for a comma or a bracket that is missing before it"
            )
            raise self._stop(at, f"a comma or {closing!r} is due here, and not {self._shown(at)}", hint)
        behind = self._skip(at + 1)
        if self._at(behind) == closing:
            raise self._stop(at, f"a comma before {closing!r}", "remove the comma")
        return behind

    def _string(self, start: int) -> tuple[str, int]:
        parts, at = [], start + 1
        while True:
            plain = _PLAIN.match(self.text, at)
            assert plain is not None  # it matches nothing, too
            parts.append(plain[0])
            at = plain.end()
            ends = self._at(at)
            if ends == '"':
                return "".join(parts), at + 1
            if ends == "":
                raise self._stop(start, "this string doesn't end", "close it by a quote")
            part, at = self._escape(at) if ends == "\\" else self._bad_character(at)
            parts.append(part)

    def _bad_character(self, at: int) -> tuple[str, int]:
        code = ord(self.text[at])
        if code < 32:
            self._flaw(
                at,
                at + 1,
                "NOT_JSON",
                f"a string holds the control character {code}",
                "write it as an escape, a line feed as \\n",
            )
        else:
            self._lone(at, at + 1, code)
        return "\ufffd", at + 1

    def _lone(self, start: int, end: int, code: int) -> None:
        self._flaw(
            start,
            end,
            "NOT_JSON",
            f"\\u{code:04x} is one half of a character: a lone surrogate",
            "write both halves, or the character itself",
        )

    def _escape(self, at: int) -> tuple[str, int]:
        letter = self._at(at + 1)
        if letter in _ESCAPES and letter:
            return _ESCAPES[letter], at + 2
        found = _HEXADECIMAL.match(self.text, at + 2) if letter == "u" else None
        if not found:
            raise self._stop(at, f"no escape of JSON begins with \\{letter}", "write a backslash as \\\\")
        code = int(found[0], 16)
        if not 0xD800 <= code <= 0xDFFF:
            return chr(code), at + 6
        low = _HEXADECIMAL.match(self.text, at + 8) if self.text.startswith("\\u", at + 6) else None
        if code <= 0xDBFF and low and 0xDC00 <= int(low[0], 16) <= 0xDFFF:
            return (chr(0x10000 + (code - 0xD800) * 0x400 + int(low[0], 16) - 0xDC00), at + 12)
        self._lone(at, at + 6, code)
        return "\ufffd", at + 6

"""Attribute values in a call, as far as a template shows them."""
from __future__ import annotations

import json
import re
from typing import Callable, Iterator, Optional

from .findings import Path, Report, json_string
from .scanner import Member, Node

TYPES = ("S", "N", "BOOL", "NULL", "L", "M", "SS", "NS")
_NUMBER = re.compile(r"-?([0-9]+)(?:\.([0-9]+))?")
_NUMBER_HELP = "write it in digits, without exponent or plus, or as a text by S"
_MOST_DIGITS, _MOST_PLACES, _MOST_LEVELS = 38, 100, 32


def members(node: Node) -> Iterator[tuple[str, str, Optional[Node]]]:
    """A template's fields: the name that it fills, the name that is written, and the value if the text shows it."""
    for name, member in node.fields.items():
        if name.endswith(".$"):
            yield name[:-2], name, None
        else:
            yield name, name, member.value


def malformed(
    report: Report, node: Node, path: Path, message: str, help: str, replacement: Optional[str] = None
) -> None:
    """Adds a value for which the call is malformed whatever its input is."""
    report.value(node, path, "MALFORMED_CALL", message, help, replacement=replacement)


def type_of(node: Node) -> Optional[tuple[str, str, Optional[Node]]]:
    """The type of an attribute value, the name that is written for it, and what is within if the text shows it."""
    found = list(members(node))
    return found[0] if node.kind == "object" and len(found) == 1 else None


def check_attribute(report: Report, node: Node, path: Path, level: int = 1) -> None:
    """Adds what makes this no attribute value."""
    if node.kind != "object":
        text = json.dumps({"S": node.text()}, ensure_ascii=False) if node.text() is not None else '{"S":".."}'
        malformed(report, node, path, "an attribute's value has to say its type", f"write it with its type, as {text}")
        return
    found = type_of(node)
    if found is None:
        malformed(
            report,
            node,
            path,
            f"an attribute's value has to have one type, and not {len(node.fields)}",
            "write one of " + ", ".join(TYPES),
        )
        return
    kind, written, value = found
    if kind not in TYPES:
        _other_type(report, node.fields[written], (*path, written), kind)
    elif level > _MOST_LEVELS:
        malformed(
            report, node, path, f"an attribute's value nests deeper than {_MOST_LEVELS} levels", "nest it less deep"
        )
    elif value is not None:
        _CHECKS[kind](report, value, (*path, kind), level)


def _other_type(report: Report, member: Member, path: Path, kind: str) -> None:
    advice = "write one of " + ", ".join(TYPES)
    message = f"no type of an attribute is named {kind}"
    if kind in ("B", "BS"):
        message, advice = (f"{kind} is a binary type, and there is none here", "write it as a text by S")
    replacement = kind.upper() if kind.upper() in TYPES else None
    if replacement:
        advice = f"write {replacement}"
    report.at((member.start, member.end), path, "MALFORMED_CALL", message, advice, replacement=json_string(replacement))


def _check_text(report: Report, node: Node, path: Path, level: int) -> None:
    if node.text() is None:
        malformed(report, node, path, "S has to be a text", "write it within quotes")


def number_fault(text: str) -> Optional[str]:
    """Why a text is no number of an attribute."""
    found = _NUMBER.fullmatch(text)
    if not found:
        return f"{text} isn't a number written as digits, perhaps with a point and more digits"
    places = (found[2] or "").rstrip("0")
    if len((found[1] + places).lstrip("0")) > _MOST_DIGITS:
        return f"a number has at most {_MOST_DIGITS} digits"
    return f"a number has at most {_MOST_PLACES} places after its point" if len(places) > _MOST_PLACES else None


def _check_number(report: Report, node: Node, path: Path, level: int) -> None:
    text = node.text()
    if text is None:
        replacement = f'"{node.scalar}"' if node.whole else None
        malformed(
            report,
            node,
            path,
            "N has to be a text with a number",
            f"write {replacement or 'the number within quotes'}",
            replacement,
        )
        return
    fault = number_fault(text)
    if fault:
        malformed(report, node, path, fault, _NUMBER_HELP)


def _check_boolean(report: Report, node: Node, path: Path, level: int) -> None:
    if node.kind != "boolean":
        replacement = node.text() if node.text() in ("true", "false") else None
        malformed(
            report,
            node,
            path,
            "BOOL has to be true or false",
            f"write {replacement or 'true or false'}, without quotes",
            replacement,
        )


def _check_null(report: Report, node: Node, path: Path, level: int) -> None:
    if node.scalar is not True:
        malformed(report, node, path, "NULL has to be true", "write true", "true")


def _check_list(report: Report, node: Node, path: Path, level: int) -> None:
    if node.kind != "array":
        malformed(report, node, path, "L has to be a list of values", "write values with their types within brackets")
    for at, item in enumerate(node.items):
        check_attribute(report, item, (*path, at), level + 1)


def _check_map(report: Report, node: Node, path: Path, level: int) -> None:
    if node.kind != "object":
        malformed(
            report, node, path, "M has to be an object of values", "write values with their types under their names"
        )
    for name, written, value in members(node):
        if value is not None:
            check_attribute(report, value, (*path, written), level + 1)


def _check_set(report: Report, node: Node, path: Path, level: int) -> None:
    kind = path[-1]
    texts = [item.text() for item in node.items]
    if node.kind != "array" or not texts or None in texts:
        malformed(
            report,
            node,
            path,
            f"{kind} has to be a list of texts, and not an empty one",
            "write texts within brackets, or leave the attribute out",
        )
        return
    numbers = [text for text in texts if text is not None]
    for text in numbers if kind == "NS" else ():
        fault = number_fault(text)
        if fault:
            malformed(report, node, path, fault, _NUMBER_HELP)
            return
    if len({_normal(text) if kind == "NS" else text for text in numbers}) < len(numbers):
        malformed(report, node, path, f"{kind} has a value twice", "write each value once")


def _normal(text: str) -> str:
    """A number's text without zeros that say nothing."""
    whole, _, places = text.lstrip("-").partition(".")
    said = f"{whole.lstrip('0')}.{places.rstrip('0')}"
    return f"-{said}" if text.startswith("-") and said != "." else said


_CHECKS: dict[str, Callable[[Report, Node, Path, int], None]] = {
    "S": _check_text,
    "N": _check_number,
    "BOOL": _check_boolean,
    "NULL": _check_null,
    "L": _check_list,
    "M": _check_map,
    "SS": _check_set,
    "NS": _check_set,
}

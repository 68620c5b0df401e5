"""Whether the tests of a Choice cover: whether a rule holds whatever its variables are.

Each variable is tried with values between and beside those that it is compared with, of the types that the tests ask
about. A variable that is compared as a number is taken to be a whole number, and so with the others.
"""
from __future__ import annotations

import itertools
from typing import Iterator, Optional, Union

from .choices import COMPARISONS
from .scanner import Node

Value = Union[None, bool, int, str, list[int]]
_MOST_TRIED = 300_000
_ABSENT = [0]
_OTHER = [1]
_TYPES = {"IsNull": None, "IsString": "", "IsNumeric": 0, "IsBoolean": False}


class _Absent(Exception):
    """A variable that is absent is an error of its own, and so not one of no match."""


def uncovered(choices: Node) -> Optional[dict[str, Value]]:
    """Values of the variables for which no rule holds, or nothing if there are none, or too many to be tried."""
    asked: dict[str, list[tuple[str, Node]]] = {}
    for rule in choices.items:
        for variable, name, value in _comparisons(rule):
            asked.setdefault(variable, []).append((name, value))
    domains = [_domain(comparisons) for comparisons in asked.values()]
    count = sum(len(comparisons) for comparisons in asked.values())
    for domain in domains:
        count *= len(domain)
    if count > _MOST_TRIED:
        return None
    for values in itertools.product(*domains):
        given = dict(zip(asked, values))
        if not _some_rule(choices.items, given):
            return given
    return None


def said(given: dict[str, Value]) -> str:
    """The values as a message shows them."""
    parts = []
    for variable, value in given.items():
        if value is _ABSENT:
            parts.append(f"{variable} is absent")
        elif value is _OTHER:
            parts.append(f"{variable} is a list")
        else:
            shown = (
                {True: "true", False: "false", None: "null"}.get(value)
                if value is None or isinstance(value, bool)
                else None
            )
            text = f'"{value}"' if isinstance(value, str) else str(value)
            parts.append(f"{variable} is {shown or text}")
    return ", ".join(parts)


def _comparisons(test: Node) -> Iterator[tuple[str, str, Node]]:
    variable = test.text_of("Variable")
    for name in COMPARISONS:
        if variable is not None and name in test.fields:
            yield variable, name, test.fields[name].value
    for name in ("And", "Or"):
        listed = test.get(name)
        for item in listed.items if listed else ():
            yield from _comparisons(item)
    inner = test.get("Not")
    if inner:
        yield from _comparisons(inner)


def _domain(comparisons: list[tuple[str, Node]]) -> list[Value]:
    """Values of one variable between which these comparisons differ."""
    names = {name for name, _ in comparisons}
    domain: list[Value] = []
    numbers = {
        value.scalar for name, value in comparisons if name.startswith("Numeric") and isinstance(value.scalar, int)
    }
    if numbers:
        domain += dict.fromkeys(number + apart for apart in (0, 1, -1) for number in sorted(numbers))
    texts = {value.scalar for name, value in comparisons if name.startswith("String") and isinstance(value.scalar, str)}
    if texts:
        domain += ["", *sorted({near for text in texts for near in (text, text + "-")})]
    if "BooleanEquals" in names:
        domain += [True, False]
    if names & set(_TYPES):
        domain += [value for name, value in _TYPES.items() if not any(_same_type(value, other) for other in domain)]
        domain.append(_OTHER)
    if "IsPresent" in names:
        domain.append(_ABSENT)
    if not any(value is not _ABSENT for value in domain):
        domain.append(_OTHER)
    return domain


def _same_type(one: Value, other: Value) -> bool:
    return type(one) is type(other) and (one is None) == (other is None)


def _some_rule(rules: list[Node], given: dict[str, Value]) -> bool:
    try:
        return any(_holds(rule, given) for rule in rules)
    except _Absent:
        return True


def _holds(test: Node, given: dict[str, Value]) -> bool:
    for name, judge in (("And", all), ("Or", any)):
        listed = test.get(name)
        if listed:
            return judge(_holds(item, given) for item in listed.items)
    inner = test.get("Not")
    if inner:
        return not _holds(inner, given)
    variable = test.text_of("Variable")
    for name in COMPARISONS:
        if variable is not None and name in test.fields:
            return _compares(name, given[variable], test.fields[name].value.scalar)
    return True  # a faulty test, which is an error of its own


def _compares(name: str, value: Value, wanted: object) -> bool:
    if name == "IsPresent":
        return (value is not _ABSENT) is wanted
    if value is _ABSENT:
        raise _Absent
    if name in _TYPES:
        return (value is not _OTHER and _same_type(value, _TYPES[name])) is wanted
    if name == "BooleanEquals":
        return isinstance(value, bool) and value is wanted
    kind = "String" if name.startswith("String") else "Numeric"
    if kind == "String" and isinstance(value, str) and isinstance(wanted, str):
        return _relates(name[len(kind) :], _bytes(value), _bytes(wanted))
    if kind == "Numeric" and type(value) is int and type(wanted) is int:
        return _relates(name[len(kind) :], value, wanted)
    return False


def _bytes(text: str) -> bytes:
    return text.encode("utf-8", "replace")


def _relates(relation: str, value: Union[int, bytes], wanted: Union[int, bytes]) -> bool:
    order = (value > wanted) - (value < wanted)  # type: ignore[operator]
    return {
        "Equals": order == 0,
        "LessThan": order < 0,
        "GreaterThan": order > 0,
        "LessThanEquals": order <= 0,
        "GreaterThanEquals": order >= 0,
    }[relation]

"""Expressions of DynamoDB: names and values substituted, projections, key conditions, and a condition of one function."""
from __future__ import annotations

import re
from dataclasses import dataclass
from decimal import Decimal
from typing import Any, Callable, Dict, List, Mapping, Optional, Set, Tuple, Union

from .members import Members
from .values import Item, value_of
from .wire import Fault

_TOKEN = re.compile(r"\s*(?:([#:]?[A-Za-z0-9_]+)|(<=|>=|<>|[=<>(),.\[\]]))")
_CONDITION_NAME = re.compile(r"[A-Za-z][A-Za-z0-9_]*")
Path = List[Union[str, int]]


def invalid(kind: str, message: str) -> Fault:
    """An expression that isn't taken."""
    return Fault("ValidationException", f"Invalid {kind}: {message}")


class Substitutions:
    """The names and values that a request gives, and which of them its expressions use."""

    def __init__(self, members: Members):
        self._names = members.fields("ExpressionAttributeNames") or {}
        self._values = members.fields("ExpressionAttributeValues") or {}
        self._used: Set[str] = set()
        for name, attribute in self._names.items():
            if not re.fullmatch(r"#[A-Za-z0-9_]+", name) or not isinstance(attribute, str) or not attribute:
                raise Fault(
                    "ValidationException", f'ExpressionAttributeNames contains invalid key: Syntax error; key: "{name}"'
                )
        for name in self._values:
            if not re.fullmatch(r":[A-Za-z0-9_]+", name):
                raise Fault(
                    "ValidationException",
                    f'ExpressionAttributeValues contains invalid key: Syntax error; key: "{name}"',
                )

    def name(self, token: str, kind: str) -> str:
        """The attribute that a token of an expression names."""
        if not token.startswith("#"):
            return token
        if token not in self._names:
            message = f"An expression attribute name used in the document path is not defined; attribute name: {token}"
            raise invalid(kind, message)
        self._used.add(token)
        return str(self._names[token])

    def value(self, token: str, kind: str) -> Item:
        """The value that a token of an expression stands for."""
        if token not in self._values:
            message = f"An expression attribute value used in expression is not defined; attribute value: {token}"
            raise invalid(kind, message)
        self._used.add(token)
        return value_of(self._values[token])

    def look_at_unused(self, has_expression: bool) -> None:
        """Refuses names and values that no expression uses, as DynamoDB does."""
        for member, given in (("Names", self._names), ("Values", self._values)):
            if given and not has_expression:
                raise Fault(
                    "ValidationException",
                    f"ExpressionAttribute{member} can only be specified when using expressions",
                )
            unused = sorted(set(given) - self._used)
            if unused:
                raise Fault(
                    "ValidationException",
                    f"Value provided in ExpressionAttribute{member} unused in expressions: keys: {{{', '.join(unused)}}}",
                )


class Words:
    """The tokens of an expression, read from the left."""

    def __init__(self, kind: str, text: str):
        self.kind, self._text = kind, text
        self._tokens: List[str] = []
        at = 0
        while text[at:].strip():
            found = _TOKEN.match(text, at)
            if found is None:
                raise self.wrong(text[at:].strip()[:1])
            self._tokens.append(found[1] or found[2])
            at = found.end()
        if not self._tokens:
            raise invalid(kind, "The expression can not be empty;")

    def wrong(self, token: str) -> Fault:
        """What is answered of a token at a place where it can't be."""
        return invalid(self.kind, f'Syntax error; token: "{token or "<EOF>"}", near: "{self._text[:80]}"')

    @property
    def next(self) -> str:
        """The next token, or an empty text at the end."""
        return self._tokens[0] if self._tokens else ""

    def take(self, wanted: Optional[str] = None) -> str:
        """Takes the next token, which has to be this one."""
        token = self.next
        if not token or wanted is not None and token.upper() != wanted:
            raise self.wrong(token)
        return self._tokens.pop(0)

    def name(self) -> str:
        """Takes a name."""
        token = self.next
        if not token or token[0] == ":" or not (token[0] == "#" or token[0].isalpha() or token[0] == "_"):
            raise self.wrong(token)
        return self.take()

    def end(self) -> None:
        """Refuses what is left."""
        if self._tokens:
            raise self.wrong(self.next)


# ---- projections


def projection_of(text: Optional[str], given: Substitutions) -> Optional[List[Path]]:
    """The paths of a projection, or nothing if there is none."""
    if text is None:
        return None
    words = Words("ProjectionExpression", text)
    paths: List[Path] = []
    while True:
        path: Path = [given.name(words.name(), words.kind)]
        while words.next in (".", "["):
            if words.take() == ".":
                path.append(given.name(words.name(), words.kind))
                continue
            index = words.take()
            if not index.isdecimal():
                raise words.wrong(index)
            path.append(int(index))
            words.take("]")
        paths.append(path)
        if not words.next:
            break
        words.take(",")
    _look_at_overlaps(paths)
    return paths


def _look_at_overlaps(paths: List[Path]) -> None:
    for at, first in enumerate(paths):
        for second in paths[at + 1 :]:
            if first[: len(second)] == second or second[: len(first)] == first:
                raise invalid(
                    "ProjectionExpression", "Two document paths overlap with each other; must remove or rewrite one"
                )


def projected(item: Item, paths: Optional[List[Path]]) -> Item:
    """What of an item these paths lead to. Elements of a list come in its order, without those between."""
    if paths is None:
        return item
    found: Item = {}
    for name in dict.fromkeys(path[0] for path in paths):
        if name in item:
            below = [path[1:] for path in paths if path[0] == name]
            value = _projected_value(item[name], below)  # type: ignore[index]
            if value is not None:
                found[name] = value  # type: ignore[index]
    return found


def _projected_value(value: Item, paths: List[Path]) -> Optional[Item]:
    if any(not path for path in paths):
        return value
    ((kind, within),) = value.items()
    heads = dict.fromkeys(path[0] for path in paths)
    kept: List[Tuple[Union[str, int], Item]] = []
    for head in sorted(heads, key=lambda head: head if isinstance(head, int) else -1):
        is_there = head in within if kind == "M" else kind == "L" and isinstance(head, int) and head < len(within)
        if is_there and isinstance(head, int if kind == "L" else str):
            below = _projected_value(within[head], [path[1:] for path in paths if path[0] == head])
            if below is not None:
                kept.append((head, below))
    if not kept:
        return None
    return {"L": [below for _, below in kept]} if kind == "L" else {"M": dict(kept)}


# ---- key conditions


@dataclass(frozen=True)
class KeyCondition:
    """The value of the partition key, and what a sort key has to be."""

    partition: Item
    holds: Callable[[Item], bool] = lambda value: True


def key_condition_of(text: str, given: Substitutions, key: Tuple[Tuple[str, str], ...]) -> KeyCondition:
    """A key condition: the partition key equal to a value, and perhaps one test of the sort key."""
    words = Words("KeyConditionExpression", text)
    tests = _tests(words, given)
    words.end()
    named = dict(tests)
    if len(tests) > 2 or len(named) != len(tests):
        raise invalid(words.kind, "KeyConditionExpressions must only contain one condition per key")
    unknown = [name for name in named if name not in dict(key)]
    partition = named.get(key[0][0])
    if unknown or partition is None:
        raise Fault("ValidationException", f"Query condition missed key schema element: {key[0][0]}")
    operator, values = partition
    if operator != "=":
        raise Fault("ValidationException", "Query key condition not supported: the partition key is tested by =")
    for name, (_, found) in named.items():
        if any(kind != dict(key)[name] for value in found for kind in value):
            raise Fault(
                "ValidationException",
                "One or more parameter values were invalid: Condition parameter type does not match schema type",
            )
    if len(named) == 1:
        return KeyCondition(values[0])
    return KeyCondition(values[0], _holder(*named[key[1][0]]))


Test = Tuple[str, List[Item]]


def _tests(words: Words, given: Substitutions) -> List[Tuple[str, Test]]:
    """Tests that all have to hold, each with the name that it is of."""
    found: List[Tuple[str, Test]] = []
    while True:
        if words.next == "(":
            words.take()
            found += _tests(words, given)
            words.take(")")
        else:
            found.append(_test(words, given))
        if words.next.upper() != "AND":
            return found
        words.take()


def _test(words: Words, given: Substitutions) -> Tuple[str, Test]:
    """One test, with the name that it is of."""
    if words.next == "begins_with":
        words.take()
        words.take("(")
        name = given.name(words.name(), words.kind)
        words.take(",")
        value = given.value(words.take(), words.kind)
        words.take(")")
        return name, ("begins_with", [value])
    name = given.name(words.name(), words.kind)
    operator = words.take()
    if operator.upper() == "BETWEEN":
        first = given.value(words.take(), words.kind)
        words.take("AND")
        return name, ("BETWEEN", [first, given.value(words.take(), words.kind)])
    if operator not in ("=", "<", "<=", ">", ">="):
        raise words.wrong(operator)
    return name, (operator, [given.value(words.take(), words.kind)])


def ordered(value: Item) -> Any:
    """A key's value as the book orders it: a text by its bytes, a number by its size."""
    ((kind, found),) = value.items()
    return Decimal(found) if kind == "N" else found.encode("utf-8", "surrogatepass")


def _holder(operator: str, values: List[Item]) -> Callable[[Item], bool]:
    first, last = ordered(values[0]), ordered(values[-1])
    if operator == "begins_with":
        if "S" not in values[0]:
            raise invalid("KeyConditionExpression", "begins_with is of a text")
        return lambda value: bool(ordered(value).startswith(first))
    tests: Mapping[str, Callable[[Any], bool]] = {
        "=": lambda found: bool(found == first),
        "<": lambda found: bool(found < first),
        "<=": lambda found: bool(found <= first),
        ">": lambda found: bool(found > first),
        ">=": lambda found: bool(found >= first),
        "BETWEEN": lambda found: bool(first <= found <= last),
    }
    test = tests[operator]
    return lambda value: test(ordered(value))


# ---- conditions


def condition_of(text: Optional[str], given: Substitutions) -> Optional[str]:
    """A condition as a book has it: `attribute_exists(NAME)` or `attribute_not_exists(NAME)`."""
    if text is None:
        return None
    words = Words("ConditionExpression", text)
    depth = 0
    while words.next == "(":
        words.take()
        depth += 1
    function = words.next
    if function not in ("attribute_exists", "attribute_not_exists"):
        raise _other_condition(text)
    words.take()
    words.take("(")
    name = given.name(words.name(), words.kind)
    words.take(")")
    for _ in range(depth):
        words.take(")")
    if words.next:
        raise _other_condition(text)
    if not _CONDITION_NAME.fullmatch(name):
        raise invalid(
            words.kind,
            f"a book's condition names an attribute by a letter, then letters, digits and _, and not {name!r}",
        )
    return f"{function}({name})"


def _other_condition(text: str) -> Fault:
    return invalid(
        "ConditionExpression",
        "a book takes attribute_exists(NAME) or attribute_not_exists(NAME), and nothing else (docs/AWS.md): "
        f"{text[:100]!r}",
    )


def no_other(members: Members, names: Tuple[str, ...], what: Dict[str, str]) -> None:
    """Refuses members that a book doesn't take, each with what to do instead."""
    for name in names:
        if members.has(name):
            raise Fault("ValidationException", f"{name} isn't taken by a book: {what[name]} (docs/AWS.md)")

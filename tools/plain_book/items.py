"""Attribute values, keys, items in the order of their keys, and the three calls of the table."""
from __future__ import annotations

import re
from dataclasses import dataclass
from typing import Any, Dict, List, Optional, Sequence, Tuple

from .values import written

MOST_LEVELS = 32
PLACES = 100
_NUMBER = re.compile(r"(-?)([0-9]+)(?:\.([0-9]+))?")
_CONDITION = re.compile(r" *attribute_(exists|not_exists)\( *([A-Za-z][A-Za-z0-9_]*) *\) *")
BAD_VALUE, BAD_NUMBER, NO_KEY, KEY_TYPE, EMPTY_KEY = 1, 2, 3, 4, 5
VALIDATION = "DynamoDB.ValidationException"
NO_TABLE = "DynamoDB.ResourceNotFoundException"
CONDITION_FAILED = "DynamoDB.ConditionalCheckFailedException"

Item = Dict[str, Any]


class Malformed(Exception):
    """A value, an item or a key that is none, with the number of its fault, the field and a word."""

    def __init__(self, fault: int, field: str = "", why: str = "value"):
        super().__init__(fault, field, why)
        self.fault, self.field, self.why = fault, field, why


# ---- values


def number(text: Any) -> Tuple[int, int]:
    """A number's coefficient and places, in normal form."""
    found = _NUMBER.fullmatch(text) if isinstance(text, str) and text.isascii() else None
    if not isinstance(text, str):
        raise Malformed(BAD_VALUE)
    if found is None:
        raise Malformed(BAD_NUMBER)
    fraction = (found[3] or "").rstrip("0")
    coefficient = int(found[1] + found[2] + fraction)
    if len(str(abs(coefficient))) > 38 or len(fraction) > PLACES:
        raise Malformed(BAD_NUMBER)
    return coefficient, len(fraction)


def number_text(text: Any) -> str:
    """A number as it comes back."""
    coefficient, places = number(text)
    digits = str(abs(coefficient)).rjust(places + 1, "0")
    sign = "-" if coefficient < 0 else ""
    return f"{sign}{digits[: len(digits) - places]}" + (f".{digits[-places:]}" if places else "")


def size(text: str) -> int:
    """A whole number by which numbers are ordered."""
    coefficient, places = number(text)
    return coefficient * 10 ** (PLACES - places)


def normal(value: Any, levels: int = MOST_LEVELS) -> Any:
    """An attribute value as it comes back."""
    if not isinstance(value, dict) or len(value) != 1:
        raise Malformed(BAD_VALUE)
    ((kind, held),) = value.items()
    if kind == "S" and isinstance(held, str) or kind == "BOOL" and isinstance(held, bool) or kind == "NULL" and held is True:
        return value
    if kind == "N":
        return {kind: number_text(held)}
    if kind in ("SS", "NS") and isinstance(held, list) and held:
        return {kind: _set(kind, held)}
    if kind in ("L", "M") and levels > 0:
        if kind == "L" and isinstance(held, list):
            return {kind: [normal(part, levels - 1) for part in held]}
        if kind == "M" and isinstance(held, dict):
            return {kind: {name: normal(held[name], levels - 1) for name in sorted(held)}}
    raise Malformed(BAD_VALUE)


def _set(kind: str, held: List[Any]) -> List[str]:
    texts = [number_text(text) if kind == "NS" else text for text in held]
    if not all(isinstance(text, str) for text in texts) or len(set(texts)) != len(texts):
        raise Malformed(BAD_VALUE)
    return sorted(texts, key=size) if kind == "NS" else sorted(texts)


def normal_item(value: Any) -> Item:
    """An item as it comes back."""
    if not isinstance(value, dict):
        raise Malformed(BAD_VALUE)
    return {name: normal(value[name]) for name in sorted(value)}


# ---- keys


@dataclass(frozen=True)
class Schema:
    """A table's name, and its key's attributes with their types."""

    table: str
    attributes: Tuple[Tuple[str, str], ...]

    def key_of(self, item: Item) -> str:
        """The key of an item: its attributes as JSON."""
        found = {}
        for name, kind in self.attributes:
            if name not in item:
                raise Malformed(NO_KEY, name, "missing")
            if kind not in item[name]:
                raise Malformed(KEY_TYPE, name, "type")
            if item[name] == {"S": ""}:
                raise Malformed(EMPTY_KEY, name, "empty")
            found[name] = item[name]
        return written(found)

    def order(self, item: Item) -> Sequence[Any]:
        """By what items are ordered."""
        return [item[name]["S"].encode() if kind == "S" else size(item[name]["N"]) for name, kind in self.attributes]


# ---- calls


@dataclass(frozen=True)
class Call:
    """A well-formed call of an action: getItem, putItem or deleteItem."""

    action: str
    table: str
    item: Item  # of a put the item, else the key
    condition: Optional[Tuple[bool, str]] = None  # whether the attribute has to be there, and its name
    wants_old: bool = False


_ALLOWED = {
    "getItem": {"TableName", "Key", "ConsistentRead"},
    "putItem": {"TableName", "Item", "ConditionExpression", "ReturnValues"},
    "deleteItem": {"TableName", "Key", "ConditionExpression", "ReturnValues"},
}
_UNREAD = {"ReturnConsumedCapacity", "ReturnItemCollectionMetrics"}


def call_of(action: str, value: Any) -> Call:
    """The call that a state's effective input is, or `Malformed` with the field and why."""
    if not isinstance(value, dict):
        raise Malformed(BAD_VALUE, "", "object")
    of = "Item" if action == "putItem" else "Key"
    for field in sorted(value):
        if field not in _ALLOWED[action] | _UNREAD:
            raise Malformed(BAD_VALUE, field, "unknown")
    for field in (of, "TableName"):
        if field not in value:
            raise Malformed(BAD_VALUE, field, "missing")
    if not isinstance(value["TableName"], str):
        raise Malformed(BAD_VALUE, "TableName", "value")
    condition = _condition(value["ConditionExpression"]) if "ConditionExpression" in value else None
    if value.get("ReturnValues", "NONE") not in ("NONE", "ALL_OLD"):
        raise Malformed(BAD_VALUE, "ReturnValues", "value")
    try:
        item = normal_item(value[of])
    except Malformed as fault:
        raise Malformed(fault.fault, of, "value") from None
    return Call(action, value["TableName"], item, condition, value.get("ReturnValues") == "ALL_OLD")


def _condition(text: Any) -> Tuple[bool, str]:
    found = _CONDITION.fullmatch(text) if isinstance(text, str) else None
    if found is None:
        raise Malformed(BAD_VALUE, "ConditionExpression", "value")
    return found[1] == "exists", found[2]


def key_asked(schema: Schema, call: Call) -> str:
    """The key of a call to this table."""
    if call.action != "putItem":
        for name in sorted(call.item):
            if name not in dict(schema.attributes):
                raise Malformed(NO_KEY, name, "unknown")
    return schema.key_of(call.item)


@dataclass(frozen=True)
class Decided:
    """What a call does given the present item: its answer or its error, whether it writes, and the item afterwards."""

    answer: Any
    error: Optional[str]
    writes: bool
    after: Optional[Item]


def decide(call: Call, present: Optional[Item]) -> Decided:
    """Decides a call on the present item."""
    if call.action == "getItem":
        return Decided({} if present is None else {"Item": present}, None, False, present)
    if call.condition is not None and (call.condition[1] in (present or {})) != call.condition[0]:
        return Decided(None, CONDITION_FAILED, False, present)
    answer = {"Attributes": present} if call.wants_old and present is not None else {}
    return Decided(answer, None, True, call.item if call.action == "putItem" else None)

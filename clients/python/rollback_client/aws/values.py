"""Attribute values as DynamoDB's callers send them, brought to the book's form, or refused as DynamoDB does."""
from __future__ import annotations

import decimal
import re
from decimal import Decimal
from typing import Any, Dict, List

from .wire import Fault

MOST_DIGITS, MOST_PLACES, MOST_LEVELS = 38, 100, 32
MOST_ITEM = 400 << 10  # bytes, as of DynamoDB
_NUMBER = re.compile(r"\s*[+-]?(?:[0-9]+(?:\.[0-9]*)?|\.[0-9]+)(?:[eE][+-]?[0-9]{1,5})?\s*")
Item = Dict[str, Any]


def bad(message: str) -> Fault:
    """A value that DynamoDB, or the book, doesn't take."""
    return Fault("ValidationException", f"One or more parameter values were invalid: {message}")


def item_of(given: Any, name: str) -> Item:
    """An item, or a key, in the book's form."""
    if not isinstance(given, dict):
        raise Fault("SerializationException", f"{name} has to be an object of attribute values")
    found = {attribute: value_of(value, MOST_LEVELS) for attribute, value in given.items()}
    if size_of(found) > MOST_ITEM:
        raise Fault("ValidationException", "Item size has exceeded the maximum allowed size")
    return found


def value_of(given: Any, levels: int = MOST_LEVELS) -> Item:
    """An attribute value in the book's form."""
    if not isinstance(given, dict):
        raise Fault("SerializationException", "an attribute value has to be an object of one field, its type")
    if len(given) != 1:
        if not given:
            raise Fault(
                "ValidationException",
                "Supplied AttributeValue is empty, must contain exactly one of the supported datatypes",
            )
        raise Fault(
            "ValidationException",
            "Supplied AttributeValue has more than one datatypes set, must contain exactly one of the supported datatypes",
        )
    if levels == 0:
        raise Fault(
            "ValidationException",
            "Nesting Levels have exceeded supported limits: attribute values nest at most 32 deep",
        )
    ((kind, value),) = given.items()
    if kind in ("B", "BS"):
        raise bad(f"a book has no binary attributes ({kind}): keep them as text, as of Base64")
    read = _READERS.get(kind)
    if read is None:
        raise Fault("SerializationException", f"there is no type {str(kind)[:40]!r} of attribute values")
    return {kind: read(value, levels)}


def _text(value: Any, levels: int) -> str:
    if not isinstance(value, str):
        raise Fault("SerializationException", "the value of an S has to be a text")
    try:
        value.encode()
    except UnicodeEncodeError:
        raise bad("a text with a lone surrogate is none of Unicode") from None
    return value


def _number(value: Any, levels: int) -> str:
    if not isinstance(value, str):
        raise Fault("SerializationException", "the value of an N has to be a text")
    if len(value) > 300 or not _NUMBER.fullmatch(value):
        raise Fault("ValidationException", f"The parameter cannot be converted to a numeric value: {value[:100]}")
    return number_text(Decimal(value.strip()))


def number_text(number: Decimal) -> str:
    """A number's digits without an exponent, and without needless zeros."""
    sign, digits, exponent = number.as_tuple()
    assert isinstance(exponent, int)
    text = "".join(map(str, digits)).strip("0")
    if not text:
        return "0"
    exponent += len(digits) - len("".join(map(str, digits)).rstrip("0"))
    if len(text) + max(exponent, 0) > MOST_DIGITS:
        raise Fault(
            "ValidationException", f"Attempting to store more than {MOST_DIGITS} significant digits in a Number"
        )
    if -exponent > MOST_PLACES:
        raise bad(f"a number of a book has at most {MOST_PLACES} places after its point")
    with decimal.localcontext() as context:
        context.prec = MOST_DIGITS + MOST_PLACES
        return format(Decimal((sign, tuple(map(int, text)), exponent)), "f")


def _truth(value: Any, levels: int) -> bool:
    if not isinstance(value, bool):
        raise Fault("SerializationException", "the value of a BOOL has to be true or false")
    return value


def _null(value: Any, levels: int) -> bool:
    if value is not True:
        raise bad("Null attribute value types must have the value of true")
    return True


def _list(value: Any, levels: int) -> List[Item]:
    if not isinstance(value, list):
        raise Fault("SerializationException", "the value of an L has to be a list")
    return [value_of(element, levels - 1) for element in value]


def _map(value: Any, levels: int) -> Item:
    if not isinstance(value, dict):
        raise Fault("SerializationException", "the value of an M has to be an object")
    return {name: value_of(below, levels - 1) for name, below in value.items()}


def _texts(value: Any, levels: int) -> List[str]:
    found = [_text(text, levels) for text in _set(value)]
    return _without_repeats(found, value)


def _numbers(value: Any, levels: int) -> List[str]:
    return _without_repeats([_number(text, levels) for text in _set(value)], value)


def _set(value: Any) -> List[Any]:
    if not isinstance(value, list):
        raise Fault("SerializationException", "the value of a set has to be a list")
    if not value:
        raise bad("a set may not be empty")
    return value


def _without_repeats(found: List[str], given: List[Any]) -> List[str]:
    if len(set(found)) != len(found):
        raise bad(f"Input collection [{', '.join(map(str, given))}] contains duplicates.")
    return found


_READERS = {
    "S": _text,
    "N": _number,
    "BOOL": _truth,
    "NULL": _null,
    "L": _list,
    "M": _map,
    "SS": _texts,
    "NS": _numbers,
}


def size_of(item: Item) -> int:
    """An item's bytes as DynamoDB counts them, near enough."""
    return sum(len(name.encode("utf-8", "surrogatepass")) + _size(value) for name, value in item.items())


def _size(value: Item) -> int:
    ((kind, found),) = value.items()
    if kind in ("S", "N"):
        return len(found.encode("utf-8", "surrogatepass")) if kind == "S" else len(found) // 2 + 1
    if kind in ("SS", "NS"):
        return sum(len(text) for text in found)
    if kind == "L":
        return 3 + sum(1 + _size(element) for element in found)
    if kind == "M":
        return 3 + sum(1 + len(name) + _size(below) for name, below in found.items())
    return 1

"""Python's values as attribute values of the table (`{"S": ..}`), and back, as boto3's serializer has them."""
from __future__ import annotations

import decimal
import re
from decimal import Decimal
from typing import Any, Callable, Dict, Mapping, Set, Union

MOST_DIGITS = 38
MOST_PLACES = 100  # after a number's point
MOST_LEVELS = 32
_NUMBER = re.compile(r"-?[0-9]+(?:\.[0-9]+)?")
Attribute = Dict[str, Any]


def attribute(value: Any) -> Attribute:
    """A value as an attribute value.

    None is NULL, a bool BOOL, an int or a Decimal N, a str S, a list or a tuple L, a dict M, a set of texts SS, and of numbers NS.
    A float is a `TypeError`, as of boto3: use Decimal. So are bytes, since the table has no binary, and a set of several types. A
    number of more than 38 digits or more than 100 places after its point, one that isn't finite, an empty set and a value of more
    than 32 levels are `ValueError`s.
    """
    return _attribute(value, MOST_LEVELS)


def _attribute(value: Any, levels: int) -> Attribute:
    if levels == 0:
        raise ValueError(f"an attribute value has at most {MOST_LEVELS} levels")
    if value is None:
        return {"NULL": True}
    if isinstance(value, bool):
        return {"BOOL": value}
    if isinstance(value, (int, Decimal)):
        return {"N": _number_text(value)}
    if isinstance(value, str):
        return {"S": value}
    if isinstance(value, (set, frozenset)):
        return _set(value)
    if isinstance(value, Mapping):
        for name in value:
            if not isinstance(name, str):
                raise TypeError(f"the name of an attribute is a text, and not {type(name).__name__}")
        return {"M": {name: _attribute(below, levels - 1) for name, below in value.items()}}
    if isinstance(value, (list, tuple)):
        return {"L": [_attribute(below, levels - 1) for below in value]}
    if isinstance(value, float):
        raise TypeError("a float is no number of the table: use decimal.Decimal")
    if isinstance(value, (bytes, bytearray, memoryview)):
        raise TypeError("the table has no binary attributes")
    raise TypeError(f"no attribute value of {type(value).__name__}")


def _set(values: Union[Set[Any], frozenset[Any]]) -> Attribute:
    if not values:
        raise ValueError("a set of the table isn't empty")
    if all(isinstance(value, str) for value in values):
        return {"SS": sorted(values, key=str.encode)}
    if all(isinstance(value, (int, Decimal)) and not isinstance(value, bool) for value in values):
        return {"NS": [_number_text(value) for value in sorted(values)]}
    if any(isinstance(value, float) for value in values):
        raise TypeError("a float is no number of the table: use decimal.Decimal")
    raise TypeError("a set of the table is of texts, or of numbers")


def _number_text(value: Union[int, Decimal]) -> str:
    """A number's digits, without an exponent."""
    number = Decimal(value)
    if not number.is_finite():
        raise ValueError(f"{value} isn't a finite number")
    # Zeros at its end say nothing, so they count neither as digits nor as places.
    sign, digits, exponent = number.as_tuple()
    assert isinstance(exponent, int)
    text = "".join(map(str, digits)).rstrip("0") or "0"
    exponent = 0 if text == "0" else exponent + len(digits) - len(text)
    if len(text.lstrip("0")) + max(exponent, 0) > MOST_DIGITS:
        raise ValueError(f"a number of the table has at most {MOST_DIGITS} digits")
    if -exponent > MOST_PLACES:
        raise ValueError(f"a number of the table has at most {MOST_PLACES} places after its point")
    with decimal.localcontext() as context:
        context.prec = MOST_DIGITS + MOST_PLACES
        return format(Decimal((sign if text != "0" else 0, tuple(map(int, text)), exponent)), "f")


def plain(attribute: Mapping[str, Any]) -> Any:
    """The value of an attribute value: an int for a whole N, else a Decimal, and sets for SS and NS.

    What isn't an object of one type of the table is a `TypeError`, and a bad number a `ValueError`.
    """
    if not isinstance(attribute, Mapping) or len(attribute) != 1:
        raise TypeError(f"an attribute value is an object of one field, its type: {attribute!r}")
    ((kind, value),) = attribute.items()
    read = _READERS.get(kind)
    if read is None:
        raise TypeError(f"the table has no type {kind!r}")
    return read(value)


def _number(text: Any) -> Union[int, Decimal]:
    if not isinstance(text, str) or not _NUMBER.fullmatch(text):
        raise ValueError(f"a number of the table is a text of digits, and not {text!r}")
    number = Decimal(text)
    return int(number) if number == number.to_integral_value() else number


_READERS: Dict[str, Callable[[Any], Any]] = {
    "NULL": lambda value: None,
    "BOOL": bool,
    "N": _number,
    "S": str,
    "L": lambda values: [plain(value) for value in values],
    "M": lambda fields: {name: plain(value) for name, value in fields.items()},
    "SS": set,
    "NS": lambda texts: {_number(text) for text in texts},
}

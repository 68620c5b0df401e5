"""JSON texts of lines: of inputs and items, whose numbers are whole, and of definitions."""
from __future__ import annotations

import json
import os
import pathlib
from typing import Any, Mapping, Union

MOST_WHOLE = 2**63
Definition = Union[Mapping[str, Any], str, "os.PathLike[str]"]


def value_text(what: str, value: Any) -> str:
    """A value as the JSON text of a line. A number that isn't whole, or doesn't fit 64 bits, is a `ValueError` with its place."""
    text = _dumped(what, value)
    # A text without these signs has no number but short whole ones, and most values need no walk.
    if "." in text or "e" in text or len(text) > 18:
        _look_at_numbers(what, value)
    return text


def definition_text(definition: Definition) -> str:
    """A definition as one line: of a dict, of a JSON text that begins with `{` after blanks, or of a file's path."""
    if isinstance(definition, Mapping):
        return _dumped("a definition", definition)
    if isinstance(definition, str) and definition.lstrip().startswith("{"):
        return _one_line("the definition", definition)
    if isinstance(definition, (str, os.PathLike)):
        path = pathlib.Path(definition)
        try:
            text = path.read_text(encoding="utf-8-sig")
        except UnicodeDecodeError as fault:
            raise ValueError(f"{path} isn't UTF-8, at byte {fault.start}") from None
        return _one_line(str(path), text)
    raise TypeError(f"a definition is a dict, a JSON text or a path, and not {type(definition).__name__}")


def _dumped(what: str, value: Any) -> str:
    try:
        return json.dumps(value, separators=(",", ":"), ensure_ascii=False, allow_nan=False)
    except RecursionError:
        raise ValueError(f"{what} nests too deep") from None
    except ValueError as fault:
        if "Circular" not in str(fault):
            _look_at_numbers(what, value)  # it names the place of a number that isn't finite
        raise ValueError(f"{what} is no JSON: {fault}") from None


def _one_line(what: str, text: str) -> str:
    """The text without its line ends, which JSON has between its parts alone."""
    try:
        json.loads(text)
    except RecursionError:
        raise ValueError(f"{what} nests too deep") from None
    except json.JSONDecodeError as fault:
        raise ValueError(f"{what} is no JSON: {fault}") from None
    return text.strip(" \t\r\n").replace("\r", " ").replace("\n", " ")


def _look_at_numbers(what: str, value: Any) -> None:
    waiting = [("", value)]
    while waiting:
        place, found = waiting.pop()
        if isinstance(found, float):
            raise ValueError(f"{what} has a number that isn't whole at {place or 'its top'}: {found!r}")
        if isinstance(found, int) and not isinstance(found, bool) and not -MOST_WHOLE <= found < MOST_WHOLE:
            raise ValueError(f"{what} has a number that doesn't fit 64 bits at {place or 'its top'}")
        if isinstance(found, Mapping):
            waiting += [(f"{place}/{_escaped(str(field))}", below) for field, below in found.items()]
        elif isinstance(found, (list, tuple)):
            waiting += [(f"{place}/{index}", below) for index, below in enumerate(found)]


def _escaped(field: str) -> str:
    """A field's name as a part of a JSON pointer (RFC 6901)."""
    return field.replace("~", "~0").replace("/", "~1")

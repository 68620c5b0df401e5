"""JSON, paths and templates, as docs/REFERENCE.md has them."""
from __future__ import annotations

import json
import re
from typing import Any, List, Optional, Tuple, Union

MOST_LEVELS = 127
MOST_WHOLE = 1 << 63
NOTHING = object()  # what a path picks if it leads nowhere

Path = List[Union[str, int]]
_PART = re.compile(r"\.([A-Za-z0-9_\-\x80-\U0010ffff]+)|\['([^']*)'\]|\[(0|[1-9][0-9]*)\]")


class BadJson(Exception):
    """A text that is no JSON (1), or has a number that isn't whole (2)."""

    def __init__(self, fault: int):
        super().__init__(fault)
        self.fault = fault


def written(value: Any) -> str:
    """A value without spaces, fields in the order of their names' bytes."""
    return json.dumps(value, separators=(",", ":"), ensure_ascii=False, sort_keys=True)


def read(text: str) -> Any:
    """The value of a JSON text with whole numbers."""
    unwhole: List[str] = []

    def whole(digits: str) -> int:
        number = int(digits) if len(digits) < 25 else MOST_WHOLE
        if digits == "-0" or not -MOST_WHOLE <= number < MOST_WHOLE:
            unwhole.append(digits)
        return number

    def bad(word: str) -> Any:
        raise BadJson(1)

    try:
        value = json.loads(text, parse_int=whole, parse_float=unwhole.append, parse_constant=bad)
        written(value).encode()  # a lone surrogate has no bytes
    except (ValueError, RecursionError):
        raise BadJson(1) from None
    if depth(value) > MOST_LEVELS:
        raise BadJson(1)
    if unwhole:
        raise BadJson(2)
    return value


def depth(value: Any) -> int:
    """How deep lists and objects nest."""
    if isinstance(value, dict):
        return 1 + max(map(depth, value.values()), default=0)
    if isinstance(value, list):
        return 1 + max(map(depth, value), default=0)
    return 0


# ---- paths


def path_of(text: str) -> Optional[Path]:
    """The steps of a path, or nothing if the text is none."""
    if not text.startswith("$"):
        return None
    steps: Path = []
    at = 1
    while at < len(text):
        found = _PART.match(text, at)
        if found is None:
            return None
        name = found[1] if found[1] is not None else found[2]
        steps.append(int(found[3]) if name is None else name)
        at = found.end()
    return steps


def pick(path: Path, value: Any) -> Any:
    """What a path picks of a value, or `NOTHING`."""
    for step in path:
        if isinstance(step, str):
            value = value.get(step, NOTHING) if isinstance(value, dict) else NOTHING
        else:
            value = value[step] if isinstance(value, list) and step < len(value) else NOTHING
        if value is NOTHING:
            break
    return value


def place(path: Path, root: Any, value: Any) -> Any:
    """The root with the value placed by the path, or `NOTHING` if it can't be."""
    if not path:
        return value
    step = path[0]
    if isinstance(step, str):
        if not isinstance(root, dict):
            return NOTHING
        below = place(path[1:], root.get(step, {}), value)
        return NOTHING if below is NOTHING else {**root, step: below}
    if not isinstance(root, list) or step >= len(root):
        return NOTHING
    below = place(path[1:], root[step], value)
    return NOTHING if below is NOTHING else [*root[:step], below, *root[step + 1 :]]


# ---- templates


class PicksNothing(Exception):
    """A path of a template that picks nothing: its place within the template, the path, and of which value."""

    def __init__(self, place: Tuple[Union[str, int], ...], path: str, of: Any):
        super().__init__(place, path)
        self.place, self.path, self.of = place, path, of


def fill(template: Any, value: Any, item: Any = NOTHING, index: int = 0, at: Tuple[Union[str, int], ...] = ()) -> Any:
    """A template filled from a value, and in an item selector from an item with its index."""
    if isinstance(template, list):
        return [fill(part, value, item, index, (*at, number)) for number, part in enumerate(template)]
    if not isinstance(template, dict):
        return template
    found = {}
    for name in sorted(template):
        part = template[name]
        if name.endswith(".$"):
            found[name[:-2]] = _sourced(part, value, item, index, (*at, name))
        else:
            found[name] = fill(part, value, item, index, (*at, name))
    return found


def _sourced(text: str, value: Any, item: Any, index: int, at: Tuple[Union[str, int], ...]) -> Any:
    of, path = value, text
    if item is not NOTHING and text == "$$.Map.Item.Index":
        return index
    if item is not NOTHING and text.startswith("$$.Map.Item.Value"):
        of, path = item, "$" + text[len("$$.Map.Item.Value") :]
    steps = path_of(path)
    picked = NOTHING if steps is None else pick(steps, of)
    if picked is NOTHING:
        raise PicksNothing(at, text, of)
    return picked

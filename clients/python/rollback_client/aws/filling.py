"""What a state's work begins with: paths and templates filled from its input, for the events of a history."""
from __future__ import annotations

import re
from typing import Any, Dict, List, Mapping, Optional, Tuple, Union

_STEP = re.compile(r"\.([A-Za-z0-9_\-\x80-\U0010ffff]+)|\['([^']*)'\]|\[(0|[1-9][0-9]{0,9})\]")
_INDEX, _VALUE = "$$.Map.Item.Index", "$$.Map.Item.Value"
Element = Tuple[int, Any]


class PicksNothing(Exception):
    """A path picks nothing of a value."""


def picked(path: Any, value: Any) -> Any:
    """What a path picks; an empty object of a path that is null."""
    if path is None:
        return {}
    for step in _steps(path):
        try:
            value = value[step] if isinstance(value, dict if isinstance(step, str) else list) else _nothing()
        except (KeyError, IndexError):
            raise PicksNothing(path) from None
    return value


def _nothing() -> Any:
    raise KeyError


def _steps(path: Any) -> List[Union[str, int]]:
    if not isinstance(path, str) or not path.startswith("$"):
        raise PicksNothing(path)
    found: List[Union[str, int]] = []
    at = 1
    while at < len(path):
        step = _STEP.match(path, at)
        if step is None:
            raise PicksNothing(path)
        name, quoted, index = step.groups()
        found.append(int(index) if index is not None else name if name is not None else quoted)
        at = step.end()
    return found


def filled(template: Any, value: Any, element: Optional[Element] = None) -> Any:
    """A template, filled from a value and, in an item selector, from an element of a Map."""
    if isinstance(template, list):
        return [filled(below, value, element) for below in template]
    if not isinstance(template, dict):
        return template
    found: Dict[str, Any] = {}
    for name, below in template.items():
        if not name.endswith(".$"):
            found[name] = filled(below, value, element)
        elif element is not None and below == _INDEX:
            found[name[:-2]] = element[0]
        elif element is not None and isinstance(below, str) and below.startswith(_VALUE):
            found[name[:-2]] = picked("$" + below[len(_VALUE) :], element[1])
        else:
            found[name[:-2]] = picked(below, value)
    return found


def effective(state: Mapping[str, Any], input: Any) -> Any:
    """A state's effective input. A Map's Parameters are its item selector, and aren't filled before its work."""
    value = picked(state.get("InputPath", "$"), input)
    if "Parameters" in state and state.get("Type") != "Map":
        return filled(state["Parameters"], value)
    return value


def input_of_branch(state: Mapping[str, Any], input: Any, index: int) -> Any:
    """What a branch of a Parallel or a Map begins with."""
    value = effective(state, input)
    if state.get("Type") != "Map":
        return value
    items = picked(state.get("ItemsPath", "$"), value)
    if not isinstance(items, list) or index >= len(items):
        raise PicksNothing(state.get("ItemsPath", "$"))
    selector = state.get("ItemSelector", state.get("Parameters"))
    return items[index] if selector is None else filled(selector, value, (index, items[index]))

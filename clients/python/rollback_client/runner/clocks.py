"""When a thread may be stepped: at a Wait after its moment, and in a state that is retried after its retrier's interval."""
from __future__ import annotations

import json
import math
import random
import re
from dataclasses import dataclass
from datetime import datetime, timedelta, timezone
from typing import Any, List, Mapping, Optional, Tuple, Union

from ..values import MOMENT

_EPOCH = datetime(1970, 1, 1, tzinfo=timezone.utc)
# The last second that a datetime has. What is due later counts as due then, which nobody will see.
NEVER = (datetime(9999, 12, 31, 23, 59, 59, tzinfo=timezone.utc) - _EPOCH).total_seconds()
_TIME = re.compile(
    r"([0-9]{4})-([0-9]{2})-([0-9]{2})[Tt]([0-9]{2}):([0-9]{2}):([0-9]{2})(\.[0-9]+)?(?:[Zz]|([+-])([0-9]{2}):([0-9]{2}))"
)
_STEP = re.compile(r"\.([A-Za-z0-9_\-\x80-\U0010ffff]+)|\['([^']*)'\]|\[(0|[1-9][0-9]*)\]")
_NOTHING = object()


@dataclass(frozen=True)
class Due:
    """When a thread is due, in seconds since 1970, and why it waits. `fault` says of which field no moment can be had."""

    moment: float
    why: str = ""
    fault: str = ""


class _NoMoment(Exception):
    """A field gives no moment, for this reason."""


def due_of(row: Mapping[str, Any], state: Mapping[str, Any], arrived: float) -> Optional[Due]:
    """When a thread is due that came to its state at a moment, or nothing if it is due at once by its definition.

    `row` is that of the question `threads`, and `state` the definition of its state. No definition and no input is an error: what gives
    no moment is due on arrival, with a `fault`.
    """
    if row["move"] != "step":
        return None
    if row["retrier"] is not None:
        return _retried(row, state, arrived)
    return _waits(row, state, arrived) if row["type"] == "Wait" else None


def text_of(moment: float) -> str:
    """A moment as the server's lines have it."""
    return datetime_of(moment).strftime(MOMENT)


def datetime_of(moment: float) -> datetime:
    """A moment as a datetime in UTC."""
    return _EPOCH + timedelta(seconds=min(max(moment, -NEVER / 200), NEVER))


def wait_line(thread: str, moment: Optional[float], why: str) -> str:
    """A line of the reply to `!waits`."""
    return json.dumps({"moment": None if moment is None else text_of(moment), "thread": thread, "why": why})


# ---- Wait


def _waits(row: Mapping[str, Any], state: Mapping[str, Any], arrived: float) -> Optional[Due]:
    field = next((name for name in ("Seconds", "SecondsPath", "Timestamp", "TimestampPath") if name in state), None)
    if field is None:
        return None
    try:
        value = state[field]
        if field.endswith("Path"):
            value = _picked(value, _after_input_path(state, row["input"]))
        if field.startswith("Seconds"):
            return Due(_later(arrived, _number(value)), f"Wait of {row['state']}")
        return Due(_moment(value), f"Wait of {row['state']}")
    except _NoMoment as fault:
        return Due(arrived, f"Wait of {row['state']}", f"{field}: {fault}")


def _after_input_path(state: Mapping[str, Any], value: Any) -> Any:
    path = state.get("InputPath", "$")
    return {} if path is None else _picked(path, value)


def _picked(path: Any, value: Any) -> Any:
    """What a path picks: `$`, and then `.name`, `['name']` and `[n]`."""
    if not isinstance(path, str) or not path.startswith("$"):
        raise _NoMoment(f"{path!r} is no path")
    for step in _steps(path):
        if isinstance(step, str):
            value = value.get(step, _NOTHING) if isinstance(value, dict) else _NOTHING
        else:
            value = value[step] if isinstance(value, list) and step < len(value) else _NOTHING
        if value is _NOTHING:
            raise _NoMoment(f"{path} picks nothing")
    return value


def _steps(path: str) -> List[Union[str, int]]:
    found: List[Union[str, int]] = []
    at = 1
    while at < len(path):
        step = _STEP.match(path, at)
        if step is None:
            raise _NoMoment(f"{path} is no path")
        index = step[3]
        found.append((step[1] if step[1] is not None else step[2]) if index is None else int(index[:20]))
        at = step.end()
    return found


def _number(value: Any) -> float:
    """A number of 0 or more, as a float that may be infinite."""
    if isinstance(value, bool) or not isinstance(value, (int, float)):
        raise _NoMoment(f"{_short(value)} is no number")
    try:
        found = float(value)
    except OverflowError:
        found = math.inf if value > 0 else -math.inf
    if not found >= 0:
        raise _NoMoment(f"{_short(value)} is less than 0")
    return found


def _later(arrived: float, seconds: float) -> float:
    return min(arrived + seconds, NEVER)


def _moment(value: Any) -> float:
    """A moment of RFC 3339."""
    found = _TIME.fullmatch(value) if isinstance(value, str) and len(value) < 100 else None
    if found is None:
        raise _NoMoment(f"{_short(value)} is no time")
    year, month, day, hour, minute, second = (int(found[at]) for at in range(1, 7))
    try:
        # A leap second is the first of the next minute.
        moment = datetime(year, month, day, hour, minute, min(second, 59), tzinfo=timezone.utc)
        if second > 60 or int(found[9] or 0) > 23 or int(found[10] or 0) > 59:
            raise ValueError(second)
    except ValueError:
        raise _NoMoment(f"{_short(value)} is no time") from None
    seconds = (moment - _EPOCH).total_seconds() + (second == 60) + float(found[7] or 0)
    offset = int(found[9] or 0) * 3600 + int(found[10] or 0) * 60
    return seconds - offset if found[8] == "+" else seconds + offset


def _short(value: Any) -> str:
    text = repr(value) if not isinstance(value, int) or abs(value) < 1 << 64 else "a long number"
    return text if len(text) <= 60 else text[:58] + ".."


# ---- retriers


def _retried(row: Mapping[str, Any], state: Mapping[str, Any], arrived: float) -> Optional[Due]:
    why = f"retry {row['retries']} of {row['state']}"
    retriers = state.get("Retry")
    retrier = retriers[row["retrier"]] if isinstance(retriers, list) and row["retrier"] < len(retriers) else {}
    try:
        delay = delay_of(retrier, row["retries"])
    except _NoMoment as fault:
        return Due(arrived, why, f"Retry[{row['retrier']}].{fault}")
    if retrier.get("JitterStrategy") == "FULL":
        # the same after a restart, and another one for each thread and retry
        delay *= random.Random(f"{row['thread']} {row['entry']}").random()
    return Due(_later(arrived, delay), why)


def delay_of(retrier: Mapping[str, Any], number: int) -> float:
    """The seconds before a retrier's retry of this number, which is from 1 on, without jitter."""
    interval = _field(retrier, "IntervalSeconds", 1)
    rate = _field(retrier, "BackoffRate", 2.0)
    most = _field(retrier, "MaxDelaySeconds", math.inf)
    factor = _power(rate, max(number, 1) - 1)
    # nothing times something beyond all bounds is nothing
    return min(interval * factor, most) if interval and factor else 0.0


def _field(retrier: Mapping[str, Any], name: str, otherwise: float) -> float:
    try:
        return _number(retrier[name]) if name in retrier else otherwise
    except _NoMoment as fault:
        raise _NoMoment(f"{name}: {fault}") from None


def _power(rate: float, exponent: int) -> float:
    try:
        return math.pow(rate, exponent)
    except OverflowError:
        return math.inf


Place = Tuple[Union[str, int], ...]


def state_at(definition: Any, at: List[Union[str, int]]) -> Mapping[str, Any]:
    """The state at a place of a definition; an empty one if there is none."""
    found = definition
    for step in at:
        try:
            found = found[step]
        except (KeyError, IndexError, TypeError):
            return {}
    return found if isinstance(found, dict) else {}

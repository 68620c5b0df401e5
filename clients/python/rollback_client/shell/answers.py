"""Answers of a follower as plain text."""
from __future__ import annotations

import json
from typing import Any, Mapping, Optional, Sequence

Fields = Mapping[str, Any]
_MOST = 100  # characters of a value in the middle of a line


def text_of(value: Any) -> str:
    """A value as JSON on a line."""
    return json.dumps(value, ensure_ascii=False, separators=(",", ":"))


def short_of(value: Any) -> str:
    """The beginning of a value as JSON."""
    text = text_of(value)
    return text if len(text) <= _MOST else text[: _MOST - 2] + ".."


def key_of(key: Fields) -> str:
    """A key: the text of a key of one text, else its attributes."""
    if len(key) == 1:
        ((value,),) = ((held,) for held in key.values())
        if isinstance(value, dict) and isinstance(value.get("S"), str) and value["S"].isprintable():
            return str(value["S"])
    return text_of(key)


_SAYS = {
    "thread": "is before {} in its thread",
    "start": "started its execution",
    "fork": "forked its branch",
    "join": "is of a branch that {} takes out",
    "bound": "is of a branch for which {} waited",
}


def because(cause: Fields, of: str) -> str:
    """Why a step is among the causes: what it is to the step for which it was needed."""
    if cause["reason"] == "item" and cause.get("key") is not None:
        verb = "wrote" if cause["access"] == "write" else "read"
        return f"{verb} {key_of(cause['key'])}, which {of} accessed"
    return _SAYS.get(cause["reason"], cause["reason"] + " of {}").format(of)


def what(step: Fields) -> str:
    """A step: its name, its state and what it did."""
    found = str(step["step"])
    if step.get("state") is not None:
        found += f" {step['state']}"
    if step.get("access") is not None and step.get("key") is not None:
        does = {"write": "writes", "read": "reads", "refused": "is refused by its condition on"}[step["access"]]
        found += f" {does} {key_of(step['key'])}"
    return found


def consequence(step: Fields) -> str:
    """Why a step is in a plan."""
    if step.get("after") is None:
        return "the step itself"
    if step["reason"] == "item" and step.get("key") is not None:
        verb = {"write": "writes", "read": "reads", "refused": "tried to write"}.get(step.get("access") or "", "uses")
        return f"{verb} {key_of(step['key'])} after {step['after']}"
    says = {
        "thread": "follows",
        "start": "is in the execution started by",
        "fork": "is in a branch forked by",
        "join": "takes out the branch of",
        "bound": "waited for the branch of",
    }
    return f"{says.get(step['reason'], 'depends on')} {step['after']}"


# ---- executions


def outcome_of(step: Fields) -> str:
    """What a step went on to."""
    outcome = step.get("outcome")
    if outcome is None:
        return ""
    to = outcome["to"]
    if to in ("next", "caught"):
        return f"-> {'caught, ' if to == 'caught' else ''}{outcome['state']}"
    if to == "failed":
        return f"-> failed with {outcome['error']}"
    if to == "forked":
        return f"-> {outcome['branches']} branches"
    return f"-> {to}"


def frame_line(thread: str, frame: Optional[Fields], is_closed: bool) -> str:
    """Where a thread is."""
    if frame is None:
        return f"{thread} is closed" if is_closed else thread
    phase = frame["phase"]
    if phase == "done":
        found = f"{thread} is done, with the output {short_of(frame['output'])}"
    elif phase == "failed":
        found = f"{thread} has failed with {frame['error']}" + (f": {frame['cause']}" if frame["cause"] else "")
    elif phase == "parked":
        found = f"{thread} waits in the state {frame['state']} for its {frame['branches']} branches"
    else:
        found = f"{thread} is before the state {frame['state']}"
    return found + (" (closed)" if is_closed else "")


def execution_lines(told: Fields) -> list[str]:
    """An execution or a thread with its steps."""
    lines = []
    if "execution" in told:
        lines.append(f"{told['execution']}, of the machine {told['machine']}, with the input {short_of(told['input'])}")
    for thread in told["threads"]:
        lines.append(frame_line(thread["thread"], thread.get("frame"), bool(thread.get("closed"))))
        lines += [f"  {what(step)} {outcome_of(step)}".rstrip() for step in thread["steps"]]
    if told.get("held") is not None:
        lines.append(f"its next step is stopped by the hold of {told['held']}")
    return lines


# ---- why


def why_line(thread: str, why: Optional[Fields]) -> str:
    """Why a thread failed, or would fail."""
    if why is None:
        return f"nothing of {thread} fails: it is done, it waits, or its next step succeeds"
    of = f"in {why['step']}" if why.get("step") else "its next step"
    place = place_of(why.get("place") or ())
    where = f"{of}, state {why['state']}" + (f", {place}" if place else "")
    if why.get("path") is not None:
        return f"{where}: {why['path']} picks nothing of {short_of(why.get('of'))} ({why['error']})"
    known = ("case", "state", "error", "step", "place", "path")
    others = {name: value for name, value in why.items() if name not in known and value not in (None, "", [])}
    detail = f" {short_of(others)}" if others else ""
    return f"{where}: {str(why['case']).replace('_', ' ')}{detail} ({why['error']})"


def place_of(place: Sequence[Any]) -> str:
    """A place within a state: names and indexes."""
    found = ""
    for part in place:
        if isinstance(part, int):
            found += f"[{part}]"
        elif part.isidentifier():
            found += f".{part}" if found else part
        else:
            found += f"[{text_of(part)}]"
    return found


# ---- the log


def entry_line(row: Fields) -> str:
    """An accepted line."""
    named = [str(row[name]) for name in ("table", "machine", "step", "of") if row.get(name) is not None]
    found = f"{row['entry']}  {' '.join([row['command'], *named])}"
    if row.get("kind"):
        found += f" {row['kind']}"
    if row.get("undone"):
        found += f": took back {' '.join(row['undone'])}"
    if row.get("closed"):
        found += f": took out {' '.join(row['closed'])}"
    return found

"""What `define` takes and the text shows to surprise: fields twice, without effect, of CloudFormation, of no time."""
from __future__ import annotations

import datetime
import re

from .findings import Path, Report
from .machine import Level, State
from .paths import is_path
from .scanner import Member, Node

_SUBSTITUTION = re.compile(r"\$\{[^}]+\}")
_MOMENT = re.compile(r"(\d{4}-\d\d-\d\d)T(\d\d:\d\d:\d\d)(?:\.\d+)?(?:Z|[+-](?:[01]\d|2[0-3]):[0-5]\d)")
_NO_EFFECT = ("TimeoutSeconds", "TimeoutSecondsPath", "HeartbeatSeconds", "HeartbeatSecondsPath")
_MOMENTS = ("Seconds", "Timestamp", "SecondsPath", "TimestampPath")


def check_texts(report: Report, node: Node, path: Path = ()) -> None:
    """Adds what is twice in an object, and each `${..}`, at all levels."""
    lost: dict[str, Member] = {}
    for member in node.repeated:
        _twice(report, member, path)
        lost[member.name] = member
    for name, member in node.fields.items():
        if name in ("Comment", "Resource") and member.value.kind == "string":
            continue
        check_texts(report, member.value, (*path, name))
    for at, item in enumerate(node.items):
        check_texts(report, item, (*path, at))
    text = node.text()
    if text is not None and _SUBSTITUTION.search(text):
        message = f"{text} is CloudFormation's, and nothing fills it in here"
        report.value(node, path, "SUBSTITUTION", message, "write the value itself")


def _twice(report: Report, member: Member, path: Path) -> None:
    what = f"the state {member.name}" if path and path[-1] == "States" else member.name
    message = f"{what} is twice in one object, and this one is lost, since the last one counts"
    report.at(
        (member.start, member.end),
        (*path, member.name),
        "DUPLICATE_FIELD",
        message,
        "remove one, or give it another name",
    )


def check_effects(report: Report, top: Level) -> None:
    """Adds each field that has no effect, since time isn't modelled."""
    owners: list[tuple[Node, Path]] = [(top.node, ())]
    owners += [(state.node, state.path) for state in top.all_states() if state.type == "Task"]
    for node, path in owners:
        for name in _NO_EFFECT[:1] if node is top.node else _NO_EFFECT:
            if name in node.fields:
                report.name(
                    node, name, path, "NO_EFFECT", f"{name} has no effect, since nothing times out here", "remove it"
                )


def check_moment(report: Report, state: State) -> None:
    """Adds a Wait whose moment is none. Its step ends at once, but a runner that keeps time goes by it."""
    given = [name for name in _MOMENTS if name in state.node.fields]
    if len(given) != 1:
        message = f"{state.name} has no moment at which it ends"
        if given:
            message = f"{state.name} has several moments at which it ends: {', '.join(given)}"
        advice = "write one of Seconds, Timestamp, SecondsPath and TimestampPath"
        report.object(state.node, state.path, "BAD_MOMENT", message, advice)
    for name in given:
        value = state.node.fields[name].value
        message, advice = _moment_fault(name, value)
        if message:
            report.value(value, (*state.path, name), "BAD_MOMENT", message, advice)


def _moment_fault(name: str, value: Node) -> tuple[str, str]:
    text = value.text()
    if name == "Seconds":
        fits = isinstance(value.scalar, int) and value.kind == "number" and value.scalar >= 0
        return ("", "") if fits else ("Seconds isn't a whole number of seconds", "write a number without quotes")
    if name == "Timestamp":
        fits = text is not None and is_moment(text)
        return ("", "") if fits else ("Timestamp isn't a time", "write it by RFC 3339, as 2026-11-23T08:00:00Z")
    fits = text is not None and is_path(text)
    return ("", "") if fits else (f"{name} isn't a path", "write a path, as $.until")


def is_moment(text: str) -> bool:
    """Whether a text is a time by RFC 3339, with a capital T and Z."""
    found = _MOMENT.fullmatch(text)
    if not found:
        return False
    try:
        datetime.datetime.fromisoformat(f"{found[1]}T{found[2].replace(':60', ':59')}")
    except ValueError:
        return False
    return True

"""What an object's fields may be named, and what to do about others."""
from __future__ import annotations

import difflib
from typing import Optional

from . import fields
from .findings import BAD, LEFT_OUT, UNKNOWN, Path, Report, json_string, refusal_of
from .scanner import Node

STATES = {
    "Pass": fields.PASS,
    "Task": fields.TASK,
    "Choice": fields.CHOICE,
    "Wait": fields.WAIT,
    "Succeed": fields.SUCCEED,
    "Fail": fields.FAIL,
    "Parallel": fields.PARALLEL,
    "Map": fields.MAP,
}
LEFT_OUT_NAMES = frozenset(fields.LEFT_OUT + fields.COMPARISONS_LEFT_OUT)
_EVERY_NAME = frozenset(
    name
    for table in (fields.TOP, fields.PROCESSOR, *STATES.values(), fields.RETRIER, fields.CATCHER, fields.RULE)
    for name in table
)
_JSONATA = {
    "Output": "write a Pass with Parameters, or ResultSelector and ResultPath",
    "Arguments": "write Parameters, with paths in fields `x.$`",
    "Items": "write ItemsPath",
    "Condition": "write Variable with a comparison",
}
_DISTRIBUTED = {
    "ItemReader": "read the items by getItem, or pass them in the input, and go over them by ItemsPath",
    "ItemBatcher": "pass the batches in the input",
    "ResultWriter": "put the results by putItem",
    "Label": "remove it, since there are no child executions to name",
}
_OTHERS = {
    "MaxConcurrencyPath": "write the number as MaxConcurrency",
    "ErrorPath": "write the error's name as Error",
    "CausePath": "write the text as Cause",
    "Credentials": "remove it, since the table has no roles",
}
_TOLERATED = "catch the error in the processor, so that no branch fails"


def near(name: str, names: tuple[str, ...]) -> Optional[str]:
    """The name that is meant, if one nearly fits."""
    for other in names:
        if other.lower() == name.lower():
            return other
    found = difflib.get_close_matches(name, names, 1, 0.8)
    return found[0] if found else None


def check_names(report: Report, node: Node, path: Path, table: tuple[str, ...], owner: str) -> None:
    """Adds each field that may not be there. `owner` says what object it is, as *a Task*."""
    for name in node.fields:
        if name in table:
            continue
        if name in LEFT_OUT_NAMES:
            code, message, advice = _left_out(name)
            report.name(node, name, path, code, message, advice, refusal_of(LEFT_OUT, name))
        else:
            _unknown(report, node, path, name, table, owner)


def _unknown(report: Report, node: Node, path: Path, name: str, table: tuple[str, ...], owner: str) -> None:
    meant = near(name, tuple(other for other in table if other not in node.fields))
    advice = f"write {meant}" if meant else "remove it"
    if not meant and name in _EVERY_NAME:
        advice = "remove it, since only other objects have it"
    if not meant and name == "End":
        advice = "remove it, since this type of state has no such choice"
    replacement = meant if meant and meant.lower() == name.lower() else None
    message = f"{owner} has no field {name}"
    report.name(node, name, path, "UNKNOWN_FIELD", message, advice, refusal_of(UNKNOWN, name), json_string(replacement))


def _left_out(name: str) -> tuple[str, str, str]:
    if name == "Assign":
        return (
            "VARIABLES",
            "Assign sets variables, which are left out",
            "keep the value in the state's data by ResultPath",
        )
    if name in _JSONATA:
        return ("JSONATA", f"{name} is a field of JSONata, which is left out", _JSONATA[name])
    if name in _DISTRIBUTED:
        return ("DISTRIBUTED_MAP", f"{name} is a field of distributed Maps, which are left out", _DISTRIBUTED[name])
    if name.startswith("Tolerated"):
        return ("DISTRIBUTED_MAP", f"{name} is a field of distributed Maps, which are left out", _TOLERATED)
    if name in fields.COMPARISONS_LEFT_OUT:
        return _comparison(name)
    return "LEFT_OUT_FIELD", f"{name} is left out", _OTHERS.get(name, "remove it")


def _comparison(name: str) -> tuple[str, str, str]:
    if name.endswith("Path"):
        return (
            "PATH_COMPARISON",
            f"{name} compares with another path, which is left out",
            f"compare with a fixed value by {name[:-4]}",
        )
    if name == "StringMatches":
        advice = "compare by StringEquals, or by StringGreaterThanEquals and StringLessThan for a beginning"
    elif name == "IsTimestamp":
        advice = "ask IsString"
    else:
        advice = f"compare texts of one form by String{name[len('Timestamp'):]}, since times in UTC sort as texts"
    if name.startswith("Timestamp") and name.endswith("Path"):
        advice = "compare with a fixed text by a comparison of strings"
    return "OTHER_COMPARISON", f"the comparison {name} is left out", advice


def check_language(report: Report, node: Node, path: Path) -> None:
    """Adds a query language other than JSONPath."""
    value = node.get("QueryLanguage")
    if value is None or value.text() == "JSONPath":
        return
    place = (*path, "QueryLanguage")
    if value.text() == "JSONata":
        advice = "write the machine with JSONPath, with paths in fields `x.$`, and no {% %}"
        report.value(
            value,
            place,
            "JSONATA",
            "QueryLanguage is JSONata, which is left out",
            advice,
            refusal_of(LEFT_OUT, "QueryLanguage"),
        )
        return
    meant = "JSONPath" if (value.text() or "").lower() == "jsonpath" else None
    report.bad(
        value,
        place,
        "QueryLanguage",
        "QueryLanguage has to be JSONPath",
        "write JSONPath, or remove it",
        replacement=json_string(meant),
    )


def check_text(report: Report, node: Node, path: Path, field: str) -> None:
    """Adds an optional field that is no text."""
    value = node.get(field)
    if value and value.text() is None:
        report.bad(value, (*path, field), field, f"{field} has to be a text", "write it within quotes")


def check_count(report: Report, node: Node, path: Path, field: str) -> None:
    """Adds an optional field that is no whole number from 0 to 4,294,967,295."""
    value = node.get(field)
    if value is None or value.whole and isinstance(value.scalar, int) and 0 <= value.scalar <= 4_294_967_295:
        return
    number, replacement = value.scalar, None
    if isinstance(number, float) and number.is_integer() and 0 <= number <= 4_294_967_295:
        replacement = str(int(number))
    if value.kind == "string" and str(number).isdecimal() and int(str(number)) <= 4_294_967_295:
        replacement = str(int(str(number)))
    advice = f"write {replacement}" if replacement else "write such a number"
    message = f"{field} has to be a whole number from 0 to 4294967295"
    report.value(value, (*path, field), "BAD_VALUE", message, advice, refusal_of(BAD, field), replacement)

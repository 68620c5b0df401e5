"""Retry and Catch: what `define` refuses of them."""
from __future__ import annotations

from . import fields
from .fields_of import check_count, check_names
from .findings import ALL_PLACE, Path, Report, refusal_of
from .paths import check_path
from .scanner import Node


def check_handlers(report: Report, state: Node, path: Path) -> None:
    """Adds the faults of a state's retriers and catchers."""
    for name, table, owner in (("Retry", fields.RETRIER, "a retrier"), ("Catch", fields.CATCHER, "a catcher")):
        listed = state.get(name)
        if listed is None:
            continue
        if listed.kind != "array":
            report.bad(listed, (*path, name), name, f"{name} has to be a list", f"write {owner} within brackets")
            continue
        for at, item in enumerate(listed.items):
            _check_handler(report, item, (*path, name, at), name, table, owner)
        _check_all(report, listed.items, (*path, name), owner)


def _check_handler(report: Report, item: Node, path: Path, field: str, table: tuple[str, ...], owner: str) -> None:
    if item.kind != "object":
        report.bad(item, path, field, f"{field} has {owner} that is no object", "write an object with ErrorEquals")
        return
    check_names(report, item, path, table, owner)
    _check_errors(report, item, path)
    if field == "Retry":
        check_count(report, item, path, "MaxAttempts")
        return
    if "ResultPath" in item.fields:
        check_path(report, item.fields["ResultPath"].value, (*path, "ResultPath"), "ResultPath", True)
    following = item.get("Next")
    if following is None:
        report.missing(item, path, "Next", "say to which state it goes")
    elif following.text() is None:
        report.bad(
            following,
            (*path, "Next"),
            "Next",
            "Next has to be the name of a state",
            "write a state's name within quotes",
        )


def _check_errors(report: Report, item: Node, path: Path) -> None:
    errors = item.get("ErrorEquals")
    if errors is None:
        report.missing(item, path, "ErrorEquals", 'name the errors, as ["States.ALL"]')
    elif errors.kind != "array" or not errors.items:
        message = "ErrorEquals has to be a list of at least one error"
        report.bad(errors, (*path, "ErrorEquals"), "ErrorEquals", message, 'write a list of texts, as ["States.ALL"]')
    else:
        for at, error in enumerate(errors.items):
            if error.text() is None:
                message = "ErrorEquals has to be a list of texts"
                report.bad(
                    error, (*path, "ErrorEquals", at), "ErrorEquals", message, "write the error's name within quotes"
                )


def error_names(item: Node) -> list[str]:
    """The names in a retrier's or a catcher's ErrorEquals, as far as they are texts."""
    errors = item.get("ErrorEquals")
    texts = (error.text() for error in (errors.items if errors else ()))
    return [text for text in texts if text is not None]


def _check_all(report: Report, items: list[Node], path: Path, owner: str) -> None:
    """Adds each `States.ALL` that isn't alone in its list, or not in the last of them."""
    for at, item in enumerate(items):
        errors = item.get("ErrorEquals")
        for place, error in enumerate(errors.items if errors else ()):
            if errors is None or error.text() != "States.ALL":
                continue
            if len(errors.items) > 1:
                message, advice = (
                    "States.ALL isn't alone in its list",
                    "remove the other names, which it matches, too",
                )
            elif at + 1 < len(items):
                message, advice = (
                    f"States.ALL isn't last, so that {owner} behind it is never asked",
                    "move it to the end",
                )
            else:
                continue
            refusal = refusal_of(ALL_PLACE)
            report.value(error, (*path, at, "ErrorEquals", place), "STATES_ALL_PLACE", message, advice, refusal)

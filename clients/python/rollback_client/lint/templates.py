"""Templates: Parameters, ResultSelector, ItemSelector."""
from __future__ import annotations

from .findings import Path, Report, json_string
from .paths import ITEM_INDEX, ITEM_VALUE, is_path, is_steps, path_fault, source_refusal
from .scanner import Node


def check_whole(report: Report, node: Node, path: Path, field: str) -> None:
    """Adds each number of a value that isn't whole. `define` names it by the definition's field."""
    if node.kind == "number" and not node.whole:
        _not_whole(report, node, path, field)
    for name, member in node.fields.items():
        check_whole(report, member.value, (*path, name), field)
    for at, item in enumerate(node.items):
        check_whole(report, item, (*path, at), field)


def _not_whole(report: Report, node: Node, path: Path, field: str) -> None:
    number = node.scalar
    replacement = (
        str(int(number)) if isinstance(number, float) and number.is_integer() and abs(number) < 2**53 else None
    )
    message = f"{field} has the number {report.shown(node)}, which isn't whole"
    if isinstance(number, int):
        message = f"{field} has a number that doesn't fit 64 bits with a sign"
    advice = f"write {replacement}" if replacement else "write it as a text, or in a smaller unit, as cents"
    report.bad(node, path, field, message, advice, "NOT_WHOLE", replacement)


def check_template(report: Report, node: Node, path: Path, field: str, item_paths: bool) -> None:
    """Adds what makes a field's value no template."""
    check_whole(report, node, path, field)
    _check_marks(report, node, path, item_paths)


def is_source(text: str, item_paths: bool) -> bool:
    """Whether a text may be a field's `x.$`."""
    if item_paths and text.startswith(ITEM_VALUE):
        return is_steps(text[len(ITEM_VALUE) :])
    return is_path(text) or item_paths and text == ITEM_INDEX


def _check_marks(report: Report, node: Node, path: Path, item_paths: bool) -> None:
    for at, item in enumerate(node.items):
        _check_marks(report, item, (*path, at), item_paths)
    for name, member in node.fields.items():
        if not name.endswith(".$"):
            _check_marks(report, member.value, (*path, name), item_paths)
            continue
        _check_source(report, member.value, (*path, name), name, item_paths)
        if name[:-2] in node.fields:
            message, advice = (f"{name} fills the field {name[:-2]}, which is there, too", "keep one of the two")
            report.bad(member.value, (*path, name), name, message, advice, "BAD_TEMPLATE")


def _check_source(report: Report, node: Node, path: Path, name: str, item_paths: bool) -> None:
    text = node.text()
    if text is None:
        message, advice = (
            f"{name} has to be a text with a path",
            f"write a path within quotes, or name it {name[:-2]}",
        )
        report.bad(node, path, name, message, advice, "BAD_TEMPLATE")
    elif not is_source(text, item_paths):
        fault = path_fault(text)
        if name == "N.$" and fault.code == "INTRINSIC_FUNCTION":
            fault.help = "pass the number as a text in the input"
        report.value(
            node,
            path,
            fault.code,
            fault.message,
            fault.help,
            source_refusal(text, name),
            json_string(fault.replacement),
        )

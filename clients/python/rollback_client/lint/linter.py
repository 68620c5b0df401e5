"""The linter: all faults of a definition in one run."""
from __future__ import annotations

import json
from typing import Optional

from .calls import Table, check_call, check_one_table
from .findings import BAD_JSON, BAD_LINE, Finding, Report
from .flow import check_covers, check_flow, check_intervals, check_same_names
from .machine import HANDLING, Level, read_level
from .profile import check_level
from .raised import check_raised
from .scanner import Scanner
from .surprises import check_effects, check_moment, check_texts

MOST_BYTES = 1_048_576
# the shortest line that defines a machine has its name of one character
_ROOM = MOST_BYTES - len("define a ")


def lint_bytes(data: bytes, file: str = "", table: Optional[Table] = None) -> list[Finding]:
    """What is found in the bytes of a file."""
    try:
        return lint_text(data.decode(), file, table)
    except UnicodeDecodeError as fault:
        before = data[: fault.start].decode()
        place = (before.count("\n") + 1, len(before) - (before.rfind("\n") + 1) + 1)
        byte = f"byte {data[fault.start]:#04x}"
        return [
            Finding(
                file, (), *place, "NOT_UTF8", byte, f"{byte} isn't UTF-8", "save the file as UTF-8", refusal=BAD_LINE
            )
        ]


def lint_text(text: str, file: str = "", table: Optional[Table] = None) -> list[Finding]:
    """What is found in a text: errors for all that `define` refuses, and warnings."""
    source = Scanner(text)
    report = Report(source, file)
    for flaw in source.flaws:
        report.at((flaw.start, flaw.end), (), flaw.code, flaw.message, flaw.help, BAD_JSON)
    root = source.root
    if root is None:
        return report.sorted()
    if root.kind != "object":
        report.missing(root, (), "StartAt", "a definition is an object with StartAt and States")
        return report.sorted()
    if len(text) > _ROOM // 4 and len(_compact(text, source).encode("utf-8", "replace")) > _ROOM:
        message = f"the definition has more than {MOST_BYTES} bytes on its line"
        report.object(root, (), "TOO_LONG", message, "make two machines of it", BAD_LINE)
    top = read_level(root)
    check_level(report, top)
    _warn(report, top, table)
    return report.sorted()


def _compact(text: str, source: Scanner) -> str:
    """The text as a line has it, if it is JSON."""
    return text if source.flaws else json.dumps(json.loads(text), separators=(",", ":"), ensure_ascii=False)


def _warn(report: Report, top: Level, table: Optional[Table]) -> None:
    check_texts(report, top.node)
    check_effects(report, top)
    check_same_names(report, top)
    for level in top.all_levels():
        check_flow(report, level)
    states = list(top.all_states())
    tasks = [state for state in states if state.type == "Task"]
    for state in states:
        if state.type == "Task":
            check_call(report, state, table)
        elif state.type == "Choice":
            check_covers(report, state)
        elif state.type == "Wait":
            check_moment(report, state)
        if state.type in HANDLING:
            check_raised(report, state)
            check_intervals(report, state)
    if table is None:
        check_one_table(report, tasks)

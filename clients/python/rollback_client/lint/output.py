"""How findings are written: for people, for editors, and as JSON."""
from __future__ import annotations

import json
from typing import Sequence

from .findings import Finding


def counted(count: int, name: str) -> str:
    """A number of things in words: `1 error`, `2 errors`."""
    return f"{count} {name}{'' if count == 1 else 's'}"


def summary(findings: Sequence[Finding]) -> str:
    """How many errors and warnings there are."""
    errors = sum(finding.severity == "error" for finding in findings)
    return f"{counted(errors, 'error')}, {counted(len(findings) - errors, 'warning')}"


def as_text(files: Sequence[tuple[str, Sequence[Finding]]]) -> str:
    """A head for each file, and a line for each finding."""
    lines = []
    for file, findings in files:
        lines.append(f"{file}: {summary(findings)}")
        lines += [f"{finding.severity}: {finding} [{finding.code}]" for finding in findings]
    return "".join(line + "\n" for line in lines)


def as_gcc(files: Sequence[tuple[str, Sequence[Finding]]]) -> str:
    """The form that editors read: `file:line:column: error: ..`."""
    lines = []
    for _, findings in files:
        for finding in findings:
            advice = f": {finding.help}" if finding.help else ""
            said = f"{finding.place}: {finding.message}{advice} [{finding.code}]"
            lines.append(f"{finding.file}:{finding.line}:{finding.column}: {finding.severity}: {said}\n")
    return "".join(lines)


def as_json(files: Sequence[tuple[str, Sequence[Finding]]]) -> str:
    """One object with all faults."""
    faults = [finding.as_json() for _, findings in files for finding in findings]
    return json.dumps({"rollback_lint": 1, "faults": faults}, ensure_ascii=False, indent=1) + "\n"


FORMATS = {"text": as_text, "gcc": as_gcc, "json": as_json}

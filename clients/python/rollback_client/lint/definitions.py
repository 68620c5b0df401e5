"""Definitions as a `Book` takes them: a dict, a JSON text, or the path of a file."""
from __future__ import annotations

import json
import os
from typing import Optional

from ..faults import MachineFault
from ..json_text import Definition
from .calls import Table
from .findings import Finding
from .linter import lint_bytes, lint_text
from .scanner import MOST_LEVELS

_MARK = b"\xef\xbb\xbf"


def lint_definition(definition: Definition, table: Optional[Table] = None) -> list[Finding]:
    """What is found in a definition. Places of a dict are those in the one line that is sent of it."""
    if isinstance(definition, os.PathLike) or isinstance(definition, str) and not definition.lstrip().startswith("{"):
        file = os.fspath(definition)
        with open(file, "rb") as stream:
            data = stream.read()
        # as a Book reads it, which passes over such a mark
        return lint_bytes(data[len(_MARK) :] if data.startswith(_MARK) else data, file, table)
    if isinstance(definition, str):
        return lint_text(definition, "", table)
    try:
        text = json.dumps(definition, separators=(",", ":"), ensure_ascii=False)
    except RecursionError:
        # no text can be made of such a value, and any would be too deep
        text = "[" * (MOST_LEVELS + 1)
    return lint_text(text, "", table)


def raise_errors(name: str, definition: Definition) -> None:
    """Raises the errors of a machine's definition as one `MachineFault`, if there are any."""
    errors = [finding for finding in lint_definition(definition) if finding.severity == "error"]
    if errors:
        of_machine = [error.refusal for error in errors if (error.refusal or "").startswith("3 ")]
        detail = (of_machine[0] or "")[2:] if of_machine else ""
        raise MachineFault(MachineFault.code, detail, f"define {name}", errors)

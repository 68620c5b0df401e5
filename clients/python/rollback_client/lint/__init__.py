"""A linter of definitions, which shows all faults of one in a run.

    from rollback_client.lint import Table, lint_text

    for finding in lint_text(text, "order.asl.json", Table("orders", (("id", "S"),))):
        print(finding)
"""
from .calls import Table
from .codes import CODES, ERRORS, WARNINGS
from .definitions import lint_definition, raise_errors
from .findings import Finding
from .linter import lint_bytes, lint_text

__all__ = [
    "CODES",
    "ERRORS",
    "Finding",
    "Table",
    "WARNINGS",
    "lint_bytes",
    "lint_definition",
    "lint_text",
    "raise_errors",
]

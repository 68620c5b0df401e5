#!/usr/bin/env python3
"""Writes the linter's table of fields from the program's, so that the two can't part.

    lint_fields.py            writes clients/python/rollback_client/lint/fields.py from crates/asl_fields/src/fields.rt
    lint_fields.py --check    says whether that file is what would be written; status 1 if it isn't
"""
import argparse
import pathlib
import re
import sys

TOP = pathlib.Path(__file__).resolve().parent.parent
PROGRAM_TABLES = TOP / "crates/asl_fields/src/fields.rt"
MODULE = TOP / "clients/python/rollback_client/lint/fields.py"
HEAD = '''"""The names of fields that each object of a definition may have, and those that are left out.

tools/lint_fields.py writes this file from the program's tables. Don't edit it.
"""
'''


def tables():
    """The program's lists of names, in their order, each by its name there."""
    text = PROGRAM_TABLES.read_text()
    found = re.findall(r"const (\w+): \[&str; (\d+)\] = \[(.*?)\];", text, re.S)
    named = {name: re.findall(r'"(\w+)"', body) for name, _, body in found}
    wrong = [name for name, count, _ in found if len(named[name]) != int(count)]
    if wrong or len(found) != text.count("\nconst "):
        raise SystemExit(
            f"lint_fields: {PROGRAM_TABLES.name} isn't laid out as this tool reads it"
        )
    return named


def module_text():
    parts = [HEAD]
    for name, fields in tables().items():
        lines = "".join(f'    "{field}",\n' for field in fields)
        parts.append(f"\n{name} = (\n{lines})\n")
    return "".join(parts)


def main():
    options = argparse.ArgumentParser(
        description="Writes the linter's table of fields."
    )
    options.add_argument("--check", action="store_true")
    wanted = module_text()
    if not options.parse_args().check:
        MODULE.write_text(wanted)
        return 0
    if MODULE.exists() and MODULE.read_text() == wanted:
        return 0
    print(
        f"{MODULE.relative_to(TOP)} differs from the program's tables: run tools/lint_fields.py",
        file=sys.stderr,
    )
    return 1


if __name__ == "__main__":
    sys.exit(main())

"""Shows all faults of definitions, before they are given to the program.

    rollback-lint FILE.asl.json .. [--table NAME KEY:TYPE [KEY:TYPE]] [--json] [--strict] [--ignore CODE ..]

Errors are what the program's `define` refuses, and warnings what it takes and what then fails or surprises. Words
without a colon behind `--table NAME`, and words that aren't codes behind `--ignore`, are files. `-` is standard input.

The status is 0, or 1 if there are warnings only and `--strict` is given, or 2 if there are errors.
"""
from __future__ import annotations

import argparse
import io
import re
import sys
from typing import Optional, Sequence

from . import CODES, WARNINGS, Finding, Table, lint_bytes
from .output import FORMATS

_KEY = re.compile(r"([^ :\[][^ :]*):([SN])")
_CODE = re.compile(r"[A-Z][A-Z0-9]*(_[A-Z0-9]+)+")


def _options() -> argparse.ArgumentParser:
    listed = "".join(f"  {code:<20}{means}\n" for code, means in CODES.items())
    status = "status: 0 if nothing is wrong, 1 if there are warnings only and --strict is given, 2 if there are errors"
    options = argparse.ArgumentParser(
        prog="rollback-lint",
        description="Shows all faults of definitions in one run, with their places.",
        epilog=f"{status}\n\ncodes:\n{listed}",
        formatter_class=argparse.RawDescriptionHelpFormatter,
    )
    options.add_argument(
        "files", nargs="*", metavar="FILE", help="a definition, as order.asl.json; - is standard input"
    )
    options.add_argument(
        "--table", nargs="+", metavar="WORD", help="the book's table: NAME KEY:TYPE [KEY:TYPE], a type is S or N"
    )
    options.add_argument(
        "--ignore", nargs="+", action="extend", default=[], metavar="CODE", help="leave warnings of these codes out"
    )
    options.add_argument(
        "--format", choices=tuple(FORMATS), default="text", help="text, gcc (file:line:column: error: ..) or json"
    )
    options.add_argument("--json", action="store_const", const="json", dest="format", help="as --format json")
    options.add_argument("--strict", action="store_true", help="status 1 if there are warnings")
    return options


def _table(options: argparse.ArgumentParser, words: Optional[Sequence[str]]) -> tuple[Optional[Table], list[str]]:
    """The table of the words behind `--table`, and the files among them."""
    if words is None:
        return None, []
    key: list[tuple[str, str]] = []
    rest = list(words[1:])
    while rest and len(key) < 2 and _KEY.fullmatch(rest[0]):
        attribute, _, kind = rest.pop(0).rpartition(":")
        key.append((attribute, kind))
    if not key:
        options.error("--table needs a name and one or two KEY:TYPE, as --table orders id:S")
    wrong = next((word for word in rest if _KEY.fullmatch(word)), None)
    if wrong or len({attribute for attribute, _ in key}) < len(key):
        options.error("a key has one attribute or two, and not the same twice")
    return Table(words[0], tuple(key)), rest


def _ignored(options: argparse.ArgumentParser, words: Sequence[str]) -> tuple[set[str], list[str]]:
    """The codes among the words behind `--ignore`, and the files."""
    codes = {word for word in words if _CODE.fullmatch(word)}
    for code in sorted(codes - set(WARNINGS)):
        options.error(
            f"{code} is an error's code, and only warnings are left out"
            if code in CODES
            else f"no warning has the code {code}"
        )
    return codes, [word for word in words if word not in codes]


def findings_of(file: str, table: Optional[Table]) -> list[Finding]:
    """What is found in a file. One that can't be read has this one error."""
    try:
        if file == "-":
            return lint_bytes(sys.stdin.buffer.read(), file, table)
        with open(file, "rb") as stream:
            return lint_bytes(stream.read(), file, table)
    except OSError as fault:
        message = f"the file can't be read: {fault.strerror}"
        return [Finding(file, (), 1, 1, "UNREADABLE_FILE", "", message, "look at its name and its rights")]


def main(words: Optional[Sequence[str]] = None) -> int:
    """Lints the files of a command line, and hands back its status."""
    options = _options()
    given = options.parse_intermixed_args(words)
    table, files = _table(options, given.table)
    ignored, more = _ignored(options, given.ignore)
    files = [*given.files, *files, *more]
    if not files:
        options.error("no file is given")
    found = []
    for file in files:
        findings = [finding for finding in findings_of(file, table) if finding.code not in ignored]
        found.append((file, findings))
    if isinstance(sys.stdout, io.TextIOWrapper):
        sys.stdout.reconfigure(errors="backslashreplace")
    sys.stdout.write(FORMATS[given.format](found))
    severities = {finding.severity for _, findings in found for finding in findings}
    if "error" in severities:
        return 2
    return 1 if severities and given.strict else 0


if __name__ == "__main__":
    sys.exit(main())

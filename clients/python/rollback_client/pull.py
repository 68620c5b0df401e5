"""A new book of what an account of Amazon's services has: its state machines, and the items of one table.

    python3 -m rollback_client.pull --journal orders.db --table orders [--endpoint-url http://127.0.0.1:5000]

The definitions are linted. Each that `define` takes is a machine of the book, by its name, and its role and its tags are kept for
`rollback-serve --aws`. The items are the book's beginning, as far as they fit its first line, and the rest is put by steps that are settled.
The report says what isn't taken, and why: then the status is 1. It is 0 if all is taken, and 2 of other arguments, or if nothing can be
read. Executions, versions, aliases and what an account has beside aren't read.
"""
from __future__ import annotations

import argparse
import os
import sys
import time
from typing import Any, Dict, List, Optional, Sequence

from .aws.account import Account, Machine, NoAccount, add_account_words, shown
from .aws.book import Table
from .aws.names import OWN, RULE, is_name
from .aws.store import Machine as Kept
from .aws.store import Store
from .aws.values import Item
from .book import Book
from .faults import RollbackError
from .json_text import definition_text, value_text
from .lines import MOST_BYTES
from .lint import Table as LintTable
from .lint import lint_text

ROOM = MOST_BYTES - 4096  # bytes of items in one line
MOST_AT_ONCE = 4096  # elements of a Map
PULLS = f"{OWN}pull"


class Report:
    """What is taken, and what isn't."""

    def __init__(self) -> None:
        self.is_whole = True

    def say(self, line: str) -> None:
        """Says that something is taken, or more of what was said."""
        print(line)

    def leave(self, what: str, why: str) -> None:
        """Says that something isn't taken."""
        self.is_whole = False
        print(f"not taken: {what}: {why}")


def main(given: Optional[Sequence[str]] = None) -> int:
    """Makes the book, and gives the status."""
    words = _words(given)
    report = Report()
    try:
        if os.path.exists(words.journal):
            raise NoAccount(f"{words.journal} is there, and a new book is made: take another name")
        account = Account(words)
        table = account.table(_table_name(account, words.table))
        items = _items(account, table, report)
        machines = [machine for machine in account.machines() if not words.machine or machine.name in words.machine]
        with Book.open(words.journal, program=words.program) as book:
            _begin(book, table, items, report)
            taken = [machine for machine in machines if _define(book, machine, table, report)]
        _keep(words.journal, taken)
    except (NoAccount, RollbackError, OSError) as fault:
        print(f"pull: {fault}", file=sys.stderr)
        return 2
    return 0 if report.is_whole else 1


def _words(given: Optional[Sequence[str]]) -> argparse.Namespace:
    parser = argparse.ArgumentParser(prog="python3 -m rollback_client.pull", description="A new book of an account.")
    parser.add_argument("--journal", required=True, metavar="FILE", help="the new book's journal")
    parser.add_argument("--program", default="rollback", help="the program, rollback on the path if it is left out")
    parser.add_argument("--table", metavar="NAME", help="the table; the only one if it is left out")
    parser.add_argument(
        "--machine", action="append", default=[], metavar="NAME", help="this one, and others named so (all)"
    )
    add_account_words(parser)
    return parser.parse_args(given)


def _table_name(account: Account, named: Optional[str]) -> str:
    if named is not None:
        return named
    names = account.tables()
    if len(names) != 1:
        raise NoAccount(f"--table says which table is the book's: there are {', '.join(names) or 'none'}")
    return names[0]


def _items(account: Account, table: Table, report: Report) -> List[Item]:
    found: List[Item] = []
    for given, item, why in account.items(table):
        if item is None:
            report.leave(f"item {shown(table.key_of(given))}", why)
        else:
            found.append(item)
    return found


# ---- the book


def _begin(book: Book, table: Table, items: List[Item], report: Report) -> None:
    """Begins the book with as many items as fit its first line, and puts the others."""
    chunks = _chunks(items)
    book.table(table.name, dict(table.key), chunks[0] if chunks else [])
    if len(chunks) > 1:
        book.define(PULLS, _putting(table))
    for number, chunk in enumerate(chunks[1:], 1):
        book.start(f"{PULLS}-{number}", PULLS, {"items": chunk})
        while book.drive(MOST_AT_ONCE):
            pass
        # a beginning isn't taken back
        book.settle()
    report.say(f"table {table.name}: {len(items)} items")


def _chunks(items: List[Item]) -> List[List[Item]]:
    """The items in parts that fit a line each."""
    found: List[List[Item]] = []
    room = 0
    for item in items:
        size = len(value_text("an item", item).encode()) + 1
        if not found or size > room or len(found[-1]) >= MOST_AT_ONCE:
            found.append([])
            room = ROOM
        found[-1].append(item)
        room -= size
    return found


def _putting(table: Table) -> Dict[str, Any]:
    """A machine that puts the items of its input."""
    task = {
        "Type": "Task",
        "Resource": "arn:aws:states:::dynamodb:putItem",
        "Parameters": {"TableName": table.name, "Item.$": "$"},
        "End": True,
    }
    each = {"StartAt": "Put", "States": {"Put": task}}
    state = {"Type": "Map", "ItemsPath": "$.items", "ItemProcessor": each, "ResultPath": None, "OutputPath": None}
    return {"StartAt": "Each", "States": {"Each": {**state, "End": True}}}


def _define(book: Book, machine: Machine, table: Table, report: Report) -> bool:
    """Defines a machine, if the book takes it."""
    what = f"machine {machine.name}"
    if not is_name(machine.name):
        report.leave(what, RULE)
        return False
    if machine.name.startswith(OWN):
        report.leave(what, f"names that begin with {OWN} are the server's own")
        return False
    findings = lint_text(machine.definition, "", LintTable(table.name, table.key))
    errors = [finding for finding in findings if finding.severity == "error"]
    if errors:
        report.leave(what, f"{len(errors)} {'fault' if len(errors) == 1 else 'faults'}")
    else:
        book.define(machine.name, definition_text(machine.definition))
        express = ", as a standard one" if machine.kind == "EXPRESS" else ""
        report.say(f"{what}: defined{express}, {len(findings)} {'warning' if len(findings) == 1 else 'warnings'}")
    for finding in findings:
        report.say(f"    {finding.severity}: {finding}")
    return not errors


def _keep(journal: str, machines: List[Machine]) -> None:
    """Keeps texts, roles and tags as they were given, for a server that answers Amazon's tools."""
    store = Store(f"{journal}-aws", time.time(), lambda line: print(f"pull: {line}", file=sys.stderr))
    for machine in machines:
        kept = Kept(machine.moment, machine.definition, machine.role, machine.tags)
        store.keep_machine(machine.name, kept)
    store.close()


if __name__ == "__main__":
    sys.exit(main())

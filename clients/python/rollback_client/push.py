"""Writes the items of a book into a table of Amazon's, where they differ: so a repaired book repairs its table.

    python3 -m rollback_client.push /run/rollback/orders orders --plan
    python3 -m rollback_client.push /run/rollback/orders orders

The first argument is the address of a server of the book (with --tls, if that has it), or its journal with --journal. Each item that
differs is put, and each that the book hasn't is deleted, on the condition that it is still as it was read. An item that a book can't
have, as one with binary attributes, is left as it is. With --plan nothing is written. The status is 0, or 1 if something was to be written
and couldn't be, or 2 of other arguments, or if nothing can be read.
"""
from __future__ import annotations

import argparse
import sys
from dataclasses import dataclass
from typing import Dict, List, Optional, Sequence, Tuple

from .aws.account import Account, NoAccount, add_account_words, same, shown
from .aws.book import Table, canonical
from .aws.values import Item
from .book import Book
from .copy import tls_files
from .faults import RollbackError

MOST_ATTRIBUTES = 250  # of an item: a condition on more doesn't fit an expression


@dataclass(frozen=True)
class Change:
    """What is to be written: the item, or nothing if it is to go, and the one that was read."""

    key: Item
    item: Optional[Item]
    old: Optional[Item]

    def __str__(self) -> str:
        word = "delete" if self.item is None else "add" if self.old is None else "replace"
        return f"{word} {shown(self.key)}"


def main(given: Optional[Sequence[str]] = None) -> int:
    """Writes what differs, and gives the status."""
    words = _words(given)
    try:
        account = Account(words)
        table = account.table(words.table)
        ours = _items_of_book(words, table)
        changes, kept = _changes(account, table, ours)
        return _plan(changes, kept) if words.plan else _write(account, table, changes, kept)
    except (NoAccount, RollbackError, OSError) as fault:
        print(f"push: {fault}", file=sys.stderr)
        return 2


def _words(given: Optional[Sequence[str]]) -> argparse.Namespace:
    parser = argparse.ArgumentParser(
        prog="python3 -m rollback_client.push", description="Writes a book's items into a table of Amazon's."
    )
    parser.add_argument("book", metavar="ADDRESS", help="the address of the book's server, or its journal")
    parser.add_argument("table", help="the table")
    parser.add_argument("--plan", action="store_true", help="says what would be written, and writes nothing")
    parser.add_argument(
        "--journal", action="store_true", help="the first argument is a journal, which no process has open"
    )
    parser.add_argument("--tls", type=tls_files, metavar="CERT,KEY,CA", help="for a server with --tls")
    parser.add_argument("--program", default="rollback", help="the program for a journal (rollback on the path)")
    add_account_words(parser)
    words = parser.parse_args(given)
    if words.journal and words.tls:
        parser.error("--tls is for a server, and not for a journal")
    return words


def _items_of_book(words: argparse.Namespace, table: Table) -> Dict[str, Item]:
    """The book's items by their keys."""
    of_file = words.journal
    with Book.open(words.book, program=words.program) if of_file else Book.connect(words.book, tls=words.tls) as book:
        items = book.items()
    found: Dict[str, Item] = {}
    for item in items:
        if any(kind not in item.get(name, {}) for name, kind in table.key):
            raise NoAccount(f"the book's table has another key than {table.name}: {canonical(item)[:200]}")
        found[canonical(table.key_of(item))] = item
    return found


def _changes(account: Account, table: Table, ours: Dict[str, Item]) -> Tuple[List[Change], int]:
    """What differs, and how many items are the same."""
    changes: List[Change] = []
    left = dict(ours)
    kept = 0
    for given, there, why in account.items(table):
        if there is None:
            left.pop(canonical(table.key_of(given)), None)
            print(f"left as it is: {shown(table.key_of(given))}: {why}")
            continue
        item = left.pop(canonical(table.key_of(there)), None)
        if item is not None and same(item, there):
            kept += 1
        else:
            changes.append(Change(table.key_of(there), item, given))
    changes += [Change(table.key_of(item), item, None) for item in left.values()]
    return sorted(changes, key=lambda change: shown(change.key)), kept


def _plan(changes: List[Change], kept: int) -> int:
    for change in changes:
        print(change)
    print(f"{len(changes)} to be written, {kept} the same")
    return 0


def _write(account: Account, table: Table, changes: List[Change], kept: int) -> int:
    refused = 0
    for change in changes:
        why = _refusal(account, table, change)
        print(change if why is None else f"not written: {change}: {why}")
        refused += why is not None
    print(f"{len(changes) - refused} written, {refused} not written, {kept} the same")
    return 1 if refused else 0


def _refusal(account: Account, table: Table, change: Change) -> Optional[str]:
    """Writes a change, or says why it can't be written."""
    if len(change.old or {}) + len(change.item or {}) > MOST_ATTRIBUTES:
        return f"a condition on more than {MOST_ATTRIBUTES} attributes doesn't fit an expression"
    if account.write(table, change.item, change.old, change.key):
        return None
    return "it was changed since it was read"


if __name__ == "__main__":
    sys.exit(main())

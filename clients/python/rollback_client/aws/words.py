"""The words of the command line for Amazon's tools."""
from __future__ import annotations

import argparse
import re
from typing import TYPE_CHECKING, Callable, List, Tuple

from ..commands import table
from .book import Table
from .names import ACCOUNT, REGION

if TYPE_CHECKING:
    from ..server.words import Words

_REGION = re.compile(r"[a-z]{2,4}(?:-[a-z]+)+-[0-9]{1,2}")
_ACCOUNT = re.compile(r"[0-9]{12}")


def look_at(parser: argparse.ArgumentParser, words: Words) -> None:
    """Ends the process with status 2 and a sentence, if these words can't be served."""
    for is_missing, why in (
        (words.http is None, "--aws needs --http HOST:PORT: tools call a port"),
        (not words.run, "--aws needs --run: executions that a tool starts go on by themselves"),
        (words.read_only, "--aws writes, so it isn't for --read-only"),
    ):
        if is_missing:
            parser.error(why)
    words.region = REGION if words.region is None else words.region
    words.account = ACCOUNT if words.account is None else words.account
    if not _REGION.fullmatch(words.region):
        parser.error(f"--region is a region's name, as {REGION}, and not {words.region}")
    if not _ACCOUNT.fullmatch(words.account):
        parser.error(f"--account has twelve digits, and isn't {words.account}")
    words.table = None if words.table is None else _table_of(parser.error, words.table)


def _table_of(refuse: Callable[[str], object], given: List[str]) -> Table:
    """The table of `NAME KEY:TYPE [KEY:TYPE]`."""
    name, *keys = given
    pairs: List[Tuple[str, str]] = []
    for key in keys:
        attribute, _, kind = key.rpartition(":")
        pairs.append((attribute, kind))
    try:
        if len(dict(pairs)) != len(pairs):
            raise ValueError("the two attributes of a key have different names")
        table(name, dict(pairs))
    except ValueError as fault:
        refuse(f"--table is NAME KEY:TYPE [KEY:TYPE], with TYPE S or N: {fault}")
    return Table(name, tuple(pairs))

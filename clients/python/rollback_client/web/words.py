"""The words of the command line for the console."""
from __future__ import annotations

import argparse
import importlib.util
import re
import sys
from typing import TYPE_CHECKING

from ..links import host_and_port

if TYPE_CHECKING:
    from ..server.words import Words

_NAME = re.compile(r"[A-Za-z0-9_.@-]{1,64}")


def is_path(place: str) -> bool:
    """Whether a place is a Unix socket's path, and no port."""
    return "/" in place


def look_at(parser: argparse.ArgumentParser, words: Words) -> None:
    """Ends the process with status 2 and a sentence, if these words can't be served."""
    assert words.http is not None
    if importlib.util.find_spec("aiohttp") is None:
        parser.error(
            f"--http needs aiohttp for {sys.executable}: on Debian the package python3-aiohttp and /usr/bin/python3,"
            " or pip install 'rollback-client[server]'"
        )
    if not words.ask:
        parser.error("--http needs --ask or --run: a page asks what the follower answers")
    if not is_path(words.http):
        try:
            place = host_and_port(words.http)
        except ValueError:
            place = None
        if place is None or place[0] not in ("127.0.0.1", "::1", "localhost"):
            parser.error(
                f"argument --http: no port of 127.0.0.1, [::1] or localhost, and no path with a /: {words.http}"
            )
    for name in words.token:
        if not _NAME.fullmatch(name):
            parser.error(f"--token is a name of 1 to 64 ASCII letters, digits, points, _, @ and -, and not {name!r}")
    words.token = list(dict.fromkeys(words.token)) or ["console"]

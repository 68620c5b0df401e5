"""The words of a runner, the same alone and within a server."""
from __future__ import annotations

import argparse
import math
from typing import Any, Callable

from ..lines import name
from .running import Options

MOST_RATE = 1_000_000.0


def _rate(text: str) -> float:
    found = float(text) if text.isascii() else math.nan
    if not 0 < found <= MOST_RATE:
        raise argparse.ArgumentTypeError(f"a number of steps a second, above 0, and not {text}")
    return found


def _steps(text: str) -> int:
    if not (text.isascii() and text.isdecimal() and len(text) < 10 and int(text) >= 1):
        raise argparse.ArgumentTypeError(f"a number of steps from 1 on, and not {text}")
    return int(text)


def _machine(text: str) -> str:
    try:
        return name("a machine", text)
    except ValueError as fault:
        raise argparse.ArgumentTypeError(str(fault)) from None


_rate.__name__ = "number"


def add_runner_words(parser: argparse.ArgumentParser) -> None:
    """Adds `--rate`, `--only`, `--except` and `--settle-at`."""
    add: Callable[..., Any] = parser.add_argument
    add("--rate", type=_rate, metavar="N", help="takes at most N steps a second (as many as go)")
    machine = {"type": _machine, "action": "append", "default": [], "metavar": "MACHINE"}
    add("--only", **machine, help="steps executions of this machine, and of others that are named so, alone")
    add("--except", dest="exceptions", **machine, help="steps no execution of this machine")
    add("--settle-at", type=_steps, metavar="N", help="settles once N steps remain and nothing is held (never)")


def options_of(words: Any) -> Options:
    """What the words say."""
    return Options(words.rate, frozenset(words.only), frozenset(words.exceptions), words.settle_at)

"""Runs the book of a server: `rollback-run ADDRESS`, or `python3 -m rollback_client.runner ADDRESS`.

Executions take turns, a step each. A Wait is stepped at its moment, and a state that is retried after its retrier's interval. The server
needs `--ask`: without it the runner says so, and ends with status 2. If another runner runs already, it stands by, and takes over when that
one ends. `--clock FILE` keeps when threads came to their Waits, so that a restart prolongs none. If the server ends, it waits `--wait`
seconds for it, and then ends with status 1. SIGTERM ends it with status 0.
"""
from __future__ import annotations

import argparse
import math
import signal
import sys
from typing import Any, Optional, Sequence

from ..copy import add_address
from ..faults import RollbackError
from .alone import Alone, NoQuestions
from .clock_file import ClockFile
from .words import add_runner_words, options_of

NAME = "rollback_client.runner"


def say(text: str) -> None:
    """Says a sentence on standard error, if somebody hears it."""
    try:
        print(f"{NAME}: {text}", file=sys.stderr, flush=True)
    except OSError:
        pass


def _seconds(text: str) -> float:
    found = float(text) if text.isascii() else math.nan
    if not 0 <= found < 1e9:
        raise argparse.ArgumentTypeError(f"a number of seconds, and not {text}")
    return found


_seconds.__name__ = "number"


def read_words(given: Optional[Sequence[str]] = None) -> Any:
    """Reads the command line. Wrong words end the process with status 2 and a sentence."""
    parser = argparse.ArgumentParser(prog="rollback-run", description="Runs the book of a server, by turns and clocks.")
    add_address(parser)
    add_runner_words(parser)
    parser.add_argument("--clock", metavar="FILE", help="keeps when threads came to their Waits, for the next start")
    parser.add_argument(
        "--wait", type=_seconds, default=30.0, metavar="SECONDS", help="waits so long for a server that is gone (30)"
    )
    return parser.parse_args(given)


def _end(number: int, frame: object) -> None:
    raise SystemExit(0)


def main() -> int:
    """Runs as the command line says, and gives the status."""
    words = read_words()
    signal.signal(signal.SIGTERM, _end)
    try:
        clock_file = ClockFile(words.clock, say)
        Alone(words.address, options_of(words), clock_file, words.wait, say, tls=words.tls).run()
    except NoQuestions as fault:
        say(str(fault))
        return 2
    except (RollbackError, OSError, ValueError) as fault:
        say(str(fault))
        return 1
    except KeyboardInterrupt:
        return 130
    return 0


if __name__ == "__main__":
    sys.exit(main())

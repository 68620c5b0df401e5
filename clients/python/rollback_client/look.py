"""Asks a running book what depends on what: `python3 -m rollback_client.look ADDRESS -- --why S T`.

It copies the book into a folder of its own, as `rollback_client.copy` does, runs `rollback_graph` on the copy with the words behind
`--`, and removes the copy. Its status is that of `rollback_graph`.
"""
from __future__ import annotations

import argparse
import pathlib
import subprocess
import sys
import tempfile

from .copy import add_address, fetch, program_named, settle_in_one_file
from .faults import RollbackError


def main() -> int:
    """Asks as the command line says, and gives the status."""
    parser = argparse.ArgumentParser(
        prog="python3 -m rollback_client.look", description="Asks a running book what depends on what."
    )
    add_address(parser)
    parser.add_argument("words", nargs="+", metavar="WORD", help="behind --: the words of rollback_graph, as --why S T")
    parser.add_argument("--program", default="rollback", help="the program, rollback on the path if it is left out")
    parser.add_argument("--graph", default="rollback_graph", help="rollback_graph, on the path if it is left out")
    words = parser.parse_args()
    try:
        program, graph = program_named(words.program, "--program"), program_named(words.graph, "--graph")
        with tempfile.TemporaryDirectory(prefix="rollback-look-") as room:
            made = pathlib.Path(room) / "book"
            fetch(words.address, made, tls=words.tls)
            settle_in_one_file(made, program)
            return subprocess.run([graph, str(made), *words.words], check=False).returncode
    except (RollbackError, OSError, ValueError) as fault:
        print(f"rollback_client.look: {fault}", file=sys.stderr)
        return 1
    except KeyboardInterrupt:
        return 130


if __name__ == "__main__":
    sys.exit(main())

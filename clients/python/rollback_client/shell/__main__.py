"""A shell for operators of a book: a prompt, words in place of codes, and questions before anything is taken back.

    rollback-shell [ADDRESS | --journal FILE] [--tls CERT,KEY,CA] [--program PATH] [--raw] [-c LINE ..]

ADDRESS is a server's: a path of a Unix socket, host:port, or cluster:host:port,host:port,... Without it and without --journal the book is in memory.
`help` lists the commands.

The status is 0 at the end of a terminal's session. Without a terminal, and with -c, it is 1 if a line was refused. It
is 1, too, if the book can't be opened, and 2 for other words.
"""
from __future__ import annotations

import argparse
import io
import os
import sys
from typing import Optional, Sequence

from ..copy import tls_files
from . import asking, defining, looking, moving, pausing, scripts, undoing
from .core import Lines, Shell
from .output import Output
from .session import Gone, Place, Session
from .terminal import Terminal, edited_lines, history_file

COMMANDS = {
    command.word: command
    for commands in (
        defining.COMMANDS,
        moving.COMMANDS,
        undoing.COMMANDS,
        looking.COMMANDS,
        asking.COMMANDS,
        pausing.COMMANDS,
        scripts.COMMANDS,
    )
    for command in commands
}
_INTERRUPTED = 130


def _options() -> argparse.ArgumentParser:
    options = argparse.ArgumentParser(prog="rollback-shell", description="A shell for operators of a book.")
    places = options.add_mutually_exclusive_group()
    about = "a server: a path of a Unix socket, host:port, or cluster:host:port,.."
    places.add_argument("address", nargs="?", metavar="ADDRESS", help=about)
    places.add_argument("--journal", metavar="FILE", help="a journal's file, which the program is started on")
    options.add_argument("--tls", type=tls_files, metavar="CERT,KEY,CA", help="for a server with --tls")
    options.add_argument("--program", default="rollback", metavar="PATH", help="the program, if there is no ADDRESS")
    options.add_argument("--raw", action="store_true", help="replies as the program writes them")
    options.add_argument("-c", nargs="+", dest="lines", metavar="LINE", help="runs these lines, and ends")
    return options


def main(words: Optional[Sequence[str]] = None) -> int:
    """Runs a shell by a command line, and hands back its status."""
    given = _options().parse_args(words)
    output = Output()
    shell = Shell(Session(Place(given.program, given.address, given.journal, given.tls)), output, COMMANDS, given.raw)
    try:
        shell.session.begin()
        try:
            return _run(shell, given.lines)
        finally:
            shell.session.close()
    except Gone as fault:
        print(f"rollback-shell: {fault}", file=sys.stderr)
        return 1
    except KeyboardInterrupt:
        return _INTERRUPTED
    except BrokenPipeError:
        # whoever read the output has gone
        os.dup2(os.open(os.devnull, os.O_WRONLY), sys.stdout.fileno())
        return 1


def _run(shell: Shell, lines: Optional[Sequence[str]]) -> int:
    is_terminal = sys.stdin.isatty() and shell.output.is_terminal
    if is_terminal:
        shell.asker = Terminal.ask
    if lines is not None:
        shell.run(Lines(iter(lines)))
    elif is_terminal:
        shell.output.say(f"{shell.session.place}; help lists the commands")
        with edited_lines(shell, history_file()):
            Terminal(shell).run()
        return 0
    else:
        if isinstance(sys.stdin, io.TextIOWrapper):
            # a line that isn't UTF-8 is refused by itself
            sys.stdin.reconfigure(errors="surrogateescape")
        shell.run(Lines(iter(sys.stdin)))
    return 1 if shell.refusals else 0


if __name__ == "__main__":
    sys.exit(main())

"""What is said if a command needs a server that answers questions, or a runner, and there is none."""
from __future__ import annotations

from .core import Shell
from .refusing import Refused


def no_questions(shell: Shell, word: str, options: str) -> Refused:
    """Nobody answers questions here. `options` are those of rollback_graph that say the same of a copy."""
    message = f"{shell.session.place} answers no questions, so there is no {word} here"
    return Refused(message, _on_a_copy(shell, options))


def no_runner(shell: Shell, word: str) -> Refused:
    """Nothing runs this book."""
    message = f"no runner takes steps of {shell.session.place}, so there is no {word} here"
    return Refused(message, "take steps by step, drive or work, or begin the server with --run")


def _on_a_copy(shell: Shell, options: str) -> str:
    """How a question is asked of a copy of the journal."""
    place = shell.session.place
    if place.address is not None:
        return f"begin the server with --ask, or ask a copy, as by: rollback-look {place.address} -- {options}"
    if place.journal is not None:
        return f"rollback_graph answers it, and isn't beside the program or on the path, as: rollback_graph {place.journal} {options}"
    return "keep the book in a journal, which rollback_graph can be asked about"

"""A terminal: a prompt with history and completion, by Python's readline if it is there."""
from __future__ import annotations

import contextlib
import glob
import os
import pathlib
from typing import Iterator, Optional

from .core import Shell

try:
    import readline
except ImportError:  # a Python that was built without it: a prompt without history and completion
    readline = None  # type: ignore[assignment]

_MOST_REMEMBERED = 10_000


class Terminal:
    """Lines that a person types. What is pasted comes line by line, however many lines and bytes it has."""

    def __init__(self, shell: Shell):
        self._shell = shell
        self._waiting: list[str] = []

    def next(self, prompt: str) -> Optional[str]:
        """The next line, or nothing at Ctrl-D. Ctrl-C is raised."""
        if not self._waiting:
            try:
                # readline hands a paste of several lines back as one text
                self._waiting = input(prompt).split("\n")
            except EOFError:
                return None
        return self._waiting.pop(0)

    def run(self) -> None:
        """Runs lines until the end. Ctrl-C drops what was typed, and what was to follow."""
        while not self._shell.has_ended:
            try:
                self._shell.run(self)
            except KeyboardInterrupt:
                self._waiting = []
                self._shell.output.say()
                continue
            if not self._shell.has_ended:
                self._shell.output.say()
                return

    @staticmethod
    def ask(question: str) -> str:
        """A person's answer. Ctrl-C and Ctrl-D are an empty one."""
        try:
            answer = input(question)
        except (EOFError, KeyboardInterrupt):
            print()
            return ""
        if readline is not None and answer:
            # an answer is no line to be given again
            readline.remove_history_item(readline.get_current_history_length() - 1)
        return answer


class Completer:
    """Completes the word before the cursor: commands, machines, executions, threads, steps and files."""

    def __init__(self, shell: Shell):
        self._shell = shell
        self._found: list[str] = []

    def __call__(self, text: str, state: int) -> Optional[str]:
        if state == 0:
            before = readline.get_line_buffer()[: readline.get_begidx()].split()
            with contextlib.suppress(Exception):
                self._found = self.words(before, text)
        return self._found[state] if state < len(self._found) else None

    def words(self, before: list[str], text: str) -> list[str]:
        """What the word may become. One that is the only one gets a blank behind it."""
        found = sorted(name for name in self._names(before, text) if name.startswith(text))
        return [found[0] + " "] if len(found) == 1 and not found[0].endswith("/") else found

    def _names(self, before: list[str], text: str) -> Iterator[str]:
        if not before:
            yield from self._shell.commands
            return
        command = self._shell.commands.get(before[0])
        if command is None or not command.places:
            return
        kind = command.places[min(len(before), len(command.places)) - 1]
        if kind == "command":
            yield from self._shell.commands
        elif kind == "machine":
            yield from self._machines()
        elif kind == "runner":
            yield from self._of_runner(before)
        elif kind == "file":
            yield from _files(text, command.word != "script")
        elif kind:
            yield from self._of_history(kind)

    def _machines(self) -> set[str]:
        """The machines by the server's answer, else those of this session."""
        if self._shell.session.answers_questions():
            return set(self._shell.session.question("machines")["machines"])
        return self._shell.session.machines

    def _of_runner(self, before: list[str]) -> set[str]:
        if len(before) == 1:
            return {"execution", "machine"}
        return self._machines() if before[1] == "machine" else self._of_history("execution")

    def _of_history(self, kind: str) -> set[str]:
        steps = list(self._shell.names().steps())
        if kind == "step":
            return set(steps)
        threads = {step.partition("#")[0] for step in steps}
        return threads if kind == "thread" else {thread.partition("/")[0] for thread in threads}


def _files(text: str, is_marked: bool) -> Iterator[str]:
    """The files whose names begin so, behind `@` if that marks a file."""
    mark = "@" if is_marked else ""
    if text.startswith(mark):
        for name in glob.glob(glob.escape(text[len(mark) :]) + "*"):
            yield mark + name + ("/" if os.path.isdir(name) else "")


@contextlib.contextmanager
def edited_lines(shell: Shell, file: Optional[pathlib.Path]) -> Iterator[None]:
    """Has lines be edited, completed and remembered, in a file that its owner alone may read."""
    if readline is None:
        yield
        return
    readline.set_completer_delims(" ")
    readline.set_completer(Completer(shell))
    readline.parse_and_bind("tab: complete")
    readline.set_history_length(_MOST_REMEMBERED)
    if file is not None:
        with contextlib.suppress(OSError):
            readline.read_history_file(file)
    try:
        yield
    finally:
        readline.set_completer(None)
        if file is not None:
            with contextlib.suppress(OSError):
                _remember(file)


def _remember(file: pathlib.Path) -> None:
    before = os.umask(0o077)
    try:
        os.close(os.open(file, os.O_WRONLY | os.O_CREAT, 0o600))
        os.chmod(file, 0o600)
        readline.write_history_file(file)
    finally:
        os.umask(before)


def history_file() -> Optional[pathlib.Path]:
    """Where the lines of earlier sessions are."""
    try:
        return pathlib.Path.home() / ".rollback_history"
    except RuntimeError:
        return None

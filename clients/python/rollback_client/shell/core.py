"""The shell: reads lines, gives them to commands, and counts what is refused."""
from __future__ import annotations

from dataclasses import dataclass, field
from typing import Callable, Iterator, Optional, Protocol, Sequence

from ..faults import Refusal
from ..lint import Table
from .output import Output
from .reading import Given, json_text, split
from .refusing import Names, Refused, explained, meant
from .session import Gone, Session

PROMPT, MORE_PROMPT = "rollback> ", "     ... "
_MOST_SCRIPTS = 8
_YES = ("y", "yes")


Instead = Callable[[Refusal], Optional[Refused]]


class Source(Protocol):
    """Where lines come from."""

    def next(self, prompt: str) -> Optional[str]:
        """The next line without its end, or nothing at the end."""


class Lines:
    """Lines of a stream or a list, each of which is shown first if it is to be echoed."""

    def __init__(self, lines: Iterator[str], echo: Optional[Callable[[str], None]] = None):
        self._lines, self._echo = lines, echo

    def next(self, prompt: str) -> Optional[str]:
        line = next(self._lines, None)
        if line is None:
            return None
        line = line.rstrip("\r\n")
        if self._echo:
            self._echo(line)
        return line


@dataclass(frozen=True)
class Command:
    """A command of the shell. `places` says what its words are, for completion; the last is of all further words."""

    word: str
    usage: str
    means: str
    run: Callable[[Shell, str], None]
    more: Sequence[str] = ()
    places: Sequence[str] = ()


@dataclass
class Shell:
    """One session of a person, a script or a pipe."""

    session: Session
    output: Output
    commands: dict[str, Command]
    is_raw: bool = False
    # as far as a line of this session said it
    table: Optional[Table] = None
    # asks a question of a person and hands back the answer, if there is a person
    asker: Optional[Callable[[str], str]] = None
    refusals: int = 0
    has_ended: bool = False
    source: Source = field(default_factory=lambda: Lines(iter(())))
    scripts: int = 0

    # ---- lines

    def run(self, source: Source, stops_at_refusal: bool = False) -> bool:
        """Runs the lines of a source, to its end or to the first that is refused, and says whether none was."""
        before, self.source = self.source, source
        refusals = self.refusals
        try:
            while not self.has_ended:
                line = source.next(PROMPT)
                if line is None:
                    break
                if not self.line(line) and stops_at_refusal:
                    break
        finally:
            self.source = before
        return self.refusals == refusals

    def line(self, text: str) -> bool:
        """Runs one line, and says whether it was done."""
        words, rest = split(text, 1)
        if not words or words[0].startswith("#"):
            return True
        with self.session.interrupts as interrupts:
            try:
                self._command(words[0]).run(self, rest)
                is_done = True
            except (Refused, Gone) as fault:
                self.output.refuse(str(fault))
                self.refusals += 1
                is_done = False
        # what was answered is written by now
        interrupts.raise_kept()
        return is_done

    def _command(self, word: str) -> Command:
        command = self.commands.get(word)
        if command is None:
            raise Refused(f"there is no command {word}{meant(word, self.commands)}", "help lists them")
        return command

    def more(self) -> Optional[str]:
        """A further line of the text at hand."""
        with self.session.interrupts.released():
            return self.source.next(MORE_PROMPT)

    def json(self, rest: str, what: str) -> Given:
        """The JSON text that a line ends with. A person may begin it in the next line, which elsewhere is a command."""
        if not rest and (self.asker is None or self.scripts):
            raise Refused(f"{what} is missing", "write it as JSON, or @ and a file's name")
        return json_text(rest, self.more, what)

    # ---- the program

    def ask(self, line: str, instead: Optional[Instead] = None) -> list[str]:
        """Gives a line to the program, and hands back its reply. A refusal is raised in words, or raw.

        `instead` may have better words for a refusal than its code has.
        """
        try:
            return self.session.ask(line)
        except Refusal as refusal:
            if self.is_raw:
                raise Refused(f"no {refusal.code} {refusal.detail}".rstrip()) from None
            own = instead(refusal) if instead else None
            raise own or explained(refusal, line, self.names()) from None
        except ValueError as fault:
            raise Refused(str(fault)) from None

    def raw(self, reply: Sequence[str]) -> bool:
        """Writes a reply as it came, if that is asked for."""
        if self.is_raw:
            for line in reply:
                self.output.say(line)
        return self.is_raw

    def names(self) -> Names:
        """The names of this book, for those that nearly fit."""
        return Names(lambda: self.session.machines, self._steps)

    def _steps(self) -> list[str]:
        try:
            return self.session.ask("history")[1:]
        except (Refusal, Gone):
            return []

    # ---- people

    def confirm(self, question: str) -> bool:
        """Asks a person. If there is none, and within a script, nothing is asked: the line is refused."""
        if self.asker is None or self.scripts:
            raise Refused("nothing was done, since nobody can be asked here", "write -y behind the word to do it")
        with self.session.interrupts.released():
            return self.asker(f"{question} [y/N] ").strip().lower() in _YES

    def begin_script(self) -> None:
        """Counts a script within the lines at hand."""
        if self.scripts == _MOST_SCRIPTS:
            raise Refused(f"scripts run each other more than {_MOST_SCRIPTS} deep")
        self.scripts += 1

    def end_script(self) -> None:
        """Counts it no more."""
        self.scripts -= 1

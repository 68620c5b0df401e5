"""The book that a shell speaks to: opened when it is needed, and opened anew after its program or server has gone."""
from __future__ import annotations

import signal
import subprocess
from dataclasses import dataclass
from typing import Any, Optional, TypeVar

from .. import commands, questions
from ..book import Book
from ..faults import (
    BookClosed,
    Busy,
    ConnectionLost,
    NoAnswer,
    NoFollower,
    NoServer,
    ProgramEnded,
    Refusal,
    RollbackError,
    StreamBroken,
)
from ..links import Tls
from .interrupts import Interrupts

# what a question may be given twice, and what changes the book if it is done
QUESTIONS = ("plan", "show", "items", "history", "held", "?", "!waits")
T = TypeVar("T")


class Gone(Exception):
    """The program or the server is gone, or can't be had. The text says also what is known of the line."""

    def __init__(self, why: str, doubt: str = ""):
        super().__init__(why + doubt)
        self.why = why


@dataclass(frozen=True)
class Place:
    """Where the book is: at a server's address, in a journal's file, or, if there is neither, in memory."""

    program: str = "rollback"
    address: Optional[str] = None
    journal: Optional[str] = None
    tls: Optional[Tls] = None

    def open(self) -> Book:
        """Opens the book. That a journal can't be opened is known at the first call."""
        if self.address is not None:
            return Book.connect(self.address, tls=self.tls)
        return Book.open(self.journal, self.program)

    def __str__(self) -> str:
        if self.address is not None:
            return f"the server at {self.address}"
        return f"the journal {self.journal}" if self.journal is not None else "a book in memory"


class Session:
    """Gives lines to the book, and remembers which machines were defined by it."""

    def __init__(self, place: Place):
        self.place = place
        self.interrupts = Interrupts()
        self.machines: set[str] = set()
        self._book: Optional[Book] = None

    # ---- what the server has beside the lines

    def answers_questions(self) -> bool:
        """Whether the server answers questions now, as causes and items with their writers.

        All commands of the shell that show more if they can ask one look here, and nowhere else.
        """
        if self.place.address is None:
            return False
        try:
            self.question("machines most 1")
        except NoFollower:
            return False
        except NoAnswer:
            pass
        return True

    def question(self, text: str) -> dict[str, Any]:
        """Asks a question: of the server, or of the journal's file. `NoFollower` says that nobody answers, `NoAnswer` that there is no answer."""
        command = questions.question(text)
        return self.give(command) if self.place.address is not None else self._asked_of_file(command)

    def _asked_of_file(self, command: commands.Command[dict[str, Any]]) -> dict[str, Any]:
        """Has rollback_graph answer, which reads the file that this session has open, from its first line on."""
        from ..server.follower import graph_beside  # a shell of a server needs none of these
        from ..server.program import meaning

        nobody = NoFollower(0, "no follower", command.line)
        if self.place.journal is None:
            raise nobody
        try:
            graph = graph_beside(self.place.program, None)
            asked = [graph, self.place.journal, "--serve"]
            done = subprocess.run(
                asked, input=f"{command.line}\n".encode(), stdout=subprocess.PIPE, stderr=subprocess.PIPE, check=False
            )
        except (OSError, ValueError):
            raise nobody from None
        if done.returncode == -signal.SIGINT:
            raise Gone("the question was broken off")
        if done.returncode or not done.stdout:
            why = meaning(done.stderr.decode(errors="replace").strip(), self.place.journal)
            raise Gone(f"rollback_graph can't answer: {why or f'it ended with status {done.returncode}'}")
        told = command.outcome(done.stdout)
        if isinstance(told, Refusal):
            raise told
        return told

    # ---- lines

    def begin(self) -> None:
        """Opens the book, and asks it something, so that one that can't be opened is known at once."""
        try:
            self.ask("history")
        except Refusal:
            pass
        except Gone as fault:
            raise Gone(fault.why) from fault

    def ask(self, line: str) -> list[str]:
        """Gives a line. A refusal is raised as it is; `Gone` says what is known if no whole reply came."""
        return self.give(commands.ask(line))

    def give(self, command: commands.Command[T]) -> T:
        """Gives a command, as `ask` does, and hands back its value."""
        line = command.line
        with self.interrupts:
            if self._book is None:
                self._book = self._opened()
            try:
                return self._book.give(command)
            except Refusal:
                raise
            except (ConnectionLost, ProgramEnded, StreamBroken, BookClosed) as fault:
                self._book = None
                raise Gone(self._why(fault), self._doubt(line)) from fault
            except KeyboardInterrupt:
                self._book = None
                raise Gone("the line was broken off", self._doubt(line)) from None

    def close(self) -> None:
        """Ends the session."""
        if self._book is not None:
            book, self._book = self._book, None
            try:
                book.close()
            except ProgramEnded as fault:
                raise Gone(self._why(fault)) from fault

    def _opened(self) -> Book:
        try:
            return self.place.open()
        except (NoServer, Busy) as fault:
            raise Gone(str(fault)) from fault
        except RollbackError as fault:
            raise Gone(str(fault)) from fault

    def _why(self, fault: Exception) -> str:
        if isinstance(fault, ProgramEnded):
            return why_ended(fault, self.place.journal)
        return f"{self.place} is gone: {fault.why if isinstance(fault, ConnectionLost) else fault}"

    def _doubt(self, line: str) -> str:
        again = "the next line connects anew"
        if self.place.address is None:
            again = "the next line opens it again"
        if self.place.address is None and self.place.journal is None:
            return ", and the book in memory with it: the next line begins a new one"
        if line.split(" ", 1)[0] in QUESTIONS:
            return f"; {again}"
        shown = line if len(line) <= 60 else line[:58] + ".."
        return f"; whether this command is done isn't known, so look at history: {shown}; {again}"


def why_ended(fault: ProgramEnded, journal: Optional[str]) -> str:
    """Why the program has ended, in the words that the server has for it."""
    from ..server.program import meaning

    said = fault.said.strip()
    return f"the program has ended with status {fault.status}: {meaning(said, journal) or said or 'it said nothing'}"

"""A book: one method for each command, in Python's own values."""
from __future__ import annotations

import os
import time
from types import TracebackType
from typing import TYPE_CHECKING, Any, Mapping, Optional, Sequence, Type, TypeVar, Union

from . import commands, finishing, questions, streams
from .commands import StepName
from .faults import Refusal
from .json_text import Definition
from .links import Address, Tls, open_child
from .values import Frame, Step, Taken, Waiting

if TYPE_CHECKING:
    from .lint import Finding, Table

T = TypeVar("T")


class Book:
    """A session. Each method gives one line and waits for its reply. Threads may share a book: their calls come one after another.

    A refusal is raised as an exception of its own name, and has changed nothing; each method names those of its command, and any of
    them may also raise `OutOfMemory`. Any method raises

    - `ProgramEnded` or `ConnectionLost` if the program or the server is gone. Whether the command at hand is done isn't known;
    - `StreamBroken` if an earlier call was interrupted before its reply was whole, or a reply has another form. A book whose call is
      interrupted, also by Ctrl-C or an alarm, is closed at once: no later call gets a part of that reply;
    - `BookClosed` after `close`, and `OtherProcess` in a process that was forked from the one that opened the book;
    - `ValueError` or `TypeError` for a name, a step, a number or a value that no line has. Nothing is sent then.
    """

    def __init__(self, stream: streams.Stream):
        self._stream = stream

    @classmethod
    def open(cls, journal: Optional[Address] = None, program: Address = "rollback") -> Book:
        """Starts the program as a child, on a journal's file, or in memory.

        The child is in a session of its own, so Ctrl-C at a terminal doesn't reach it. A `RollbackError` says that it can't be
        started. A journal that can't be opened is a `ProgramEnded` of the first call.
        """
        return cls(streams.Stream(open_child(journal, program)))

    @classmethod
    def connect(
        cls,
        address: Address,
        timeout: Optional[float] = None,
        retry: Optional[float] = None,
        tls: Optional[Tls] = None,
    ) -> Book:
        """Speaks to a server of lines: a path of a Unix socket, or `host:port`.

        `timeout` is how many seconds it waits for a place in the server's queue, and in each call for the next byte: a call of which
        none comes is a `ConnectionLost`. `retry` is for how many seconds it waits for a server that isn't there yet, or is busy.
        Raises `NoServer`, `Busy` if all places are taken, `ConnectionLost`, or `StreamBroken` if it is no server of lines. After
        `ConnectionLost` no call is sent again by itself.

        `cluster:host:port,host:port,..` names servers of one book, of which one leads: calls go there, and after a loss of that one
        to the next. What was under way is a `ConnectionLost`, and the call after it finds the new leader. It is waited for up to
        `retry` seconds, 15 if nothing is said; then, and at once if etcd has no majority or no space, a call is `Unavailable`.
        `timeout` is 30 seconds then, if nothing is said.

        `tls` has the paths of a certificate, of its key, and of the server's authority, for a server with `--tls`.
        """
        return cls(streams.connect(os.fspath(address), timeout, retry, tls))

    def close(self) -> None:
        """Ends the session, after a call of another thread that is under way. Closed twice is as once.

        Raises `ProgramEnded` if the child ends with another status than 0.
        """
        self._stream.close()

    def __enter__(self) -> Book:
        return self

    def __exit__(
        self, kind: Optional[Type[BaseException]], fault: Optional[BaseException], trace: Optional[TracebackType]
    ) -> None:
        try:
            self.close()
        except Exception:
            if fault is None:
                raise

    def __repr__(self) -> str:
        return f"<{type(self).__name__} {self._stream.link.name}, {self._stream.link.state}>"

    def _talk(self, talk: finishing.Talk) -> Frame:
        """Gives one command after another, as what came of the last one asks for."""
        try:
            asked = next(talk)
            while True:
                if not isinstance(asked, commands.Command):
                    time.sleep(asked)
                    asked = next(talk)
                    continue
                try:
                    value = self._stream.call(asked)
                except Refusal as refusal:
                    asked = talk.throw(refusal)
                else:
                    asked = talk.send(value)
        except StopIteration as end:
            return end.value  # type: ignore[no-any-return]

    def ask(self, line: str) -> list[str]:
        """Gives a line as it is, and hands back the lines of its reply.

        Raises the refusal of the reply; `BadLine`, without sending it, for a line that is too long; `ValueError` for a text that is
        no line: an empty one, or with a line feed, a carriage return at its end, a lone surrogate, or a `!` at its beginning.
        """
        return self._stream.call(commands.ask(line))

    def give(self, command: commands.Command[T]) -> T:
        """Gives a command of `rollback_client.commands` or `rollback_client.questions`, and hands back its value.

        Raises the refusal of the reply.
        """
        return self._stream.call(command)

    def give_all(self, given: Sequence[commands.Command[T]]) -> list[Union[T, Refusal]]:
        """Gives a few short commands at once, and hands back the value or the refusal of each, in order. No refusal is raised.

        They are done one after another, also behind one that is refused; a server may do other callers' lines between them.
        Raises a `RollbackError` if the stream breaks.
        """
        return self._stream.call_all(given)

    # ---- commands

    def table(self, name: str, key: Mapping[str, str], items: Sequence[Mapping[str, Any]] = ()) -> None:
        """Begins the book. `key` has one or two attributes with their types, `S` or `N`, the partition key first.

        Raises `TableTaken`, `BadJson`, `BadBeginning`, `JournalRefused`.
        """
        self._stream.call(commands.table(name, key, items))

    def define(self, name: str, definition: Definition, lint: bool = False) -> None:
        """Defines a machine, by a dict, a JSON text, or the path of a file. A text that begins with `{` after blanks is JSON.

        With `lint` the linter looks first: its errors are raised together as one `MachineFault`, before anything is sent.

        Raises `NoTable`, `BadJson`, `MachineTaken`, `MachineFault`, `Full`, `JournalRefused`; `OSError` if the file can't be read.
        """
        if lint:
            from .lint import raise_errors

            raise_errors(name, definition)
        self._stream.call(commands.define(name, definition))

    def lint(self, definition: Definition, table: Optional[Table] = None) -> list[Finding]:
        """All that the linter finds in a definition, errors and warnings. Nothing is sent.

        Raises `OSError` if the file can't be read.
        """
        from .lint import lint_definition

        return lint_definition(definition, table)

    def start(self, execution: str, machine: str, input: Any) -> Step:
        """Starts an execution of a machine, with its input, and gives the step of the start.

        Raises `NoTable`, `BadJson`, `NoMachine`, `ExecutionTaken`, `Full`, `JournalRefused`. A number in the input that isn't whole
        is a `ValueError` that names its place.
        """
        return self._stream.call(commands.start(execution, machine, input))

    def step(self, thread: str) -> Taken:
        """Takes the next step of a thread.

        Raises `NoTable`, `NoThread`, `NoMove`, `Held`, `Full`, `JournalRefused`.
        """
        return self._stream.call(commands.step(thread))

    def drive(self, most: int) -> list[Step]:
        """Takes at most so many steps, 1 to 65,536, each of the least thread that has a move then.

        Raises `NoTable`, and `Full` or `JournalRefused` if no step was taken.
        """
        return self._stream.call(commands.drive(most))

    def work(self, workers: int, most: int) -> list[Step]:
        """Has 1 to 8 workers take at most so many steps in all, at the same time and in an order that isn't known before.

        Raises `NoTable`, `Full` if no step was taken, `JournalRefused`; `BadLine` from a program without this line.
        """
        return self._stream.call(commands.work(workers, most))

    def undo(self, step: StepName) -> None:
        """Takes back a step on which no other depends.

        Raises `NoTable`, `NoStep`, `Settled`, `HasDependents`, `JournalRefused`.
        """
        self._stream.call(commands.undo(step))

    def rollback(self, step: StepName) -> list[Step]:
        """Takes back a step and all its consequences, and gives them, the latest first.

        Raises `NoTable`, `NoStep`, `Settled`, `JournalRefused`.
        """
        return self._stream.call(commands.rollback(step))

    def settle(self) -> None:
        """Settles all remaining steps: they can't be taken back any more.

        Raises `NoTable`, `Held`, `Full`, `JournalRefused`; `BadLine` from a program without this line.
        """
        self._stream.call(commands.settle())

    def hold(self, step: StepName) -> int:
        """Holds a step with its consequences, and gives their number.

        Raises `NoTable`, `NoStep`, `Settled`, `Held`, `Full`, `JournalRefused`; `BadLine` from a program without this line.
        """
        return self._stream.call(commands.hold(step))

    # ---- questions

    def plan(self, step: StepName) -> list[Step]:
        """What a rollback would take, the latest first.

        Raises `NoTable`, `NoStep`, `Settled`.
        """
        return self._stream.call(commands.plan(step))

    def show(self, thread: str) -> Frame:
        """The frame of a thread: `Ready`, `Parked`, `Done` or `Failed`.

        Raises `NoTable`, `NoThread`.
        """
        return self._stream.call(commands.show(thread))

    def items(self) -> list[dict[str, Any]]:
        """All items, in the order of their keys, each an object of attribute values (see `plain`).

        Raises `NoTable`.
        """
        return self._stream.call(commands.items())

    def history(self) -> list[Step]:
        """The remaining steps, in the order in which they were taken.

        Raises `NoTable`.
        """
        return self._stream.call(commands.history())

    def held(self) -> list[Step]:
        """What is left of a hold, the latest first.

        Raises `NoTable`; `BadLine` from a program without this line.
        """
        return self._stream.call(commands.held())

    # ---- questions to a follower

    def question(self, text: str) -> dict[str, Any]:
        """Asks a question in the words of docs/QUESTIONS.md, as `causes order-2#3`, and gives the answer as it is laid down there.

        A question sees each line that was answered before. Raises `NoFollower` if the server has no `--ask` or `--run`, or
        begins its follower again just now; `NoAnswer` if there is no answer, as of a step that doesn't remain.
        """
        return self._stream.call(questions.question(text))

    def causes(self, step: StepName, writes: bool = False) -> dict[str, Any]:
        """The steps on which a step depends, the latest first, in `causes`; with `writes` those that wrote an item, and starts.

        Raises `NoFollower`, `NoAnswer`.
        """
        return self._stream.call(questions.causes(step, writes))

    def item(
        self,
        key: Union[str, Mapping[str, Any], None] = None,
        after: Optional[str] = None,
        most: Optional[int] = None,
    ) -> dict[str, Any]:
        """The steps that read and wrote the item of a key, in `accesses`, and the item in `now`. Without a key all `items`.

        The key is an object of attribute values, as `{"id": {"S": "ann"}}`, or the text of a key of one text.

        Raises `NoFollower`, and `NoAnswer` of an item that isn't there and was never accessed.
        """
        return self._stream.call(questions.item(key, after, most))

    def explain(self, thread: str) -> dict[str, Any]:
        """Why a thread failed, or why its next step would: in `why`, which is None if nothing fails.

        Raises `NoFollower`, `NoAnswer`.
        """
        return self._stream.call(questions.explain(thread))

    def execution(self, name: str, after: Optional[str] = None, most: Optional[int] = None) -> dict[str, Any]:
        """An execution: its machine, input and status, and the steps of its threads.

        Raises `NoFollower`, `NoAnswer`.
        """
        return self._stream.call(questions.execution(name, after, most))

    def threads(
        self,
        thread: Optional[str] = None,
        since: Optional[int] = None,
        after: Optional[str] = None,
        most: Optional[int] = None,
    ) -> dict[str, Any]:
        """The threads that have a move, in `threads`; or one; or those that an entry after `since` changed, and who is `gone`.

        Raises `NoFollower`, and `NoAnswer` if there is no such thread.
        """
        return self._stream.call(questions.threads(thread, since, after, most))

    def executions(
        self,
        status: Optional[str] = None,
        machine: Optional[str] = None,
        since: Optional[int] = None,
        after: Optional[str] = None,
        most: Optional[int] = None,
    ) -> dict[str, Any]:
        """The `executions`: all, or those that are `failed`, `open` or `done`, of a machine, changed by an entry after `since`.

        Raises `NoFollower`, and `NoAnswer` if there is no such machine.
        """
        return self._stream.call(questions.executions(status, machine, since, after, most))

    def log(self, first: int = 0, count: int = 100) -> dict[str, Any]:
        """The accepted commands from a number on, the `table` line being 0, with what each did.

        Raises `NoFollower`.
        """
        return self._stream.call(questions.log(first, count))

    # ---- a runner

    def pause(self, execution: Optional[str] = None, machine: Optional[str] = None) -> None:
        """Has the runner take no step of one execution, of a machine's, or of any. It has stopped when this returns.

        Raises `NoRunner` if there is no server, or none that a runner can run by.
        """
        self._stream.call(questions.pause(execution, machine))

    def resume(self, execution: Optional[str] = None, machine: Optional[str] = None) -> None:
        """Has the runner go on: with one execution, with a machine's, or, if neither is named, with all that was paused.

        Raises `NoRunner`, as `pause` does.
        """
        self._stream.call(questions.resume(execution, machine))

    def waits(self) -> list[Waiting]:
        """For which threads the runner waits, the next one first.

        Raises `NoRunner` if there is none at the moment.
        """
        return self._stream.call(questions.waits())

    # ---- one execution

    def finish(self, execution: str, most: int = 65_536) -> Frame:
        """Steps one execution and its branches to its end, or until it waits for nothing that this can move, and gives its frame.

        No other execution is moved. `most` counts its steps, and is no error when it is reached; under a hold the frame is the one
        at which it is held up. Another caller's rollback may move the execution back, at any time and also after this has answered:
        look at the frame, and call this again if it isn't at its end.

        Raises `NoTable`, `NoThread`, `Full`, `JournalRefused`.
        """
        return self._talk(finishing.finish(execution, most))

    def wait(self, execution: str, timeout: Optional[float] = None) -> Frame:
        """Looks at an execution until others have brought it to its end, and gives its frame, `Done` or `Failed`.

        It looks after 10 milliseconds at first, and once a second later. Another caller's rollback may move the execution back after
        this has answered: before something outside of the book is made of a frame, `settle` it, or be ready to put it right.

        Raises `TimeoutError` after so many seconds, `NoTable`, and `NoThread` if there is no such execution, or its start was taken
        back.
        """
        return self._talk(finishing.wait(execution, timeout))

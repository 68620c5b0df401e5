"""A book for asyncio: the methods of `Book`, each to be awaited."""
from __future__ import annotations

import asyncio
import os
from types import TracebackType
from typing import TYPE_CHECKING, Any, Mapping, Optional, Sequence, Type, TypeVar, Union

from . import async_streams, commands, finishing, questions
from .book import Book
from .commands import StepName
from .faults import Refusal
from .json_text import Definition
from .links import Address, Tls, open_child
from .values import Frame, Step, Taken, Waiting

if TYPE_CHECKING:
    from .lint import Finding, Table

T = TypeVar("T")


class AsyncBook:
    """A session for asyncio, with the methods of `Book` and what they raise. Many calls may wait at once: each has its turn in order.

    A call that is cancelled before its turn is never sent. One that is cancelled later is done all the same, or not, as if the
    connection had been lost: its reply is read before the next call has its turn. A loop that ends with a call under way closes
    the book. A book belongs to the loop in which it was opened.
    """

    def __init__(self, stream: async_streams.AsyncStream):
        self._stream = stream

    @classmethod
    async def open(cls, journal: Optional[Address] = None, program: Address = "rollback") -> AsyncBook:
        """Starts the program as a child, as `Book.open` does."""
        return cls(async_streams.AsyncStream(open_child(journal, program)))

    @classmethod
    async def connect(
        cls,
        address: Address,
        timeout: Optional[float] = None,
        retry: Optional[float] = None,
        tls: Optional[Tls] = None,
    ) -> AsyncBook:
        """Speaks to a server of lines, or to whichever server of a cluster leads, as `Book.connect` does."""
        return cls(await async_streams.connect(os.fspath(address), timeout, retry, tls))

    async def close(self) -> None:
        await self._stream.close()

    async def __aenter__(self) -> AsyncBook:
        return self

    async def __aexit__(
        self, kind: Optional[Type[BaseException]], fault: Optional[BaseException], trace: Optional[TracebackType]
    ) -> None:
        try:
            await self.close()
        except Exception:
            if fault is None:
                raise

    def __repr__(self) -> str:
        return f"<{type(self).__name__} {self._stream.link.name}, {self._stream.link.state}>"

    async def _talk(self, talk: finishing.Talk) -> Frame:
        try:
            asked = next(talk)
            while True:
                if not isinstance(asked, commands.Command):
                    await asyncio.sleep(asked)
                    asked = next(talk)
                    continue
                try:
                    value = await self._stream.call(asked)
                except Refusal as refusal:
                    asked = talk.throw(refusal)
                else:
                    asked = talk.send(value)
        except StopIteration as end:
            return end.value  # type: ignore[no-any-return]

    async def ask(self, line: str) -> list[str]:
        return await self._stream.call(commands.ask(line))

    async def give(self, command: commands.Command[T]) -> T:
        return await self._stream.call(command)

    async def give_all(self, given: Sequence[commands.Command[T]]) -> list[Union[T, Refusal]]:
        async def outcome_of(command: commands.Command[T]) -> Union[T, Refusal]:
            try:
                value: T = await self._stream.call(command)
                return value
            except Refusal as refusal:
                return refusal

        return [await outcome_of(command) for command in given]

    # ---- commands

    async def table(self, name: str, key: Mapping[str, str], items: Sequence[Mapping[str, Any]] = ()) -> None:
        await self._stream.call(commands.table(name, key, items))

    async def define(self, name: str, definition: Definition, lint: bool = False) -> None:
        if lint:
            from .lint import raise_errors

            raise_errors(name, definition)
        await self._stream.call(commands.define(name, definition))

    def lint(self, definition: Definition, table: Optional[Table] = None) -> list[Finding]:
        """What `Book.lint` finds. It needs no server, and isn't awaited.

        Raises `OSError` if the file can't be read.
        """
        from .lint import lint_definition

        return lint_definition(definition, table)

    async def start(self, execution: str, machine: str, input: Any) -> Step:
        return await self._stream.call(commands.start(execution, machine, input))

    async def step(self, thread: str) -> Taken:
        return await self._stream.call(commands.step(thread))

    async def drive(self, most: int) -> list[Step]:
        return await self._stream.call(commands.drive(most))

    async def work(self, workers: int, most: int) -> list[Step]:
        return await self._stream.call(commands.work(workers, most))

    async def undo(self, step: StepName) -> None:
        await self._stream.call(commands.undo(step))

    async def rollback(self, step: StepName) -> list[Step]:
        return await self._stream.call(commands.rollback(step))

    async def settle(self) -> None:
        await self._stream.call(commands.settle())

    async def hold(self, step: StepName) -> int:
        return await self._stream.call(commands.hold(step))

    # ---- questions

    async def plan(self, step: StepName) -> list[Step]:
        return await self._stream.call(commands.plan(step))

    async def show(self, thread: str) -> Frame:
        return await self._stream.call(commands.show(thread))

    async def items(self) -> list[dict[str, Any]]:
        return await self._stream.call(commands.items())

    async def history(self) -> list[Step]:
        return await self._stream.call(commands.history())

    async def held(self) -> list[Step]:
        return await self._stream.call(commands.held())

    # ---- questions to a follower

    async def question(self, text: str) -> dict[str, Any]:
        return await self._stream.call(questions.question(text))

    async def causes(self, step: StepName, writes: bool = False) -> dict[str, Any]:
        return await self._stream.call(questions.causes(step, writes))

    async def item(
        self,
        key: Union[str, Mapping[str, Any], None] = None,
        after: Optional[str] = None,
        most: Optional[int] = None,
    ) -> dict[str, Any]:
        return await self._stream.call(questions.item(key, after, most))

    async def explain(self, thread: str) -> dict[str, Any]:
        return await self._stream.call(questions.explain(thread))

    async def execution(self, name: str, after: Optional[str] = None, most: Optional[int] = None) -> dict[str, Any]:
        return await self._stream.call(questions.execution(name, after, most))

    async def threads(
        self,
        thread: Optional[str] = None,
        since: Optional[int] = None,
        after: Optional[str] = None,
        most: Optional[int] = None,
    ) -> dict[str, Any]:
        return await self._stream.call(questions.threads(thread, since, after, most))

    async def executions(
        self,
        status: Optional[str] = None,
        machine: Optional[str] = None,
        since: Optional[int] = None,
        after: Optional[str] = None,
        most: Optional[int] = None,
    ) -> dict[str, Any]:
        return await self._stream.call(questions.executions(status, machine, since, after, most))

    async def log(self, first: int = 0, count: int = 100) -> dict[str, Any]:
        return await self._stream.call(questions.log(first, count))

    # ---- a runner

    async def pause(self, execution: Optional[str] = None, machine: Optional[str] = None) -> None:
        await self._stream.call(questions.pause(execution, machine))

    async def resume(self, execution: Optional[str] = None, machine: Optional[str] = None) -> None:
        await self._stream.call(questions.resume(execution, machine))

    async def waits(self) -> list[Waiting]:
        return await self._stream.call(questions.waits())

    # ---- one execution

    async def finish(self, execution: str, most: int = 65_536) -> Frame:
        return await self._talk(finishing.finish(execution, most))

    async def wait(self, execution: str, timeout: Optional[float] = None) -> Frame:
        return await self._talk(finishing.wait(execution, timeout))


# What a method does and raises is written once, at `Book`.
for _name, _method in vars(AsyncBook).items():
    if not _name.startswith("_") and _method.__doc__ is None:
        _method.__doc__ = getattr(Book, _name).__doc__

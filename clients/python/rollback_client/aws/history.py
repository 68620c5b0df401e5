"""Histories of executions, kept for the next page as long as no line is accepted."""
from __future__ import annotations

import asyncio
import json
from collections import OrderedDict
from typing import Any, Callable, Dict, List, Mapping

from .book import Book
from .events import Events, Machine, Setting
from .names import Arns

MOST_KEPT = 8
Answer = Dict[str, Any]


class History:
    """Makes them."""

    def __init__(self, book: Book, arns: Arns, role: Callable[[str], str]):
        self._book, self._arns, self._role = book, arns, role
        self._kept: OrderedDict[str, Any] = OrderedDict()

    async def events(self, shown: Answer, input: str) -> List[Answer]:
        """The events of an execution that was shown, from the first one on."""
        name, entries = shown["execution"], shown["entries"]
        kept = self._kept.get(name)
        if kept is not None and kept[0] == entries:
            found: List[Answer] = kept[1]
            return found
        found = await self._made(shown, input)
        self._kept[name] = (entries, found)
        self._kept.move_to_end(name)
        while len(self._kept) > MOST_KEPT:
            self._kept.popitem(last=False)
        return found

    async def _made(self, shown: Answer, input: str) -> List[Answer]:
        store, name = self._book.store, shown["execution"]
        definition = await self._book.definition(shown["machine"])
        machine = Machine(json.loads(definition or "{}"), shown["threads"])
        calls = [
            step["step"]
            for thread in shown["threads"]
            for step in thread["steps"]
            if step["access"] in ("read", "write") and _answers_item(machine.state(thread["thread"], step["state"]))
        ]
        told = await asyncio.gather(*(self._book.ask(f"show {step}") for step in calls))
        # a step that was taken back meanwhile has no answer
        items = {step: answer["step"]["items"]["before"] for step, answer in zip(calls, told) if "step" in answer}
        table = self._book.watch.table
        setting = Setting(self._arns.region, None if table is None else table.name, store.moment)
        events = Events(shown, machine, setting, items)
        return events.make(input, self._role(shown["machine"]), store.moment(store.start_entry(name)))


def _answers_item(state: Mapping[str, Any]) -> bool:
    """Whether the answer of a state's call may have the item that was there."""
    parameters = state.get("Parameters")
    is_put = str(state.get("Resource", "")).endswith(("putItem", "deleteItem"))
    return not (is_put and isinstance(parameters, dict) and not any(name.startswith("ReturnV") for name in parameters))

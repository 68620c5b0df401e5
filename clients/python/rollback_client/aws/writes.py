"""Writes of items, each a step that can be taken back: an execution of a machine of one Task that the server defines."""
from __future__ import annotations

import json
import uuid
from dataclasses import dataclass
from typing import Any, Dict, List, Optional, Tuple

from ..server.within import Elsewhere
from .book import ELSEWHERE, Book, Table, canonical, own_fault, refusal_of
from .events import CONDITION
from .expressions import Substitutions, condition_of, no_other
from .items import NOT_TAKEN, key_of, look_at_key
from .members import Members
from .names import OWN
from .tables import MOST_NAME, table_for
from .values import Item, item_of
from .wire import Call, Fault

MOST_REQUESTS = 25
HEADER = "x-rollback-step"
MOST_NAMES = 100
_FULL = "the book is full: settle its steps (rollback-shell, or rollback-serve --settle-at N), or begin another one"
_CONDITION_TEXT = "The conditional request failed"
Answer = Dict[str, Any]


@dataclass(frozen=True)
class Write:
    """A put or a delete that is to be made."""

    call: str  # putItem or deleteItem
    of: Item  # the item, or the key
    condition: Optional[str] = None

    @property
    def kind(self) -> str:
        """How the name of the machine that makes it begins."""
        word = "put" if self.call == "putItem" else "delete"
        return f"{OWN}{word}" if self.condition is None else f"{OWN}{word}-if"

    @property
    def input(self) -> Answer:
        """The machine's input."""
        found: Answer = {"Item" if self.call == "putItem" else "Key": self.of}
        return found if self.condition is None else {**found, "ConditionExpression": self.condition}

    def definition(self, table: Table) -> Answer:
        """The machine's definition. The old item is its output, for whoever asks for it."""
        parameters: Answer = {f"{name}.$": f"$.{name}" for name in self.input}
        parameters.update(TableName=table.name, ReturnValues="ALL_OLD")
        task = {
            "Type": "Task",
            "Resource": f"arn:aws:states:::dynamodb:{self.call}",
            "Parameters": parameters,
            "End": True,
        }
        return {"Comment": "a write from outside", "StartAt": "Write", "States": {"Write": task}}


@dataclass(frozen=True)
class Written:
    """What came of a write: its step, and the item that was there before."""

    step: str
    old: Optional[Item]


class Refused(Exception):
    """The condition of a write doesn't hold. The step that read the item remains."""

    def __init__(self, step: str):
        super().__init__(step)
        self.step = step


class Writes:
    """The calls that write items."""

    def __init__(self, book: Book):
        self._book = book
        self._machines: Dict[str, str] = {}  # by kind, those that are known to be the server's own

    async def put(self, caller: str, call: Call) -> Answer:
        """PutItem."""
        members = Members(call.body)
        table = table_for(self._book, members.text("TableName", MOST_NAME))
        return await self._one(caller, call, members, table, Write("putItem", _item(members["Item"], table)))

    async def delete(self, caller: str, call: Call) -> Answer:
        """DeleteItem."""
        members = Members(call.body)
        table = table_for(self._book, members.text("TableName", MOST_NAME))
        return await self._one(caller, call, members, table, Write("deleteItem", key_of(members["Key"] or {}, table)))

    async def _one(self, caller: str, call: Call, members: Members, table: Table, write: Write) -> Answer:
        no_other(members, ("Expected", "ConditionalOperator"), NOT_TAKEN)
        returns = members.choice("ReturnValues", ("NONE", "ALL_OLD", "UPDATED_OLD", "ALL_NEW", "UPDATED_NEW"), "NONE")
        if returns not in ("NONE", "ALL_OLD"):
            raise Fault("ValidationException", "ReturnValues can only be ALL_OLD or NONE")
        on_failure = members.choice("ReturnValuesOnConditionCheckFailure", ("NONE", "ALL_OLD"), "NONE")
        substitutions = Substitutions(members)
        condition = condition_of(members.maybe_text("ConditionExpression", 4096), substitutions)
        substitutions.look_at_unused(condition is not None)
        try:
            written = await self._made(caller, table, Write(write.call, write.of, condition))
        except Refused as refused:
            call.headers[HEADER] = refused.step
            item = await self._item_of(refused.step) if on_failure == "ALL_OLD" else None
            more: Answer = {} if item is None else {"Item": item}
            raise Fault("ConditionalCheckFailedException", _CONDITION_TEXT, 400, **more) from None
        call.headers[HEADER] = written.step
        return {} if returns == "NONE" or written.old is None else {"Attributes": written.old}

    async def batch(self, caller: str, call: Call) -> Answer:
        """BatchWriteItem: one after another. Nothing is written before all of them are read."""
        named, table, requests = self._requests(Members(call.body))
        steps: List[str] = []
        for at, (_, write) in enumerate(requests):
            try:
                steps.append((await self._made(caller, table, write)).step)
            except Fault:
                if not steps:
                    raise
                call.headers[HEADER] = ",".join(steps)
                return {"UnprocessedItems": {named: [given for given, _ in requests[at:]]}}
        call.headers[HEADER] = ",".join(steps)
        return {"UnprocessedItems": {}}

    def _requests(self, members: Members) -> Tuple[str, Table, List[Tuple[Answer, Write]]]:
        given = members.fields("RequestItems")
        if not given:
            raise Fault("ValidationException", "RequestItems has to have a table with its requests")
        if len(given) > 1:
            raise Fault("ValidationException", "a book has one table: RequestItems names more")
        ((named, requests),) = given.items()
        table = table_for(self._book, named)
        if not isinstance(requests, list) or not 1 <= len(requests) <= MOST_REQUESTS:
            raise Fault("ValidationException", f"a table has 1 to {MOST_REQUESTS} requests in RequestItems")
        found = [(request, _write_of(request, table)) for request in requests]
        keys = [canonical(table.key_of(write.of)) for _, write in found]
        if len(set(keys)) != len(keys):
            raise Fault("ValidationException", "Provided list of item keys contains duplicates")
        return named, table, found

    # ---- steps

    async def _made(self, caller: str, table: Table, write: Write) -> Written:
        """Starts and steps the execution of a write. If it can't be stepped, its start is undone, so nothing is left."""
        machine = self._machines.get(write.kind) or await self._machine_for(caller, table, write)
        text = json.dumps(write.input, separators=(",", ":"), ensure_ascii=False)
        while True:
            name = f"{write.kind}-{uuid.uuid4().hex[:16]}"
            start, step, show = await self._book.give(
                caller, f"start {name} {machine} {text}", f"step {name}", f"show {name}"
            )
            code = refusal_of(start)
            if code is None:
                return await self._came(caller, name, step, show)
            if code != 4:
                raise _start_fault(code, start)

    async def _machine_for(self, caller: str, table: Table, write: Write) -> str:
        """The machine that makes such a write. If another one has its name, it has the next name."""
        wanted = write.definition(table)
        text = json.dumps(wanted, separators=(",", ":"), ensure_ascii=False)
        for number in range(1, MOST_NAMES):
            name = write.kind if number == 1 else f"{write.kind}-{number}"
            (reply,) = await self._book.give(caller, f"define {name} {text}")
            code = refusal_of(reply)
            if code not in (None, 2):
                raise _start_fault(code or 0, reply)
            there = wanted if code is None else json.loads(await self._book.definition(name) or "{}")
            if there == wanted:
                self._machines[write.kind] = name
                return name
        raise Fault("LimitExceededException", f"the book's own machines have all names from {write.kind} on")

    async def _came(self, caller: str, name: str, step: str, show: str) -> Written:
        words = show.split(" ", 3)
        is_stepped = refusal_of(step) is None
        if show.startswith("ok done "):
            output = json.loads(show[len("ok done ") :])
            return Written(f"{name}#1", output.get("Attributes"))
        if show.startswith("ok failed ") and json.loads(words[2]) == CONDITION:
            raise Refused(f"{name}#1")
        if is_stepped and show.startswith("ok failed "):
            explained = await self._book.ask(f"explain {name}")
            await self._undo(caller, f"{name}#1", f"{name}#0")
            raise Fault("ValidationException", _why(explained, show))
        if ELSEWHERE in (refusal_of(step), refusal_of(show)):
            raise Elsewhere(show.encode())  # a start that is in the book is stepped by the next leader's runner
        code = refusal_of(step)
        if code is not None and code not in (5, 6):
            await self._undo(caller, f"{name}#0")
            raise _step_fault(code, step)
        raise Fault("TransactionConflictException", "the write was taken back as soon as it was made")

    async def _undo(self, caller: str, *steps: str) -> None:
        replies = await self._book.give(caller, *(f"undo {step}" for step in steps))
        for reply in replies:
            if refusal_of(reply) not in (None, 7):
                raise own_fault(reply)

    async def _item_of(self, step: str) -> Optional[Item]:
        """The item that a condition met."""
        answer = await self._book.ask(f"show {step}")
        items = (answer.get("step") or {}).get("items") or {}
        found: Optional[Item] = items.get("before")
        return found


def _item(given: Any, table: Table) -> Item:
    found = item_of({} if given is None else given, "Item")
    look_at_key(found, table)
    return found


def _write_of(request: Any, table: Table) -> Write:
    """A request of a batch."""
    kinds = [kind for kind in ("PutRequest", "DeleteRequest") if isinstance(request, dict) and request.get(kind)]
    if len(kinds) != 1 or len([kind for kind in request if request[kind] is not None]) != 1:
        raise Fault("ValidationException", "a request of a batch has one of PutRequest and DeleteRequest")
    of = request[kinds[0]]
    if not isinstance(of, dict):
        raise Fault("SerializationException", f"{kinds[0]} has to be an object")
    if kinds[0] == "PutRequest":
        return Write("putItem", _item(of.get("Item"), table))
    return Write("deleteItem", key_of(of.get("Key") or {}, table))


def _start_fault(code: int, reply: str) -> Fault:
    if code == 10:
        return Fault("LimitExceededException", _FULL)
    if code in (20, 25):
        return Fault("ValidationException", "Item size has exceeded the maximum allowed size of a line")
    if code == 21:
        return Fault("ResourceNotFoundException", "Requested resource not found: there is no table yet")
    return own_fault(reply)


def _step_fault(code: int, reply: str) -> Fault:
    if code == 10:
        return Fault("LimitExceededException", _FULL)
    if code == 13:
        held = reply.split(" ")[2]
        return Fault(
            "TransactionConflictException",
            f"an operator holds {held}, on which this write would depend: it can be made once that is taken back",
        )
    return own_fault(reply)


def _why(explained: Answer, show: str) -> str:
    why = explained.get("why") or {}
    parts = [f"{name} {why[name]}" for name in ("case", "attribute", "field", "flaw", "fault") if why.get(name)]
    return f"One or more parameter values were invalid: the book refuses the call ({', '.join(parts) or show[:200]})"

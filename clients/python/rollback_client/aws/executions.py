"""Executions: started by `start`, gone on with by the runner, and described as they are now."""
from __future__ import annotations

import json
import uuid
from typing import Any, Dict, List, Optional

from ..json_text import value_text
from .book import Book, canonical, own_fault, refusal_of
from .history import History
from .machines import Machines
from .members import Members
from .names import OWN, Arns, checked_name, execution_of, machine_of
from .pages import page_of, token_of
from .wire import Call, Fault

MOST_INPUT = 262_144
_STATUS = {"open": "RUNNING", "done": "SUCCEEDED", "failed": "FAILED"}
_FILTERS = ("RUNNING", "SUCCEEDED", "FAILED", "TIMED_OUT", "ABORTED", "PENDING_REDRIVE")
_INCLUDED = ("ALL_DATA", "METADATA_ONLY")
Answer = Dict[str, Any]


class Executions:
    """The calls about executions."""

    def __init__(self, book: Book, arns: Arns, machines: Machines):
        self._book, self._arns, self._machines = book, arns, machines
        self._history = History(book, arns, machines.role)

    async def start(self, caller: str, call: Call) -> Answer:
        """StartExecution."""
        members = Members(call.body)
        arn = members.text("stateMachineArn")
        machine = machine_of(arn)
        name = members.maybe_text("name", 80, 1)
        name = str(uuid.uuid4()) if name is None else checked_name(name)
        given = members.maybe_text("input", MOST_INPUT)
        members.maybe_text("traceHeader")
        input = _input_of("{}" if given is None else given)
        if machine.startswith(OWN):
            raise Fault("StateMachineDoesNotExist", f"State Machine Does Not Exist: '{arn}': it is the server's own")
        (reply,) = await self._book.give(caller, f"start {name} {machine} {value_text('the input', input)}")
        code = refusal_of(reply)
        if code == 4:
            await self._look_at_same(name, machine, input)
        elif code is not None:
            raise _start_fault(code, reply, arn)
        elif given is not None:
            self._book.store.keep_input(name, given)
        return {"executionArn": self._arns.execution(machine, name), "startDate": self._started(name)}

    async def _look_at_same(self, name: str, machine: str, input: Any) -> None:
        """Takes the same start again while its execution runs."""
        there = await self._book.shown(name)
        if (
            there is not None
            and there["machine"] == machine
            and there["status"] == "open"
            and canonical(there["input"]) == canonical(input)
        ):
            return
        of = "" if there is None or there["machine"] == machine else f", of {there['machine']}"
        raise Fault(
            "ExecutionAlreadyExists",
            f"Execution Already Exists: '{self._arns.execution(machine, name)}': a name is one execution's in the whole "
            f"book{of}; a rollback of its start frees it",
        )

    def _started(self, name: str) -> float:
        return round(self._book.store.moment(self._book.store.start_entry(name)), 3)

    async def _shown(self, arn: str) -> Answer:
        machine, name = execution_of(arn)
        found = await self._book.shown(name)
        if found is None or found["machine"] != machine:
            raise Fault("ExecutionDoesNotExist", f"Execution Does Not Exist: '{arn}'")
        return found

    async def describe(self, caller: str, call: Call) -> Answer:
        """DescribeExecution. Of one that goes on, which is asked for again and again, no steps are read."""
        members = Members(call.body)
        arn = members.text("executionArn")
        has_data = members.choice("includedData", _INCLUDED, "ALL_DATA") == "ALL_DATA"
        machine, name = execution_of(arn)
        row = await self._book.thread(name)
        if (
            row is not None
            and row["machine"] == machine
            and row["state"] is not None
            and name in self._book.watch.known
        ):
            input = self._book.store.input(name)
            data = {"input": input, "inputDetails": {"included": True}}
            return {**self._described(machine, name, "open"), **(data if has_data else {})}
        shown = await self._shown(arn)
        found = self._described(machine, name, shown["status"])
        if shown["status"] != "open":
            found["stopDate"] = self._stopped(None if row is None else row["entry"], name)
        return {**found, **(self._data(shown) if has_data else {})}

    def _described(self, machine: str, name: str, status: str) -> Answer:
        return {
            "executionArn": self._arns.execution(machine, name),
            "stateMachineArn": self._arns.machine(machine),
            "name": name,
            "status": _STATUS[status],
            "startDate": self._started(name),
            "redriveCount": 0,
            "redriveStatus": "NOT_REDRIVABLE",
            "redriveStatusReason": "An execution here is never redriven: a rollback takes its steps back.",
        }

    def _data(self, shown: Answer) -> Answer:
        """What an execution was given, and what came of it."""
        found: Answer = {"input": self.input(shown), "inputDetails": {"included": True}}
        if shown["status"] == "done":
            found.update(output=canonical(shown["output"]), outputDetails={"included": True})
        elif shown["status"] == "failed":
            found.update(error=shown["error"][:256], cause=shown["cause"][:32_768])
        return found

    def input(self, shown: Answer) -> str:
        """An input as it was given, if that is known and is still the execution's."""
        own = canonical(shown["input"])
        given = self._book.store.input(shown["execution"])
        try:
            return given if given is not None and canonical(json.loads(given)) == own else own
        except (ValueError, RecursionError):
            return own

    def _stopped(self, entry: Optional[int], name: str) -> float:
        return max(round(self._book.store.moment(entry), 3), self._started(name))

    async def machine_for(self, caller: str, call: Call) -> Answer:
        """DescribeStateMachineForExecution."""
        members = Members(call.body)
        shown = await self._shown(members.text("executionArn"))
        return await self._machines.described_for(shown["machine"], members.choice("includedData", _INCLUDED))

    async def list(self, caller: str, call: Call) -> Answer:
        """ListExecutions, the latest start first."""
        members = Members(call.body)
        arn, status = members.maybe_text("stateMachineArn", 256, 1), members.choice("statusFilter", _FILTERS)
        most = members.whole("maxResults", 0, 1000, 0) or 100
        if members.has("mapRunArn"):
            raise Fault("ResourceNotFound", "there are no Map runs here: a book has no distributed Map")
        if arn is None:
            raise Fault("ValidationException", "Must provide a State Machine ARN or Map Run ARN")
        machine = machine_of(arn)
        if machine.startswith(OWN) or await self._book.definition(machine) is None:
            raise Fault("StateMachineDoesNotExist", f"State Machine Does Not Exist: '{arn}'")
        wanted = f"executions {machine} {status} {members.choice('redriveFilter', ('REDRIVEN', 'NOT_REDRIVEN'))}"
        after = token_of(members.maybe_text("nextToken", 3096), wanted)
        rows = [row for row in await self._book.executions() if row["machine"] == machine]
        if members["redriveFilter"] == "REDRIVEN":
            rows = []
        if status is not None:
            rows = [row for row in rows if _STATUS[row["status"]] == status]
        if after is not None:
            rows = [row for row in rows if self._place(row) > (after[0], after[1])]
        last = list(self._place(rows[most - 1])) if len(rows) > most else None
        return page_of("executions", [self._row(row) for row in rows[:most]], last, wanted)

    def _place(self, row: Answer) -> Any:
        return (-self._book.start_of(row["execution"]), row["execution"])

    def _row(self, row: Answer) -> Answer:
        found = self._described(row["machine"], row["execution"], row["status"])
        found = {name: value for name, value in found.items() if not name.startswith("redriveStatus")}
        if row["status"] != "open":
            found["stopDate"] = self._stopped(row["entry"], row["execution"])
        return found

    async def history(self, caller: str, call: Call) -> Answer:
        """GetExecutionHistory."""
        members = Members(call.body)
        most = members.whole("maxResults", 0, 1000, 0) or 100
        is_reverse = members.flag("reverseOrder")
        shown = await self._shown(members.text("executionArn"))
        wanted = f"history {shown['execution']} {is_reverse}"
        after = token_of(members.maybe_text("nextToken", 1024), wanted)
        events: List[Answer] = await self._history.events(shown, self.input(shown))
        if is_reverse:
            events = events[::-1]
        if after is not None:
            events = [event for event in events if (event["id"] < after if is_reverse else event["id"] > after)]
        last = events[most - 1]["id"] if len(events) > most else None
        if not members.flag("includeExecutionData", True):
            events = [_without_data(event) for event in events]
        return page_of("events", events[:most], last, wanted)


def _without_data(event: Answer) -> Answer:
    """An event without inputs, outputs and parameters."""
    found = {}
    for name, value in event.items():
        if isinstance(value, dict):
            value = {
                key: "" if key == "parameters" else below
                for key, below in value.items()
                if key not in ("input", "output", "inputDetails", "outputDetails")
            }
        found[name] = value
    return found


def _input_of(text: str) -> Any:
    """An input. What is no JSON, or has a number that isn't whole, is an `InvalidExecutionInput` with its place."""
    try:
        found = json.loads(text, parse_constant=_no_number)
        value_text("the input", found).encode()
    except (ValueError, RecursionError) as fault:
        raise Fault("InvalidExecutionInput", f"Invalid State Machine Execution Input: '{fault}'") from None
    return found


def _no_number(text: str) -> None:
    raise ValueError(f"{text} is no number of JSON")


def _start_fault(code: int, reply: str, arn: str) -> Fault:
    if code in (1, 21):
        return Fault("StateMachineDoesNotExist", f"State Machine Does Not Exist: '{arn}'")
    if code == 10:
        return Fault(
            "ExecutionLimitExceeded",
            "the book is full: settle its steps (rollback-shell, or rollback-serve --settle-at N), or begin another one",
        )
    if code in (20, 25):
        return Fault("InvalidExecutionInput", f"Invalid State Machine Execution Input: 'the book answers {reply}'")
    return own_fault(reply)

"""Which call is answered where. All others are refused by `refused`."""
from __future__ import annotations

from typing import Any, Awaitable, Callable, Dict, Mapping, Tuple

from .book import Book
from .executions import Executions
from .items import Items
from .machines import Machines
from .names import Arns
from .refused import refusal_of
from .tables import Tables
from .wire import Call, Fault, Service
from .writes import Writes

Action = Callable[[str, Call], Awaitable[Dict[str, Any]]]


class Actions:
    """The calls of both services that a book answers."""

    def __init__(self, book: Book, arns: Arns):
        self._book = book
        self._actions: Dict[Tuple[Service, str], Action] = {
            **{(Service.STATES, name): action for name, action in _of_states(book, arns).items()},
            **{(Service.TABLES, name): action for name, action in _of_tables(book, arns).items()},
        }

    async def answer(self, caller: str, call: Call) -> Dict[str, Any]:
        """Answers a call, or raises its `Fault`. Both say how the book is now: that there is no such table, too."""
        action = self._actions.get((call.service, call.action))
        if action is None:
            raise refusal_of(call)
        try:
            found = await action(caller, call)
        except Fault:
            await self._book.confirm()
            raise
        await self._book.confirm()
        return found


async def _no_activities(caller: str, call: Call) -> Dict[str, Any]:
    """ListActivities: a book has none."""
    return {"activities": []}


def _of_states(book: Book, arns: Arns) -> Mapping[str, Action]:
    machines = Machines(book, arns)
    executions = Executions(book, arns, machines)
    return {
        "CreateStateMachine": machines.create,
        "DescribeStateMachine": machines.describe,
        "ListStateMachines": machines.list,
        "ValidateStateMachineDefinition": machines.validate,
        "ListTagsForResource": machines.list_tags,
        "TagResource": machines.tag,
        "UntagResource": machines.untag,
        "ListStateMachineVersions": machines.no_versions,
        "ListStateMachineAliases": machines.no_aliases,
        "ListActivities": _no_activities,
        "DescribeStateMachineForExecution": executions.machine_for,
        "StartExecution": executions.start,
        "DescribeExecution": executions.describe,
        "ListExecutions": executions.list,
        "GetExecutionHistory": executions.history,
    }


def _of_tables(book: Book, arns: Arns) -> Mapping[str, Action]:
    tables, items, writes = Tables(book, arns), Items(book), Writes(book)
    return {
        "CreateTable": tables.create,
        "DescribeTable": tables.describe,
        "ListTables": tables.list,
        "DescribeTimeToLive": tables.time_to_live,
        "DescribeContinuousBackups": tables.continuous_backups,
        "ListTagsOfResource": tables.list_tags,
        "TagResource": tables.tag,
        "UntagResource": tables.untag,
        "GetItem": items.get,
        "BatchGetItem": items.batch_get,
        "Query": items.query,
        "Scan": items.scan,
        "PutItem": writes.put,
        "DeleteItem": writes.delete,
        "BatchWriteItem": writes.batch,
    }

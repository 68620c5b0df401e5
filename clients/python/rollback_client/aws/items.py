"""Reads of items, which are no steps: GetItem, BatchGetItem, Query and Scan."""
from __future__ import annotations

import asyncio
import json
import zlib
from typing import Any, Dict, List, Optional, Sequence, Tuple

from .book import Book, Table, canonical
from .expressions import (
    KeyCondition,
    Path,
    Substitutions,
    key_condition_of,
    no_other,
    ordered,
    projected,
    projection_of,
)
from .members import Members
from .tables import MOST_NAME, table_for
from .values import Item, item_of, size_of
from .wire import Call, Fault

MOST_PAGE = 1 << 20  # bytes of items, as of DynamoDB
MOST_KEYS = 100
_USE_PROJECTION = "use ProjectionExpression"
_USE_CONDITION = "use KeyConditionExpression"
_NO_FILTER = "filter what it answers"
NOT_TAKEN = {
    "AttributesToGet": _USE_PROJECTION,
    "KeyConditions": _USE_CONDITION,
    "QueryFilter": _NO_FILTER,
    "ScanFilter": _NO_FILTER,
    "FilterExpression": _NO_FILTER,
    "ConditionalOperator": _NO_FILTER,
    "Expected": "use ConditionExpression",
}
_OF_READS = ("AttributesToGet",)
_OF_PAGES = (
    "AttributesToGet",
    "KeyConditions",
    "QueryFilter",
    "ScanFilter",
    "FilterExpression",
    "ConditionalOperator",
)
Answer = Dict[str, Any]


def key_of(given: Any, table: Table) -> Item:
    """A key in the book's form, with the key's attributes and no others."""
    found = item_of(given, "Key")
    if set(found) != {name for name, _ in table.key}:
        raise Fault("ValidationException", "The provided key element does not match the schema")
    look_at_key(found, table)
    return found


def look_at_key(item: Item, table: Table) -> None:
    """Refuses an item without its key, or with one of another type, or an empty one."""
    for name, kind in table.key:
        value = item.get(name)
        if value is None:
            raise _bad_key(f"Missing the key {name} in the item")
        if kind not in value:
            raise _bad_key(f"Type mismatch for key {name} expected: {kind} actual: {next(iter(value))}")
        if value[kind] == "":
            raise _bad_key(
                "The AttributeValue for a key attribute cannot contain an empty string value. " f"Key: {name}"
            )


def _bad_key(message: str) -> Fault:
    return Fault("ValidationException", f"One or more parameter values were invalid: {message}")


class Items:
    """The calls that read items."""

    def __init__(self, book: Book):
        self._book = book

    async def _now(self, key: Item) -> Optional[Item]:
        """An item as it is now."""
        answer = await self._book.ask(f"item {json.dumps(key, separators=(',', ':'), ensure_ascii=False)}")
        found: Optional[Item] = answer.get("now")
        return found

    async def get(self, caller: str, call: Call) -> Answer:
        """GetItem."""
        members = Members(call.body)
        table = table_for(self._book, members.text("TableName", MOST_NAME))
        key, paths = _read_of(members, table)
        found = await self._now(key)
        return {} if found is None else {"Item": projected(found, paths)}

    async def batch_get(self, caller: str, call: Call) -> Answer:
        """BatchGetItem."""
        given = Members(call.body).fields("RequestItems")
        if not given:
            raise Fault("ValidationException", "RequestItems has to have a table with its keys")
        if len(given) > 1:
            raise Fault("ValidationException", "a book has one table: RequestItems names more")
        ((named, asked),) = given.items()
        table = table_for(self._book, named)
        if not isinstance(asked, dict):
            raise Fault("SerializationException", "RequestItems has an object for each table")
        members = Members(asked)
        no_other(members, _OF_READS, NOT_TAKEN)
        substitutions = Substitutions(members)
        paths = projection_of(members.maybe_text("ProjectionExpression", 4096), substitutions)
        substitutions.look_at_unused(paths is not None)
        listed = members.listed("Keys")
        if not listed or len(listed) > MOST_KEYS:
            raise Fault("ValidationException", f"Keys has 1 to {MOST_KEYS} keys")
        keys = [key_of(key, table) for key in listed]
        if len({canonical(key) for key in keys}) != len(keys):
            raise Fault("ValidationException", "Provided list of item keys contains duplicates")
        found = await asyncio.gather(*(self._now(key) for key in keys))
        items = [projected(item, paths) for item in found if item is not None]
        return {"Responses": {named: items}, "UnprocessedKeys": {}}

    # ---- pages

    async def query(self, caller: str, call: Call) -> Answer:
        """Query."""
        members = Members(call.body)
        table = table_for(self._book, members.text("TableName", MOST_NAME))
        page = _Page(members, table)
        text = members.maybe_text("KeyConditionExpression", 4096)
        if text is None:
            raise Fault(
                "ValidationException", "Either the KeyConditions or KeyConditionExpression parameter must be specified"
            )
        condition = key_condition_of(text, page.substitutions, table.key)
        page.substitutions.look_at_unused(True)
        found = await self._of_partition(caller, table, condition)
        is_forward = members.flag("ScanIndexForward", True)
        return page.answer(found if is_forward else found[::-1], is_forward)

    async def _of_partition(self, caller: str, table: Table, condition: KeyCondition) -> List[Item]:
        """The items of a query. Without a sort key it is one at most, which needs no list of all."""
        name = table.key[0][0]
        if len(table.key) == 1:
            look_at_key({name: condition.partition}, table)
            found = await self._now({name: condition.partition})
            return [] if found is None else [found]
        sort, wanted = table.key[1][0], ordered(condition.partition)
        return [
            item
            for item in await self._book.items(caller)
            if ordered(item[name]) == wanted and condition.holds(item[sort])
        ]

    async def scan(self, caller: str, call: Call) -> Answer:
        """Scan. Items come in the order of their keys, and in segments by a sum of their partition key."""
        members = Members(call.body)
        table = table_for(self._book, members.text("TableName", MOST_NAME))
        page = _Page(members, table)
        page.substitutions.look_at_unused(page.has_projection)
        total = members.whole("TotalSegments", 1, 1_000_000, 1)
        segment = members.whole("Segment", 0, 999_999, 0)
        if members.has("Segment") != members.has("TotalSegments"):
            raise Fault("ValidationException", "Segment and TotalSegments are given together")
        if segment >= total:
            raise Fault(
                "ValidationException",
                "The Segment parameter is zero-based and must be less than parameter TotalSegments: "
                f"Segment: {segment} is not less than TotalSegments: {total}",
            )
        found = await self._book.items(caller)
        name = table.key[0][0]
        if total > 1:
            found = [item for item in found if zlib.crc32(canonical(item[name]).encode()) % total == segment]
        return page.answer(found, True)


def _read_of(members: Members, table: Table) -> Tuple[Item, Optional[List[Path]]]:
    """The key and the projection of a read of one item."""
    no_other(members, _OF_READS, NOT_TAKEN)
    members.flag("ConsistentRead")
    substitutions = Substitutions(members)
    paths = projection_of(members.maybe_text("ProjectionExpression", 4096), substitutions)
    substitutions.look_at_unused(paths is not None)
    return key_of(members.fields("Key") or {}, table), paths


class _Page:
    """What a Query and a Scan have in common: a projection, a limit, and where to begin."""

    def __init__(self, members: Members, table: Table):
        self._table = table
        index = members.maybe_text("IndexName", 255)
        if index is not None:
            raise Fault("ValidationException", f"The table does not have the specified index: {index}")
        no_other(members, _OF_PAGES, NOT_TAKEN)
        members.flag("ConsistentRead")
        self._limit = members.whole("Limit", 1, None, 0)
        select = members.choice(
            "Select", ("ALL_ATTRIBUTES", "ALL_PROJECTED_ATTRIBUTES", "SPECIFIC_ATTRIBUTES", "COUNT")
        )
        if select == "ALL_PROJECTED_ATTRIBUTES":
            raise Fault(
                "ValidationException", "ALL_PROJECTED_ATTRIBUTES can be used only when Querying using an IndexName"
            )
        self.substitutions = Substitutions(members)
        text = members.maybe_text("ProjectionExpression", 4096)
        self.has_projection = text is not None
        self._paths = projection_of(text, self.substitutions)
        if self.has_projection and select not in (None, "SPECIFIC_ATTRIBUTES"):
            raise Fault("ValidationException", f"Cannot specify the ProjectionExpression when choosing to get {select}")
        if select == "SPECIFIC_ATTRIBUTES" and not self.has_projection:
            raise Fault("ValidationException", "Must specify the AttributesToGet or ProjectionExpression")
        self._is_count = select == "COUNT"
        start = members.fields("ExclusiveStartKey")
        self._start: Optional[Item] = None
        if start is not None:
            try:
                self._start = key_of(start, table)
            except Fault as fault:
                raise Fault("ValidationException", f"The provided starting key is invalid: {fault.message}") from None

    def _place(self, item: Item) -> Tuple[Any, ...]:
        return tuple(ordered(item[name]) for name, _ in self._table.key)

    def answer(self, items: Sequence[Item], is_forward: bool) -> Answer:
        """A page of these items, which are in order."""
        if self._start is not None:
            start = self._place(self._start)
            items = [item for item in items if (self._place(item) > start) == is_forward and self._place(item) != start]
        taken, size = 0, 0
        while taken < len(items) and size < MOST_PAGE and not (self._limit and taken >= self._limit):
            size += size_of(items[taken])
            taken += 1
        found: Answer = {"Count": taken, "ScannedCount": taken}
        if not self._is_count:
            found["Items"] = [projected(item, self._paths) for item in items[:taken]]
        # as DynamoDB, which doesn't look whether more follow behind the limit
        if taken and (taken < len(items) or self._limit and taken >= self._limit):
            found["LastEvaluatedKey"] = self._table.key_of(items[taken - 1])
        return found

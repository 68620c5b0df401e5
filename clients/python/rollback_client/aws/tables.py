"""The book's one table: created, described, and what Terraform asks of it beside."""
from __future__ import annotations

import re
import uuid
from typing import Any, Dict, List, Optional, Tuple

from . import tags
from .book import Book, Table, own_fault, refusal_of
from .members import Members
from .names import Arns, table_of
from .values import bad, size_of
from .wire import Call, Fault

MOST_NAME = 1024
_ATTRIBUTE = re.compile(r"[^ :\[\n\r][^ :\n\r]{0,254}")
_KEPT = ("BillingMode", "ProvisionedThroughput", "TableClass", "OnDemandThroughput", "DeletionProtectionEnabled")
_LEFT_OUT = {
    "LocalSecondaryIndexes": "its table has no indexes",
    "GlobalSecondaryIndexes": "its table has no indexes",
    "GlobalTableSourceArn": "its table is no global one",
    "ResourcePolicy": "its table has no resource policy",
}
Answer = Dict[str, Any]


def table_for(book: Book, given: str) -> Table:
    """The book's table, if a name or an ARN is its own."""
    name, table = table_of(given), book.watch.table
    if table is None or table.name != name:
        of = "there is none yet" if table is None else f"a book has one table, and this one's is {table.name}"
        raise Fault("ResourceNotFoundException", f"Requested resource not found: Table: {name} not found: {of}")
    return table


class Tables:
    """The calls about the table."""

    def __init__(self, book: Book, arns: Arns):
        self._book, self._arns = book, arns

    async def create(self, caller: str, call: Call) -> Answer:
        """CreateTable, which begins the book."""
        members = Members(call.body)
        name = table_of(members.text("TableName", MOST_NAME))
        for member, why in _LEFT_OUT.items():
            if members[member]:
                raise Fault("ValidationException", f"{member} isn't taken by a book: {why} (docs/AWS.md)")
        if (members.fields("StreamSpecification") or {}).get("StreamEnabled"):
            raise Fault("ValidationException", "StreamSpecification isn't taken by a book: it has no streams")
        members.choice("BillingMode", ("PROVISIONED", "PAY_PER_REQUEST"))
        members.choice("TableClass", ("STANDARD", "STANDARD_INFREQUENT_ACCESS"))
        members.flag("DeletionProtectionEnabled")
        _look_at_throughput(members)
        key = _key_of(members)
        given_tags = tags.tags_of(members.listed("Tags"), "Key", "Value", "Tags")
        given_tags = tags.with_more({}, given_tags, "ValidationException")
        await self._begin(caller, name, key)
        kept = {member: call.body[member] for member in _KEPT if members.has(member)}
        self._book.store.keep_fact("table", {"name": name, "tags": given_tags, "more": kept, "id": str(uuid.uuid4())})
        return {"TableDescription": await self._described(Table(name, key), caller)}

    async def _begin(self, caller: str, name: str, key: Tuple[Tuple[str, str], ...]) -> None:
        keys = " ".join(f"{attribute}:{kind}" for attribute, kind in key)
        (reply,) = await self._book.give(caller, f"table {name} {keys} []")
        code = refusal_of(reply)
        if code == 22:
            there = self._book.watch.table
            if there is not None and there.name == name:
                raise Fault("ResourceInUseException", f"Table already exists: {name}")
            raise Fault(
                "LimitExceededException",
                f"a book has one table, and this one's is {there.name if there else 'another'}: begin another book",
            )
        if code is not None:
            raise own_fault(reply)

    def _fact(self, table: Table) -> Answer:
        """What was given with the table, if it was created here."""
        known = self._book.store.fact("table")
        if isinstance(known, dict) and known.get("name") == table.name:
            return known
        found: Answer = {"name": table.name, "tags": {}, "more": {}, "id": str(uuid.uuid4())}
        self._book.store.keep_fact("table", found)
        return found

    async def describe(self, caller: str, call: Call) -> Answer:
        """DescribeTable."""
        table = table_for(self._book, Members(call.body).text("TableName", MOST_NAME))
        return {"Table": await self._described(table, caller)}

    async def _described(self, table: Table, caller: str) -> Answer:
        fact = self._fact(table)
        more = fact["more"]
        items = await self._book.items(caller)
        given = more.get("ProvisionedThroughput") or {}
        created = self._book.store.fact("created")
        found = {
            "TableName": table.name,
            "TableArn": self._arns.table(table.name),
            "TableId": fact["id"],
            "TableStatus": "ACTIVE",
            "CreationDateTime": round(created if isinstance(created, float) else self._book.store.begun, 3),
            "AttributeDefinitions": [{"AttributeName": name, "AttributeType": kind} for name, kind in table.key],
            "KeySchema": [
                {"AttributeName": name, "KeyType": kind} for (name, _), kind in zip(table.key, ("HASH", "RANGE"))
            ],
            "ProvisionedThroughput": {
                "NumberOfDecreasesToday": 0,
                "ReadCapacityUnits": given.get("ReadCapacityUnits", 0),
                "WriteCapacityUnits": given.get("WriteCapacityUnits", 0),
            },
            "ItemCount": len(items),
            "TableSizeBytes": sum(size_of(item) for item in items),
            "DeletionProtectionEnabled": bool(more.get("DeletionProtectionEnabled", False)),
        }
        if more.get("BillingMode", "PROVISIONED") == "PAY_PER_REQUEST" or not given:
            found["BillingModeSummary"] = {"BillingMode": "PAY_PER_REQUEST"}
        if "TableClass" in more:
            found["TableClassSummary"] = {"TableClass": more["TableClass"]}
        if "OnDemandThroughput" in more:
            found["OnDemandThroughput"] = more["OnDemandThroughput"]
        return found

    async def list(self, caller: str, call: Call) -> Answer:
        """ListTables."""
        members = Members(call.body)
        members.whole("Limit", 1, 100, 100)
        after = members.maybe_text("ExclusiveStartTableName", 255)
        table = self._book.watch.table
        return {"TableNames": [table.name] if table is not None and (after is None or table.name > after) else []}

    # ---- what Terraform asks beside

    async def time_to_live(self, caller: str, call: Call) -> Answer:
        """DescribeTimeToLive: an item doesn't expire."""
        table_for(self._book, Members(call.body).text("TableName", MOST_NAME))
        return {"TimeToLiveDescription": {"TimeToLiveStatus": "DISABLED"}}

    async def continuous_backups(self, caller: str, call: Call) -> Answer:
        """DescribeContinuousBackups."""
        given = Members(call.body).text("TableName", MOST_NAME)
        try:
            table_for(self._book, given)
        except Fault as fault:
            name = "TableNotFoundException" if fault.name == "ResourceNotFoundException" else fault.name
            raise Fault(name, fault.message) from None
        recovery = {"PointInTimeRecoveryStatus": "DISABLED"}
        status = {"ContinuousBackupsStatus": "DISABLED", "PointInTimeRecoveryDescription": recovery}
        return {"ContinuousBackupsDescription": status}

    async def list_tags(self, caller: str, call: Call) -> Answer:
        """ListTagsOfResource."""
        fact = await self._tagged(call)
        return {"Tags": tags.listed(fact["tags"], "Key", "Value")}

    async def tag(self, caller: str, call: Call) -> Answer:
        """TagResource."""
        fact = await self._tagged(call)
        more = tags.tags_of(Members(call.body).listed("Tags"), "Key", "Value", "Tags")
        found = tags.with_more(fact["tags"], more, "ValidationException")
        self._book.store.keep_fact("table", {**fact, "tags": found})
        return {}

    async def untag(self, caller: str, call: Call) -> Answer:
        """UntagResource."""
        fact = await self._tagged(call)
        gone = tags.keys_of(Members(call.body).listed("TagKeys"), "TagKeys")
        left = {key: value for key, value in fact["tags"].items() if key not in gone}
        self._book.store.keep_fact("table", {**fact, "tags": left})
        return {}

    async def _tagged(self, call: Call) -> Answer:
        """What is known of the table. Nothing of it is changed before it is certain that it is the book's."""
        table = table_for(self._book, Members(call.body).text("ResourceArn", 1283))
        await self._book.confirm()
        return self._fact(table)


def _look_at_throughput(members: Members) -> None:
    given = members.fields("ProvisionedThroughput")
    for name in ("ReadCapacityUnits", "WriteCapacityUnits"):
        if given is not None:
            Members(given).whole(name, 0, None, 0)


def _key_of(members: Members) -> Tuple[Tuple[str, str], ...]:
    """The key: a HASH attribute, and perhaps a RANGE, each of type S or N."""
    types: Dict[str, Any] = {}
    for attribute in _objects(members, "AttributeDefinitions"):
        types[str(attribute.get("AttributeName"))] = attribute.get("AttributeType")
    schema = _objects(members, "KeySchema")
    kinds = [element.get("KeyType") for element in schema]
    if kinds not in (["HASH"], ["HASH", "RANGE"]):
        raise bad("the KeySchema has one HASH, and perhaps a RANGE behind it")
    names: List[Any] = [element.get("AttributeName") for element in schema]
    if len(set(names)) != len(names):
        raise bad("Both the Hash Key and the Range Key element in the KeySchema have the same name")
    for name in names:
        _look_at_attribute(name, types)
    if set(types) != set(names):
        raise bad(
            "Number of attributes in KeySchema does not exactly match number of attributes defined in "
            "AttributeDefinitions"
        )
    return tuple((str(name), str(types[name])) for name in names)


def _look_at_attribute(name: Any, types: Dict[str, Any]) -> None:
    if not isinstance(name, str) or name not in types:
        raise bad(f"Some index key attributes are not defined in AttributeDefinitions. Keys: [{name}]")
    if not _ATTRIBUTE.fullmatch(name):
        raise bad(f"a key's attribute has no space and no colon, and doesn't begin with [: {name[:100]!r}")
    if types[name] not in ("S", "N"):
        raise bad(f"a book's key is of type S or N, and {name} of type {types[name]!r}")


def _objects(members: Members, name: str) -> List[Answer]:
    found: Optional[List[Any]] = members.listed(name)
    if not found:
        raise bad(f"{name} is missing")
    if not all(isinstance(element, dict) for element in found):
        raise Fault("SerializationException", f"{name} has to be a list of objects")
    return found

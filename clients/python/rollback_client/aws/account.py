"""An account of Amazon's services, or an emulator of them, by boto3: its table and its state machines, as a book would have them."""
from __future__ import annotations

import argparse
import importlib
from dataclasses import dataclass, field
from typing import Any, Callable, Dict, Iterator, List, Optional, Tuple

from ..attributes import plain
from .book import Table, canonical
from .values import Item, item_of
from .wire import Fault


class NoAccount(Exception):
    """Why an account can't be asked: a sentence."""


@dataclass
class Machine:
    """A state machine of an account."""

    name: str
    definition: str
    kind: str
    role: str
    moment: float
    tags: Dict[str, str] = field(default_factory=dict)


def add_account_words(parser: argparse.ArgumentParser) -> None:
    """Adds which account is meant."""
    add: Callable[..., Any] = parser.add_argument_group("the account, which is boto3's if nothing is said").add_argument
    add("--endpoint-url", metavar="URL", help="an emulator's address")
    add("--region", help="the region")
    add("--profile", help="the profile of ~/.aws")


class Account:
    """What is asked of an account. What it refuses is a `NoAccount`."""

    def __init__(self, words: argparse.Namespace):
        try:
            boto3 = importlib.import_module("boto3")
            self._errors = importlib.import_module("botocore.exceptions")
        except ImportError:
            raise NoAccount("this needs boto3: on Debian the package python3-boto3, and /usr/bin/python3") from None
        try:
            session = boto3.session.Session(profile_name=words.profile, region_name=words.region)
            self._tables = session.client("dynamodb", endpoint_url=words.endpoint_url)
            self._states = session.client("stepfunctions", endpoint_url=words.endpoint_url)
        except (self._errors.BotoCoreError, ValueError) as fault:
            raise NoAccount(str(fault)) from None

    def _asked(self, call: Any, **given: Any) -> Any:
        try:
            return call(**given)
        except (self._errors.BotoCoreError, self._errors.ClientError) as fault:
            raise NoAccount(str(fault)) from None

    def _paged(self, client: Any, name: str, rows: str, **given: Any) -> Iterator[Any]:
        """The rows of all pages."""
        try:
            for page in client.get_paginator(name).paginate(**given):
                yield from page.get(rows, ())
        except (self._errors.BotoCoreError, self._errors.ClientError) as fault:
            raise NoAccount(str(fault)) from None

    # ---- state machines

    def machines(self) -> Iterator[Machine]:
        """All of them."""
        for row in self._paged(self._states, "list_state_machines", "stateMachines"):
            found = self._asked(self._states.describe_state_machine, stateMachineArn=row["stateMachineArn"])
            tags = self._asked(self._states.list_tags_for_resource, resourceArn=row["stateMachineArn"]).get("tags", ())
            yield Machine(
                found["name"],
                found["definition"],
                found.get("type", "STANDARD"),
                found["roleArn"],
                found["creationDate"].timestamp(),
                {tag["key"]: tag["value"] for tag in tags},
            )

    # ---- the table

    def tables(self) -> List[str]:
        """The names of all tables."""
        return list(self._paged(self._tables, "list_tables", "TableNames"))

    def table(self, name: str) -> Table:
        """A table with its key. One whose key is binary is a `NoAccount`."""
        found = self._asked(self._tables.describe_table, TableName=name)["Table"]
        types = {row["AttributeName"]: row["AttributeType"] for row in found["AttributeDefinitions"]}
        schema = sorted(found["KeySchema"], key=lambda row: str(row["KeyType"]))
        key = tuple((row["AttributeName"], types[row["AttributeName"]]) for row in schema)
        for attribute, kind in key:
            if kind not in ("S", "N"):
                raise NoAccount(f"the key {attribute} of {name} is of type {kind}, and a book's is of S or N")
        return Table(name, key)

    def items(self, table: Table) -> Iterator[Tuple[Item, Optional[Item], str]]:
        """The items as they are, each as a book has it, or nothing and why it can't have it."""
        for item in self._paged(self._tables, "scan", "Items", TableName=table.name, ConsistentRead=True):
            try:
                yield item, item_of(item, "the item"), ""
            except Fault as fault:
                yield item, None, fault.message

    def write(self, table: Table, item: Optional[Item], old: Optional[Item], key: Item) -> bool:
        """Puts an item in the place of the one that was read, or deletes that. It is false if another one is there now."""
        condition = condition_on(table, item, old)
        try:
            if item is None:
                self._tables.delete_item(TableName=table.name, Key=key, **condition)
            else:
                self._tables.put_item(TableName=table.name, Item=item, **condition)
        except self._errors.ClientError as fault:
            if fault.response["Error"]["Code"] == "ConditionalCheckFailedException":
                return False
            raise NoAccount(str(fault)) from None
        except self._errors.BotoCoreError as fault:
            raise NoAccount(str(fault)) from None
        return True


def condition_on(table: Table, item: Optional[Item], old: Optional[Item]) -> Dict[str, Any]:
    """The condition that an item is still as it was read: each attribute has its value, and a new one isn't there."""
    names: Dict[str, str] = {}
    values: Dict[str, Any] = {}
    tests: List[str] = []
    absent = [table.key[0][0]] if old is None else [name for name in item or {} if name not in old]
    for number, (name, value) in enumerate((old or {}).items()):
        names[f"#o{number}"], values[f":o{number}"] = name, value
        tests.append(f"#o{number}=:o{number}")
    for number, name in enumerate(absent):
        names[f"#n{number}"] = name
        tests.append(f"attribute_not_exists(#n{number})")
    found: Dict[str, Any] = {"ConditionExpression": " AND ".join(tests), "ExpressionAttributeNames": names}
    return {**found, "ExpressionAttributeValues": values} if values else found


def same(first: Item, second: Item) -> bool:
    """Whether two items in a book's form have the same values. Sets have no order."""
    return bool(plain({"M": first}) == plain({"M": second})) and _kinds(first) == _kinds(second)


def _kinds(value: Any) -> Any:
    """The types of a value, so that a text isn't taken for a number, or true for 1."""
    if isinstance(value, dict):
        return {name: None if name in ("SS", "NS") else _kinds(below) for name, below in value.items()}
    return [_kinds(below) for below in value] if isinstance(value, list) else None


def shown(key: Item) -> str:
    """A key as a report has it."""
    return canonical(key)

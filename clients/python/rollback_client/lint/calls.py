"""A Task's call of the table: what makes it fail whatever the input is."""
from __future__ import annotations

import re
from dataclasses import dataclass
from typing import Optional

from .fields_of import near
from .findings import Path, Report, json_string
from .machine import State
from .resources import resource_of
from .scanner import Node
from .values import check_attribute, malformed, members, type_of

_CONDITION = re.compile(r" *attribute_(?:not_)?exists\( *[A-Za-z][A-Za-z0-9_]* *\) *")
_ARN = re.compile(r"arn:aws[a-z-]*:dynamodb:[^:]*:[^:]*:table/([A-Za-z0-9_.-]+)")
_UNREAD = ("ReturnConsumedCapacity", "ReturnItemCollectionMetrics")
_WRITE = ("TableName", "ConditionExpression", "ReturnValues", *_UNREAD)
_FIELDS = {
    "getItem": ("TableName", "Key", "ConsistentRead", *_UNREAD),
    "putItem": (*_WRITE[:1], "Item", *_WRITE[1:]),
    "deleteItem": (*_WRITE[:1], "Key", *_WRITE[1:]),
}
_HELP = {
    "ProjectionExpression": "remove it, and take the attributes by ResultSelector",
    "AttributesToGet": "remove it, and take the attributes by ResultSelector",
    "UpdateExpression": "read the item, compute the new one in a Pass, put it with a condition",
    "ExpressionAttributeNames": "write the attribute's own name in the condition",
    "ExpressionAttributeValues": "ask only whether an attribute exists, and compare values in a Choice",
    "ConditionExpression": "read without it, and ask in a Choice",
    "ReturnValues": "remove it, since a get answers the item",
    "Key": "write the key's attributes into Item",
    "Item": "write the key's attributes as Key",
}


_ONE_TABLE = "keep these items in the book's table, too"
Key = tuple[tuple[str, str], ...]
# a template's attributes by the name that is filled: the name that is written, and the value if the text shows it
Attributes = dict[str, tuple[str, Optional[Node]]]


@dataclass(frozen=True)
class Table:
    """The book's table: its name, and its key's attributes with their types, `S` or `N`."""

    name: str
    key: Key


def check_call(report: Report, state: State, table: Optional[Table]) -> None:
    """Adds the warnings of a Task's call. A Resource that is none of the three calls is an error of its own."""
    call = resource_of(state.node)
    parameters = state.node.get("Parameters")
    if call is None:
        return
    path = (*state.path, "Parameters")
    if parameters is None:
        message = f"{state.name} has no Parameters, so its call is the state's whole input"
        advice = f"write TableName and {_FIELDS[call][1]} into Parameters"
        report.object(state.node, state.path, "NO_PARAMETERS", message, advice)
    elif parameters.kind != "object":
        malformed(report, parameters, path, "Parameters has to be the call's object", "write it within braces")
    else:
        _Call(report, table, call, parameters, path).check()


def _named_table(parameters: Node) -> Optional[str]:
    """The name of the table that a call names, if the text shows it."""
    name = parameters.text_of("TableName")
    arn = _ARN.fullmatch(name or "")
    return arn[1] if arn else name


def check_one_table(report: Report, tasks: list[State]) -> None:
    """Adds each call of another table than the first call's: a book has one."""
    first: Optional[str] = None
    for state in tasks:
        parameters = state.node.get("Parameters")
        name = _named_table(parameters) if parameters and resource_of(state.node) else None
        if parameters is None or name is None:
            continue
        first = name if first is None else first
        if name != first:
            path = (*state.path, "Parameters", "TableName")
            message = f"{name} is another table than {first}, and a book has one table"
            report.value(parameters.fields["TableName"].value, path, "OTHER_TABLE", message, _ONE_TABLE)


class _Call:
    """A call whose fields the text shows."""

    def __init__(self, report: Report, table: Optional[Table], call: str, node: Node, path: Path):
        self.report, self.table, self.call, self.node, self.path = report, table, call, node, path
        # the key of another table isn't known
        self.key = table.key if table and _named_table(node) in (None, table.name) else None

    def check(self) -> None:
        allowed = _FIELDS[self.call]
        filled = set()
        for name, written, value in members(self.node):
            filled.add(name)
            if name not in allowed:
                self._unknown(written, name)
            elif value is not None:
                self._field(value, (*self.path, name), name)
        for name in ("TableName", allowed[1]):
            if name not in filled:
                advice = f"{self.call} needs TableName and {allowed[1]}"
                self.report.object(self.node, self.path, "MALFORMED_CALL", f"the call has no {name}", advice)

    def _bad(self, node: Node, path: Path, message: str, help: str) -> None:
        malformed(self.report, node, path, message, help)

    def _unknown(self, written: str, name: str) -> None:
        meant = near(name, _FIELDS[self.call])
        advice = _HELP.get(name) or (f"write {meant}" if meant else "remove it")
        replacement = meant if meant and name == written and meant.lower() == name.lower() else None
        path, code, message = self.path, "MALFORMED_CALL", f"{self.call} has no field {name} here"
        self.report.name(self.node, written, path, code, message, advice, replacement=json_string(replacement))

    def _field(self, value: Node, path: Path, name: str) -> None:
        if name == "TableName":
            self._table(value, path)
        elif name in ("Key", "Item"):
            self._item(value, path, name)
        elif name == "ConditionExpression":
            self._condition(value, path)
        elif name == "ReturnValues" and value.text() not in ("NONE", "ALL_OLD"):
            self._bad(value, path, "ReturnValues has to be NONE or ALL_OLD", "write one of these, or remove it")

    def _table(self, value: Node, path: Path) -> None:
        text = value.text()
        if text is None:
            self._bad(value, path, "TableName has to be a text", "write the table's name within quotes")
            return
        arn = _ARN.fullmatch(text)
        if arn and (self.table is None or arn[1] == self.table.name):
            message = f"TableName {text} is an ARN, and has to be the name alone"
            self.report.value(value, path, "OTHER_TABLE", message, f"write {arn[1]}", replacement=json_string(arn[1]))
        elif self.table and text != self.table.name and "${" not in text:
            message = f"{text} isn't the book's table, which is {self.table.name}"
            self.report.value(value, path, "OTHER_TABLE", message, _ONE_TABLE)

    def _item(self, value: Node, path: Path, name: str) -> None:
        if value.kind != "object":
            message, advice = (
                f"{name} has to be an object of attributes",
                "write each value with its type under its name",
            )
            self._bad(value, path, message, advice)
            return
        attributes = {attribute: (written, held) for attribute, written, held in members(value)}
        for written, held in attributes.values():
            if held is not None:
                check_attribute(self.report, held, (*path, written))
        if self.key is not None:
            self._key_attributes(value, path, name, attributes, self.key)
        elif name == "Key":
            self._any_key(value, path, attributes)

    def _any_key(self, value: Node, path: Path, attributes: Attributes) -> None:
        """Adds what no key has, whatever the table is."""
        if len(attributes) not in (1, 2):
            message = f"a key has one attribute or two, and not {len(attributes)}"
            self._bad(value, path, message, "write the key's attributes, and no others")
        for attribute, (written, held) in attributes.items():
            self._key_value(held, (*path, written), attribute, None)

    def _key_attributes(self, value: Node, path: Path, name: str, attributes: Attributes, key: Key) -> None:
        """Adds what keeps a Key or an Item from having the key of the book's table."""
        wanted = " and ".join(f"{attribute}:{kind}" for attribute, kind in key)
        for attribute, kind in key:
            if attribute in attributes:
                written, held = attributes[attribute]
                self._key_value(held, (*path, written), attribute, kind)
            else:
                message = f"{name} has no {attribute}, which is of the key"
                self.report.object(value, path, "MALFORMED_CALL", message, f"the table's key is {wanted}")
        others = set(attributes) - {attribute for attribute, _ in key} if name == "Key" else set()
        for attribute in sorted(others):
            written, message = attributes[attribute][0], f"{attribute} isn't of the key"
            self.report.name(
                value, written, path, "MALFORMED_CALL", message, f"remove it, since the table's key is {wanted}"
            )

    def _key_value(self, held: Optional[Node], path: Path, attribute: str, kind: Optional[str]) -> None:
        found = type_of(held) if held else None
        if held is None or found is None:
            return
        given, _, value = found
        if given not in ("S", "N") or kind and given != kind:
            wanted = kind or "S or N"
            message = f"{attribute} is of the key, and has to be of type {wanted}, not {given}"
            self._bad(held, path, message, f"write {wanted}")
        elif given == "S" and value is not None and value.text() == "":
            self._bad(held, path, f"{attribute} is of the key, and may not be empty", "write a text")

    def _condition(self, value: Node, path: Path) -> None:
        text = value.text()
        if text is None or not _CONDITION.fullmatch(text):
            shown = self.report.shown(value)
            message = f"a condition is attribute_exists(a) or attribute_not_exists(a), and not {shown}"
            self._bad(value, path, message, "ask by one of these, and compare values in a Choice before")

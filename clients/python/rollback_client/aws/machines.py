"""State machines: created by `define`, described as they were given."""
from __future__ import annotations

import json
from typing import Any, Dict, List, Optional

from ..json_text import definition_text
from ..lint import Finding, lint_text
from ..lint import Table as LintTable
from ..lint.findings import pointer_of
from . import tags
from .book import Book, own_fault, refusal_of
from .members import Members
from .names import OWN, Arns, checked_name, machine_of
from .pages import page_of, token_of
from .store import Machine
from .wire import Call, Fault

MOST_DEFINITION = 1 << 20
MOST_TOLD = 100  # faults that a message lists
_CONFIGURATIONS: Dict[str, Any] = {
    "loggingConfiguration": {"level": "OFF", "includeExecutionData": False},
    "tracingConfiguration": {"enabled": False},
    "encryptionConfiguration": {"type": "AWS_OWNED_KEY"},
}
NO_ROLE = "arn:aws:iam::000000000000:role/none"
NO_TABLE = (
    "there is no table yet, and a state machine's calls are of it: create the table first "
    "(DynamoDB's CreateTable, or rollback-serve --table NAME KEY:TYPE)"
)
Answer = Dict[str, Any]


class Machines:
    """The calls about state machines."""

    def __init__(self, book: Book, arns: Arns):
        self._book, self._arns = book, arns

    async def create(self, caller: str, call: Call) -> Answer:
        """CreateStateMachine."""
        members = Members(call.body)
        name = checked_name(members.text("name", 80))
        definition = members.text("definition", MOST_DEFINITION)
        given = Machine(definition=definition, role=members.text("roleArn"))
        _look_at_kind(members)
        given.tags = tags.with_more({}, tags.tags_of(members.listed("tags"), "key", "value", "tags"), "TooManyTags")
        given.more = {member: call.body[member] for member in _CONFIGURATIONS if members.fields(member) is not None}
        if name.startswith(OWN):
            raise Fault("InvalidName", f"Invalid Name: '{name}': names that begin with {OWN} are the server's own")
        if self._book.watch.table is None:
            raise Fault("ConflictException", NO_TABLE)
        self._refuse_faults(definition)
        (reply,) = await self._book.give(caller, f"define {name} {definition_text(definition)}")
        code = refusal_of(reply)
        if code == 2:
            await self._look_at_same(name, given)
        elif code is not None:
            raise _define_fault(code, reply)
        else:
            known = self._book.store.machine(name)
            given.moment = known.moment
            self._book.store.keep_machine(name, given)
        return {"stateMachineArn": self._arns.machine(name), "creationDate": self._created(name)}

    def _refuse_faults(self, definition: str) -> None:
        errors = [finding for finding in self._lint(definition) if finding.severity == "error"]
        if errors:
            told = [f"{error.code}: {_said(error)} at {pointer_of(error.path) or '/'}" for error in errors[:MOST_TOLD]]
            more = f", and {len(errors) - MOST_TOLD} more" if len(errors) > MOST_TOLD else ""
            raise Fault("InvalidDefinition", f"Invalid State Machine Definition: '{', '.join(told)}{more}'")

    def _lint(self, definition: str) -> List[Finding]:
        table = self._book.watch.table
        return lint_text(definition, "", None if table is None else LintTable(table.name, table.key))

    async def _look_at_same(self, name: str, given: Machine) -> None:
        """Takes the same definition again, whatever its role and its tags are. They are kept if none are known."""
        there = await self._book.definition(name)
        known = self._book.store.machine(name)
        if there is not None and json.loads(there) == json.loads(given.definition or ""):
            if known.definition is None:
                given.moment = known.moment
                self._book.store.keep_machine(name, given)
                return
            if _configured(known.more) == _configured(given.more):
                return
        raise Fault(
            "StateMachineAlreadyExists",
            f"State Machine Already Exists: '{self._arns.machine(name)}': it has another definition or configuration, and "
            "a machine can't be changed: give the new one another name",
        )

    def _created(self, name: str) -> float:
        moment = self._book.store.machine(name).moment
        return round(self._book.store.begun if moment is None else moment, 3)

    async def describe(self, caller: str, call: Call) -> Answer:
        """DescribeStateMachine."""
        members = Members(call.body)
        arn = members.text("stateMachineArn")
        name = machine_of(arn)
        found = await self._described(name, members.choice("includedData", ("ALL_DATA", "METADATA_ONLY")))
        if found is None:
            raise Fault("StateMachineDoesNotExist", f"State Machine Does Not Exist: '{arn}'")
        return {**found, "status": "ACTIVE", "type": "STANDARD", "creationDate": self._created(name)}

    async def described_for(self, machine: str, included: Optional[str]) -> Answer:
        """DescribeStateMachineForExecution, of an execution of this machine."""
        found = await self._described(machine, included)
        return {**(found or {}), "updateDate": self._created(machine)}

    async def _described(self, name: str, included: Optional[str]) -> Optional[Answer]:
        definition = await self._book.definition(name)
        if definition is None:
            return None
        known = self._book.store.machine(name)
        if known.definition is not None and json.loads(known.definition) == json.loads(definition):
            definition = known.definition
        return {
            "stateMachineArn": self._arns.machine(name),
            "name": name,
            "definition": "{}" if included == "METADATA_ONLY" else definition,
            "roleArn": self.role(name),
            **_configured(known.more),
        }

    def role(self, name: str) -> str:
        """The role that was given with a machine, which has no effect."""
        return self._book.store.machine(name).role or NO_ROLE

    async def list(self, caller: str, call: Call) -> Answer:
        """ListStateMachines."""
        members = Members(call.body)
        most = members.whole("maxResults", 0, 1000, 0) or 100
        names = await self._book.machines()
        after = token_of(members.maybe_text("nextToken", 1024), "machines")
        rest = [name for name in names if after is None or name > after]
        rows = [
            {
                "stateMachineArn": self._arns.machine(name),
                "name": name,
                "type": "STANDARD",
                "creationDate": self._created(name),
            }
            for name in rest[:most]
        ]
        return page_of("stateMachines", rows, rest[most - 1] if len(rest) > most else None, "machines")

    async def validate(self, caller: str, call: Call) -> Answer:
        """ValidateStateMachineDefinition, by the linter."""
        members = Members(call.body)
        definition = members.text("definition", MOST_DEFINITION)
        members.choice("type", ("STANDARD", "EXPRESS"))
        has_warnings = members.choice("severity", ("ERROR", "WARNING"), "ERROR") == "WARNING"
        most = members.whole("maxResults", 0, 100, 0) or 100
        found = self._lint(definition)
        fails = any(finding.severity == "error" for finding in found)
        rows = [
            {
                "severity": finding.severity.upper(),
                "code": finding.code,
                "message": _said(finding),
                "location": pointer_of(finding.path) or "/",
            }
            for finding in sorted(found, key=lambda finding: finding.severity)
            if has_warnings or finding.severity == "error"
        ]
        return {"result": "FAIL" if fails else "OK", "diagnostics": rows[:most], "truncated": len(rows) > most}

    # ---- what Terraform asks beside

    async def list_tags(self, caller: str, call: Call) -> Answer:
        """ListTagsForResource."""
        known = await self._tagged(Members(call.body).text("resourceArn"))
        return {"tags": tags.listed(known.tags, "key", "value")}

    async def tag(self, caller: str, call: Call) -> Answer:
        """TagResource."""
        members = Members(call.body)
        arn = members.text("resourceArn")
        more = tags.tags_of(members.listed("tags"), "key", "value", "tags")
        known = await self._tagged(arn)
        known.tags = tags.with_more(known.tags, more, "TooManyTags")
        self._book.store.keep_machine(machine_of(arn), known)
        return {}

    async def untag(self, caller: str, call: Call) -> Answer:
        """UntagResource."""
        members = Members(call.body)
        arn = members.text("resourceArn")
        gone = tags.keys_of(members.listed("tagKeys"), "tagKeys")
        known = await self._tagged(arn)
        known.tags = {key: value for key, value in known.tags.items() if key not in gone}
        self._book.store.keep_machine(machine_of(arn), known)
        return {}

    async def _tagged(self, arn: str) -> Machine:
        try:
            name = machine_of(arn)
        except Fault as fault:
            raise Fault("InvalidArn" if fault.name == "InvalidArn" else "ResourceNotFound", fault.message) from None
        if await self._book.definition(name) is None:
            raise Fault("ResourceNotFound", f"Resource not found: '{arn}'")
        return self._book.store.machine(name)

    async def no_versions(self, caller: str, call: Call) -> Answer:
        """ListStateMachineVersions: a machine here is never changed, so it has none."""
        await self._look_for(Members(call.body).text("stateMachineArn"))
        return {"stateMachineVersions": []}

    async def no_aliases(self, caller: str, call: Call) -> Answer:
        """ListStateMachineAliases."""
        await self._look_for(Members(call.body).text("stateMachineArn"))
        return {"stateMachineAliases": []}

    async def _look_for(self, arn: str) -> None:
        if await self._book.definition(machine_of(arn)) is None:
            raise Fault("StateMachineDoesNotExist", f"State Machine Does Not Exist: '{arn}'")


def _configured(more: Dict[str, Any]) -> Answer:
    """The three configurations as they were given, and else as Amazon has them."""
    return {member: {**otherwise, **more.get(member, {})} for member, otherwise in _CONFIGURATIONS.items()}


def _look_at_kind(members: Members) -> None:
    """Refuses what a machine here can't be."""
    if members.choice("type", ("STANDARD", "EXPRESS")) == "EXPRESS":
        raise Fault(
            "StateMachineTypeNotSupported",
            "State Machine Type is not supported: 'EXPRESS': a book keeps each step, so create it as STANDARD",
        )
    if members.flag("publish"):
        raise Fault("ValidationException", "a state machine here has no versions: leave publish out")


def _said(finding: Finding) -> str:
    return f"{finding.message}: {finding.help}" if finding.help else finding.message


def _define_fault(code: int, reply: str) -> Fault:
    """What is answered of a `define` that was refused though the linter found nothing."""
    if code == 21:
        return Fault("ConflictException", NO_TABLE)
    if code == 10:
        return Fault("StateMachineLimitExceeded", "the book is full: settle its steps, or begin another book")
    if code in (3, 20, 25):
        return Fault("InvalidDefinition", f"Invalid State Machine Definition: '{reply}'")
    return own_fault(reply)

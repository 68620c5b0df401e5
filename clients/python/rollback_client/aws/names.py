"""ARNs, and names that both Amazon's grammar and the book's take."""
from __future__ import annotations

import re
from dataclasses import dataclass
from typing import Optional, Tuple

from .wire import Fault

OWN = "aws-"  # with which the names of the machines begin that the server defines
REGION, ACCOUNT = "us-east-1", "000000000000"
MOST_NAME = 64
_NAME = re.compile(r"[A-Za-z0-9_-]{1,64}")
_TABLE = re.compile(r"[A-Za-z0-9_.-]{1,255}")
_ARN = re.compile(r"arn:aws[a-z-]*:(states|dynamodb):([a-z0-9-]+):([0-9]{12}):(.+)", re.DOTALL)
RULE = "a name has 1 to 64 letters of ASCII, digits, _ and -"


@dataclass(frozen=True)
class Arns:
    """The ARNs of one region and account, as they are answered. In requests those of any are taken."""

    region: str = REGION
    account: str = ACCOUNT

    def machine(self, name: str) -> str:
        """A state machine's."""
        return f"arn:aws:states:{self.region}:{self.account}:stateMachine:{name}"

    def execution(self, machine: str, name: str) -> str:
        """An execution's."""
        return f"arn:aws:states:{self.region}:{self.account}:execution:{machine}:{name}"

    def table(self, name: str) -> str:
        """A table's."""
        return f"arn:aws:dynamodb:{self.region}:{self.account}:table/{name}"


def is_name(text: str) -> bool:
    """Whether the book takes a name of a machine or an execution."""
    return _NAME.fullmatch(text) is not None


def checked_name(text: str) -> str:
    """A name that is to be given. Another one is an `InvalidName` with the rule."""
    if not is_name(text):
        raise Fault("InvalidName", f"Invalid Name: '{text[:100]}': {RULE}")
    return text


def machine_of(arn: str) -> str:
    """The name in a state machine's ARN. One of a version or an alias names none, since a machine here has neither."""
    kind, rest = _states(arn)
    if kind != "stateMachine" or not rest:
        raise _bad_arn(arn, "a state machine's ends with :stateMachine:NAME")
    if not is_name(rest):
        raise Fault("StateMachineDoesNotExist", f"State Machine Does Not Exist: '{arn}'")
    return rest


def execution_of(arn: str) -> Tuple[str, str]:
    """The names of the machine and of the execution in an execution's ARN."""
    kind, rest = _states(arn)
    machine, _, name = rest.partition(":")
    if kind != "execution" or not machine or not name:
        raise _bad_arn(arn, "an execution's ends with :execution:MACHINE:NAME")
    if not is_name(machine) or not is_name(name):
        raise Fault("ExecutionDoesNotExist", f"Execution Does Not Exist: '{arn}'")
    return machine, name


def _states(arn: str) -> Tuple[str, str]:
    found = _ARN.fullmatch(arn)
    if found is None or found[1] != "states":
        raise _bad_arn(arn, "it has to begin with arn:aws:states:REGION:ACCOUNT:")
    kind, _, rest = found[4].partition(":")
    return kind, rest


def _bad_arn(arn: str, why: str) -> Fault:
    return Fault("InvalidArn", f"Invalid Arn: '{arn}': {why}")


def table_of(text: str) -> str:
    """The name of a table that is given by its name or its ARN."""
    name: Optional[str] = text
    if text.startswith("arn:"):
        found = _ARN.fullmatch(text)
        name = found[4][6:] if found is not None and found[1] == "dynamodb" and found[4].startswith("table/") else None
    if name is None or _TABLE.fullmatch(name) is None:
        raise Fault(
            "ValidationException",
            f"a table is named by letters of ASCII, digits, _, - and points, 255 at most, or by its ARN: {text[:100]!r}",
        )
    return name

"""Which errors can come up in a state, and the retriers and catchers of errors that can't."""
from __future__ import annotations

from typing import Callable, Optional

from .findings import Path, Report, json_string
from .handlers import error_names
from .machine import HANDLING, State
from .resources import resource_of
from .scanner import Node
from .values import members

FAILURE, MATCH_FAILURE = "States.ParameterPathFailure", "States.ResultPathMatchFailure"
NO_CHOICE, TASK_FAILED, BRANCH_FAILED = ("States.NoChoiceMatched", "States.TaskFailed", "States.BranchFailed")
VALIDATION, NO_TABLE = ("DynamoDB.ValidationException", "DynamoDB.ResourceNotFoundException")
CONDITION = "DynamoDB.ConditionalCheckFailedException"
# what a service answers that isn't here: the Resource has an error of its own
_ANY = "any error of a service"
_TIME = ("States.Timeout", "States.HeartbeatTimeout")
_HELP = {
    **{name: "remove it, since nothing times out here" for name in _TIME},
    "States.Runtime": "remove it, since no state catches it",
    "States.Permissions": "remove it, since a call needs no permission here",
    "States.IntrinsicFailure": "remove it, since there are no intrinsic functions here",
    "States.DataLimitExceeded": "remove it, since too large a value is States.Runtime, which nothing catches",
    "States.ExceedToleratedFailureThreshold": "remove it, since there are no distributed Maps here",
    "States.ItemReaderFailed": "remove it, since there are no distributed Maps here",
    "States.ResultWriterFailed": "remove it, since there are no distributed Maps here",
    "States.QueryEvaluationError": "remove it, since there is no JSONata here",
    "DynamoDB.AmazonDynamoDBException": f"write {VALIDATION}, as a faulty call is named here",
    "DynamoDB.ConditionalCheckFailed": f"write {CONDITION}",
    "DynamoDb.ConditionalCheckFailedException": f"write {CONDITION}",
}


def _has_source(node: Optional[Node]) -> bool:
    """Whether a template has a path, which may pick nothing."""
    if node is None:
        return False
    if any(name.endswith(".$") for name in node.fields):
        return True
    inside = [*node.items, *(member.value for member in node.fields.values())]
    return any(_has_source(value) for value in inside)


def _own_errors(state: State) -> set[str]:
    """The errors of a state's own paths and templates. States.Runtime isn't among them, since nothing catches it."""
    errors = set()
    if any(_has_source(state.node.get(name)) for name in ("Parameters", "ResultSelector", "ItemSelector")):
        errors.add(FAILURE)
    path = state.node.get("ResultPath")
    if path and path.text() not in (None, "$"):
        errors.add(MATCH_FAILURE)
    return errors


def _call_errors(state: State) -> set[str]:
    parameters = state.node.get("Parameters")
    errors = {VALIDATION, NO_TABLE}
    call = resource_of(state.node)
    if call is None:
        is_of_table = "dynamodb" in (state.node.text_of("Resource") or "")
        return {_ANY, *errors, CONDITION} if is_of_table else {_ANY}
    filled = {name for name, _, _ in members(parameters)} if parameters and parameters.kind == "object" else None
    if call != "getItem" and (filled is None or "ConditionExpression" in filled):
        errors.add(CONDITION)
    return errors


def _unhandled(state: State, errors: set[str], inside: set[str]) -> set[str]:
    """Those of a state's errors that no catcher of its takes. Those `inside` come of its call or its branches."""
    listed = state.node.get("Catch")
    caught = {name for item in (listed.items if listed else ()) for name in error_names(item)}
    if "States.ALL" in caught:
        return set()
    if (TASK_FAILED if state.type == "Task" else BRANCH_FAILED) in caught and state.type != "Map":
        errors = errors - inside
    return errors - caught


def branch_errors(state: State) -> set[str]:
    """The errors with which the branches of a Parallel or a Map may fail."""
    errors: set[str] = set()
    for level in state.inner:
        for inner in level.states.values():
            errors |= _ends_with(inner)
    return errors


def _ends_with(state: State) -> set[str]:
    """The errors with which a thread may fail in this state."""
    if state.type == "Fail":
        error = state.node.get("Error")
        return {(error.text() if error else None) or ""} - {"States.Runtime"}
    if state.type == "Choice":
        return set() if "Default" in state.node.fields else {NO_CHOICE}
    errors = _own_errors(state)
    if state.type in HANDLING:
        inside = _call_errors(state) if state.type == "Task" else branch_errors(state)
        catches = state.node.get("Catch")
        places = any(item.text_of("ResultPath") not in (None, "$") for item in (catches.items if catches else ()))
        return _unhandled(state, errors | inside, inside) | ({MATCH_FAILURE} if places else set())
    return errors


def matches(state: State) -> Callable[[str], bool]:
    """Whether a name in ErrorEquals matches an error that can come up in this state."""
    inside = _call_errors(state) if state.type == "Task" else branch_errors(state)
    errors = _own_errors(state) | inside | {"States.ALL"}
    if state.type == "Task":
        errors.add(TASK_FAILED)
    else:
        # what a Fail state calls States.TaskFailed is no error of this state's own call
        errors.discard(TASK_FAILED)
    if state.type == "Parallel" and inside:
        errors.add(BRANCH_FAILED)
    return lambda name: name in errors or _ANY in errors and not name.startswith(("States.", "DynamoDB."))


def check_raised(report: Report, state: State) -> None:
    """Adds each name in Retry and Catch that matches nothing that can come up."""
    comes_up = matches(state)
    for field in ("Retry", "Catch"):
        listed = state.node.get(field)
        for at, item in enumerate(listed.items if listed else ()):
            errors = item.get("ErrorEquals")
            for place, error in enumerate(errors.items if errors else ()):
                name = error.text()
                if name is not None and not comes_up(name):
                    path = (*state.path, field, at, "ErrorEquals", place)
                    _never(report, state, error, path, name)


def _never(report: Report, state: State, error: Node, path: Path, name: str) -> None:
    advice = _HELP.get(name, "remove it")
    replacement = None
    if name == TASK_FAILED:
        replacement = BRANCH_FAILED if matches(state)(BRANCH_FAILED) else None
        advice = f"write {replacement}" if replacement else "write States.ALL, or the errors' own names"
    elif name == BRANCH_FAILED:
        advice = f"write {TASK_FAILED}" if state.type == "Task" else "write States.ALL, or the errors' own names"
    elif name == CONDITION:
        advice = (
            "remove it, or write a ConditionExpression in the call"
            if resource_of(state.node) != "getItem"
            else "remove it, since a get has no condition"
        )
    elif name.lower() == "states.all":
        advice, replacement = "write States.ALL", "States.ALL"
    elif name.startswith(("Lambda.", "SNS.", "Sqs.", "ECS.", "Glue.", "Batch.")):
        advice = "remove it, since no service is called here"
    elif name.startswith("DynamoDB.") and name not in _HELP:
        advice = "remove it, since the table answers no such error"
    message = f"{name} can't come up in {state.name}"
    if name == "States.Runtime":
        message = f"nothing matches {name}, also in {state.name}"
    report.value(error, path, "NEVER_RAISED", message, advice, replacement=json_string(replacement))

"""The Resource of a Task: what it calls, and what to do if that isn't here."""
from __future__ import annotations

import re
from typing import Optional

from .findings import BAD, LEFT_OUT, Path, Report, json_string, refusal_of
from .scanner import Node

CALLS = ("getItem", "putItem", "deleteItem")
_PREFIX = "arn:aws:states:::"
_SERVICES = {
    "lambda": "Lambda", "sns": "SNS", "sqs": "SQS", "events": "EventBridge", "states": "another state machine",
    "batch": "Batch", "ecs": "ECS", "glue": "Glue", "athena": "Athena", "s3": "S3", "http": "an HTTP endpoint",
    "bedrock": "Bedrock", "sagemaker": "SageMaker", "apigateway": "API Gateway", "eks": "EKS",
    "emr-containers": "EMR", "elasticmapreduce": "EMR", "codebuild": "CodeBuild", "mediaconvert": "MediaConvert",
    "databrew": "DataBrew",
}  # fmt: skip
_CALL_HELP = {
    "updateItem": "read the item, compute the new one in a Pass, put it with a condition",
    "query": "read each item by its key with getItem, in a Map over the keys",
    "scan": "read each item by its key with getItem, in a Map over the keys",
    "batchGetItem": "read each item by its key with getItem, in a Map over the keys",
    "batchWriteItem": "put each item with putItem, in a Map",
    "transactWriteItems": "put each item with putItem and a condition, and take wrong steps back by rollback",
    "transactGetItems": "read each item by its key with getItem",
}
_DO_OUTSIDE = "let a program outside do it, and put what comes of it into the table"


def resource_of(state: Node) -> Optional[str]:
    """The call that a Task makes, if it is one of the three."""
    text = state.text_of("Resource") or ""
    name = text[len(_PREFIX + "dynamodb:") :]
    return name if text == f"{_PREFIX}dynamodb:{name}" and name in CALLS else None


def check_resource(report: Report, state: Node, path: Path) -> None:
    """Adds a Resource that isn't one of the three calls."""
    value = state.get("Resource")
    if value is None:
        report.missing(state, path, "Resource", f"write {_PREFIX}dynamodb: and one of {', '.join(CALLS)}")
        return
    place = (*path, "Resource")
    text = value.text()
    if text is None:
        report.value(
            value,
            place,
            "BAD_VALUE",
            "Resource has to be a text",
            "write it within quotes",
            refusal_of(BAD, "Resource"),
        )
    elif resource_of(state) is None:
        code, message, advice, replacement = _explained(text)
        report.value(value, place, code, message, advice, refusal_of(LEFT_OUT, "Resource"), json_string(replacement))


def _explained(text: str) -> tuple[str, str, str, Optional[str]]:
    dynamodb = re.fullmatch(r"arn:aws[a-z-]*:states:[^:]*:[^:]*:(?:aws-sdk:)?dynamodb:([A-Za-z]*)(\.\w+)?", text)
    if dynamodb:
        return _other_call(text, dynamodb[1])
    if "${" in text:
        return (
            "OTHER_SERVICE",
            f"{text} is filled in by CloudFormation",
            f"write {_PREFIX}dynamodb: and one of {', '.join(CALLS)}",
            None,
        )
    service = _service(text)
    if service == "an activity":
        return (
            "OTHER_SERVICE",
            f"{text} is an activity, and nothing is called here",
            "stop before a Wait, and go on from a program outside",
            None,
        )
    if service == "another state machine":
        advice = "write its states as a branch of a Parallel, or start it from a program outside"
        return ("OTHER_SERVICE", f"{text} calls another state machine, and nothing is called here", advice, None)
    if service:
        return ("OTHER_SERVICE", f"{text} calls {service}, and no service is called here", _DO_OUTSIDE, None)
    return (
        "OTHER_SERVICE",
        f"{text} isn't one of {', '.join(CALLS)}",
        f"write {_PREFIX}dynamodb: and one of them",
        None,
    )


def _other_call(text: str, name: str) -> tuple[str, str, str, Optional[str]]:
    meant = next((call for call in CALLS if call.lower() == name.lower()), None)
    if meant:
        right = f"{_PREFIX}dynamodb:{meant}"
        return ("OTHER_CALL", f"{text} isn't the form of {meant} here", f"write {right}", right)
    known = next((advice for call, advice in _CALL_HELP.items() if call.lower() == name.lower()), None)
    advice = known or "do it by these, with a condition if it is to be safe"
    return "OTHER_CALL", f"{text} isn't one of {', '.join(CALLS)}", advice, None


def _service(text: str) -> Optional[str]:
    if re.fullmatch(r"arn:aws[a-z-]*:lambda:.*", text):
        return "Lambda"
    if re.fullmatch(r"arn:aws[a-z-]*:states:[^:]*:[^:]*:activity:.*", text):
        return "an activity"
    found = re.fullmatch(r"arn:aws[a-z-]*:states:[^:]*:[^:]*:(aws-sdk:)?([a-z0-9-]+)(:.*)?", text)
    if not found:
        return None
    return _SERVICES.get(found[2], found[2])

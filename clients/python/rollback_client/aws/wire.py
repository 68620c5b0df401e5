"""Requests and answers of the JSON 1.0 protocol, which both services speak."""
from __future__ import annotations

import json
import zlib
from dataclasses import dataclass, field
from enum import Enum
from typing import Any, Dict, Mapping, Tuple

CONTENT_TYPE = "application/x-amz-json-1.0"
# errors of the protocol itself, which no model of a service lists
_COMMON = frozenset(("ValidationException", "SerializationException", "UnknownOperationException"))


class Service(Enum):
    """A service, by the prefix of its calls in `X-Amz-Target`."""

    STATES = "AWSStepFunctions"
    TABLES = "DynamoDB_20120810"


class Fault(Exception):
    """An error that a caller gets, by Amazon's name. Tools give a call with a status from 500 on again, for minutes."""

    def __init__(self, name: str, message: str, status: int = 400, **more: Any):
        super().__init__(message)
        self.name, self.message, self.status, self.more = name, message, status, more


@dataclass(frozen=True)
class Reply:
    """What is sent back."""

    status: int
    body: bytes
    headers: Mapping[str, str]


@dataclass
class Call:
    """A call that came: its members, who gives it, and the headers that its answer is to have."""

    service: Service
    action: str
    body: Dict[str, Any]
    headers: Dict[str, str] = field(default_factory=dict)


def target_of(text: str) -> Tuple[Service, str]:
    """The service and the action of `X-Amz-Target`."""
    prefix, _, action = text.partition(".")
    for service in Service:
        if service.value == prefix and action:
            return service, action
    raise Fault(
        "UnknownOperationException",
        f"X-Amz-Target has to be AWSStepFunctions.ACTION or DynamoDB_20120810.ACTION, and not {text[:100]!r}",
    )


def body_of(data: bytes) -> Dict[str, Any]:
    """The members of a request. What is no JSON object is a `SerializationException`."""
    try:
        found = json.loads(data.decode() or "{}", parse_constant=_no_constant)
    except (ValueError, RecursionError) as fault:
        raise Fault("SerializationException", f"the request is no JSON: {fault}") from None
    if not isinstance(found, dict):
        raise Fault("SerializationException", "the request has to be a JSON object")
    if b"\\ud" in data.lower():
        _look_at_surrogates(found)
    return found


def _look_at_surrogates(value: Any) -> None:
    """Refuses a text with half of a pair of surrogates, which no UTF-8 has."""
    try:
        json.dumps(value, ensure_ascii=False).encode()
    except UnicodeEncodeError:
        raise Fault("SerializationException", "the request has a text with a lone surrogate") from None


def _no_constant(text: str) -> None:
    raise ValueError(f"{text} is no number")


def reply_of(answer: Mapping[str, Any], headers: Mapping[str, str], identity: str) -> Reply:
    """An answer as it is sent."""
    return _reply(200, json.dumps(answer, separators=(",", ":"), ensure_ascii=False), headers, identity)


def reply_of_fault(service: Service, fault: Fault, headers: Mapping[str, str], identity: str) -> Reply:
    """An error as it is sent."""
    kind = fault.name
    if service is Service.TABLES:
        kind = f"com.amazon.coral.{_coral(kind)}#{kind}" if kind in _COMMON else f"{_OWN}#{kind}"
    text = json.dumps({"__type": kind, "message": fault.message, **fault.more}, separators=(",", ":"))
    return _reply(fault.status, text, headers, identity)


_OWN = "com.amazonaws.dynamodb.v20120810"


def _coral(kind: str) -> str:
    return "validate" if kind == "ValidationException" else "service"


def _reply(status: int, text: str, headers: Mapping[str, str], identity: str) -> Reply:
    body = text.encode("utf-8", "surrogatepass")
    common = {"Content-Type": CONTENT_TYPE, "x-amzn-RequestId": identity, "x-amz-crc32": str(zlib.crc32(body))}
    return Reply(status, body, {**common, **headers})

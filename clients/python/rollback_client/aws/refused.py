"""Calls that a book doesn't take, each refused by Amazon's nearest error with what to do instead. None of these has a status from 500 on."""
from __future__ import annotations

from typing import Dict, Tuple

from .names import is_name
from .wire import Call, Fault, Service

Refusal = Tuple[str, str]  # the error and the message

_NO_CHANGE = "a state machine here is never changed, since its executions are of it: create the new one by another name"
_NO_VERSIONS = "a state machine here is never changed, and so has no versions and no aliases"
_NO_ACTIVITIES = "a book has no activities: its Tasks are the table's getItem, putItem and deleteItem"
_NO_DISTRIBUTED = "a book has no distributed Map, and so no Map runs"
_ONE_TABLE = "a book has one table for good"
_NO_TRANSACTIONS = "a book has no transactions: put and delete items one by one, or run a state machine that does"
_NO_PARTIQL = "a book has no PartiQL: use GetItem, Query, Scan, PutItem and DeleteItem"
_NO_BACKUPS = "a book has no backups of its table: rollback-copy copies the running book"
_NO_STREAMS = "a book has no streams: the question log shows each accepted line (docs/QUESTIONS.md)"
_NO_GLOBAL = "a book's table is no global one: docs/CLUSTER.md keeps a book on three machines"

STATES: Dict[str, Refusal] = {
    "StopExecution": (
        "ValidationException",
        "an execution here isn't stopped: take its start back, with what depends on it, by a rollback of NAME#0 "
        "(rollback-shell), or pause it",
    ),
    "RedriveExecution": (
        "ExecutionNotRedrivable",
        "an execution here isn't redriven: take back the step that failed by a rollback, and it is taken again",
    ),
    "UpdateStateMachine": ("ValidationException", _NO_CHANGE),
    "DeleteStateMachine": (
        "ValidationException",
        "a state machine here can't be deleted, since its executions are of it: leave it, or begin another book",
    ),
    "PublishStateMachineVersion": ("ValidationException", _NO_VERSIONS),
    "DeleteStateMachineVersion": ("ValidationException", _NO_VERSIONS),
    "CreateStateMachineAlias": ("ValidationException", _NO_VERSIONS),
    "UpdateStateMachineAlias": ("ResourceNotFound", _NO_VERSIONS),
    "DeleteStateMachineAlias": ("ResourceNotFound", _NO_VERSIONS),
    "DescribeStateMachineAlias": ("ResourceNotFound", _NO_VERSIONS),
    "StartSyncExecution": (
        "StateMachineTypeNotSupported",
        "a book has no express state machines: StartExecution and DescribeExecution do it",
    ),
    "TestState": (
        "ValidationException",
        "a state isn't tested alone: run a machine of it, and take its start back by a rollback",
    ),
    "CreateActivity": ("ActivityLimitExceeded", _NO_ACTIVITIES),
    "DeleteActivity": ("InvalidArn", _NO_ACTIVITIES),
    "DescribeActivity": ("ActivityDoesNotExist", _NO_ACTIVITIES),
    "GetActivityTask": ("ActivityDoesNotExist", _NO_ACTIVITIES),
    "SendTaskSuccess": ("TaskDoesNotExist", _NO_ACTIVITIES),
    "SendTaskFailure": ("TaskDoesNotExist", _NO_ACTIVITIES),
    "SendTaskHeartbeat": ("TaskDoesNotExist", _NO_ACTIVITIES),
    "DescribeMapRun": ("ResourceNotFound", _NO_DISTRIBUTED),
    "UpdateMapRun": ("ResourceNotFound", _NO_DISTRIBUTED),
    "ListMapRuns": ("ExecutionDoesNotExist", _NO_DISTRIBUTED),
}

TABLES: Dict[str, Refusal] = {
    "UpdateItem": (
        "ValidationException",
        "a book's calls are getItem, putItem and deleteItem: read the item, and put it with a condition",
    ),
    "DeleteTable": ("ValidationException", f"{_ONE_TABLE}: it can't be deleted; begin another book"),
    "UpdateTable": ("ValidationException", f"{_ONE_TABLE}: it can't be changed"),
    "UpdateTimeToLive": ("ValidationException", "a book's items don't expire: delete them, or let an execution do it"),
    "UpdateContinuousBackups": ("ValidationException", _NO_BACKUPS),
    **{action: ("ValidationException", _NO_TRANSACTIONS) for action in ("TransactGetItems", "TransactWriteItems")},
    **{
        action: ("ValidationException", _NO_PARTIQL)
        for action in ("ExecuteStatement", "BatchExecuteStatement", "ExecuteTransaction")
    },
    **{
        action: ("ValidationException", _NO_BACKUPS)
        for action in (
            "CreateBackup",
            "DeleteBackup",
            "DescribeBackup",
            "ListBackups",
            "RestoreTableFromBackup",
            "RestoreTableToPointInTime",
            "ExportTableToPointInTime",
            "DescribeExport",
            "ListExports",
            "ImportTable",
            "DescribeImport",
            "ListImports",
        )
    },
    **{
        action: ("ValidationException", _NO_STREAMS)
        for action in (
            "EnableKinesisStreamingDestination",
            "DisableKinesisStreamingDestination",
            "UpdateKinesisStreamingDestination",
            "DescribeKinesisStreamingDestination",
        )
    },
    **{
        action: ("ValidationException", _NO_GLOBAL)
        for action in (
            "CreateGlobalTable",
            "DescribeGlobalTable",
            "DescribeGlobalTableSettings",
            "ListGlobalTables",
            "UpdateGlobalTable",
            "UpdateGlobalTableSettings",
            "DescribeTableReplicaAutoScaling",
            "UpdateTableReplicaAutoScaling",
        )
    },
    **{
        action: ("ValidationException", "a book counts no capacity and keeps no contributor insights")
        for action in (
            "DescribeContributorInsights",
            "ListContributorInsights",
            "UpdateContributorInsights",
            "DescribeLimits",
        )
    },
    **{
        action: ("ValidationException", "a book's table has no resource policy: its port and --credentials guard it")
        for action in ("GetResourcePolicy", "PutResourcePolicy", "DeleteResourcePolicy")
    },
    "DescribeEndpoints": ("UnknownOperationException", "there is one endpoint, which is this one"),
}

OF = {Service.STATES: STATES, Service.TABLES: TABLES}


def refusal_of(call: Call) -> Fault:
    """Why a call is refused."""
    known = OF[call.service].get(call.action)
    if known is None:
        name = {Service.STATES: "Step Functions", Service.TABLES: "DynamoDB"}[call.service]
        return Fault("UnknownOperationException", f"{name} has no action {call.action[:60]!r} that is known here")
    error, message = known
    arn = call.body.get("executionArn")
    if isinstance(arn, str) and is_name(arn.rpartition(":")[2]):
        message = message.replace("NAME#0", f"{arn.rpartition(':')[2]}#0")
    return Fault(error, f"{call.action} isn't taken by a book: {message} (docs/AWS.md)")

"""Machines of the kinds that Amazon's documents show, over one table, with the inputs that are tried and how each ends."""

TABLE = "items"
RESOURCE = "arn:aws:states:::dynamodb:"


def task(name, key=None, **more):
    """A Task of a call, and what it goes on to."""
    parameters = {"TableName": TABLE, **more.pop("call", {})}
    if key is not None:
        parameters["Key"] = key
    return {"Type": "Task", "Resource": RESOURCE + name, "Parameters": parameters, **more}


def put(item, **more):
    """A Task that puts an item."""
    return task("putItem", call={"Item": item, **more.pop("call", {})}, ResultPath=None, **more)


ORDER = {
    "Comment": "an order is taken, if there is stock",
    "StartAt": "LookUp",
    "States": {
        "LookUp": task("getItem", {"id": {"S.$": "$.product"}}, ResultPath="$.stock", Next="InStock"),
        "InStock": {
            "Type": "Choice",
            "Choices": [
                {
                    "And": [
                        {"Variable": "$.stock.Item", "IsPresent": True},
                        {"Variable": "$.stock.Item.count.N", "StringEquals": "1"},
                    ],
                    "Next": "Place",
                }
            ],
            "Default": "OutOfStock",
        },
        "Place": put({"id": {"S.$": "$.order"}, "state": {"S": "placed"}}, Next="Placed"),
        "Placed": {"Type": "Succeed"},
        "OutOfStock": {"Type": "Fail", "Error": "OutOfStock", "Cause": "nothing is left"},
    },
}

APPROVAL = {
    "StartAt": "Decide",
    "States": {
        "Decide": {
            "Type": "Choice",
            "Choices": [
                {
                    "And": [
                        {"Variable": "$.amount", "IsNumeric": True},
                        {"Variable": "$.amount", "NumericLessThanEquals": 100},
                    ],
                    "Next": "Approve",
                }
            ],
            "Default": "Reject",
        },
        "Approve": {"Type": "Pass", "Result": {"approved": True}, "ResultPath": "$.decision", "Next": "Record"},
        "Reject": {"Type": "Pass", "Result": {"approved": False}, "ResultPath": "$.decision", "Next": "Record"},
        "Record": put({"id": {"S.$": "$.request"}, "approved": {"BOOL.$": "$.decision.approved"}}, End=True),
    },
}

POLLER = {
    "StartAt": "Wait",
    "States": {
        "Wait": {"Type": "Wait", "Seconds": 1, "Next": "Look"},
        "Look": task("getItem", {"id": {"S.$": "$.job"}}, ResultPath="$.found", Next="IsDone"),
        "IsDone": {
            "Type": "Choice",
            "Choices": [{"Variable": "$.found.Item", "IsPresent": True, "Next": "Done"}],
            "Default": "Wait",
        },
        "Done": {"Type": "Succeed", "OutputPath": "$.found.Item"},
    },
}

MAP = {
    "StartAt": "Each",
    "States": {
        "Each": {
            "Type": "Map",
            "ItemsPath": "$.lines",
            "ItemSelector": {"line.$": "$$.Map.Item.Value", "at.$": "$$.Map.Item.Index"},
            "ItemProcessor": {
                "ProcessorConfig": {"Mode": "INLINE"},
                "StartAt": "Put",
                "States": {"Put": put({"id": {"S.$": "$.line.id"}, "of": {"S": "line"}}, End=True)},
            },
            "ResultPath": "$.results",
            "End": True,
        }
    },
}

PARALLEL = {
    "StartAt": "Both",
    "States": {
        "Both": {
            "Type": "Parallel",
            "Branches": [
                {
                    "StartAt": "Read",
                    "States": {"Read": task("getItem", {"id": {"S": "widget"}}, OutputPath="$.Item.id", End=True)},
                },
                {
                    "StartAt": "Write",
                    "States": {"Write": put({"id": {"S.$": "$.id"}, "from": {"S": "branch"}}, End=True)},
                },
            ],
            "End": True,
        }
    },
}

RETRY = {
    "StartAt": "Create",
    "States": {
        "Create": put(
            {"id": {"S": "widget"}},
            call={"ConditionExpression": "attribute_not_exists(id)"},
            Retry=[
                {
                    "ErrorEquals": ["DynamoDB.ConditionalCheckFailedException"],
                    "IntervalSeconds": 1,
                    "BackoffRate": 1.0,
                    "MaxAttempts": 1,
                }
            ],
            End=True,
        )
    },
}

CATCH = {
    "StartAt": "Create",
    "States": {
        "Create": put(
            {"id": {"S": "widget"}},
            call={"ConditionExpression": "attribute_not_exists(id)"},
            Catch=[
                {
                    "ErrorEquals": ["DynamoDB.ConditionalCheckFailedException"],
                    "ResultPath": "$.error",
                    "Next": "Taken",
                }
            ],
            Next="Created",
        ),
        "Created": {"Type": "Pass", "Result": "created", "End": True},
        "Taken": {"Type": "Pass", "Result": "taken", "End": True},
    },
}

LOCK = {
    "StartAt": "Lock",
    "States": {
        "Lock": put(
            {"id": {"S": "lock"}, "owner": {"S.$": "$.who"}},
            call={"ConditionExpression": "attribute_not_exists(id)"},
            Next="Work",
        ),
        "Work": put({"id": {"S.$": "$.who"}}, Next="Unlock"),
        "Unlock": task("deleteItem", {"id": {"S": "lock"}}, ResultPath=None, End=True),
    },
}

FAILING_BRANCH = {
    "StartAt": "Both",
    "States": {
        "Both": {
            "Type": "Parallel",
            "Branches": [
                {
                    "StartAt": "Fails",
                    "States": {"Fails": {"Type": "Fail", "Error": "Broken", "Cause": "on purpose"}},
                },
                {"StartAt": "Waits", "States": {"Waits": {"Type": "Wait", "Seconds": 60, "End": True}}},
            ],
            "End": True,
        }
    },
}

TRANSFORM = {
    "StartAt": "Shape",
    "States": {
        "Shape": {
            "Type": "Pass",
            "InputPath": "$.order",
            "Parameters": {"name.$": "$.customer", "kind": "order"},
            "ResultPath": "$.shaped",
            "OutputPath": "$.shaped",
            "Next": "End",
        },
        "End": {"Type": "Succeed"},
    },
}

ONE_AT_A_TIME = {
    "StartAt": "Each",
    "States": {
        "Each": {
            "Type": "Map",
            "MaxConcurrency": 1,
            "ItemsPath": "$.elements",
            "ItemProcessor": {"StartAt": "P", "States": {"P": {"Type": "Pass", "End": True}}},
            "End": True,
        }
    },
}

CAUGHT_MAP = {
    "StartAt": "Each",
    "States": {
        "Each": {
            "Type": "Map",
            "ItemsPath": "$.elements",
            "ItemProcessor": {
                "StartAt": "IsTwo",
                "States": {
                    "IsTwo": {
                        "Type": "Choice",
                        "Choices": [{"Variable": "$", "NumericEquals": 2, "Next": "Later"}],
                        "Default": "Good",
                    },
                    # so that the others have ended by then
                    "Later": {"Type": "Pass", "Next": "Fails"},
                    "Fails": {"Type": "Fail", "Error": "Two", "Cause": "is bad"},
                    "Good": {"Type": "Succeed"},
                },
            },
            "Catch": [{"ErrorEquals": ["States.ALL"], "ResultPath": "$.error", "Next": "Caught"}],
            "End": True,
        },
        "Caught": {"Type": "Pass", "End": True},
    },
}

RETRIED_PARALLEL = {
    "StartAt": "Both",
    "States": {
        "Both": {
            "Type": "Parallel",
            "Branches": [
                {"StartAt": "Fails", "States": {"Fails": {"Type": "Fail", "Error": "Broken", "Cause": "always"}}}
            ],
            "Retry": [{"ErrorEquals": ["States.ALL"], "IntervalSeconds": 1, "MaxAttempts": 1}],
            "Catch": [{"ErrorEquals": ["States.ALL"], "Next": "Caught"}],
            "End": True,
        },
        "Caught": {"Type": "Pass", "End": True},
    },
}

# name, machine, input, status, and the output or the error and its cause
TRIALS = (
    ("order", ORDER, {"product": "widget", "order": "o-1"}, "SUCCEEDED", None),
    ("order", ORDER, {"product": "none", "order": "o-2"}, "FAILED", None),
    ("approval", APPROVAL, {"request": "r-1", "amount": 5}, "SUCCEEDED", None),
    ("poller", POLLER, {"job": "widget"}, "SUCCEEDED", {"id": {"S": "widget"}, "count": {"N": "1"}}),
    (
        "map",
        MAP,
        {"lines": [{"id": "l-1"}, {"id": "l-2"}]},
        "SUCCEEDED",
        {
            "lines": [{"id": "l-1"}, {"id": "l-2"}],
            "results": [{"at": 0, "line": {"id": "l-1"}}, {"at": 1, "line": {"id": "l-2"}}],
        },
    ),
    ("parallel", PARALLEL, {"id": "b-1"}, "SUCCEEDED", [{"S": "widget"}, {"id": "b-1"}]),
    ("retry", RETRY, {}, "FAILED", ("DynamoDB.ConditionalCheckFailedException", "")),
    ("catch", CATCH, {}, "SUCCEEDED", "taken"),
    ("lock", LOCK, {"who": "ann"}, "SUCCEEDED", {"who": "ann"}),
    ("failing", FAILING_BRANCH, {}, "FAILED", ("Broken", "on purpose")),
    ("one-at-a-time", ONE_AT_A_TIME, {"elements": [1, 2]}, "SUCCEEDED", [1, 2]),
    ("empty", ONE_AT_A_TIME, {"elements": []}, "SUCCEEDED", []),
    (
        "caught-map",
        CAUGHT_MAP,
        {"elements": [1, 2]},
        "SUCCEEDED",
        {"elements": [1, 2], "error": {"Error": "Two", "Cause": "is bad"}},
    ),
    ("retried-parallel", RETRIED_PARALLEL, {}, "SUCCEEDED", {"Error": "Broken", "Cause": "always"}),
    ("transform", TRANSFORM, {"order": {"customer": "ann"}}, "SUCCEEDED", {"name": "ann", "kind": "order"}),
)
WIDGET = {"id": {"S": "widget"}, "count": {"N": "1"}}
MACHINES = {name: machine for name, machine, _, _, _ in TRIALS}

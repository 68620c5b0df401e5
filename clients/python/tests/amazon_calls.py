"""Calls that a book and moto are asked, and their answers without what can't be the same: times, identities, metadata."""
import json

from tests.amazon_machines import ORDER, TABLE
from tests.program import PASS

ROLE = "arn:aws:iam::999999999999:role/orders"
MACHINE = "arn:aws:states:us-east-1:{account}:stateMachine:"
EXECUTION = "arn:aws:states:us-east-1:{account}:execution:"
K, NONE = {"id": {"S": "k"}}, {"id": {"S": "none"}}
ITEM = {"id": {"S": "k"}, "n": {"N": "1.50"}, "m": {"M": {"l": {"L": [{"S": "a"}, {"BOOL": True}, {"NULL": True}]}}}}
SETS = {"id": {"S": "sets"}, "ss": {"SS": ["b", "a"]}, "ns": {"NS": ["2", "10"]}}
T = {"TableName": TABLE}
PASS_TEXT = json.dumps(PASS)

OTHER_P = {"name": "p", "definition": json.dumps(ORDER), "roleArn": ROLE}
BAD_Q = {"name": "q", "definition": "{", "roleArn": ROLE}
TAGS_OF_Q = {"resourceArn": MACHINE + "q"}

# service, call, members
CALLS = (
    ("dynamodb", "list_tables", {}),
    ("dynamodb", "describe_table", T),
    ("dynamodb", "describe_table", {"TableName": "others"}),
    ("dynamodb", "describe_time_to_live", T),
    ("dynamodb", "get_item", {**T, "Key": K}),
    ("dynamodb", "put_item", {**T, "Item": ITEM}),
    ("dynamodb", "put_item", {**T, "Item": SETS}),
    ("dynamodb", "get_item", {**T, "Key": K}),
    ("dynamodb", "get_item", {**T, "Key": {"id": {"S": "sets"}}}),
    ("dynamodb", "get_item", {**T, "Key": K, "ConsistentRead": True, "ProjectionExpression": "n, m.l[1]"}),
    ("dynamodb", "get_item", {**T, "Key": K, "ProjectionExpression": "#n", "ExpressionAttributeNames": {"#n": "n"}}),
    ("dynamodb", "get_item", {**T, "Key": K, "ProjectionExpression": "#x"}),
    ("dynamodb", "get_item", {**T, "Key": {"other": {"S": "k"}}}),
    ("dynamodb", "get_item", {**T, "Key": {"id": {"N": "1"}}}),
    ("dynamodb", "get_item", {"TableName": "others", "Key": K}),
    ("dynamodb", "put_item", {**T, "Item": {**ITEM, "n": {"N": "2"}}, "ReturnValues": "ALL_OLD"}),
    ("dynamodb", "put_item", {**T, "Item": {"v": {"S": "no key"}}}),
    ("dynamodb", "put_item", {**T, "Item": {"id": {"S": ""}}}),
    ("dynamodb", "put_item", {**T, "Item": {"id": {"N": "1"}}}),
    ("dynamodb", "put_item", {**T, "Item": K, "ReturnValues": "ALL_NEW"}),
    ("dynamodb", "put_item", {**T, "Item": K, "ConditionExpression": "attribute_not_exists(id)"}),
    (
        "dynamodb",
        "put_item",
        {
            **T,
            "Item": K,
            "ConditionExpression": "attribute_not_exists(#i)",
            "ExpressionAttributeNames": {"#i": "id"},
            "ReturnValuesOnConditionCheckFailure": "ALL_OLD",
        },
    ),
    ("dynamodb", "put_item", {**T, "Item": K, "ConditionExpression": "attribute_exists(#i)"}),
    ("dynamodb", "put_item", {**T, "Item": NONE, "ConditionExpression": "attribute_exists(id)"}),
    ("dynamodb", "delete_item", {**T, "Key": NONE, "ConditionExpression": "attribute_exists(id)"}),
    ("dynamodb", "delete_item", {**T, "Key": NONE, "ReturnValues": "ALL_OLD"}),
    ("dynamodb", "delete_item", {**T, "Key": K, "ReturnValues": "ALL_OLD"}),
    ("dynamodb", "delete_item", {**T, "Key": {"id": {"S": "sets"}}}),
    (
        "dynamodb",
        "batch_write_item",
        {"RequestItems": {TABLE: [{"PutRequest": {"Item": {"id": {"S": name}}}} for name in ("a", "b", "c")]}},
    ),
    ("dynamodb", "batch_write_item", {"RequestItems": {TABLE: [{"DeleteRequest": {"Key": {"id": {"S": "c"}}}}]}}),
    ("dynamodb", "batch_write_item", {"RequestItems": {TABLE: [{"DeleteRequest": {"Key": K}}] * 2}}),
    ("dynamodb", "batch_write_item", {"RequestItems": {"others": [{"DeleteRequest": {"Key": K}}]}}),
    ("dynamodb", "batch_get_item", {"RequestItems": {TABLE: {"Keys": [{"id": {"S": "a"}}, NONE]}}}),
    ("dynamodb", "batch_get_item", {"RequestItems": {TABLE: {"Keys": [K, K]}}}),
    (
        "dynamodb",
        "query",
        {**T, "KeyConditionExpression": "id = :v", "ExpressionAttributeValues": {":v": {"S": "widget"}}},
    ),
    (
        "dynamodb",
        "query",
        {
            **T,
            "KeyConditionExpression": "#n0 = :v0",
            "ExpressionAttributeNames": {"#n0": "id"},
            "ExpressionAttributeValues": {":v0": {"S": "none"}},
            "Select": "COUNT",
        },
    ),
    (
        "dynamodb",
        "query",
        {**T, "KeyConditionExpression": "n = :v", "ExpressionAttributeValues": {":v": {"S": "widget"}}},
    ),
    ("dynamodb", "query", {**T, "KeyConditionExpression": "id = :v"}),
    ("dynamodb", "scan", T),
    ("dynamodb", "scan", {**T, "Select": "COUNT"}),
    ("dynamodb", "scan", {**T, "ProjectionExpression": "id"}),
    ("dynamodb", "scan", {"TableName": "others"}),
    ("dynamodb", "scan", {**T, "Segment": 3, "TotalSegments": 2}),
    ("stepfunctions", "list_state_machines", {}),
    ("stepfunctions", "create_state_machine", {"name": "p", "definition": PASS_TEXT, "roleArn": ROLE}),
    ("stepfunctions", "create_state_machine", {"name": "p", "definition": PASS_TEXT, "roleArn": ROLE}),
    ("stepfunctions", "create_state_machine", OTHER_P),
    ("stepfunctions", "create_state_machine", {"name": "a b", "definition": PASS_TEXT, "roleArn": ROLE}),
    ("stepfunctions", "create_state_machine", BAD_Q),
    (
        "stepfunctions",
        "create_state_machine",
        {"name": "q", "definition": PASS_TEXT, "roleArn": ROLE, "tags": [{"key": "team", "value": "a"}]},
    ),
    ("stepfunctions", "describe_state_machine", {"stateMachineArn": MACHINE + "p"}),
    ("stepfunctions", "describe_state_machine", {"stateMachineArn": MACHINE + "none"}),
    ("stepfunctions", "describe_state_machine", {"stateMachineArn": "bad"}),
    ("stepfunctions", "list_state_machines", {}),
    ("stepfunctions", "list_tags_for_resource", TAGS_OF_Q),
    ("stepfunctions", "tag_resource", {"resourceArn": MACHINE + "q", "tags": [{"key": "b", "value": "c"}]}),
    ("stepfunctions", "untag_resource", {"resourceArn": MACHINE + "q", "tagKeys": ["team"]}),
    ("stepfunctions", "list_tags_for_resource", TAGS_OF_Q),
    ("stepfunctions", "list_executions", {"stateMachineArn": MACHINE + "p"}),
    ("stepfunctions", "list_executions", {"stateMachineArn": MACHINE + "none"}),
    ("stepfunctions", "describe_execution", {"executionArn": EXECUTION + "p:none"}),
    ("stepfunctions", "get_execution_history", {"executionArn": EXECUTION + "p:none"}),
    ("stepfunctions", "start_execution", {"stateMachineArn": MACHINE + "none"}),
    ("stepfunctions", "start_execution", {"stateMachineArn": MACHINE + "p", "input": "{"}),
)
# members that can't be the same: times and identities
FRESH = ("CreationDateTime", "TableId", "creationDate", "startDate", "stopDate", "ResponseMetadata", "TableSizeBytes")


def answer_of(states, tables, call, account="123456789012"):
    """What a call is answered: its members, or the name of its error."""
    from botocore.exceptions import ClientError

    service, name, given = call
    given = json.loads(json.dumps(given).replace("{account}", account))
    client = tables if service == "dynamodb" else states
    try:
        answer = getattr(client, name)(**given)
    except ClientError as fault:
        item = fault.response.get("Item")
        return {"error": fault.response["Error"]["Code"], **({} if item is None else {"item": item})}
    except Exception as fault:  # moto answers some bad calls by an error of its own
        return {"fails": type(fault).__name__}
    return stripped(json.loads(json.dumps(answer, default=str)), account)


def stripped(value, account):
    """An answer without what can't be the same."""
    if isinstance(value, dict):
        return {name: stripped(below, account) for name, below in value.items() if name not in FRESH}
    if isinstance(value, list):
        return [stripped(below, account) for below in value]
    return value.replace(account, "ACCOUNT") if isinstance(value, str) else value


def executed(states, trial, rest):
    """How an execution of a trial ends, and its history."""
    name, machine, input, _, _ = trial
    made = states.create_state_machine(name=name, definition=json.dumps(machine), roleArn=ROLE)
    started = states.start_execution(stateMachineArn=made["stateMachineArn"], input=json.dumps(input))
    while (found := states.describe_execution(executionArn=started["executionArn"]))["status"] == "RUNNING":
        rest()
    events = states.get_execution_history(executionArn=started["executionArn"])["events"]
    return {
        "name": name,
        "status": found["status"],
        "input": json.loads(found["input"]),
        "output": output_of(found.get("output")),
        "error": found.get("error"),
        "events": [event_of(event) for event in events],
    }


def output_of(text):
    """An output, which is JSON. moto answers one that is a text without its quotes."""
    if text is None:
        return None
    try:
        return json.loads(text)
    except ValueError:
        return text


def event_of(event):
    """An event without its time, its texts read. A call's cause is the service's own sentence, which a book leaves empty."""
    found = {"type": event["type"], "id": event["id"], "before": event["previousEventId"]}
    for name, details in event.items():
        if name.endswith("EventDetails"):
            read = {key: read_text(key, value) for key, value in details.items()}
            if str(read.get("error", "")).startswith("DynamoDB."):
                read.pop("cause", None)
            found[name] = read
    return found


def read_text(name, value):
    """A text that is JSON, read; a cause within it is left out."""
    if name not in ("input", "output", "parameters"):
        return value
    return without_causes(json.loads(value))


def without_causes(value):
    """A value without the causes of the calls' errors."""
    if isinstance(value, dict):
        is_error = str(value.get("Error", "")).startswith("DynamoDB.")
        return {name: without_causes(below) for name, below in value.items() if not (is_error and name == "Cause")}
    return [without_causes(below) for below in value] if isinstance(value, list) else value

"""Definitions that have one fault each, and the parts of which such definitions are made."""

GET = "arn:aws:states:::dynamodb:getItem"
PUT = "arn:aws:states:::dynamodb:putItem"
KEY = {"id": {"S": "k"}}
END = {"Type": "Succeed"}


def machine(**states):
    """A machine that begins with the first of these states."""
    return {"StartAt": next(iter(states)), "States": states}


def passing(**fields):
    return machine(A={"Type": "Pass", **fields, "End": True})


def task(resource=GET, parameters=None, **fields):
    """A machine of a Task. Of its parameters None is a call without faults."""
    asked = {"TableName": "items", "Key": KEY} if parameters is None else parameters
    return machine(A={"Type": "Task", "Resource": resource, "Parameters": asked, "End": True, **fields})


def call(resource=GET, **parameters):
    return task(resource, {"TableName": "items", **parameters})


def choice(*rules, default=None):
    """A machine of a Choice whose rules go to one state."""
    first = {"Type": "Choice", "Choices": [{**rule, "Next": "B"} for rule in rules]}
    return machine(A={**first, "Default": default} if default else first, B=END)


def mapping(**fields):
    return machine(A={"Type": "Map", "ItemProcessor": machine(P=END), "End": True, **fields})


A, P = "/States/A", "/States/A/Parameters"
# a definition; the code of its one fault, the pointer, and what `define` answers if it refuses
FAULTS = (
    ([], "MISSING_FIELD", "", '3 1 "StartAt"'),
    ({"States": {"A": END}}, "MISSING_FIELD", "", '3 1 "StartAt"'),
    ({"StartAt": "A"}, "MISSING_FIELD", "", '3 1 "States"'),
    (machine(A={"End": True}), "MISSING_FIELD", A, '3 1 "Type"'),
    (machine(A={"Type": "Pass"}), "MISSING_FIELD", A, '3 1 "Next"'),
    (machine(A={"Type": "Pass", "End": False}), "MISSING_FIELD", A, '3 1 "Next"'),
    (machine(A={"Type": "Task", "End": True}), "MISSING_FIELD", A, '3 1 "Resource"'),
    (machine(A={"Type": "Map", "End": True}), "MISSING_FIELD", A, '3 1 "ItemProcessor"'),
    (machine(A={"Type": "Parallel", "End": True}), "MISSING_FIELD", A, '3 1 "Branches"'),
    (machine(A={"Type": "Choice"}), "MISSING_FIELD", A, '3 1 "Choices"'),
    (task(Retry=[{}]), "MISSING_FIELD", A + "/Retry/0", '3 1 "ErrorEquals"'),
    (task(Catch=[{"ErrorEquals": ["States.ALL"]}]), "MISSING_FIELD", A + "/Catch/0", '3 1 "Next"'),
    (passing(Foo=1), "UNKNOWN_FIELD", A + "/Foo", '3 2 "Foo"'),
    (machine(A={"Type": "Succeed", "End": False}), "UNKNOWN_FIELD", A + "/End", '3 2 "End"'),
    (passing(Retry=[]), "UNKNOWN_FIELD", A + "/Retry", '3 2 "Retry"'),
    (passing(Result=0.5), "NOT_WHOLE", A + "/Result", '3 4 "Result"'),
    (passing(Parameters={"a": [{"b": 1.0}]}), "NOT_WHOLE", P + "/a/0/b", '3 4 "Parameters"'),
    (passing(Result=2**63), "NOT_WHOLE", A + "/Result", '3 4 "Result"'),
    (passing(InputPath="$["), "BAD_PATH", A + "/InputPath", '3 4 "InputPath"'),
    (passing(OutputPath=7), "BAD_VALUE", A + "/OutputPath", '3 4 "OutputPath"'),
    (passing(InputPath="$.a[1:]"), "SLICE", A + "/InputPath", '3 4 "InputPath"'),
    (passing(InputPath="$..a"), "MANY_VALUED_PATH", A + "/InputPath", '3 4 "InputPath"'),
    (passing(Parameters={"a.$": "$.b[*]"}), "MANY_VALUED_PATH", P + "/a.$", '3 4 "a.$"'),
    (passing(Parameters={"a.$": "$name"}), "VARIABLES", P + "/a.$", '3 4 "a.$"'),
    (passing(Parameters={"a.$": 1}), "BAD_TEMPLATE", P + "/a.$", '3 4 "a.$"'),
    (passing(Parameters={"a.$": "$", "a": 1}), "BAD_TEMPLATE", P + "/a.$", '3 4 "a.$"'),
    (passing(Parameters={"a.$": "States.UUID()"}), "INTRINSIC_FUNCTION", P + "/a.$", '3 3 "a.$"'),
    (passing(InputPath="States.UUID()"), "INTRINSIC_FUNCTION", A + "/InputPath", '3 4 "InputPath"'),
    (passing(Parameters={"a.$": "$$.Execution.Id"}), "CONTEXT_OBJECT", P + "/a.$", '3 3 "a.$"'),
    (passing(Parameters={"a.$": "$$.Map.Item.Index"}), "CONTEXT_OBJECT", P + "/a.$", '3 3 "a.$"'),
    (mapping(ItemsPath="$$.Execution.Input"), "CONTEXT_OBJECT", A + "/ItemsPath", '3 4 "ItemsPath"'),
    (mapping(ItemsPath=None), "BAD_VALUE", A + "/ItemsPath", '3 4 "ItemsPath"'),
    (mapping(MaxConcurrency=-1), "BAD_VALUE", A + "/MaxConcurrency", '3 4 "MaxConcurrency"'),
    (mapping(MaxConcurrencyPath="$.a"), "LEFT_OUT_FIELD", A + "/MaxConcurrencyPath", '3 3 "MaxConcurrencyPath"'),
    (mapping(ItemSelector={}, Parameters={}), "BAD_VALUE", P, '3 4 "Parameters"'),
    (mapping(Iterator=machine(Q=END)), "BAD_VALUE", A + "/Iterator", '3 4 "Iterator"'),
    (mapping(ItemReader={}), "DISTRIBUTED_MAP", A + "/ItemReader", '3 3 "ItemReader"'),
    (mapping(ToleratedFailureCount=1), "DISTRIBUTED_MAP", A + "/ToleratedFailureCount", '3 3 "ToleratedFailureCount"'),
    (
        mapping(ItemProcessor={**machine(P=END), "ProcessorConfig": {"Mode": "DISTRIBUTED"}}),
        "DISTRIBUTED_MAP",
        A + "/ItemProcessor/ProcessorConfig/Mode",
        '3 3 "Mode"',
    ),
    (machine(A={"Type": "Parallel", "Branches": [7], "End": True}), "BAD_VALUE", A + "/Branches/0", '3 4 "Branches"'),
    (machine(A=7), "BAD_VALUE", A, '3 4 "States"'),
    (machine(A={"Type": "Loop"}), "BAD_VALUE", A + "/Type", '3 4 "Type"'),
    (machine(A={"Type": "Fail", "Error": 1}), "BAD_VALUE", A + "/Error", '3 4 "Error"'),
    (machine(A={"Type": "Fail", "ErrorPath": "$.a"}), "LEFT_OUT_FIELD", A + "/ErrorPath", '3 3 "ErrorPath"'),
    (machine(A={"Type": "Pass", "End": "true"}), "BAD_VALUE", A + "/End", '3 4 "End"'),
    (task(Retry=[{"ErrorEquals": []}]), "BAD_VALUE", A + "/Retry/0/ErrorEquals", '3 4 "ErrorEquals"'),
    (
        task(Retry=[{"ErrorEquals": ["States.ALL"], "MaxAttempts": 3.0}]),
        "BAD_VALUE",
        A + "/Retry/0/MaxAttempts",
        '3 4 "MaxAttempts"',
    ),
    ({**passing(), "StartAt": "B"}, "NO_SUCH_STATE", "/StartAt", '3 5 "B"'),
    (machine(A={"Type": "Pass", "Next": "B"}), "NO_SUCH_STATE", A + "/Next", '3 5 "B"'),
    (choice({"Variable": "$.a", "IsNull": True}, default="C"), "NO_SUCH_STATE", A + "/Default", '3 5 "C"'),
    (machine(A={"Type": "Pass", "Next": "A", "End": True}), "NEXT_AND_END", A + "/End", '3 6 "A"'),
    (
        task(Retry=[{"ErrorEquals": ["States.ALL", "States.TaskFailed"]}]),
        "STATES_ALL_PLACE",
        A + "/Retry/0/ErrorEquals/0",
        "3 7",
    ),
    (
        task(Retry=[{"ErrorEquals": ["States.ALL"]}, {"ErrorEquals": ["States.TaskFailed"]}]),
        "STATES_ALL_PLACE",
        A + "/Retry/0/ErrorEquals/0",
        "3 7",
    ),
    (choice({"Variable": "$.a"}, default="B"), "BAD_TEST", A + "/Choices/0", '3 4 "Choices"'),
    (choice({"StringEquals": "a"}, default="B"), "BAD_TEST", A + "/Choices/0", '3 4 "Choices"'),
    (choice({}, default="B"), "BAD_TEST", A + "/Choices/0", '3 4 "Choices"'),
    (choice({"Variable": "a", "IsNull": True}, default="B"), "BAD_PATH", A + "/Choices/0/Variable", '3 4 "Variable"'),
    (choice({"And": []}, default="B"), "BAD_VALUE", A + "/Choices/0/And", '3 4 "And"'),
    (
        choice({"Variable": "$.a", "StringMatches": "a*"}, default="B"),
        "OTHER_COMPARISON",
        A + "/Choices/0/StringMatches",
        '3 3 "StringMatches"',
    ),
    (
        choice({"Variable": "$.a", "StringEqualsPath": "$.b"}, default="B"),
        "PATH_COMPARISON",
        A + "/Choices/0/StringEqualsPath",
        '3 3 "StringEqualsPath"',
    ),
    ({**passing(), "QueryLanguage": "JSONata"}, "JSONATA", "/QueryLanguage", '3 3 "QueryLanguage"'),
    (passing(Output="{% 1 %}"), "JSONATA", A + "/Output", '3 3 "Output"'),
    (passing(Assign={"x": 1}), "VARIABLES", A + "/Assign", '3 3 "Assign"'),
    (task("arn:aws:states:::dynamodb:updateItem"), "OTHER_CALL", A + "/Resource", '3 3 "Resource"'),
    (task("arn:aws:states:::aws-sdk:dynamodb:getItem"), "OTHER_CALL", A + "/Resource", '3 3 "Resource"'),
    (task("arn:aws:states:::sns:publish"), "OTHER_SERVICE", A + "/Resource", '3 3 "Resource"'),
    (task("arn:aws:lambda:eu-west-1:1:function:f"), "OTHER_SERVICE", A + "/Resource", '3 3 "Resource"'),
    (task(Credentials={}), "LEFT_OUT_FIELD", A + "/Credentials", '3 3 "Credentials"'),
    # warnings
    (machine(A={"Type": "Task", "Resource": GET, "End": True}), "NO_PARAMETERS", A, None),
    (call(Key=KEY, ProjectionExpression="a"), "MALFORMED_CALL", P + "/ProjectionExpression", None),
    (call(Key=KEY, ConditionExpression="attribute_exists(a)"), "MALFORMED_CALL", P + "/ConditionExpression", None),
    (task(parameters={"TableNam": "items", "TableName": "items", "Key": KEY}), "MALFORMED_CALL", P + "/TableNam", None),
    (task(parameters={"Key": KEY}), "MALFORMED_CALL", P, None),
    (call(), "MALFORMED_CALL", P, None),
    (call(Key={}), "MALFORMED_CALL", P + "/Key", None),
    (call(Key={"id": {"BOOL": True}}), "MALFORMED_CALL", P + "/Key/id", None),
    (call(Key={"id": {"S": ""}}), "MALFORMED_CALL", P + "/Key/id", None),
    (call(PUT, Item={"id": "k"}), "MALFORMED_CALL", P + "/Item/id", None),
    (call(PUT, Item={"id": {"N": 1}}), "MALFORMED_CALL", P + "/Item/id/N", None),
    (call(PUT, Item={"id": {"N": "1e3"}}), "MALFORMED_CALL", P + "/Item/id/N", None),
    (call(PUT, Item={"id": {"N": "1" * 39}}), "MALFORMED_CALL", P + "/Item/id/N", None),
    (call(PUT, Item={"id": {"B": "aGk="}}), "MALFORMED_CALL", P + "/Item/id/B", None),
    (call(PUT, Item={"id": {"NULL": False}}), "MALFORMED_CALL", P + "/Item/id/NULL", None),
    (call(PUT, Item={"id": {"SS": []}}), "MALFORMED_CALL", P + "/Item/id/SS", None),
    (call(PUT, Item={"id": {"NS": ["1", "1.0"]}}), "MALFORMED_CALL", P + "/Item/id/NS", None),
    (call(PUT, Item={"id": {"M": {"a": {"L": [{"S": 1}]}}}}), "MALFORMED_CALL", P + "/Item/id/M/a/L/0/S", None),
    (call(PUT, Item=KEY, ReturnValues="ALL_NEW"), "MALFORMED_CALL", P + "/ReturnValues", None),
    (call(PUT, Item=KEY, ConditionExpression="a = :b"), "MALFORMED_CALL", P + "/ConditionExpression", None),
    (machine(A=END, B=END), "UNREACHABLE_STATE", "/States/B", None),
    (machine(A={"Type": "Pass", "Next": "A"}), "NO_END", "/States/A", None),
    (choice({"Variable": "$.a", "StringEquals": "b"}), "NOT_COVERED", A, None),
    (task(Retry=[{"ErrorEquals": ["States.Timeout"]}]), "NEVER_RAISED", A + "/Retry/0/ErrorEquals/0", None),
    (task(Retry=[{"ErrorEquals": ["States.Runtime"]}]), "NEVER_RAISED", A + "/Retry/0/ErrorEquals/0", None),
    (task(Retry=[{"ErrorEquals": ["States.BranchFailed"]}]), "NEVER_RAISED", A + "/Retry/0/ErrorEquals/0", None),
    (
        task(Retry=[{"ErrorEquals": ["States.ALL"], "IntervalSeconds": 5}]),
        "NEEDS_RUNNER",
        A + "/Retry/0/IntervalSeconds",
        None,
    ),
    (task(TimeoutSeconds=5), "NO_EFFECT", A + "/TimeoutSeconds", None),
    ({**passing(), "TimeoutSeconds": 5}, "NO_EFFECT", "/TimeoutSeconds", None),
    (passing(Result="${Table}"), "SUBSTITUTION", A + "/Result", None),
    (machine(A={"Type": "Wait", "Seconds": "ten", "End": True}), "BAD_MOMENT", A + "/Seconds", None),
    (machine(A={"Type": "Wait", "Timestamp": "tomorrow", "End": True}), "BAD_MOMENT", A + "/Timestamp", None),
    (machine(A={"Type": "Wait", "End": True}), "BAD_MOMENT", A, None),
    (mapping(ItemProcessor=machine(A=END)), "SAME_NAME", A + "/ItemProcessor/States/A", None),
)

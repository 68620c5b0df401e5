"""The kinds of faults, each by its code."""
from __future__ import annotations

ERRORS = {
    "UNREADABLE_FILE": "the file can't be read",
    "NOT_UTF8": "the file isn't UTF-8",
    "NOT_JSON": "the text isn't JSON, or a number, string or mark in it isn't",
    "TOO_NESTED": "the text nests deeper than 127 levels",
    "TOO_LONG": "the definition doesn't fit a line",
    "MISSING_FIELD": "a required field is missing",
    "UNKNOWN_FIELD": "no field of this name may be there",
    "BAD_VALUE": "a value of another kind, or out of its bounds",
    "NOT_WHOLE": "a number that isn't whole, or doesn't fit 64 bits with a sign",
    "BAD_PATH": "a text that is no path",
    "SLICE": "a path with a slice",
    "MANY_VALUED_PATH": "a path with a wildcard, a filter or a search",
    "BAD_TEMPLATE": "a field `x.$` without a path, or beside a field `x`",
    "BAD_TEST": "a rule or a test of a Choice that isn't exactly one test",
    "NO_SUCH_STATE": "a name that no state of the same level has",
    "NEXT_AND_END": "a state with both Next and End",
    "STATES_ALL_PLACE": "States.ALL beside another name, or not last",
    "STATES_TOO_DEEP": "States objects within more than 32 others",
    "JSONATA": "the query language JSONata, or a field of it",
    "VARIABLES": "variables: Assign, or a path that begins with one",
    "INTRINSIC_FUNCTION": "an intrinsic function, as States.Format",
    "CONTEXT_OBJECT": "the context object, as $$.Execution.Id",
    "PATH_COMPARISON": "a comparison with another path, as StringEqualsPath",
    "OTHER_COMPARISON": "a comparison that is left out, as StringMatches",
    "DISTRIBUTED_MAP": "a distributed Map, or a field of it",
    "OTHER_CALL": "a call of DynamoDB other than getItem, putItem, deleteItem",
    "OTHER_SERVICE": "a Task that calls another service",
    "LEFT_OUT_FIELD": "another field that is left out",
}

WARNINGS = {
    "DUPLICATE_FIELD": "a field twice in one object: the last one counts",
    "OTHER_TABLE": "a call of another table than the book's",
    "MALFORMED_CALL": "a call that is malformed whatever its input is",
    "NO_PARAMETERS": "a Task without Parameters",
    "UNREACHABLE_STATE": "a state that can't be reached",
    "NO_END": "a state from which no end can be reached",
    "NOT_COVERED": "a Choice without Default whose tests don't cover",
    "NEVER_RAISED": "a Retry or Catch of an error that can't come up",
    "NEEDS_RUNNER": "a loop through a Wait, or a retrier with an interval",
    "NO_EFFECT": "a field without effect here, as TimeoutSeconds",
    "SUBSTITUTION": "a ${..} of CloudFormation",
    "BAD_MOMENT": "Seconds of no number, Timestamp of no time",
    "SAME_NAME": "two states of one name in different branches",
}

CODES = {**ERRORS, **WARNINGS}

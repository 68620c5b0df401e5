"""A book beside moto: the same calls, and the answers field by field. Where they differ, Amazon's documents decide, as it is said here."""
import importlib.util
import json
import subprocess
import sys
import unittest

from rollback_client import plain
from tests.amazon import WithAmazon
from tests.amazon_calls import BAD_Q, CALLS, OTHER_P, TAGS_OF_Q, K, T, answer_of, executed
from tests.amazon_machines import TRIALS, WIDGET
from tests.program import PATIENCE, TOP

UNTAKEN = {"error": "ValidationException"}
BRANCHING = ("map", "parallel", "failing", "one-at-a-time", "empty", "caught-map", "retried-parallel")
ITEMS = ("Item", "Attributes", "item")
# Calls that moto answers otherwise than Amazon's documents say: by their place among CALLS what a book answers, and why.
OTHER = {
    place: answer
    for place, answer in (
        # An expression attribute name used in the document path is not defined
        (CALLS.index(("dynamodb", "get_item", {**T, "Key": K, "ProjectionExpression": "#x"})), UNTAKEN),
        (
            CALLS.index(("dynamodb", "put_item", {**T, "Item": K, "ConditionExpression": "attribute_exists(#i)"})),
            UNTAKEN,
        ),
        # The provided key element does not match the schema
        (CALLS.index(("dynamodb", "get_item", {**T, "Key": {"id": {"N": "1"}}})), UNTAKEN),
        # COUNT: returns the number of matching items, rather than the matching items themselves
        (CALLS.index(("dynamodb", "scan", {**T, "Select": "COUNT"})), {"Count": 3, "ScannedCount": 3}),
        # StateMachineAlreadyExists: a state machine with the same name but a different definition already exists
        (CALLS.index(("stepfunctions", "create_state_machine", OTHER_P)), {"error": "StateMachineAlreadyExists"}),
        # InvalidDefinition: the definition is not valid. After moto took it, q has no tags
        (CALLS.index(("stepfunctions", "create_state_machine", BAD_Q)), {"error": "InvalidDefinition"}),
        (
            CALLS.index(("stepfunctions", "list_tags_for_resource", TAGS_OF_Q)),
            {"tags": [{"key": "team", "value": "a"}]},
        ),
    )
}
# Members that moto answers beside, which Amazon does only if they are asked for, or of what a book hasn't
BESIDE = (
    "ConsumedCapacity",
    "ItemCollectionMetrics",
    "LocalSecondaryIndexes",
    "GlobalSecondaryIndexes",
    "WarmThroughput",
)
# Members that Amazon's model requires, or its documents show, and moto leaves out
LACKING = ("type", "includeExecutionData")


@unittest.skipIf(importlib.util.find_spec("moto") is None, "this Python has no moto")
class Beside(WithAmazon):
    @classmethod
    def setUpClass(cls):
        # by the same boto3, whose models say which members there are
        command = [sys.executable, "-m", "tests.moto_answers"]
        done = subprocess.run(
            command,
            stdout=subprocess.PIPE,
            stderr=subprocess.PIPE,
            cwd=TOP / "clients/python",
            timeout=PATIENCE,
            check=False,
        )
        assert done.returncode == 0, done.stderr.decode()[-2000:]
        cls.moto = json.loads(done.stdout)

    def setUp(self):
        super().setUp()
        self.states, self.tables = self.clients(self.amazon())
        self.tables.put_item(TableName="items", Item=WIDGET)

    def test_calls(self):
        for place, (call, wanted) in enumerate(zip(CALLS, self.moto["calls"])):
            found = answer_of(self.states, self.tables, call, "000000000000")
            if place in OTHER:
                self.assertEqual(found, OTHER[place], call)
                self.assertNotEqual(found, wanted, f"moto answers as Amazon now: {call}")
            else:
                self.assertEqual(compared(found), compared(wanted), call)

    def test_executions(self):
        for trial, wanted in zip(TRIALS, self.moto["executions"]):
            found = json.loads(json.dumps(executed(self.states, trial, lambda: None)))
            for member in ("status", "input", "output", "error"):
                self.assertEqual(found[member], wanted[member], (trial[0], member))
            self.assertEqual(self.events(found), self.events(wanted), trial[0])

    def events(self, execution):
        """The events of an execution; of one with branches in one order, since these go on side by side."""
        if execution["name"] not in BRANCHING:
            return execution["events"]
        # moto's threads race: one branch may fail before the other one enters its first state
        late = "WaitStateEntered" if execution["name"] == "failing" else None
        rows = [
            {name: value for name, value in row.items() if name not in ("id", "before")}
            for row in execution["events"]
            if row["type"] != late
        ]
        return sorted(rows, key=lambda row: json.dumps(row, sort_keys=True))


def compared(value):
    """An answer as it is compared: items by their values, in one order, and without what one of them has beside."""
    if isinstance(value, list):
        return [compared(below) for below in value]
    if not isinstance(value, dict):
        return value
    found = {}
    for name, below in value.items():
        if name in ITEMS:
            found[name] = plain({"M": below})
        elif name == "Items" or name == "items":
            found[name] = sorted((plain({"M": item}) for item in below), key=lambda item: str(item["id"]))
        elif name not in BESIDE and name not in LACKING:
            found[name] = compared(below)
    return found


if __name__ == "__main__":
    unittest.main()

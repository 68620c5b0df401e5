"""Histories of executions, by boto3, against those that Amazon's documents show."""
import json

from tests.amazon import WithAmazon
from tests.amazon_machines import MACHINES, WIDGET
from tests.program import PASS


class Histories(WithAmazon):
    def events(self, name, input):
        server = self.amazon()
        states, tables = self.clients(server)
        tables.put_item(TableName="items", Item=WIDGET)
        arn = self.created(states, name, MACHINES[name])
        made = self.run_to_end(states, arn, input)["executionArn"]
        return states.get_execution_history(executionArn=made)["events"]

    def kinds(self, events):
        return [event["type"] for event in events]

    CALL = ["TaskStateEntered", "TaskScheduled", "TaskStarted", "TaskSucceeded", "TaskStateExited"]

    def test_tasks_and_choices(self):
        events = self.events("order", {"product": "widget", "order": "o"})
        choice, succeed = (
            ["ChoiceStateEntered", "ChoiceStateExited"],
            ["SucceedStateEntered", "SucceedStateExited"],
        )
        wanted = ["ExecutionStarted", *self.CALL, *choice, *self.CALL, *succeed, "ExecutionSucceeded"]
        self.assertEqual(self.kinds(events), wanted)
        self.assertEqual([event["previousEventId"] for event in events], [0, 0, *range(2, len(events))])
        entered, scheduled, started, succeeded, exited = events[1:6]
        self.assertEqual(entered["stateEnteredEventDetails"]["name"], "LookUp")
        self.assertEqual(json.loads(entered["stateEnteredEventDetails"]["input"]), {"product": "widget", "order": "o"})
        details = scheduled["taskScheduledEventDetails"]
        self.assertEqual(
            (details["resourceType"], details["resource"], details["region"]), ("dynamodb", "getItem", "us-east-1")
        )
        self.assertEqual(json.loads(details["parameters"]), {"TableName": "items", "Key": {"id": {"S": "widget"}}})
        self.assertEqual(started["taskStartedEventDetails"], {"resourceType": "dynamodb", "resource": "getItem"})
        self.assertEqual(json.loads(succeeded["taskSucceededEventDetails"]["output"]), {"Item": WIDGET})
        self.assertEqual(
            json.loads(exited["stateExitedEventDetails"]["output"]),
            {"product": "widget", "order": "o", "stock": {"Item": WIDGET}},
        )

    def test_fail(self):
        events = self.events("order", {"product": "none", "order": "o"})
        self.assertEqual(self.kinds(events)[-3:], ["ChoiceStateExited", "FailStateEntered", "ExecutionFailed"])
        self.assertEqual(events[-1]["executionFailedEventDetails"], {"error": "OutOfStock", "cause": "nothing is left"})

    def test_retries(self):
        events = self.events("retry", {})
        again = ["TaskScheduled", "TaskStarted", "TaskFailed"]
        self.assertEqual(
            self.kinds(events), ["ExecutionStarted", "TaskStateEntered", *again, *again, "ExecutionFailed"]
        )
        for event in events:
            if event["type"] == "TaskFailed":
                details = event["taskFailedEventDetails"]
                self.assertEqual(details["error"], "DynamoDB.ConditionalCheckFailedException")
        waited = events[5]["timestamp"] - events[4]["timestamp"]
        self.assertGreaterEqual(waited.total_seconds(), 0.99)

    def test_caught(self):
        events = self.events("catch", {"a": 1})
        failed = ["TaskScheduled", "TaskStarted", "TaskFailed", "TaskStateExited"]
        passed = ["PassStateEntered", "PassStateExited", "ExecutionSucceeded"]
        self.assertEqual(self.kinds(events), ["ExecutionStarted", "TaskStateEntered", *failed, *passed])
        output = json.loads(events[5]["stateExitedEventDetails"]["output"])
        self.assertEqual(output["error"]["Error"], "DynamoDB.ConditionalCheckFailedException")

    def test_calls_that_fail(self):
        """A call of another table, and one that is malformed, as their retries and their ends tell it."""
        again = [{"ErrorEquals": ["States.ALL"], "IntervalSeconds": 0, "MaxAttempts": 1}]
        server = self.amazon()
        states, _ = self.clients(server)
        for name, call, error in (
            ("other", {"TableName": "others", "Key": {"id": {"S": "k"}}}, "DynamoDB.ResourceNotFoundException"),
            ("bad", {"TableName": "items", "Key": {}}, "DynamoDB.ValidationException"),
        ):
            task = {"Type": "Task", "Resource": "arn:aws:states:::dynamodb:getItem", "Parameters": call, "Retry": again}
            machine = {"StartAt": "G", "States": {"G": {**task, "End": True}}}
            found = self.run_to_end(states, self.created(states, name, machine), {})
            self.assertEqual(found["error"], error)
            events = states.get_execution_history(executionArn=found["executionArn"])["events"]
            told = [event["taskFailedEventDetails"]["error"] for event in events if event["type"] == "TaskFailed"]
            self.assertEqual(told, [error, error])

    def test_map(self):
        events = self.events("map", {"lines": [{"id": "a"}, {"id": "b"}]})
        kinds = self.kinds(events)
        self.assertEqual(kinds[:3], ["ExecutionStarted", "MapStateEntered", "MapStateStarted"])
        self.assertEqual(events[2]["mapStateStartedEventDetails"], {"length": 2})
        for kind in ("Started", "Succeeded"):
            rows = [
                event[f"mapIteration{kind}EventDetails"] for event in events if event["type"] == f"MapIteration{kind}"
            ]
            self.assertEqual(rows, [{"name": "Each", "index": 0}, {"name": "Each", "index": 1}])
        self.assertEqual(kinds[-3:], ["MapStateSucceeded", "MapStateExited", "ExecutionSucceeded"])
        # the events of each iteration follow one another
        number = {event["id"]: event for event in events}
        for event in events:
            if event["type"] == "MapIterationSucceeded":
                chain = [event]
                while chain[-1]["type"] != "MapIterationStarted":
                    chain.append(number[chain[-1]["previousEventId"]])
                self.assertEqual(self.kinds(chain[::-1])[1:-1], self.CALL)
                self.assertEqual(
                    chain[-1]["mapIterationStartedEventDetails"], event["mapIterationSucceededEventDetails"]
                )

    def test_parallel(self):
        kinds = self.kinds(self.events("parallel", {"id": "b"}))
        self.assertEqual(kinds[:3], ["ExecutionStarted", "ParallelStateEntered", "ParallelStateStarted"])
        self.assertEqual(kinds.count("TaskStateEntered"), 2)
        self.assertEqual(kinds[-3:], ["ParallelStateSucceeded", "ParallelStateExited", "ExecutionSucceeded"])

    def test_a_branch_that_fails(self):
        events = self.events("failing", {})
        self.assertEqual(self.kinds(events)[-2:], ["ParallelStateFailed", "ExecutionFailed"])
        self.assertEqual(events[-1]["executionFailedEventDetails"], {"error": "Broken", "cause": "on purpose"})

    def test_without_data(self):
        server = self.amazon()
        states, _ = self.clients(server)
        made = self.run_to_end(states, self.created(states, "p", PASS), {})["executionArn"]
        for event in states.get_execution_history(executionArn=made, includeExecutionData=False)["events"]:
            for details in event.values():
                if isinstance(details, dict):
                    self.assertFalse({"input", "output"} & set(details))

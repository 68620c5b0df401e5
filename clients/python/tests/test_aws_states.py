"""Step Functions by boto3: state machines and executions. The wanted answers are those of Amazon's documents."""
import json
import os
import time

from rollback_client import Book, Full
from tests.amazon import ROLE, STATES, WithAmazon, error_of, plain_answer, request_of
from tests.amazon_machines import MACHINES, TRIALS, WIDGET
from tests.program import ECHO, LOOP, PASS, PATIENCE

ARN = "arn:aws:states:us-east-1:000000000000:"
POOR = {"StartAt": "A", "States": {"A": {"Type": "Pass", "Nxt": "B"}, "C": {"Type": "Task", "Resource": "x"}}}


class Machines(WithAmazon):
    def setUp(self):
        super().setUp()
        self.server = self.amazon()
        self.states, self.tables = self.clients(self.server)

    def test_text_role_and_tags_come_back_as_they_were_given(self):
        text = json.dumps(MACHINES["order"], indent=4)
        logging = {"level": "ERROR", "includeExecutionData": True}
        tags = [{"key": "team", "value": "billing"}]
        arn = self.created(self.states, "order", text, tags=tags, loggingConfiguration=logging)
        self.assertEqual(arn, ARN + "stateMachine:order")
        for _ in range(2):
            found = self.states.describe_state_machine(stateMachineArn=arn)
            self.assertEqual((found["definition"], found["roleArn"]), (text, ROLE))
            self.assertEqual((found["name"], found["status"], found["type"]), ("order", "ACTIVE", "STANDARD"))
            self.assertEqual(found["loggingConfiguration"], logging)
            self.assertEqual(found["tracingConfiguration"], {"enabled": False})
            self.assertTrue(self.is_of_this_test(found["creationDate"].timestamp()))
            self.assertEqual(self.states.list_tags_for_resource(resourceArn=arn)["tags"], tags)
            # also after a restart, and with a file that is lost the book's own spelling
            self.server.end()
            self.server = self.amazon()
            self.states, _ = self.clients(self.server)
        self.server.end()
        os.remove(f"{self.server.journal}-aws")
        self.states, _ = self.clients(self.amazon())
        found = self.states.describe_state_machine(stateMachineArn=arn)
        self.assertEqual(json.loads(found["definition"]), MACHINES["order"])
        self.assertEqual(self.states.list_tags_for_resource(resourceArn=arn)["tags"], [])

    def test_same_again(self):
        arn = self.created(self.states, "p", PASS)
        other = json.dumps(PASS, indent=2)
        again = self.states.create_state_machine(name="p", definition=other, roleArn=ROLE + "2", type="STANDARD")
        self.assertEqual(again["stateMachineArn"], arn)
        self.assertEqual(self.states.describe_state_machine(stateMachineArn=arn)["roleArn"], ROLE)
        self.refused_by(
            "StateMachineAlreadyExists",
            self.states.create_state_machine,
            "another name",
            name="p",
            definition=json.dumps(ECHO),
            roleArn=ROLE,
        )

    def test_same_as_one_of_the_shell(self):
        """Of a machine that another caller has defined, role and configuration are those that are given first."""
        with Book.connect(self.server.address) as book:
            book.define("p", PASS)
        logging = {"level": "ERROR"}
        arn = self.created(self.states, "p", PASS, loggingConfiguration=logging, tags=[{"key": "a", "value": "b"}])
        found = self.states.describe_state_machine(stateMachineArn=arn)
        self.assertEqual((found["roleArn"], found["loggingConfiguration"]["level"]), (ROLE, "ERROR"))
        self.assertEqual(self.states.list_tags_for_resource(resourceArn=arn)["tags"], [{"key": "a", "value": "b"}])
        self.created(self.states, "p", PASS, loggingConfiguration={"level": "ERROR", "includeExecutionData": False})
        self.refused_by(
            "StateMachineAlreadyExists",
            self.states.create_state_machine,
            name="p",
            definition=json.dumps(PASS),
            roleArn=ROLE,
        )

    def test_faulty_definitions(self):
        create = self.states.create_state_machine
        name, message, status, _ = error_of(create, name="bad", definition=json.dumps(POOR), roleArn=ROLE)
        self.assertEqual((name, status), ("InvalidDefinition", 400))
        for place in ("/States/A/Nxt", "/States/A,", "/States/C"):
            self.assertIn(place, message + ",")
        for text in ("{", "[]", "x", '{"StartAt":1}'):
            self.refused_by("InvalidDefinition", create, name="bad", definition=text, roleArn=ROLE)
        self.assertEqual(self.states.list_state_machines()["stateMachines"], [])

    def test_names(self):
        create = self.states.create_state_machine
        for name in ("order.1", "a" * 65, "a b", "ä", "a/b"):
            self.refused_by(
                "InvalidName", create, "1 to 64 letters", name=name, definition=json.dumps(PASS), roleArn=ROLE
            )
        self.refused_by(
            "InvalidName", create, "the server's own", name="aws-put", definition=json.dumps(PASS), roleArn=ROLE
        )
        self.created(self.states, "a" * 64, PASS)

    def test_kinds_that_are_left_out(self):
        create, text = self.states.create_state_machine, json.dumps(PASS)
        self.refused_by("StateMachineTypeNotSupported", create, name="e", definition=text, roleArn=ROLE, type="EXPRESS")
        given = {"name": "e", "definition": text, "roleArn": ROLE, "publish": True}
        status, _, answer = request_of(self.server.url, f"{STATES}.CreateStateMachine", given)
        self.assertEqual((status, answer["__type"]), (400, "ValidationException"))
        self.assertIn("no versions", answer["message"])

    def test_before_there_is_a_table(self):
        states, tables = self.clients(self.amazon(table=None, journal="other.db", address=self.path("other")))
        create = states.create_state_machine
        self.refused_by(
            "ConflictException", create, "create the table first", name="p", definition=json.dumps(PASS), roleArn=ROLE
        )
        self.refused_by("StateMachineDoesNotExist", states.start_execution, stateMachineArn=ARN + "stateMachine:p")
        self.assertEqual(states.list_state_machines()["stateMachines"], [])
        self.assertEqual(tables.list_tables()["TableNames"], [])

    def test_pages(self):
        for name in ("c", "a", "d", "b"):
            self.created(self.states, name, PASS)
        pages = self.states.get_paginator("list_state_machines").paginate(PaginationConfig={"PageSize": 3})
        names = [[row["name"] for row in page["stateMachines"]] for page in pages]
        self.assertEqual(names, [["a", "b", "c"], ["d"]])
        self.refused_by("InvalidToken", self.states.list_state_machines, nextToken="x")

    def test_what_is_not_there(self):
        for arn in ("stateMachine:none", "stateMachine:p:1", "stateMachine:p.1"):
            self.refused_by("StateMachineDoesNotExist", self.states.describe_state_machine, stateMachineArn=ARN + arn)
        for arn in ("x", "arn:aws:states:us-east-1:000000000000:execution:p:e", "arn:aws:sns:us-east-1:000000000000:x"):
            self.refused_by("InvalidArn", self.states.describe_state_machine, stateMachineArn=arn)

    def test_tags(self):
        arn = self.created(self.states, "p", PASS)
        tag, listed = self.states.tag_resource, self.states.list_tags_for_resource
        tag(resourceArn=arn, tags=[{"key": "a", "value": "1"}, {"key": "b", "value": "2"}])
        tag(resourceArn=arn, tags=[{"key": "a", "value": "3"}])
        self.assertEqual(listed(resourceArn=arn)["tags"], [{"key": "a", "value": "3"}, {"key": "b", "value": "2"}])
        self.states.untag_resource(resourceArn=arn, tagKeys=["a"])
        self.assertEqual(listed(resourceArn=arn)["tags"], [{"key": "b", "value": "2"}])
        many = [{"key": f"k{number}", "value": ""} for number in range(50)]
        self.refused_by("TooManyTags", tag, resourceArn=arn, tags=many)
        self.refused_by("ResourceNotFound", listed, resourceArn=ARN + "stateMachine:none")

    def test_validation(self):
        def validate(**given):
            # older versions of boto3 have no such call
            return request_of(self.server.url, f"{STATES}.ValidateStateMachineDefinition", given)[2]

        found = validate(definition=json.dumps(POOR))
        self.assertEqual((found["result"], found["truncated"]), ("FAIL", False))
        rows = {(row["severity"], row["location"], row["code"]) for row in found["diagnostics"]}
        self.assertIn(("ERROR", "/States/A/Nxt", "UNKNOWN_FIELD"), rows)
        self.assertIn(("ERROR", "/States/C/Resource", "OTHER_SERVICE"), rows)
        self.assertEqual({row["severity"] for row in found["diagnostics"]}, {"ERROR"})
        self.assertTrue(all(row["message"] for row in found["diagnostics"]))
        cut = validate(definition=json.dumps(POOR), maxResults=1)
        self.assertEqual((len(cut["diagnostics"]), cut["truncated"]), (1, True))
        warned = {**PASS, "TimeoutSeconds": 5}
        self.assertEqual(
            validate(definition=json.dumps(warned)),
            {"result": "OK", "diagnostics": [], "truncated": False},
        )
        (row,) = validate(definition=json.dumps(warned), severity="WARNING")["diagnostics"]
        self.assertEqual((row["severity"], row["location"], row["code"]), ("WARNING", "/TimeoutSeconds", "NO_EFFECT"))


class Executions(WithAmazon):
    def setUp(self):
        super().setUp()
        self.server = self.amazon()
        self.states, self.tables = self.clients(self.server)

    def test_machines_of_all_kinds(self):
        self.tables.put_item(TableName="items", Item=WIDGET)
        began = time.time()
        for number, (name, machine, input, status, wanted) in enumerate(TRIALS):
            arn = self.created(self.states, name, machine)
            found = self.run_to_end(self.states, arn, input, name=f"e{number}")
            self.assertEqual(found["status"], status, name)
            self.assertEqual((found["name"], found["stateMachineArn"]), (f"e{number}", arn))
            self.assertEqual(found["executionArn"], f"{ARN}execution:{name}:e{number}")
            self.assertEqual(found["input"], json.dumps(input))
            self.assertEqual(found["inputDetails"], {"included": True})
            self.assertEqual(found.get("redriveCount", 0), 0)
            start, stop = found["startDate"].timestamp(), found["stopDate"].timestamp()
            self.assertTrue(began - 1 <= start <= stop <= time.time() + 1, name)
            if status == "SUCCEEDED" and wanted is not None:
                self.assertEqual(json.loads(found["output"]), wanted, name)
            elif isinstance(wanted, tuple):
                self.assertEqual((found["error"], found["cause"]), wanted, name)
            self.look_at_history(f"{ARN}execution:{name}:e{number}", status)
        poll = self.states.describe_execution(executionArn=ARN + "execution:poller:e3")
        self.assertGreaterEqual((poll["stopDate"] - poll["startDate"]).total_seconds(), 0.99)
        retried = self.states.describe_execution(executionArn=ARN + "execution:retry:e6")
        self.assertGreaterEqual((retried["stopDate"] - retried["startDate"]).total_seconds(), 0.99)

    def look_at_history(self, arn, status):
        """What holds of each history: numbers, times, and that it begins and ends as Amazon's do."""
        events = self.states.get_execution_history(executionArn=arn)["events"]
        self.assertEqual([event["id"] for event in events], list(range(1, len(events) + 1)))
        self.assertEqual(events[0]["type"], "ExecutionStarted")
        self.assertEqual(events[-1]["type"], "ExecutionSucceeded" if status == "SUCCEEDED" else "ExecutionFailed")
        times = [event["timestamp"] for event in events]
        self.assertEqual(times, sorted(times))
        for event in events:
            self.assertLess(event["previousEventId"], event["id"])
        back = self.states.get_execution_history(executionArn=arn, reverseOrder=True)["events"]
        self.assertEqual(back, events[::-1])
        pages = self.states.get_paginator("get_execution_history").paginate(
            executionArn=arn, PaginationConfig={"PageSize": 4}
        )
        self.assertEqual([event for page in pages for event in page["events"]], events)

    def test_same_start_again(self):
        arn = self.created(
            self.states, "loop", {"StartAt": "W", "States": {"W": {"Type": "Wait", "Seconds": 60, "End": True}}}
        )
        start = self.states.start_execution
        first = start(stateMachineArn=arn, name="e", input='{"a": 1, "b": 2}')
        again = start(stateMachineArn=arn, name="e", input='{"b":2,"a":1}')
        self.assertEqual(plain_answer(first), plain_answer(again))
        self.refused_by("ExecutionAlreadyExists", start, stateMachineArn=arn, name="e", input="{}")
        other = self.created(self.states, "other", PASS)
        self.refused_by(
            "ExecutionAlreadyExists", start, "of loop", stateMachineArn=other, name="e", input='{"a":1,"b":2}'
        )
        self.run_to_end(self.states, other, {}, name="d")
        self.refused_by("ExecutionAlreadyExists", start, stateMachineArn=other, name="d", input="{}")
        self.assertEqual(len(self.states.list_executions(stateMachineArn=arn)["executions"]), 1)

    def test_names_and_inputs(self):
        arn = self.created(self.states, "echo", ECHO)
        start = self.states.start_execution
        made = start(stateMachineArn=arn)["executionArn"].rpartition(":")[2]
        self.assertRegex(made, r"^[0-9a-f-]{36}$")
        self.assertEqual(self.ended(self.states, f"{ARN}execution:echo:{made}")["input"], "{}")
        for name in ("order.1", "a" * 65, "a b"):
            self.refused_by("InvalidName", start, "1 to 64 letters", stateMachineArn=arn, name=name)
        for text, place in (
            ("{", "line 1"),
            ("", "line 1"),
            ('{"a":[1,2.5]}', "/a/1"),
            ('{"a":{"b":1e3}}', "/a/b"),
            ("1.0", "its top"),
            (f"[{2**63}]", "/0"),
            ("NaN", "NaN"),
            ('{"a":"\\ud800"}', ""),
            ("[" * 200 + "]" * 200, ""),
        ):
            self.refused_by("InvalidExecutionInput", start, place, stateMachineArn=arn, input=text)
        self.refused_by("StateMachineDoesNotExist", start, stateMachineArn=ARN + "stateMachine:none")
        self.refused_by(
            "ExecutionDoesNotExist", self.states.describe_execution, executionArn=ARN + "execution:echo:none"
        )
        self.refused_by(
            "ExecutionDoesNotExist", self.states.describe_execution, executionArn=f"{ARN}execution:other:{made}"
        )
        self.assertEqual(len(self.states.list_executions(stateMachineArn=arn)["executions"]), 1)

    def test_list(self):
        wait = {"StartAt": "W", "States": {"W": {"Type": "Wait", "Seconds": 60, "End": True}}}
        fail = {"StartAt": "F", "States": {"F": {"Type": "Fail", "Error": "E"}}}
        arns = {
            name: self.created(self.states, name, machine) for name, machine in (("w", wait), ("f", fail), ("p", PASS))
        }
        for number in range(5):
            self.run_to_end(self.states, arns["p"], {}, name=f"p{number}")
        self.run_to_end(self.states, arns["f"], {}, name="f0")
        self.states.start_execution(stateMachineArn=arns["w"], name="w0")
        listed = self.states.list_executions
        pages = self.states.get_paginator("list_executions").paginate(
            stateMachineArn=arns["p"], PaginationConfig={"PageSize": 2}
        )
        names = [[row["name"] for row in page["executions"]] for page in pages]
        self.assertEqual(names, [["p4", "p3"], ["p2", "p1"], ["p0"]])
        for machine, status, wanted in (
            ("p", "SUCCEEDED", 5),
            ("p", "RUNNING", 0),
            ("f", "FAILED", 1),
            ("w", "RUNNING", 1),
            ("w", "ABORTED", 0),
            ("w", "TIMED_OUT", 0),
        ):
            rows = listed(stateMachineArn=arns[machine], statusFilter=status)["executions"]
            self.assertEqual(len(rows), wanted, (machine, status))
            for row in rows:
                self.assertEqual((row["status"], "stopDate" in row), (status, status != "RUNNING"))
        self.refused_by("StateMachineDoesNotExist", listed, stateMachineArn=ARN + "stateMachine:none")
        token = listed(stateMachineArn=arns["p"], maxResults=1)["nextToken"]
        self.refused_by("InvalidToken", listed, stateMachineArn=arns["f"], nextToken=token)

    def test_machine_of_an_execution(self):
        arn = self.created(self.states, "p", PASS)
        made = self.run_to_end(self.states, arn, {})["executionArn"]
        found = self.states.describe_state_machine_for_execution(executionArn=made)
        self.assertEqual((found["stateMachineArn"], found["name"], found["roleArn"]), (arn, "p", ROLE))
        self.assertEqual(json.loads(found["definition"]), PASS)

    def test_what_was_taken_back(self):
        machine = MACHINES["order"]
        self.tables.put_item(TableName="items", Item=WIDGET)
        arn = self.created(self.states, "order", machine)
        made = self.run_to_end(self.states, arn, {"product": "widget", "order": "o-1"}, name="e")["executionArn"]
        with Book.connect(self.server.address) as book:
            book.pause(machine="order")
            book.rollback("e#3")
            found = self.states.describe_execution(executionArn=made)
            self.assertEqual((found["status"], "stopDate" in found), ("RUNNING", False))
            kinds = [event["type"] for event in self.states.get_execution_history(executionArn=made)["events"]]
            self.assertEqual(kinds[-2:], ["ChoiceStateExited", "TaskStateEntered"])
            book.rollback("e#0")
            self.refused_by("ExecutionDoesNotExist", self.states.describe_execution, executionArn=made)
            book.resume(machine="order")
        # its name is free again, with another input
        again = self.run_to_end(self.states, arn, {"product": "none", "order": "o"}, name="e")
        self.assertEqual((again["status"], again["error"]), ("FAILED", "OutOfStock"))

    def test_what_others_began_and_settled(self):
        with Book.connect(self.server.address) as book:
            book.define("p", PASS)
            book.start("e", "p", {"b": 1, "a": 2})
        made = ARN + "execution:p:e"
        found = self.ended(self.states, made)
        self.assertEqual((json.loads(found["input"]), found["output"]), ({"b": 1, "a": 2}, "7"))
        self.assertTrue(self.is_of_this_test(found["startDate"].timestamp()))
        with Book.connect(self.server.address) as book:
            book.settle()
        settled = self.states.describe_execution(executionArn=made)
        for member in ("status", "output", "startDate", "stopDate"):
            self.assertEqual(settled[member], found[member])
        kinds = [event["type"] for event in self.states.get_execution_history(executionArn=made)["events"]]
        self.assertEqual(kinds, ["ExecutionStarted", "ExecutionSucceeded"])

    def test_a_restart_keeps_times_and_spellings(self):
        arn = self.created(self.states, "map", MACHINES["map"])
        given = '{ "lines" : [ {"id":"a"}, {"id":"b"} ] }'
        made = self.states.start_execution(stateMachineArn=arn, name="e", input=given)["executionArn"]
        found, events = self.ended(self.states, made), self.states.get_execution_history(executionArn=made)["events"]
        self.assertEqual(found["input"], given)
        self.assertEqual(events[0]["executionStartedEventDetails"]["input"], given)
        self.server.end()
        self.states, _ = self.clients(self.amazon())
        self.assertEqual(plain_answer(self.states.describe_execution(executionArn=made)), plain_answer(found))
        self.assertEqual(self.states.get_execution_history(executionArn=made)["events"], events)

    def test_a_new_book_beside_an_old_file(self):
        arn = self.created(self.states, "p", PASS, tags=[{"key": "a", "value": "b"}])
        self.run_to_end(self.states, arn, {}, name="e")
        self.server.end()
        for end in ("", "-wal", "-clock"):
            if os.path.exists(self.server.journal + end):
                os.remove(self.server.journal + end)
        states, _ = self.clients(self.amazon())
        self.created(states, "p", PASS)
        self.assertEqual(states.list_tags_for_resource(resourceArn=arn)["tags"], [])
        self.assertEqual(states.list_executions(stateMachineArn=arn)["executions"], [])
        self.assertEqual(self.run_to_end(states, arn, {"other": 1}, name="e")["input"], '{"other": 1}')

    def test_a_lost_or_damaged_file(self):
        arn = self.created(self.states, "echo", ECHO)
        made = self.states.start_execution(stateMachineArn=arn, name="e", input='{ "a": 1 }')["executionArn"]
        self.ended(self.states, made)
        for damage in (False, True):
            self.server.end()
            if damage:
                with open(f"{self.server.journal}-aws", "wb") as stream:
                    stream.write(b"no database" * 100)
            else:
                os.remove(f"{self.server.journal}-aws")
            self.server = self.amazon()
            self.states, _ = self.clients(self.server)
            found = self.states.describe_execution(executionArn=made)
            self.assertEqual((found["status"], found["input"], found["output"]), ("SUCCEEDED", '{"a":1}', '{"a":1}'))
            self.assertEqual(len(self.states.get_execution_history(executionArn=made)["events"]), 4)
            self.assertEqual(self.states.list_executions(stateMachineArn=arn)["executions"][0]["name"], "e")

    def test_a_full_book(self):
        arn = self.created(self.states, "loop", LOOP)
        with Book.connect(self.server.address, timeout=PATIENCE) as book:
            book.pause()
            book.start("l", "loop", {})
            with self.assertRaises(Full):
                while book.drive(65_536):
                    pass
        self.refused_by("ExecutionLimitExceeded", self.states.start_execution, "settle", stateMachineArn=arn)
        self.refused_by("LimitExceededException", self.tables.put_item, "settle", TableName="items", Item=WIDGET)
        self.assertEqual(self.tables.scan(TableName="items")["Count"], 0)

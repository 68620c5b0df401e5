"""DynamoDB's writes by boto3, each of which is a step. The wanted answers are those of Amazon's documents."""
import contextlib
import re
import subprocess
import sys
from decimal import Decimal

from rollback_client import Book, Done, Ready
from tests.amazon import TABLES, plain_answer, request_of
from tests.amazon_table import STEP, OfTable, step_of
from tests.program import PATIENCE, TOP, Served, follower
from tests.runners import chain, get, running


class Writes(OfTable):
    def test_values_come_back(self):
        item = {
            "id": "k",
            "text": 'ä\u2028"\\',
            "numbers": [1, Decimal("1.50"), Decimal("-0"), Decimal("1E+3"), Decimal("1E-100")],
            "none": None,
            "truth": [True, False],
            "map": {"a": {"b": []}},
            "texts": {"b", "a"},
            "set": {Decimal(1), Decimal("2.5")},
        }
        table = self.resource().Table("items")
        table.put_item(Item=item)
        self.assertEqual(table.get_item(Key={"id": "k"})["Item"], item)

    def test_a_write_is_a_step(self):
        step = step_of(self.put("k", v={"S": "1"}))
        self.assertRegex(step, r"^aws-put-[0-9a-f]{16}#1$")
        book = self.book()
        start = step.replace("#1", "#0")
        self.assertEqual([str(name) for name in book.history()], [start, step])
        self.assertEqual([row["access"] for row in book.item({"id": {"S": "k"}})["accesses"]], ["write"])
        second = step_of(self.put("k", v={"S": "2"}))
        self.assertEqual([str(name) for name in book.rollback(second)], [second])
        self.assertEqual(self.get("k")["v"], {"S": "1"})
        self.assertEqual(str(book.rollback(start)[-1]), start)
        self.assertIsNone(self.get("k"))

    def test_a_write_has_its_place_among_causes(self):
        step = step_of(self.put("k", v={"S": "wrong"}))
        arn = self.created(self.states, "reads", chain(get("k"), {"Type": "Pass"}))
        self.run_to_end(self.states, arn, {}, name="reads-1")
        self.put("other")
        book = self.book()
        self.assertEqual([str(name) for name in book.plan(step)], ["reads-1#2", "reads-1#1", step])
        book.pause(machine="reads")
        book.rollback(step)
        self.assertIsNone(self.get("k"))
        self.assertIsNotNone(self.get("other"))

    def test_a_write_that_was_taken_back_stays_so(self):
        step = step_of(self.put("k"))
        book = self.book()
        book.rollback(step)
        # the runner goes on with others meanwhile
        arn = self.created(self.states, "p", chain({"Type": "Pass"}))
        for _ in range(3):
            self.run_to_end(self.states, arn, {})
        self.assertIsNone(self.get("k"))
        self.assertNotIn(step, [str(name) for name in book.history()])
        # a plain drive takes it again
        self.assertEqual([str(name) for name in book.drive(10)], [step])

    def test_hidden(self):
        self.put("k")
        self.assertEqual(self.states.list_state_machines()["stateMachines"], [])
        arn = "arn:aws:states:us-east-1:000000000000:stateMachine:aws-put"
        self.refused_by("StateMachineDoesNotExist", self.states.list_executions, stateMachineArn=arn)
        self.refused_by("StateMachineDoesNotExist", self.states.start_execution, stateMachineArn=arn)
        self.assertEqual(self.book().question("machines")["machines"], ["aws-put"])

    def test_return_values(self):
        item = {"id": {"S": "k"}, "v": {"S": "1"}}
        put, delete = self.tables.put_item, self.tables.delete_item
        self.assertNotIn("Attributes", put(TableName="items", Item=item, ReturnValues="ALL_OLD"))
        other = {"id": {"S": "k"}, "v": {"S": "2"}}
        self.assertEqual(put(TableName="items", Item=other, ReturnValues="ALL_OLD")["Attributes"], item)
        self.assertNotIn("Attributes", put(TableName="items", Item=item))
        gone = delete(TableName="items", Key={"id": {"S": "k"}}, ReturnValues="ALL_OLD")
        self.assertEqual((gone["Attributes"], self.get("k")), (item, None))
        self.assertRegex(step_of(gone), r"^aws-delete-[0-9a-f]{16}#1$")
        self.assertNotIn("Attributes", delete(TableName="items", Key={"id": {"S": "k"}}, ReturnValues="ALL_OLD"))
        for values in ("ALL_NEW", "UPDATED_OLD"):
            self.refused_by(
                "ValidationException", put, "ALL_OLD or NONE", TableName="items", Item=item, ReturnValues=values
            )

    def test_conditions(self):
        from boto3.dynamodb.conditions import Attr

        table = self.resource().Table("items")
        table.put_item(Item={"id": "k", "v": 1}, ConditionExpression=Attr("id").not_exists())
        given = {
            "TableName": "items",
            "Item": {"id": {"S": "k"}},
            "ConditionExpression": "attribute_not_exists(#i)",
            "ExpressionAttributeNames": {"#i": "id"},
            "ReturnValuesOnConditionCheckFailure": "ALL_OLD",
        }
        status, headers, answer = request_of(self.server.url, f"{TABLES}.PutItem", given)
        self.assertEqual((status, answer["__type"].rpartition("#")[2]), (400, "ConditionalCheckFailedException"))
        self.assertEqual(answer["message"], "The conditional request failed")
        self.assertEqual(answer["Item"], {"id": {"S": "k"}, "v": {"N": "1"}})
        # what it read is a step, which depends on what it read
        read = headers[STEP]
        self.assertIn("#1", read)
        (first, *_) = self.book().history()
        self.assertIn(read, [str(step) for step in self.book().plan(first)])
        found = self.refused_by(
            "ConditionalCheckFailedException",
            self.tables.delete_item,
            TableName="items",
            Key={"id": {"S": "k"}},
            ConditionExpression=" ( attribute_exists ( none ) ) ",
        )
        self.assertNotIn("Item", found)
        table.delete_item(Key={"id": "k"}, ConditionExpression=Attr("v").exists())
        self.assertIsNone(self.get("k"))
        for text, more in (
            ("v = :v", {"ExpressionAttributeValues": {":v": {"S": "x"}}}),
            ("attribute_exists(id) AND attribute_exists(v)", {}),
            ("NOT attribute_exists(id)", {}),
            ("attribute_exists(a.b)", {}),
            ("attribute_exists(#n)", {"ExpressionAttributeNames": {"#n": "a-b"}}),
            ("attribute_exists(#n)", {}),
            ("attribute_exists(id)", {"ExpressionAttributeNames": {"#n": "v"}}),
            ("attribute_exists(id", {}),
            ("", {}),
        ):
            self.refused_by(
                "ValidationException",
                self.tables.put_item,
                TableName="items",
                Item={"id": {"S": "k"}},
                ConditionExpression=text,
                **more,
            )
        self.assertIsNone(self.get("k"))

    def test_items_that_are_refused(self):
        put, entries = self.tables.put_item, self.book().log(0, 0)["entries"]
        deep = {"S": "x"}
        for _ in range(40):
            deep = {"L": [deep]}
        for item in (
            {"v": {"S": "x"}},
            {"id": {"N": "1"}},
            {"id": {"S": ""}},
            {"id": {"S": "k"}, "v": {"B": b"x"}},
            {"id": {"S": "k"}, "v": {"BS": [b"x"]}},
            {"id": {"S": "k"}, "v": {"N": "x"}},
            {"id": {"S": "k"}, "v": {"N": "1" * 39}},
            {"id": {"S": "k"}, "v": {"N": "1E-101"}},
            {"id": {"S": "k"}, "v": {"SS": []}},
            {"id": {"S": "k"}, "v": {"SS": ["a", "a"]}},
            {"id": {"S": "k"}, "v": {"NS": ["1", "1.0"]}},
            {"id": {"S": "k"}, "v": {"NULL": False}},
            {"id": {"S": "k"}, "v": {"S": "x" * (400 << 10)}},
            {"id": {"S": "k"}, "v": deep},
        ):
            self.refused_by("ValidationException", put, TableName="items", Item=item)
        for value in ({"S": "a", "N": "1"}, {}):
            status, _, answer = request_of(
                self.server.url,
                "DynamoDB_20120810.PutItem",
                {"TableName": "items", "Item": {"id": {"S": "k"}, "v": value}},
            )
            self.assertEqual((status, answer["__type"].rpartition("#")[2]), (400, "ValidationException"))
        self.refused_by("ResourceNotFoundException", put, TableName="other", Item={"id": {"S": "k"}})
        self.refused_by(
            "ValidationException", put, TableName="items", Item={"id": {"S": "k"}}, Expected={"id": {"Exists": False}}
        )
        self.assertEqual(self.book().log(0, 0)["entries"], entries)
        for number in ("+5", "5E0", "05.0", ".5E1"):
            put(TableName="items", Item={"id": {"S": "k"}, "v": {"N": number}})
            self.assertEqual(self.get("k")["v"], {"N": "5"}, number)

    def test_held(self):
        step = step_of(self.put("k", v={"S": "1"}))
        book = self.book()
        book.hold(step)
        entries = book.history()
        self.refused_by(
            "TransactionConflictException", self.tables.put_item, step, TableName="items", Item={"id": {"S": "k"}}
        )
        # nothing is left of it
        self.assertEqual(book.history(), entries)
        self.put("other")
        requests = [{"PutRequest": {"Item": {"id": {"S": key}}}} for key in ("a", "k", "b")]
        left = self.tables.batch_write_item(RequestItems={"items": requests})
        self.assertEqual(left["UnprocessedItems"], {"items": requests[1:]})
        self.refused_by(
            "TransactionConflictException", self.tables.batch_write_item, RequestItems={"items": requests[1:]}
        )
        book.undo(step)
        self.put("k", v={"S": "2"})
        self.assertEqual(self.get("k")["v"], {"S": "2"})

    def test_batches(self):
        batch = self.tables.batch_write_item
        self.put("gone")
        requests = [{"PutRequest": {"Item": {"id": {"S": key}}}} for key in ("a", "b")]
        requests.append({"DeleteRequest": {"Key": {"id": {"S": "gone"}}}})
        done = batch(RequestItems={"items": requests})
        self.assertEqual(done["UnprocessedItems"], {})
        steps = step_of(done).split(",")
        self.assertEqual(len(steps), 3)
        self.assertEqual([item["id"]["S"] for item in self.tables.scan(TableName="items")["Items"]], ["a", "b"])
        self.book().rollback(steps[2])
        self.assertIsNotNone(self.get("gone"))
        many = [{"PutRequest": {"Item": {"id": {"S": str(number)}}}} for number in range(26)]
        for wrong in (
            [requests[0], requests[0]],
            many,
            [requests[0], {"PutRequest": {"Item": {"v": {"S": "x"}}}}],
            [{}],
        ):
            self.refused_by("ValidationException", batch, RequestItems={"items": wrong})
        self.refused_by("ResourceNotFoundException", batch, RequestItems={"other": requests})
        self.assertEqual(self.tables.scan(TableName="items", Select="COUNT")["Count"], 3)
        table = self.resource().Table("items")
        with table.batch_writer() as writer:
            for number in range(60):
                writer.put_item(Item={"id": f"w{number}"})
        self.assertEqual(self.tables.scan(TableName="items", Select="COUNT")["Count"], 63)

    def test_a_machine_of_another_hand(self):
        """A machine that has the name of the server's own, and does something else, makes no write."""
        self.book().define("aws-put", chain({"Type": "Pass"}))
        self.put("k")
        self.assertEqual(self.get("k"), {"id": {"S": "k"}})
        self.assertEqual(self.book().question("machines")["machines"], ["aws-put", "aws-put-2"])

    def test_a_restart_keeps_items_and_steps(self):
        step = step_of(self.put("k", v={"S": "1"}))
        self.server.end()
        self.begin()
        self.assertEqual(self.get("k"), {"id": {"S": "k"}, "v": {"S": "1"}})
        self.book().rollback(step)
        self.assertIsNone(self.get("k"))
        self.put("k")
        self.assertIsInstance(self.book().show(step_of(self.put("k")).split("#")[0]), Done)

    def test_ignored(self):
        answer = self.tables.put_item(
            TableName="items",
            Item={"id": {"S": "k"}},
            ReturnConsumedCapacity="TOTAL",
            ReturnItemCollectionMetrics="SIZE",
        )
        self.assertEqual(plain_answer(answer), {})


class Runners(Served):
    """No runner steps a machine that the server defines for writes, within the server or beside it."""

    def test_within_and_beside(self):
        for words in (("--run",), ("--ask",)):
            server = self.begun(
                *words, "--graph", follower(), journal=f"{words[0][2:]}.db", address=self.path(words[0][2:])
            )
            with Book.connect(server.address, timeout=PATIENCE) as book:
                book.define("aws-put", chain({"Type": "Pass"}))
                book.start("aws-put-1", "aws-put", {})
                book.start("e", "p", {})
                with contextlib.ExitStack() as stack:
                    if words[0] == "--ask":
                        stack.enter_context(running(server.address)).rest()
                    self.until(lambda: book.show("e") == Done(7))
                    self.assertEqual(book.show("aws-put-1"), Ready("S0", 0))


class Guide(OfTable):
    def test_the_lines_of_the_readme(self):
        """The four lines of boto3 in README.md, with this server's address in the place of the one that they name."""
        text = (TOP / "README.md").read_text(encoding="utf-8")
        lines = re.search(r"(?m)^    import boto3\n(?:    .*\n)+", text)[0].replace("    ", "")
        self.assertEqual(len(lines.splitlines()), 4)
        self.server.end()
        self.begin(table=("orders", "id:S"), journal="tried.db")
        done = subprocess.run(
            [sys.executable, "-c", lines.replace("http://127.0.0.1:8000", self.server.url)],
            stdout=subprocess.PIPE,
            text=True,
            timeout=PATIENCE,
            check=True,
        )
        step = done.stdout.strip()
        self.assertEqual([str(name) for name in self.book().rollback(step)], [step])
        self.assertEqual(self.tables.scan(TableName="orders")["Count"], 0)

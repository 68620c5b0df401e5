"""A book from an account, and an account's table from a book: against moto's server, and against a book that answers in its place."""
import json
import os
import subprocess
import sys
import unittest

from rollback_client import Book, Done
from tests.amazon import HASH_ID, ROLE, WithAmazon, client_of
from tests.amazon_machines import MACHINES
from tests.pages import python_with
from tests.program import PASS, PATIENCE, PROGRAM, TOP

ORDERS = {"id": {"S": "o-1"}, "n": {"N": "1.5"}, "tags": {"SS": ["b", "a"]}, "m": {"M": {"l": {"L": [{"NULL": True}]}}}}
BINARY = {"id": {"S": "photo"}, "data": {"B": b"\0\1"}}


class WithCommands(WithAmazon):
    """A test of the two commands, with an account."""

    url = None

    def command(self, name, *words, url=None):
        """The status of a command, and what it says."""
        done = subprocess.run(
            [sys.executable, "-m", f"rollback_client.{name}", *words, "--endpoint-url", url or self.url],
            env={
                **os.environ,
                "AWS_ACCESS_KEY_ID": "a",
                "AWS_SECRET_ACCESS_KEY": "b",
                "AWS_DEFAULT_REGION": "us-east-1",
            },
            stdout=subprocess.PIPE,
            stderr=subprocess.STDOUT,
            text=True,
            cwd=TOP / "clients/python",
            timeout=PATIENCE,
            check=False,
        )
        self.assertNotIn("Traceback", done.stdout)
        return done.returncode, done.stdout


class WithAccount(WithCommands):
    """A test with an account, which moto is."""

    def setUp(self):
        if python_with("moto", "flask") is None:
            self.skipTest("no Python with moto and Flask")
        super().setUp()
        self.process = subprocess.Popen(
            [python_with("moto", "flask"), "-m", "tests.moto_server"],
            stdin=subprocess.PIPE,
            stdout=subprocess.PIPE,
            stderr=subprocess.DEVNULL,
            text=True,
            cwd=TOP / "clients/python",
        )
        self.addCleanup(self.process.wait)
        self.addCleanup(self.process.stdout.close)
        self.addCleanup(self.process.stdin.close)
        self.url = self.process.stdout.readline().strip()
        self.states, self.tables = client_of("stepfunctions", self.url), client_of("dynamodb", self.url)

    def table(self, name="orders", *items):
        self.tables.create_table(TableName=name, **HASH_ID)
        for item in items:
            self.tables.put_item(TableName=name, Item=item)

    def pull(self, *words, **more):
        return self.command("pull", "--journal", self.path("orders.db"), "--program", PROGRAM, *words, **more)

    def items_there(self, name="orders"):
        pages = self.tables.get_paginator("scan").paginate(TableName=name)
        return {item["id"]["S"]: item for page in pages for item in page["Items"]}


class Pull(WithAccount):
    def test_machines_and_items(self):
        self.table("orders", ORDERS, BINARY)
        text = json.dumps(MACHINES["approval"], indent=3).replace('"items"', '"orders"')
        for name, definition in (
            ("order", json.dumps(PASS)),
            ("approval", text),
            (
                "lambda",
                json.dumps(
                    {"StartAt": "L", "States": {"L": {"Type": "Task", "Resource": "arn:aws:lambda:x", "End": True}}}
                ),
            ),
            ("order.1", json.dumps(PASS)),
            ("aws-own", json.dumps(PASS)),
        ):
            self.states.create_state_machine(name=name, definition=definition, roleArn=ROLE)
        arn = "arn:aws:states:us-east-1:123456789012:stateMachine:approval"
        self.states.tag_resource(resourceArn=arn, tags=[{"key": "team", "value": "billing"}])
        status, said = self.pull()
        self.assertEqual(status, 1, said)
        for line in (
            "table orders: 1 items",
            "machine order: defined",
            "machine approval: defined",
            "not taken: machine lambda: 1 fault",
            "    error: States.L.Resource (line 1): ",
            "not taken: machine order.1: a name has 1 to 64 letters",
            "not taken: machine aws-own: names that begin with aws-",
            'not taken: item {"id":{"S":"photo"}}: ',
        ):
            self.assertIn(line, said)
        # the book answers in the account's place
        server = self.amazon(table=None)
        states, tables = self.clients(server)
        self.assertEqual([row["name"] for row in states.list_state_machines()["stateMachines"]], ["approval", "order"])
        found = states.describe_state_machine(stateMachineArn=arn)
        self.assertEqual((found["definition"], found["roleArn"]), (text, ROLE))
        self.assertEqual(states.list_tags_for_resource(resourceArn=arn)["tags"], [{"key": "team", "value": "billing"}])
        item = tables.get_item(TableName="orders", Key={"id": {"S": "o-1"}})["Item"]
        self.assertEqual(item, {**ORDERS, "tags": {"SS": ["a", "b"]}})
        ended = self.run_to_end(states, arn, {"request": "r", "amount": 1})
        self.assertEqual(ended["status"], "SUCCEEDED")

    def test_more_items_than_a_line_has(self):
        self.table()
        for number in range(0, 100, 25):
            requests = [
                {"PutRequest": {"Item": {"id": {"S": f"i{at:03}"}, "v": {"S": "x" * 30_000}}}}
                for at in range(number, number + 25)
            ]
            self.tables.batch_write_item(RequestItems={"orders": requests})
        status, said = self.pull("--table", "orders")
        self.assertEqual((status, said), (0, "table orders: 100 items\n"))
        with Book.open(self.path("orders.db"), program=PROGRAM) as book:
            self.assertEqual(len(book.items()), 100)
            self.assertEqual(book.history(), [])
            self.assertIsInstance(book.show("aws-pull-1"), Done)

    def test_what_is_refused(self):
        for words, why in (
            ((), "--table says which table is the book's: there are none"),
            (("--table", "orders"), "ResourceNotFoundException"),
        ):
            status, said = self.pull(*words)
            self.assertEqual(status, 2)
            self.assertIn(why, said)
        self.table("first")
        self.table("second")
        self.assertIn("there are first, second", self.pull()[1])
        with open(self.path("orders.db"), "w", encoding="utf-8"):
            pass
        self.assertIn("a new book is made", self.pull("--table", "first")[1])
        status, said = self.pull("--table", "first", url="http://127.0.0.1:1")
        self.assertEqual(status, 2)


class Push(WithAccount):
    def setUp(self):
        super().setUp()
        self.table("orders", ORDERS, BINARY, {"id": {"S": "old"}, "v": {"S": "1"}}, {"id": {"S": "gone"}})
        self.pull("--table", "orders")
        self.journal = self.path("orders.db")
        with Book.open(self.journal, program=PROGRAM) as book:
            for name, call, of in (
                ("put", "putItem", "Item"),
                ("delete", "deleteItem", "Key"),
            ):
                task = {
                    "Type": "Task",
                    "Resource": f"arn:aws:states:::dynamodb:{call}",
                    "Parameters": {"TableName": "orders", f"{of}.$": "$"},
                    "End": True,
                }
                book.define(name, {"StartAt": "C", "States": {"C": task}})
            book.start("p1", "put", {"id": {"S": "old"}, "v": {"S": "2"}, "w": {"N": "1"}})
            book.start("p2", "put", {"id": {"S": "new"}})
            book.start("d1", "delete", {"id": {"S": "gone"}})
            book.drive(10)

    def push(self, *words):
        return self.command("push", self.journal, "orders", "--journal", "--program", PROGRAM, *words)

    PLAN = (
        'delete {"id":{"S":"gone"}}\nadd {"id":{"S":"new"}}\nreplace {"id":{"S":"old"}}\n'
        "3 to be written, 1 the same\n"
    )

    def test_plan_and_push(self):
        before = self.items_there()
        status, said = self.push("--plan")
        left, _, rest = said.partition("\n")
        self.assertIn('left as it is: {"id":{"S":"photo"}}: ', left)
        self.assertEqual((status, rest), (0, self.PLAN))
        self.assertEqual(self.items_there(), before)
        status, said = self.push()
        self.assertEqual((status, said.splitlines()[-1]), (0, "3 written, 0 not written, 1 the same"))
        found = self.items_there()
        self.assertEqual(sorted(found), ["new", "o-1", "old", "photo"])
        self.assertEqual(found["old"], {"id": {"S": "old"}, "v": {"S": "2"}, "w": {"N": "1"}})
        self.assertEqual(found["photo"], before["photo"])
        status, said = self.push()
        self.assertEqual((status, said.splitlines()[-1]), (0, "0 written, 0 not written, 3 the same"))

    def test_of_a_running_book(self):
        server = self.amazon(table=None)
        status, said = self.command("push", server.address, "orders", "--plan")
        self.assertEqual((status, said.partition("\n")[2]), (0, self.PLAN))

    def test_a_table_that_changes_meanwhile(self):
        """What is there by then isn't overwritten."""
        import argparse

        os.environ.update(AWS_ACCESS_KEY_ID="a", AWS_SECRET_ACCESS_KEY="b", AWS_DEFAULT_REGION="us-east-1")
        from rollback_client.aws.account import Account

        account = Account(argparse.Namespace(profile=None, region="us-east-1", endpoint_url=self.url))
        table = account.table("orders")
        old = {"id": {"S": "old"}, "v": {"S": "1"}}
        key, new = {"id": {"S": "old"}}, {"id": {"S": "old"}, "v": {"S": "2"}}
        other = {"id": {"S": "old"}, "v": {"S": "other"}}
        self.tables.put_item(TableName="orders", Item=other)
        self.assertFalse(account.write(table, new, old, key))
        self.assertFalse(account.write(table, None, old, key))
        self.assertFalse(account.write(table, new, None, key))
        self.assertEqual(self.items_there()["old"], other)
        self.assertTrue(account.write(table, new, other, key))
        self.assertTrue(account.write(table, None, new, key))
        self.assertNotIn("old", self.items_there())

    def test_another_key(self):
        self.tables.create_table(
            TableName="others",
            AttributeDefinitions=[{"AttributeName": "name", "AttributeType": "S"}],
            KeySchema=[{"AttributeName": "name", "KeyType": "HASH"}],
            BillingMode="PAY_PER_REQUEST",
        )
        status, said = self.command("push", self.journal, "others", "--journal", "--program", PROGRAM)
        self.assertEqual(status, 2)
        self.assertIn("another key", said)


class OfABook(WithCommands):
    """A book that answers Amazon's tools is an account, too."""

    def setUp(self):
        super().setUp()
        server = self.amazon()
        self.url = server.url
        states, self.tables = self.clients(server)
        self.tables.put_item(TableName="items", Item={"id": {"S": "k"}, "n": {"N": "1"}})
        self.created(states, "p", PASS)

    def test_pull_and_plan(self):
        new = self.path("new.db")
        status, said = self.command("pull", "--journal", new, "--program", PROGRAM)
        self.assertEqual((status, said), (0, "table items: 1 items\nmachine p: defined, 0 warnings\n"))
        words = ("push", new, "items", "--journal", "--program", PROGRAM)
        self.assertEqual(self.command(*words), (0, "0 written, 0 not written, 1 the same\n"))
        self.tables.put_item(TableName="items", Item={"id": {"S": "k"}, "n": {"N": "2"}})
        self.tables.put_item(TableName="items", Item={"id": {"S": "other"}})
        wanted = 'replace {"id":{"S":"k"}}\ndelete {"id":{"S":"other"}}\n2 to be written, 0 the same\n'
        self.assertEqual(self.command(*words, "--plan"), (0, wanted))
        # a condition on values is none that a book takes
        status, said = self.command(*words)
        self.assertEqual(status, 2)
        self.assertIn("attribute_exists(NAME) or attribute_not_exists(NAME)", said)


class WithoutBoto3(unittest.TestCase):
    def test_what_is_said(self):
        for name, words in (("pull", ["--journal", "/nowhere/x"]), ("push", ["x", "y"])):
            block = "import sys; sys.modules['boto3'] = None; from rollback_client import " + name
            done = subprocess.run(
                [sys.executable, "-c", f"{block}; sys.exit({name}.main({words!r}))"],
                stderr=subprocess.PIPE,
                text=True,
                cwd=TOP / "clients/python",
                check=False,
            )
            self.assertEqual(done.returncode, 2)
            self.assertIn("this needs boto3", done.stderr)

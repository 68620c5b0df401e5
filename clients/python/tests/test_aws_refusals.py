"""What a write answers if the book refuses one of its lines: a program in the place of the book says no where a test wants it."""
import asyncio
import json
import re
import unittest
from unittest import mock

from rollback_client.aws.book import Book, Table, Watch
from rollback_client.aws.store import Store
from rollback_client.aws.wire import Call, Fault, Service
from rollback_client.aws.writes import Writes

ITEM = {"TableName": "items", "Item": {"id": {"S": "k"}}}


class Program:
    """Answers lines, each by what a test says of its first word, and else as a book does."""

    def __init__(self, **answers):
        self.answers = {word: list(said) for word, said in answers.items()}
        self.given = []

    async def give(self, name, line):
        text = line.decode()
        self.given.append(text)
        word, *rest = text.split(" ")
        said = self.answers.get(word)
        if said:
            return f"{said.pop(0)}\n".encode()
        usual = {"define": "ok", "undo": "ok", "show": "ok done {}"}
        if word in ("start", "step"):
            return f"ok {rest[0]}#{0 if word == 'start' else '1 call'}\n".encode()
        return f"{usual[word]}\n".encode()

    async def ask(self, question):
        return json.dumps(self.told).encode()

    told = {"entries": 1, "rollback_graph": 1, "why": None}


class Questions(unittest.TestCase):
    """What the follower says instead of an answer."""

    def asked(self, told):
        program = Program()
        program.told = told
        store = Store(None, 0.0, print)
        return asyncio.run(Book(program, store, Watch(store, 1)).ask("item k"))

    def test_out_of_memory(self):
        with self.assertRaises(Fault) as caught:
            self.asked({"error": "out of memory", "rollback_graph": 1})
        self.assertEqual((caught.exception.name, caught.exception.status), ("InternalServerError", 500))

    def test_what_is_not_there(self):
        for told in (
            {"error": "k is no item", "rollback_graph": 1},
            # an execution that has failed by errors of these names
            {"entries": 9, "error": "out of memory", "rollback_graph": 1},
            {"entries": 9, "error": "no follower", "rollback_graph": 1},
        ):
            self.assertEqual(self.asked(told), told)

    def test_a_list_that_is_refused(self):
        for said, status in (("no 11", 500), ("no 21", None)):
            store = Store(None, 0.0, print)
            book = Book(Program(items=[said]), store, Watch(store, 1))
            if status is None:
                self.assertEqual(asyncio.run(book.items("aws ann")), [])
                continue
            with self.assertRaises(Fault) as caught:
                asyncio.run(book.items("aws ann"))
            self.assertEqual((caught.exception.name, caught.exception.status), ("InternalServerError", status))

    def test_no_follower(self):
        with mock.patch("rollback_client.aws.book.PATIENCE", 0.1), self.assertRaises(Fault) as caught:
            self.asked({"error": "no follower", "rollback_graph": 1})
        self.assertEqual((caught.exception.name, caught.exception.status), ("ServiceUnavailable", 503))


class Refusals(unittest.TestCase):
    def put(self, body=None, **answers):
        """What a put answers: its headers or its fault. The lines that were given stay in `self.lines`, without the name."""
        program = Program(**answers)
        store = Store(None, 0.0, print)
        watch = Watch(store, 1)
        watch.table = Table("items", (("id", "S"),))
        writes = Writes(Book(program, store, watch))
        call = Call(Service.TABLES, "PutItem", body or ITEM)
        try:
            asyncio.run(writes.put("aws ann", call))
            return call.headers
        except Fault as fault:
            return fault
        finally:
            self.lines = [
                re.sub(r"-[0-9a-f]{16}", "-N", line) for line in program.given if not line.startswith("define")
            ]

    MADE = ['start aws-put-N aws-put {"Item":{"id":{"S":"k"}}}', "step aws-put-N", "show aws-put-N"]

    def test_taken(self):
        headers = self.put()
        self.assertRegex(headers["x-rollback-step"], r"^aws-put-[0-9a-f]{16}#1$")
        self.assertEqual(self.lines, self.MADE)

    def test_a_start_that_is_refused_leaves_nothing(self):
        for said, name, status in (
            ("no 10", "LimitExceededException", 400),
            ("no 20", "ValidationException", 400),
            ("no 21", "ResourceNotFoundException", 400),
            ("no 11", "InternalServerError", 500),
            ("no 24", "InternalServerError", 500),
        ):
            fault = self.put(start=[said], step=["no 5"], show=["no 5"])
            self.assertEqual((fault.name, fault.status), (name, status), said)
            self.assertEqual(self.lines, self.MADE)

    def test_a_step_that_is_refused_has_its_start_undone(self):
        for said, name, status in (
            ("no 10", "LimitExceededException", 400),
            ("no 13 order-1#2", "TransactionConflictException", 400),
            ("no 11", "InternalServerError", 500),
            ("no 24", "InternalServerError", 500),
        ):
            fault = self.put(step=[said], show=['ok ready "Write" 0'])
            self.assertEqual((fault.name, fault.status), (name, status), said)
            self.assertEqual(self.lines, [*self.MADE, "undo aws-put-N#0"])
        self.assertIn("the journal takes no line", self.put(step=["no 24"], show=['ok ready "Write" 0']).message)

    def test_an_undoing_that_is_refused_is_said(self):
        fault = self.put(step=["no 24"], show=['ok ready "Write" 0'], undo=["no 24"])
        self.assertEqual((fault.name, fault.status), ("InternalServerError", 500))

    def test_others_between(self):
        # a drive took the step
        self.assertIn("x-rollback-step", self.put(step=["no 6 done"]))
        # a rollback took the start back
        fault = self.put(show=["no 5"])
        self.assertEqual((fault.name, fault.status), ("TransactionConflictException", 400))
        # an execution has the name
        self.assertIn("x-rollback-step", self.put(start=["no 4"], step=["no 6 done"]))
        self.assertEqual(self.lines, [*self.MADE, *self.MADE])

    def test_a_call_that_the_book_refuses_is_taken_back(self):
        fault = self.put(show=['ok failed "DynamoDB.ValidationException" ""'])
        self.assertEqual((fault.name, fault.status), ("ValidationException", 400))
        self.assertEqual(self.lines, [*self.MADE, "undo aws-put-N#1", "undo aws-put-N#0"])


if __name__ == "__main__":
    unittest.main()

"""Machines as users of Amazon's services write them: refused, explained by the linter, and run as they are here."""
import contextlib
import io
import json
import os
import unittest

from rollback_client import Book, Done, Failed, MachineFault, Ready
from rollback_client.lint.__main__ import main
from tests.program import PROGRAM, TOP

FOLDER = TOP / "examples/from-aws"
NAMES = ("billing", "jsonata", "order", "provisioning", "transfer")


def linted(words):
    """The status of the linter and what it writes, in the folder of the examples."""
    before, said = os.getcwd(), io.StringIO()
    os.chdir(FOLDER)
    try:
        with contextlib.redirect_stdout(said):
            return main(words), said.getvalue()
    finally:
        os.chdir(before)


def definition(name):
    return json.loads((FOLDER / f"{name}.asl.json").read_text())


class Machines(unittest.TestCase):
    def test_each_is_there_in_three_files(self):
        found = sorted(path.name for path in FOLDER.iterdir())
        self.assertEqual(
            found, sorted(f"{name}.{end}" for name in NAMES for end in ("asl.json", "txt", "here.asl.json"))
        )

    def test_the_answers_are_those_of_the_files(self):
        for name in NAMES:
            command, answer = (FOLDER / f"{name}.txt").read_text().split("\n", 1)
            self.assertTrue(command.startswith(f"$ rollback-lint {name}.asl.json --table "), command)
            self.assertEqual(linted(command.split(" ")[2:]), (2, answer))

    def test_those_for_here_have_no_errors(self):
        for name in NAMES:
            status, said = linted([f"{name}.here.asl.json"])
            self.assertEqual(status, 0, said)


class Runs(unittest.TestCase):
    def book(self, name, table, key, *items):
        """A book with the machine as it is here. As it was written it is refused."""
        book = Book.open(None, PROGRAM)
        self.addCleanup(book.close)
        book.table(table, {key: "S"}, items)
        with self.assertRaises(MachineFault):
            book.define("written", definition(name))
        book.define("m", definition(f"{name}.here"))
        return book

    def test_order(self):
        ann, blocked = {"orderId": {"S": "ann"}}, {"blocked": {"BOOL": True}, "orderId": {"S": "bob"}}
        book = self.book("order", "Orders", "orderId", ann, blocked, {"orderId": {"S": "unit-1"}})
        lines = [{"lineId": "o-1-1", "count": "2", "cents": "750"}]
        order = {
            "customerId": "ann",
            "orderId": "o-1",
            "chargeId": "charge-1",
            "unit": "unit-1",
            "letterId": "letter-1",
            "placed": "2026-11-29",
            "total": "1500",
            "lines": lines,
        }
        book.start("one", "m", order)
        book.drive(100)
        self.assertEqual(book.show("one"), Done({}))
        self.assertEqual(
            book.items(),
            [
                ann,
                blocked,
                {"cents": {"N": "1500"}, "orderId": {"S": "charge-1"}},
                {"about": {"S": "o-1"}, "orderId": {"S": "letter-1"}},
                {"orderId": {"S": "o-1"}, "placed": {"S": "2026-11-29"}, "total": {"N": "1500"}, "version": {"N": "1"}},
                {"cents": {"N": "750"}, "count": {"N": "2"}, "orderId": {"S": "o-1-1"}},
            ],
        )
        # the unit is taken, and the other customer is blocked
        book.start("two", "m", {**order, "orderId": "o-2", "chargeId": "charge-2"})
        book.start("three", "m", {**order, "customerId": "bob"})
        book.drive(100)
        for name in ("two", "three"):
            self.assertEqual(book.show(name), Failed("OrderRefused", "the customer, the charge or the stock"))

    def test_provisioning(self):
        book = self.book("provisioning", "tenants", "id")
        up = {"TableName": "tenants", "Item": {"id": {"S": "host-1"}, "up": {"BOOL": True}}}
        task = {"Type": "Task", "Resource": "arn:aws:states:::dynamodb:putItem", "Parameters": up, "End": True}
        book.define("up", {"StartAt": "U", "States": {"U": task}})
        book.start("acme", "m", {"region": "eu-west-1", "lock": "lock-eu", "tenant": "acme", "host": "host-1"})
        book.start("other", "m", {"region": "us-east-1", "lock": "lock-us", "tenant": "other", "host": "host-2"})
        for _ in range(6):
            book.step("acme")
        self.assertEqual(book.show("acme"), Ready("WaitForHost", 6))
        book.step("other")
        book.step("other")
        self.assertEqual(book.show("other"), Failed("WrongRegion", "only regions of the EU"))
        book.start("host-1", "up", {})
        book.step("host-1")
        for _ in range(4):
            book.step("acme")
        self.assertEqual(book.show("acme"), Done({"id": {"S": "host-1"}, "up": {"BOOL": True}}))
        self.assertEqual(book.items(), [{"id": {"S": "host-1"}, "up": {"BOOL": True}}])

    def test_billing(self):
        usage = {"cents": {"N": "100"}, "id": {"S": "usage-ann"}}
        book = self.book("billing", "Ledger", "id", usage)
        customers = [{"usage": "usage-ann", "bill": "bill-ann"}, {"usage": "usage-bob", "bill": "bill-bob"}]
        book.start("november", "m", {"customers": customers})
        book.drive(100)
        self.assertEqual(book.show("november"), Done([{"done": 1}, {"done": 0}]))
        bill = {"cents": {"N": "100"}, "id": {"S": "bill-ann"}, "vatPercent": {"N": "19"}}
        self.assertEqual(book.items(), [bill, usage])

    def test_transfer(self):
        message = {"Message": {"S": "hello"}, "MessageId": {"S": "m-1"}}
        book = self.book("transfer", "messages", "MessageId", message)
        book.start("run", "m", {"List": [{"message": "m-1", "letter": "l-1"}]})
        book.drive(100)
        self.assertEqual(book.show("run"), Done(["l-1"]))
        self.assertEqual(book.items(), [{"Body": {"S": "hello"}, "MessageId": {"S": "l-1"}}, message])

    def test_jsonata(self):
        book = self.book("jsonata", "accounts", "id")
        for name in ("one", "two"):
            book.start(name, "m", {"account": "a-1"})
        book.drive(100)
        self.assertEqual(book.show("one"), Done({}))
        self.assertEqual(book.show("two"), Failed("Taken", ""))
        self.assertEqual(book.items(), [{"id": {"S": "a-1"}}])


if __name__ == "__main__":
    unittest.main()

"""The example of a repair, over a server."""
import os
import subprocess
import sys
import unittest

from rollback_client import Book, Failed, Ready
from tests.program import PASS, PATIENCE, PROGRAM, TOP, Served

GET_OR_FAIL = {
    "StartAt": "Check",
    "States": {
        "Check": {
            "Type": "Choice",
            "Choices": [{"Variable": "$.paid", "BooleanEquals": False, "Next": "Stop"}],
            "Default": "End",
        },
        "Stop": {"Type": "Fail", "Error": "Unpaid"},
        "End": {"Type": "Succeed"},
    },
}


class Examples(Served):
    def setUp(self):
        super().setUp()
        self.server = self.serve()

    def example(self, name, *words, text=""):
        command = [sys.executable, str(TOP / "examples/python" / name), self.server.address, *words]
        done = subprocess.run(
            command,
            input=text,
            stdout=subprocess.PIPE,
            text=True,
            timeout=PATIENCE,
            check=True,
            env={**os.environ, "PYTHONPATH": str(TOP / "clients/python")},
        )
        return done.stdout.splitlines()

    def test_repair(self):
        with Book.connect(self.server.address) as book:
            book.table("items", {"id": "S"})
            book.define("order", GET_OR_FAIL)
            book.define("p", PASS)
            book.start("good", "order", {"paid": True})
            book.start("bad", "order", {"paid": False})
            book.start("other", "p", {})
            self.assertEqual(len(book.drive(100)), 5)
            self.assertEqual(book.show("bad"), Failed("Unpaid", ""))
            self.assertEqual(self.example("repair.py", "Nothing"), ["no execution has failed with Nothing"])
            self.assertEqual(
                self.example("repair.py", "Unpaid", "--back", "1", text="n\n"),
                ["bad: bad#2, bad#1", "take back? [y/N] "],
            )
            self.assertEqual(
                self.example("repair.py", "Unpaid", "--back", "1", text="y\n"),
                ["bad: bad#2, bad#1", "take back? [y/N] bad: 2 steps taken back"],
            )
            self.assertEqual(book.show("bad"), Ready("Check", 0))


if __name__ == "__main__":
    unittest.main()

"""A book that looks at a definition before it is sent."""
import json
import os
import pathlib
import pickle
import unittest

from rollback_client import AsyncBook, Book, MachineFault
from rollback_client.lint import Table
from tests.lint_faults import END, KEY, call, machine, passing
from tests.program import PASS, PROGRAM, InFolder

FAULTY = machine(A={"Type": "Pass", "Result": 0.5, "Next": "C"}, B=END)


class Defining(InFolder):
    def setUp(self):
        super().setUp()
        self.book = Book.open(None, PROGRAM)
        self.addCleanup(self.book.close)
        self.book.table("items", {"id": "S"})

    def test_all_errors_are_raised_together_before_anything_is_sent(self):
        for definition in (FAULTY, json.dumps(FAULTY), self.written(FAULTY)):
            with self.assertRaises(MachineFault) as raised:
                self.book.define("m", definition, lint=True)
            fault = raised.exception
            self.assertEqual([finding.code for finding in fault.faults], ["NOT_WHOLE", "NO_SUCH_STATE"])
            self.assertEqual((fault.code, fault.fault, fault.name), (3, 4, "Result"))
            for finding in fault.faults:
                self.assertIn(str(finding), str(fault))
            again = pickle.loads(pickle.dumps(fault))
            self.assertEqual((again.faults, str(again)), (fault.faults, str(fault)))
        # the name is free
        self.book.define("m", PASS, lint=True)

    def written(self, definition):
        path = pathlib.Path(self.path("m.asl.json"))
        path.write_text(json.dumps(definition, indent=1), encoding="utf-8-sig")
        return path

    def test_without_it_the_program_says_one(self):
        with self.assertRaises(MachineFault) as raised:
            self.book.define("m", FAULTY)
        self.assertEqual(raised.exception.faults, ())

    def test_warnings_refuse_nothing(self):
        warned = {**PASS, "TimeoutSeconds": 5}
        self.assertEqual([finding.code for finding in self.book.lint(warned)], ["NO_EFFECT"])
        self.book.define("m", warned, lint=True)

    def test_a_text_that_is_no_json(self):
        with self.assertRaises(MachineFault) as raised:
            self.book.define("m", '{"StartAt": "A",', lint=True)
        self.assertEqual([finding.code for finding in raised.exception.faults], ["NOT_JSON"])
        self.assertEqual(raised.exception.fault, 0)


class Linting(InFolder):
    def test_errors_and_warnings(self):
        book = Book.open(None, PROGRAM)
        self.addCleanup(book.close)
        found = [(finding.code, finding.severity) for finding in book.lint(FAULTY)]
        self.assertEqual(found, [("NOT_WHOLE", "error"), ("NO_SUCH_STATE", "error"), ("UNREACHABLE_STATE", "warning")])
        self.assertEqual(
            [finding.code for finding in book.lint(call(Key=KEY), Table("others", (("id", "S"),)))], ["OTHER_TABLE"]
        )
        with self.assertRaises(OSError):
            book.lint(os.path.join(self.room, "nothing.asl.json"))

    def test_places_are_those_of_a_file(self):
        book = Book.open(None, PROGRAM)
        self.addCleanup(book.close)
        with open(self.path("m.asl.json"), "w", encoding="utf-8") as stream:
            json.dump(passing(Result=0.5), stream, indent=2)
        (finding,) = book.lint(self.path("m.asl.json"))
        self.assertEqual((finding.file, finding.line, finding.as_json()["line"]), (self.path("m.asl.json"), 6, 6))

    def test_a_value_that_nests_too_deep(self):
        value = {}
        for _ in range(5000):
            value = {"a": value}
        book = Book.open(None, PROGRAM)
        self.addCleanup(book.close)
        self.assertEqual([finding.code for finding in book.lint({**PASS, "Comment": value})], ["TOO_NESTED"])


class Awaited(unittest.IsolatedAsyncioTestCase):
    async def test_errors_are_raised(self):
        book = await AsyncBook.open(None, PROGRAM)
        try:
            await book.table("items", {"id": "S"})
            with self.assertRaises(MachineFault) as raised:
                await book.define("m", FAULTY, lint=True)
            self.assertEqual(len(raised.exception.faults), 2)
            self.assertEqual(len(book.lint(FAULTY)), 3)
        finally:
            await book.close()


if __name__ == "__main__":
    unittest.main()

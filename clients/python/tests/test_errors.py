"""What errors say: the line that was refused, the code in words, the detail, and what to do next."""
import pathlib
import pickle
import re
import tempfile
import unittest

from rollback_client import (
    BadBeginning,
    BadJson,
    BadLine,
    BeginningFaultKind,
    Book,
    ConnectionLost,
    HasDependents,
    JsonFaultKind,
    MachineFault,
    MachineFaultKind,
    NoMove,
    NoThread,
    ProgramEnded,
    Refusal,
    Step,
    faults,
)
from tests.program import PASS, PROGRAM, TOP, InFolder


def table_of(heading):
    """The rows of the table of docs/REFERENCE.md with this head, without the marks of code."""
    text = (TOP / "docs/REFERENCE.md").read_text(encoding="utf-8").replace("`", "").replace("\\|", "/")
    lines = text.split(heading, 1)[1].split("\n")
    rows = []
    for line in lines[2:]:
        if not line.startswith("|"):
            break
        rows.append([cell.strip().replace("*", "") for cell in line.strip("|").split("|")])
    return rows


class Documents(unittest.TestCase):
    def test_each_code_is_that_of_the_reference(self):
        rows = table_of("| Code | Name | Why | Detail | What to do |")
        self.assertEqual([int(row[0]) for row in rows], [refusal.code for refusal in faults.REFUSALS])
        for (_, name, why, _, advice), refusal in zip(rows, faults.REFUSALS):
            self.assertEqual((refusal.__name__, refusal.means, refusal.advice), (name, why, advice))

    def test_each_number_is_that_of_the_reference(self):
        for heading, kinds in (
            ("| Reply | Fault of a definition |", MachineFaultKind),
            ("| Reply | Fault of a beginning |", BeginningFaultKind),
            ("| Reply | Fault of J |", JsonFaultKind),
        ):
            rows = table_of(heading)
            self.assertEqual([int(row[0].split(" ")[2]) for row in rows], list(kinds))

    def test_the_words_of_a_definitions_faults(self):
        rows = {int(row[0].split(" ")[2]): row[1] for row in table_of("| Reply | Fault of a definition |")}
        for kind in (
            MachineFaultKind.MISSING,
            MachineFaultKind.NO_STATE,
            MachineFaultKind.NEXT_AND_END,
            MachineFaultKind.TOO_DEEP,
        ):
            self.assertIn(kind.words, rows[kind])


class Messages(InFolder):
    def setUp(self):
        super().setUp()
        self.book = Book.open(program=PROGRAM)
        self.addCleanup(self.book.close)
        self.book.table("items", {"id": "S"})

    def message(self, kind, call):
        with self.assertRaises(kind) as found:
            call()
        return str(found.exception), found.exception

    def test_a_refusal_says_what_was_asked_and_what_to_do(self):
        said, fault = self.message(NoThread, lambda: self.book.show("b"))
        self.assertTrue(said.startswith("show b: no such thread (no 5 NoThread)"), said)
        self.assertTrue(said.endswith(NoThread.advice[1:]), said)
        self.assertEqual(fault.line, "show b")

    def test_a_long_line_is_cut(self):
        said, fault = self.message(faults.NoMachine, lambda: self.book.start("a", "m", "x" * 1000))
        self.assertIn("x" * 150 + "..: no machine", said)
        self.assertNotIn("x" * 201, said)
        self.assertEqual(len(fault.line), len('start a m ""') + 1000)

    def test_a_detail_is_in_words(self):
        assign = {"StartAt": "P", "States": {"P": {"Type": "Pass", "Assign": {}, "End": True}}}
        said, fault = self.message(MachineFault, lambda: self.book.define("m", assign))
        self.assertIn('machine fault 3, left out: "Assign"', said)
        self.assertIs(fault.fault, MachineFaultKind.LEFT_OUT)
        said, fault = self.message(BadJson, lambda: self.book.ask("start a m 1.5"))
        self.assertIn("JSON fault 2, a number that isn't whole", said)
        self.assertIs(fault.fault, JsonFaultKind.NOT_WHOLE)
        with Book.open(program=PROGRAM) as other:
            said, fault = self.message(BadBeginning, lambda: other.table("items", {"id": "S"}, [{}]))
        self.assertIn("beginning fault 3, an item without its key", said)
        self.assertIs(fault.fault, BeginningFaultKind.NO_KEY)

    def test_a_number_that_isnt_known_stays_a_number(self):
        found = faults.refusal_of('no 3 77 "Field"', "define m {}")
        self.assertEqual((found.fault, type(found.fault), found.name), (77, int, "Field"))
        self.assertIn('machine fault 77: "Field"', str(found))
        self.assertEqual(faults.refusal_of("no 23 9").fault, 9)
        found = faults.refusal_of("no 99 some words", "items")
        self.assertEqual((type(found), found.code, found.detail), (Refusal, 99, "some words"))

    def test_errors_are_pickled(self):
        for fault in (
            faults.refusal_of('no 3 3 "Assign"', "define m {}"),
            faults.refusal_of("no 8 a#1", "undo a#0"),
            faults.refusal_of("no 6 done", "step a"),
            ProgramEnded(3, "rollback: store", "items"),
            ConnectionLost("it ended", "items"),
        ):
            again = pickle.loads(pickle.dumps(fault))
            self.assertEqual((type(again), str(again), vars(again)), (type(fault), str(fault), vars(fault)))

    def test_other_details(self):
        self.book.define("p", PASS)
        self.book.start("a", "p", {})
        self.book.step("a")
        self.assertEqual(self.message(NoMove, lambda: self.book.step("a"))[1].why, "done")
        self.assertEqual(self.message(HasDependents, lambda: self.book.undo("a#0"))[1].step, Step("a", 1))


class Words(InFolder):
    """What is looked at before a line is sent. Nothing is sent then, so the book has nothing afterwards."""

    def setUp(self):
        super().setUp()
        self.book = Book.open(program=PROGRAM)
        self.addCleanup(self.book.close)
        self.book.table("items", {"id": "S"})
        self.book.define("p", PASS)

    def tearDown(self):
        self.assertEqual(self.book.history(), [])
        super().tearDown()

    def wrong(self, kind, call, *words):
        with self.assertRaises(kind) as found:
            call(*words)
        self.assertNotIsInstance(found.exception, UnicodeError)
        return str(found.exception)

    def test_numbers_say_their_bounds(self):
        for most in (0, -1, 65537):
            self.assertIn("1 to 65,536", self.wrong(ValueError, self.book.drive, most))
            self.assertIn("1 to 65,536", self.wrong(ValueError, self.book.work, 1, most))
        for workers in (0, 9):
            self.assertIn("1 to 8", self.wrong(ValueError, self.book.work, workers, 5))
        for most in ("5", 5.0, None, True):
            self.wrong(TypeError, self.book.drive, most)

    def test_names(self):
        for name in ("", "a b", "a" * 65, "a/1.0", "é", "a\n", "a#0", "a.b"):
            self.assertIn("64", self.wrong(ValueError, self.book.start, name, "p", {}))
            self.wrong(ValueError, self.book.start, "a", name, {})
            self.wrong(ValueError, self.book.define, name, PASS)
        self.wrong(TypeError, self.book.start, 5, "p", {})

    def test_threads_and_steps(self):
        for thread in ("", "a/", "a/0.1", "a/01.0", "a/1", "a/1.00", "a#1", "a/1.4294967296", "a" + "/1.0" * 32):
            self.wrong(ValueError, self.book.step, thread)
            self.wrong(ValueError, self.book.show, thread)
        for step in ("a", "a#", "a#01", "a#-1", "a#4294967296", "#1", "a #1"):
            for call in (self.book.undo, self.book.plan, self.book.rollback, self.book.hold):
                self.wrong(ValueError, call, step)
        for step in (None, 5, b"a#1"):
            self.wrong(TypeError, self.book.rollback, step)
        # The bounds themselves are names.
        with self.assertRaises(NoThread):
            self.book.show("a" * 64 + "/4294967295.4294967295" * 31)

    def test_tables(self):
        with Book.open(program=PROGRAM) as book:
            for key in (
                {},
                {"a": "S", "b": "S", "c": "S"},
                {"a": "B"},
                {"a b": "S"},
                {"a:b": "S"},
                {"[": "S"},
                {"": "S"},
            ):
                self.wrong(ValueError, book.table, "items", key)
            self.wrong(ValueError, book.table, "it ems", {"id": "S"})
            book.table("a.table" + "x" * 248, {"id": "S", "at": "N"})

    def test_a_float_is_named_by_its_place(self):
        self.assertIn(
            "at /rates/1/of~1all~0: 0.5",
            self.wrong(ValueError, self.book.start, "a", "p", {"rates": [1, {"of/all~": 0.5}]}),
        )
        self.assertIn("at /x: nan", self.wrong(ValueError, self.book.start, "a", "p", {"x": float("nan")}))
        self.assertIn("at /0", self.wrong(ValueError, self.book.start, "a", "p", [2**63]))
        self.assertIn("1.0", self.wrong(ValueError, self.book.start, "a", "p", 1.0))

    def test_what_is_no_json(self):
        circle = []
        circle.append(circle)
        self.wrong(ValueError, self.book.start, "a", "p", circle)
        deep = []
        for _ in range(100000):
            deep = [deep]
        self.wrong(ValueError, self.book.start, "a", "p", deep)
        self.wrong(TypeError, self.book.start, "a", "p", {1, 2})

    def test_a_lone_surrogate(self):
        self.assertIn("surrogate", self.wrong(ValueError, self.book.start, "a", "p", "\ud800"))
        self.wrong(ValueError, self.book.start, "\ud800", "p", 1)
        self.wrong(ValueError, self.book.ask, "show \udcff")

    def test_a_line_that_is_too_long(self):
        with self.assertRaises(BadLine):
            self.book.start("a", "p", "x" * (1 << 20))


class Definitions(InFolder):
    def test_of_a_dict_a_text_and_a_file(self):
        text = '\n  {\n "StartAt": "P",\r\n "States": {"P": {"Type": "Pass", "Result": {"b": 1}, "End": true}}}\n'
        pathlib.Path(self.path("p.json")).write_bytes(("\ufeff" + text).encode())
        with Book.open(program=PROGRAM) as book:
            book.table("items", {"id": "S"})
            for number, definition in enumerate((PASS, text, self.path("p.json"), pathlib.Path(self.path("p.json")))):
                book.define(f"m{number}", definition)
                book.start(f"e{number}", f"m{number}", {})
            self.assertEqual(len(book.drive(9)), 4)
            for definition, kind in (
                (5, TypeError),
                (b"{}", TypeError),
                (None, TypeError),
                ("{", ValueError),
                ('{"a": "x\ny"}', ValueError),
                (self.path("nothing.json"), FileNotFoundError),
                (pathlib.Path(self.room), IsADirectoryError),
            ):
                with self.assertRaises(kind):
                    book.define("x", definition)
            pathlib.Path(self.path("latin")).write_bytes(b'{"a": "\xff"}')
            with self.assertRaisesRegex(ValueError, "latin isn't UTF-8"):
                book.define("x", self.path("latin"))
            # The text is given as it is: seconds of 2.0 are unread, and of a field that comes twice the last one counts.
            book.define(
                "twice", '{"StartAt":"X","StartAt":"P","States":{"P":{"Type":"Wait","Seconds":2.0,"End":true}}}'
            )


if __name__ == "__main__":
    unittest.main()

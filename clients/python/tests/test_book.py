"""Each command and each refusal once, through a child."""
import os
import signal
import unittest

from rollback_client import (
    BadBeginning,
    BadJson,
    BadLine,
    Book,
    Done,
    ExecutionTaken,
    Failed,
    HasDependents,
    Held,
    MachineFault,
    MachineTaken,
    NoMachine,
    NoMove,
    NoStep,
    NoTable,
    NoThread,
    Parked,
    ProgramEnded,
    Ready,
    RollbackError,
    Settled,
    Step,
    TableTaken,
    Taken,
)
from tests.program import FORK, GET, PASS, PROGRAM, PUT, InFolder, takes_work


class Commands(InFolder):
    def setUp(self):
        super().setUp()
        self.book = Book.open(program=PROGRAM)
        self.addCleanup(self.book.close)
        self.book.table("items", {"id": "S"})

    def test_a_first_path(self):
        book = self.book
        book.define("p", PASS)
        self.assertEqual(book.start("a", "p", {}), Step("a", 0))
        self.assertEqual(book.step("a"), Taken(Step("a", 1), "plain"))
        self.assertEqual(book.show("a"), Done(7))
        book.undo("a#1")
        self.assertEqual(book.show("a"), Ready("P", 0))
        self.assertEqual(book.history(), [Step("a", 0)])

    def test_a_write_goes_with_its_readers(self):
        book = self.book
        book.define("put", PUT)
        book.define("get", GET)
        book.start("w", "put", {"v": "x"})
        book.start("r", "get", None)
        self.assertEqual(book.step("w"), Taken(Step("w", 1), "call"))
        self.assertEqual(book.drive(9), [Step("r", 1)])
        book.undo(Step("r", 1))
        self.assertEqual(book.step("r").kind, "call")
        self.assertEqual(book.show("r"), Done({"Item": {"id": {"S": "k"}, "v": {"S": "x"}}}))
        self.assertEqual(book.items(), [{"id": {"S": "k"}, "v": {"S": "x"}}])
        self.assertEqual(book.plan("w#1"), [Step("r", 1), Step("w", 1)])
        self.assertEqual(book.rollback(Step("w", 1)), [Step("r", 1), Step("w", 1)])
        self.assertEqual(book.items(), [])

    def test_a_fork_is_parked(self):
        book = self.book
        book.define("f", FORK)
        book.start("a", "f", [])
        self.assertEqual(book.step("a").kind, "fork")
        parked = book.show("a")
        self.assertEqual(parked, Parked("S", 1, 2))
        self.assertEqual(book.show(parked.branch("a", 1)), Ready("P", 0))
        self.assertEqual(book.step(parked.branch("a", 1)).step.execution, "a")

    def test_an_execution_fails(self):
        book = self.book
        book.define("e", {"StartAt": "E", "States": {"E": {"Type": "Fail", "Error": "no bill", "Cause": 'said "so"'}}})
        book.start("a", "e", {})
        book.step("a")
        self.assertEqual(book.show("a"), Failed("no bill", 'said "so"'))

    def test_workers_take_steps(self):
        book = self.book
        if not takes_work(book):
            self.skipTest("the program has no line work")
        book.define("p", PASS)
        for number in range(8):
            book.start(f"e{number}", "p", {})
        self.assertEqual(sorted(map(str, book.work(4, 100))), [f"e{number}#1" for number in range(8)])
        self.assertEqual(book.work(4, 100), [])

    def test_settled_steps_are_no_more_in_the_history(self):
        book = self.book
        book.define("p", PASS)
        book.start("a", "p", {})
        book.settle()
        self.assertEqual(book.history(), [])
        self.assertEqual(book.step("a"), Taken(Step("a", 1), "plain"))
        self.assertEqual(book.history(), [Step("a", 1)])

    def test_what_is_held_is_undone_while_the_rest_goes_on(self):
        book = self.book
        book.define("put", PUT)
        book.define("get", GET)
        book.define("p", PASS)
        self.assertEqual(book.held(), [])
        book.start("w", "put", {"v": "x"})
        for name in ("r", "s"):
            book.start(name, "get", None)
        book.start("z", "p", {})
        book.step("w")
        book.step("r")
        self.assertEqual(book.hold(Step("w", 1)), 2)
        self.assertEqual(book.held(), [Step("r", 1), Step("w", 1)])
        self.assertEqual(book.drive(9), [Step("z", 1)])
        book.undo("r#1")
        self.assertEqual(book.held(), [Step("w", 1)])
        book.undo("w#1")
        self.assertEqual(book.held(), [])
        self.assertEqual(book.drive(9), [Step("r", 1), Step("s", 1), Step("w", 1)])


class Refusals(InFolder):
    def setUp(self):
        super().setUp()
        self.book = Book.open(program=PROGRAM)
        self.addCleanup(self.book.close)

    def refused(self, kind, call, *words, **wanted):
        with self.assertRaises(kind) as found:
            call(*words)
        self.assertEqual(found.exception.code, kind.code)
        for name, value in wanted.items():
            self.assertEqual(getattr(found.exception, name), value)

    def test_before_a_table(self):
        self.refused(NoTable, self.book.items)
        self.refused(BadBeginning, self.book.table, "items", {"id": "S"}, [{}], fault=3)
        self.refused(BadJson, self.book.ask, "table items id:S [", fault=1)
        self.refused(BadLine, self.book.ask, "nonsense")

    def test_of_a_book(self):
        book = self.book
        book.table("items", {"id": "S"})
        book.define("p", PASS)
        book.start("a", "p", {})
        book.step("a")
        self.refused(TableTaken, book.table, "items", {"id": "S"})
        self.refused(NoMachine, book.start, "b", "q", {})
        self.refused(MachineTaken, book.define, "p", PASS)
        self.refused(MachineFault, book.define, "q", {}, fault=1)
        self.refused(MachineFault, book.define, "q", {"StartAt": "A", "States": {}}, fault=5, name="A")
        self.refused(ExecutionTaken, book.start, "a", "p", {})
        self.refused(NoThread, book.show, "b")
        self.refused(NoMove, book.step, "a", why="done")
        self.refused(NoStep, book.undo, "a#7")
        self.refused(HasDependents, book.undo, "a#0", step=Step("a", 1))
        self.refused(BadJson, book.ask, "start b p 1.5", fault=2)

    def test_of_a_settled_book(self):
        book = self.book
        book.table("items", {"id": "S"})
        book.define("p", PASS)
        book.start("a", "p", {})
        book.settle()
        self.refused(Settled, book.undo, "a#0")
        self.refused(Settled, book.hold, "a#0")

    def test_of_a_hold(self):
        book = self.book
        book.table("items", {"id": "S"})
        book.define("p", PASS)
        self.refused(NoStep, book.hold, "a#0")
        book.start("a", "p", {})
        book.step("a")
        self.assertEqual(book.hold("a#0"), 2)
        self.refused(Held, book.hold, "a#1", step=Step("a", 0))
        self.refused(Held, book.settle, step=Step("a", 0))
        book.undo("a#1")
        self.refused(Held, book.step, "a", step=Step("a", 0))
        book.undo("a#0")
        self.refused(BadLine, book.ask, "hold a")

    def test_a_line_is_one_line(self):
        for line in ("", "show a\nshow b"):
            with self.assertRaises(ValueError):
                self.book.ask(line)
        self.refused(BadLine, self.book.ask, "show " + "a" * (1 << 20))
        self.refused(NoTable, self.book.items)


class Ends(InFolder):
    def test_a_journal_is_opened_again(self):
        with Book.open(self.path("a.db"), PROGRAM) as book:
            book.table("items", {"id": "S"})
            book.define("p", PASS)
            book.start("a", "p", {})
        with Book.open(self.path("a.db"), PROGRAM) as book:
            self.assertEqual(book.history(), [Step("a", 0)])

    def test_a_program_that_refuses_its_journal_tells_why(self):
        with open(self.path("text"), "w", encoding="utf-8") as file:
            file.write("this is no database, but a text of some length\n" * 50)
        book = Book.open(self.path("text"), PROGRAM)
        with self.assertRaises(ProgramEnded) as found:
            book.items()
        self.assertEqual((found.exception.status, found.exception.said), (3, "rollback: store\n"))

    def test_a_program_that_was_killed_is_told(self):
        book = Book.open(program=PROGRAM)
        book.table("items", {"id": "S"})
        os.kill(book._stream.link._child.pid, signal.SIGKILL)
        with self.assertRaises(ProgramEnded) as found:
            book.items()
        self.assertEqual(found.exception.status, -signal.SIGKILL)

    def test_no_program(self):
        with self.assertRaises(RollbackError):
            Book.open(program=self.path("nothing"))


if __name__ == "__main__":
    unittest.main()

"""One execution is finished, or waited for."""
import asyncio
import threading
import unittest

from rollback_client import AsyncBook, Book, Done, Failed, Full, NoThread, Parked, Ready, Step
from tests.program import ECHO, FORK, GET, LOOP, PASS, PATIENCE, PROGRAM, PUT, InFolder

FAIL = {"StartAt": "E", "States": {"E": {"Type": "Fail", "Error": "no bill"}}}


def parallel(*branches):
    return {"StartAt": "S", "States": {"S": {"Type": "Parallel", "End": True, "Branches": list(branches)}}}


def over_list(machine, bound=0):
    state = {"Type": "Map", "ItemProcessor": machine, "End": True}
    if bound:
        state["MaxConcurrency"] = bound
    return {"StartAt": "M", "States": {"M": state}}


class Finishing(InFolder):
    def setUp(self):
        super().setUp()
        self.book = Book.open(program=PROGRAM)
        self.addCleanup(self.book.close)
        self.book.table("items", {"id": "S"})
        self.book.define("p", PASS)
        self.book.start("other", "p", {})

    def finished(self, machine, value=None, **words):
        self.book.define("m", machine)
        self.book.start("a", "m", value)
        return self.book.finish("a", **words)

    def taken(self):
        return [str(step) for step in self.book.history() if step.execution == "a"]

    def tearDown(self):
        # No other execution was moved.
        self.assertEqual(self.book.show("other"), Ready("P", 0))
        super().tearDown()

    def test_of_one_state(self):
        self.assertEqual(self.finished(PASS), Done(7))
        self.assertEqual(self.book.finish("a"), Done(7))
        with self.assertRaises(NoThread):
            self.book.finish("b")

    def test_of_branches(self):
        self.assertEqual(self.finished(parallel(PASS, FORK)), Done([7, [7, 7]]))
        self.assertEqual(len(self.taken()), 1 + 1 + 1 + (1 + 2 + 1) + 1)

    def test_of_a_map_under_a_bound(self):
        self.assertEqual(self.finished(over_list(ECHO, 2), list(range(5))), Done(list(range(5))))

    def test_of_a_branch_that_fails(self):
        self.assertEqual(self.finished(parallel(LOOP, FAIL), most=50), Parked("S", 1, 2))
        self.assertEqual(self.book.step("a/1.1").step, Step("a/1.1", 1))
        self.assertEqual(self.book.finish("a"), Failed("no bill", ""))

    def test_of_a_branch_that_fails_at_once(self):
        self.assertEqual(self.finished(parallel(FAIL, LOOP)), Failed("no bill", ""))
        self.assertEqual(self.taken(), ["a#0", "a#1", "a/1.0#1", "a#2"])

    def test_most_counts_steps(self):
        self.assertEqual(self.finished(LOOP, most=10), Ready("A", 10))
        self.assertEqual(self.book.finish("a", most=5), Ready("A", 15))
        for most in (0, -1):
            with self.assertRaises(ValueError):
                self.book.finish("a", most=most)
        with self.assertRaises(TypeError):
            self.book.finish("a", most=1.5)

    def test_under_a_hold_it_is_held_up(self):
        self.book.define("put", PUT)
        self.book.define("get", parallel(GET, PASS))
        self.book.start("w", "put", {"v": "x"})
        self.book.step("w")
        self.book.hold("w#1")
        self.book.start("a", "get", {})
        self.assertEqual(self.book.finish("a"), Parked("S", 1, 2))
        self.assertEqual(self.book.show("a/1.1"), Done(7))
        self.book.undo("w#1")
        self.assertEqual(self.book.finish("a"), Done([{}, 7]))

    def test_for_asyncio(self):
        async def talk():
            async with await AsyncBook.open(program=PROGRAM) as book:
                await book.table("items", {"id": "S"})
                await book.define("m", parallel(PASS, FORK))
                await book.start("a", "m", None)
                self.assertEqual(await book.finish("a"), Done([7, [7, 7]]))
                self.assertEqual(await book.wait("a"), Done([7, [7, 7]]))
                with self.assertRaises(NoThread):
                    await book.wait("b")

        asyncio.run(talk())


class FullBooks(InFolder):
    def test_a_full_book_is_an_error(self):
        with Book.open(program=PROGRAM) as book:
            book.table("items", {"id": "S"})
            book.define("m", LOOP)
            book.start("filler", "m", {})
            self.assertEqual(len(book.drive(65530)), 65530)
            book.start("a", "m", {})
            # 65,536 steps may remain, of which these are all but four.
            with self.assertRaises(Full):
                book.finish("a")
            self.assertEqual(book.show("a"), Ready("A", 4))


class Waiting(InFolder):
    def test_until_another_caller_has_brought_it_to_its_end(self):
        with Book.open(program=PROGRAM) as book:
            book.table("items", {"id": "S"})
            book.define("p", PASS)
            book.start("a", "p", {})
            with self.assertRaisesRegex(TimeoutError, "a is neither done nor failed"):
                book.wait("a", timeout=0.05)
            later = threading.Timer(0.2, book.step, ["a"])
            later.start()
            self.assertEqual(book.wait("a", timeout=PATIENCE), Done(7))
            later.join()
            with self.assertRaises(NoThread):
                book.wait("b")

    def test_it_pauses_longer_and_longer(self):
        from rollback_client import finishing

        talk = finishing.wait("a", None)
        pauses = []
        next(talk)
        for _ in range(10):
            pauses.append(talk.send(Ready("P", 0)))
            next(talk)
        self.assertEqual(pauses, [0.01, 0.02, 0.04, 0.08, 0.16, 0.32, 0.64, 1.0, 1.0, 1.0])
        talk = finishing.wait("a", 1000)
        next(talk)
        self.assertEqual(talk.send(Ready("P", 0)), 0.01)


if __name__ == "__main__":
    unittest.main()

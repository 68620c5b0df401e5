"""The shell at a server with questions and a runner."""
import contextlib
import io
import json
import unittest

from rollback_client import Book, Ready
from rollback_client.shell.__main__ import COMMANDS, main
from rollback_client.shell.core import Shell
from rollback_client.shell.output import Output
from rollback_client.shell.session import Place, Session
from rollback_client.shell.terminal import Completer
from tests.program import PATIENCE, PROGRAM, TOP, Served, follower
from tests.runners import chain, put, running, wait


class AtServer(Served):
    def begin(self, *words, example="examples/wrong-bill.txt", until="rollback billing-7#0"):
        """A server with the book of an example, up to a line."""
        server = self.serve("--ask", "--graph", follower(), *words, journal=None)
        lines = (TOP / example).read_text(encoding="utf-8").split("\n")
        with Book.connect(server.address, timeout=PATIENCE) as book:
            for line in lines[: lines.index(until)]:
                with contextlib.suppress(Exception):
                    book.ask(line)
        return server

    def shell(self, server, *lines, raw=False):
        """What is written for some lines, and the status."""
        said = io.StringIO()
        with contextlib.redirect_stdout(said):
            status = main([server.address, *(("--raw",) if raw else ()), "-c", *lines])
        return said.getvalue().splitlines(), status


class Questions(AtServer):
    def test_a_wrong_bill_from_its_symptom(self):
        server = self.begin()
        said, status = self.shell(server, "explain order-2", "causes order-2#3 writes", "item ann")
        self.assertEqual(status, 0)
        self.assertIn("in order-2#3, state Refuse", said[0])
        self.assertIn("CustomerBlocked", said[0])
        self.assertEqual(
            said[1:6],
            [
                "order-2#0: is before order-2#1 in its thread",
                "billing-7#2 Block writes ann: wrote ann, which order-2#1 accessed",
                "billing-7#0: is before billing-7#1 in its thread",
                "order-1#0: is before order-1#1 in its thread",
                "order-2#3 depends on 4 steps that wrote an item, or started an execution",
            ],
        )
        self.assertTrue(said[-1].startswith("ann is {"), said[-1])
        self.assertTrue(any(line.startswith("billing-7#2 wrote {") for line in said))
        self.assertTrue(any(line.startswith("order-1#1 read {") for line in said))

    def test_plans_have_reasons(self):
        server = self.begin()
        said, status = self.shell(server, "plan billing-7#0")
        self.assertEqual(
            said,
            [
                "a rollback of billing-7#0 takes back: 6 steps of 2 executions",
                "  order-2    order-2#3  follows order-2#2",
                "             order-2#2  follows order-2#1",
                "             order-2#1  reads ann after billing-7#2",
                "  billing-7  billing-7#2  follows billing-7#1",
                "             billing-7#1  follows billing-7#0",
                "             billing-7#0  the step itself",
            ],
        )
        self.assertEqual(status, 0)

    def test_lists_and_executions(self):
        server = self.begin()
        said, _ = self.shell(server, "list failed", "list machine billing", "show order-2", "show order-2#1")
        self.assertEqual(said[0].split(), ["execution", "machine", "status", "steps", "where"])
        self.assertEqual(said[1].split(), ["order-2", "order", "failed", "4", "CustomerBlocked"])
        self.assertTrue(said[2].startswith("executions: "))
        self.assertEqual([line.split()[0] for line in said[4:5]], ["billing-7"])
        begin = next(place for place, line in enumerate(said) if line.startswith("order-2, of the machine order"))
        self.assertEqual(said[begin + 1], "order-2 has failed with CustomerBlocked: unpaid bills")
        self.assertEqual(said[begin + 3], "  order-2#1 Look reads ann -> Judge")
        self.assertIn("  depends on billing-7#2 (item)", said)
        self.assertIn("  order-2#2 depends on it (thread)", said)

    def test_the_log(self):
        server = self.begin()
        said, _ = self.shell(server, "log 0 4")
        self.assertEqual(said[:3], ["0  table shop", "1  define order", "2  define billing"])
        self.assertEqual(said[3], "3  start order order-1#0")
        said, _ = self.shell(server, "log")
        self.assertLessEqual(len(said), 20)
        self.assertEqual(self.shell(server, "log 1")[1], 1)

    def test_what_has_no_answer(self):
        server = self.begin()
        for line, words in (
            ("causes order-9#1", "order-9#1 is no remaining step"),
            ("explain nobody", "nobody is no thread"),
            ("item nothing", "is no item"),
            ("item", "the item's key is missing"),
            ("causes", "no words"),
            ("show nobody", "there is no thread nobody"),
            ("list some", "a list is of all"),
        ):
            said, status = self.shell(server, line)
            self.assertIn(words, said[0], line)
            self.assertEqual(status, 1)

    def test_raw_answers(self):
        server = self.begin()
        said, _ = self.shell(server, "causes order-2#1", "list open", raw=True)
        self.assertEqual([json.loads(line)["rollback_graph"] for line in said], [1, 1])

    def test_without_questions(self):
        server = self.begun(journal=None)
        with Book.connect(server.address) as book:
            book.start("a", "p", {})
        said, status = self.shell(server, "causes a#0", "list", "list failed", "show a", "plan a#0")
        self.assertIn("answers no questions", said[0])
        self.assertIn("rollback-look", said[0])
        self.assertEqual(said[1].split(), ["execution", "status", "steps", "where"])
        self.assertIn("answers no questions", said[4])
        self.assertEqual(said[5:], ["a is before the state P, after 0 moves", *said[6:]])
        self.assertEqual((said[-1], status), ("  a  a#0", 1))

    def test_completion_of_machines(self):
        server = self.begin()
        shell = Shell(Session(Place(PROGRAM, server.address)), Output(io.StringIO()), COMMANDS)
        completer = Completer(shell)
        self.assertEqual(completer.words(["start", "x"], "bil"), ["billing "])
        self.assertEqual(completer.words(["pause"], ""), ["execution", "machine"])
        self.assertEqual(completer.words(["pause", "machine"], "o"), ["order "])
        self.assertEqual(completer.words(["pause", "execution"], "bill"), ["billing-7 "])
        shell.session.close()


class Runner(AtServer):
    def test_pause_resume_and_waits(self):
        server = self.serve("--ask", "--graph", follower(), journal=None)
        with Book.connect(server.address) as book, running(server.address) as run:
            book.table("items", {"id": "S"})
            book.define("m", chain(wait(Seconds=60), put("k")))
            book.start("a", "m", {})
            book.start("b", "m", {})
            run.until(5)
            said, status = self.shell(server, "waits", "pause b", "pause machine other", "resume machine other")
            self.assertEqual((said[0].split(), status), (["thread", "until", "why"], 0))
            self.assertEqual(said[1].split(), ["a", "2026-11-23", "12:01:00", "UTC", "Wait", "of", "S0"])
            self.assertEqual(
                said[3:],
                [
                    "paused: the runner takes no step of the execution b",
                    "paused: the runner takes no step of the machine other",
                    "resumed: the machine other",
                ],
            )
            run.until(100)
            self.assertEqual(book.show("b"), Ready("S0", 0))
            self.assertEqual(
                self.shell(server, "pause", "resume", "waits")[0][1:], ["resumed", "the runner waits for nothing"]
            )
            said, status = self.shell(server, "pause a b c", "resume machine", "waits now", "pause execution a+b")
            self.assertEqual((len(said), status), (4, 1))

    def test_without_a_runner(self):
        server = self.begun(journal=None)
        said, status = self.shell(server, "pause", "waits")
        self.assertEqual(status, 1)
        for line in said:
            self.assertIn("no runner takes steps of", line)


if __name__ == "__main__":
    unittest.main()

"""Questions through the server: what they see, their order, and a follower that ends."""
import asyncio
import json
import os
import pathlib
import shutil
import signal
import stat
import threading
import time
from unittest import mock

from rollback_client import AsyncBook, Book, Done, NoAnswer, NoFollower, Ready, questions
from rollback_client.server.follower import Follower, accepted
from rollback_client.server.turns import Turns
from tests.program import FORK, LOOP, PASS, PATIENCE, PROGRAM, Served, connected, follower


class Asked(Served):
    def asking(self, *words, machine=PASS, graph=None, **more):
        return self.begun("--ask", "--graph", graph or follower(), *words, machine=machine, **more)

    def script(self, text):
        """An executable file in place of rollback_graph."""
        path = self.path("graph")
        with open(path, "w", encoding="utf-8") as file:
            file.write(text)
        os.chmod(path, stat.S_IRWXU)
        return path

    def follower_of(self, server):
        """The number of the follower's process."""
        children = pathlib.Path(f"/proc/{server.process.pid}/task/{server.process.pid}/children").read_text().split()
        return int(children[1])


class Accepted(Asked):
    def test_pages_of_answers(self):
        for command, line in (
            (questions.item(None, None, 5), "item most 5"),
            (questions.item(None, "ann", 5), "item after ann most 5"),
            (questions.item("ann", "a#1", 5), "item after a#1 most 5 ann"),
            (questions.item({"id": {"S": "ann"}}, None, None), 'item {"id":{"S":"ann"}}'),
            (questions.execution("a", "a#1", 5), "show a after a#1 most 5"),
            (questions.executions("failed", None, 3, "a", 2), "list failed since 3 after a most 2"),
            (questions.threads(None, 3, "a/1.0", 2), "threads since 3 after a/1.0 most 2"),
            (questions.threads(None, None, None, 2), "threads ready most 2"),
        ):
            self.assertEqual(command.line, f"? {line}")
        for wrong in (lambda: questions.item(None, "ann", None), lambda: questions.execution("a", None, 0)):
            with self.assertRaises(ValueError):
                wrong()

    def test_the_journals_lines_of_a_reply(self):
        for line, reply, found in (
            (b"start a p {}\r\n", b"ok a#0\n", [b"start a p {}"]),
            (b"settle\n", b"ok\n", [b"settle"]),
            (b"start a p {}\n", b"no 4\n", []),
            (b"items\n", b"ok 0\n", []),
            (b"plan a#0\n", b"ok 1\na#0\n", []),
            (b"rollback a#0\n", b"ok 1\na#0\n", [b"rollback a#0"]),
            (b"drive 2\n", b"ok 2\na#1\na/1.0#1\n", [b"step a", b"step a/1.0"]),
            (b"work 2 2\n", b"ok 0\n", []),
        ):
            self.assertEqual(accepted(line, reply), found)


class Questions(Asked):
    def test_a_question_sees_every_line_that_was_answered(self):
        server = self.asking(machine=FORK)
        with Book.connect(server.address, timeout=PATIENCE) as book:
            self.assertEqual(book.threads()["threads"], [])
            for number in range(20):
                book.start(f"e{number:02}", "p", {"number": number})
                (row,) = book.threads(f"e{number:02}")["threads"]
                self.assertEqual((row["input"], row["move"], row["state"]), ({"number": number}, "step", "S"))
            book.drive(1000)
            self.assertEqual(book.threads()["threads"], [])
            entries = book.threads()["entries"]
            self.assertEqual(entries, 2 + 20 + 20 * 4)
            book.rollback("e03/1.0#1")
            told = book.threads(since=entries - 1)
            self.assertEqual(
                [(row["thread"], row["move"], row["entry"]) for row in told["threads"]],
                [("e03", None, entries), ("e03/1.0", "step", entries), ("e03/1.1", None, entries)],
            )
            self.assertEqual(book.work(4, 10), [*book.history()[-2:]])
            self.assertEqual(book.threads(since=entries)["gone"], ["e03/1.0", "e03/1.1"])

    def test_callers_at_the_same_time_see_their_own_lines(self):
        server, wrong = self.asking(), []

        def call(name):
            with Book.connect(server.address, timeout=PATIENCE) as book:
                for number in range(40):
                    execution = f"{name}-{number}"
                    book.start(execution, "p", {})
                    (row,) = book.threads(execution)["threads"]
                    book.step(execution)
                    (after,) = book.threads(execution)["threads"]
                    if (row["moves"], row["move"], after["moves"], after["move"]) != (0, "step", 1, None):
                        wrong.append((row, after))

        callers = [threading.Thread(target=call, args=(f"c{number}",)) for number in range(6)]
        for caller in callers:
            caller.start()
        for caller in callers:
            caller.join()
        self.assertEqual(wrong, [])

    def test_answers_come_in_the_order_of_the_callers_lines(self):
        server = self.asking()
        stream, lines = self.plain(server)
        stream.sendall(b"start a p {}\n? threads a\nstep a\n!no\n? threads a\r\nshow a\n? no question\n")
        said = [lines.readline().decode().rstrip("\n") for _ in range(7)]
        self.assertEqual([said[at] for at in (0, 2, 3, 5)], ["ok a#0", "ok a#1 plain", "no 20", "ok done 7"])
        self.assertEqual([json.loads(said[at])["threads"][0]["moves"] for at in (1, 4)], [0, 1])
        self.assertEqual(json.loads(said[6]), {"rollback_graph": 1, "error": "no question"})

    def test_long_answers(self):
        server = self.asking()
        with Book.connect(server.address, timeout=PATIENCE) as book:
            for number in range(12):
                book.start(f"e{number}", "p", "x" * 1_000_000)
            told = book.threads()
            self.assertEqual(sum(len(row["input"]) for row in told["threads"]), 12_000_000)
            page = book.threads(most=2)
            self.assertEqual(([row["thread"] for row in page["threads"]], page["more"]), (["e0", "e1"], True))
            page = book.threads(after="e8", most=2)
            self.assertEqual(([row["thread"] for row in page["threads"]], page["more"]), (["e9"], False))

    def test_what_has_no_answer(self):
        server = self.asking()
        with Book.connect(server.address) as book:
            with self.assertRaises(NoAnswer) as found:
                book.threads("nobody")
            self.assertNotIsInstance(found.exception, NoFollower)
            self.assertEqual(found.exception.detail, "nobody is no thread")
            self.assertEqual(str(found.exception), "? threads nobody: nobody is no thread")
            self.assertRaises(ValueError, book.threads, "a b")
            self.assertRaises(ValueError, book.executions, "ended")
            self.assertRaises(ValueError, book.log, -1)
            self.assertRaises(ValueError, book.item, None, "x")
            self.assertRaises(TypeError, book.question, 7)
            self.assertRaises(ValueError, book.threads, None, None, "a")
            self.assertEqual(
                book.question("machines"), {"rollback_graph": 1, "entries": 2, "more": False, "machines": ["p"]}
            )

    def test_a_journal_that_was_there(self):
        with Book.open(self.path("orders.db"), PROGRAM) as book:
            book.table("items", {"id": "S"})
            book.define("p", LOOP)
            book.start("a", "p", {})
            book.drive(50)
        before = set(os.listdir(self.room))
        server = self.serve("--ask", "--graph", follower())
        self.assertLessEqual(set(os.listdir(self.room)) - before, {"socket", "orders.db-wal"})
        with Book.connect(server.address) as book:
            (row,) = book.threads("a")["threads"]
            self.assertEqual((row["moves"], row["entry"], book.threads()["entries"]), (50, 52, 53))

    def test_a_book_for_asyncio(self):
        server = self.asking()

        async def ask():
            async with await AsyncBook.connect(server.address) as book:
                await book.start("a", "p", {})
                told = await book.threads(since=1)
                try:
                    await book.threads("b")
                except NoAnswer as fault:
                    return told["threads"][0]["thread"], fault.detail

        self.assertEqual(asyncio.run(ask()), ("a", "b is no thread"))

    def test_the_log_has_questions(self):
        server = self.asking("--log", self.path("log"))
        with Book.connect(server.address) as book:
            book.threads()
        server.end()
        entries = [json.loads(line) for line in pathlib.Path(self.path("log")).read_text().split("\n")[:-1]]
        (entry,) = [entry for entry in entries if entry["line"] == "? threads ready"]
        self.assertIn('"threads":[]', entry["reply"])


class OfCopies(Asked):
    def test_the_server_goes_on_while_a_copy_is_made(self):
        path = self.path("book.db")
        with Book.open(path, program=PROGRAM) as book:
            book.table("t", {"id": "S"})
        copied, ticks = [], []

        def copy(source, made):
            self.until(lambda: len(ticks) > 5)
            copied.append((len(ticks), copyfile(source, made)))

        async def begins():
            begun = Follower(Turns(lambda data: None, lambda caller, asked: None), follower(), path)
            beginning = asyncio.ensure_future(begun.begin())
            while not beginning.done():
                ticks.append(await asyncio.sleep(0.01))
            await beginning
            await begun.end()

        copyfile = shutil.copyfile
        with mock.patch.object(shutil, "copyfile", copy):
            asyncio.run(begins())
        self.assertGreater(copied[0][0], 5)
        self.assertEqual([name for name in os.listdir(self.room) if name.startswith(".")], [])


class WithoutFollower(Asked):
    def test_there_is_none(self):
        server = self.begun()
        with Book.connect(server.address) as book:
            self.assertRaises(NoFollower, book.threads)
            self.assertEqual(book.ask("? threads ready"), ['{"rollback_graph":1,"error":"no follower"}'])
            self.assertEqual(str(book.start("a", "p", {})), "a#0")
        with Book.open(program=PROGRAM) as book:
            self.assertRaises(NoFollower, book.causes, "a#0")
            self.assertEqual(book.ask("held") if book.table("t", {"id": "S"}) else ["ok 0"], ["ok 0"])

    def test_it_is_begun_again(self):
        server = self.asking(machine=LOOP)
        with Book.connect(server.address, timeout=PATIENCE) as book:
            book.start("a", "p", {})
            for _ in range(3):
                os.kill(self.follower_of(server), signal.SIGKILL)
                missed = 0
                while True:
                    book.step("a")
                    try:
                        (row,) = book.threads("a")["threads"]
                        break
                    except NoFollower:
                        missed += 1
                        time.sleep(0.01)
                self.assertEqual(Ready("A", row["moves"]), book.show("a"))
                self.assertEqual(row["entry"], 2 + row["moves"])
        status, said = server.end()
        self.assertEqual((status, said.count("begun again")), (0, 3))
        self.assertEqual([name for name in os.listdir(self.room) if name.startswith(".")], [])

    def test_one_that_refuses_a_line(self):
        graph = self.script(
            f"""#!/usr/bin/env python3
import os, subprocess, sys
mark = {self.path("refused")!r}
if os.path.exists(mark):
    os.execv({follower()!r}, [{follower()!r}, *sys.argv[1:]])
count = 0
for line in sys.stdin:
    count += line.startswith("= ")
    if count == 4:
        open(mark, "w").close()
    print("no 11" if count == 4 else "ok" if line.startswith("= ") else "no 20", flush=True)
"""
        )
        server = self.asking(graph=graph)
        with Book.connect(server.address, timeout=PATIENCE) as book:
            book.start("a", "p", {})
            book.step("a")

            def is_back():
                try:
                    return book.threads("a")["threads"][0]["moves"] == 1
                except NoFollower:
                    return False

            self.until(is_back)
            self.assertEqual(book.show("a"), Done(7))
        self.assertIn("refuses a line: no 11", server.end()[1])

    def test_a_book_in_memory_has_none_after_its_end(self):
        server = self.asking(journal=None)
        with Book.connect(server.address) as book:
            self.assertEqual(book.threads()["entries"], 2)
            os.kill(self.follower_of(server), signal.SIGKILL)
            self.until(lambda: "NoFollower" in self.fault_of(book.threads))
            book.start("a", "p", {})
        self.assertIn("in memory", server.end()[1])

    @staticmethod
    def fault_of(call):
        try:
            call()
            return ""
        except NoAnswer as fault:
            return type(fault).__name__

    def test_another_program(self):
        for graph, words in (
            ("/bin/true", "answers no questions"),
            ("/bin/cat", "answers no questions"),
            (self.path("nothing"), "--graph"),
            (self.script("no program"), "can't be begun"),
        ):
            status, said = self.refused("--socket", self.path("s"), "--ask", "--graph", graph)
            self.assertEqual(status, 2, graph)
            self.assertIn(words, said)
            self.assertFalse(os.path.exists(self.path("s")))

    def test_it_is_found_beside_the_program(self):
        folder = self.path("bin")
        os.mkdir(folder)
        os.symlink(PROGRAM, os.path.join(folder, "rollback"))
        os.symlink(follower(), os.path.join(folder, "rollback_graph"))
        server = self.serve("--ask", program="rollback", env={**os.environ, "PATH": folder + ":" + os.environ["PATH"]})
        with Book.connect(server.address) as book:
            self.assertEqual(book.threads()["entries"], 0)

    def test_one_that_hangs_holds_no_end_up(self):
        graph = self.script("#!/bin/sh\nread a; echo no 20; exec sleep 1000\n")
        server = self.asking(graph=graph)
        with Book.connect(server.address) as book:
            book.start("a", "p", {})
            self.assertEqual(str(book.step("a").step), "a#1")
        self.assertEqual(server.end(), (0, ""))

    def test_a_caller_that_leaves_before_the_answer(self):
        server = self.asking()
        for _ in range(5):
            stream = connected(server.address)
            stream.sendall(b"? threads ready\n" * 20)
            stream.close()
        with Book.connect(server.address) as book:
            self.assertEqual(book.threads()["threads"], [])
        self.assertEqual(server.end(), (0, ""))

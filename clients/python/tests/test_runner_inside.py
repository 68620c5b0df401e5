"""The runner within the server, and what needs a journal of some size: fairness, a full book, settling, idleness, ends."""
import asyncio
import json
import os
import pathlib
import signal
import sqlite3
import subprocess
import sys
import time
import unittest
from unittest import mock

from rollback_client import Book, Done, Failed, NoRunner, Ready
from rollback_client.copy import copy_book
from rollback_client.runner.running import Options
from rollback_client.server.inside import InsideRunner
from rollback_client.server.turns import Turns
from rollback_client.server.within import Lines
from tests.program import LOOP, PATIENCE, PROGRAM, TOP, Served, follower
from tests.runners import ABSENT, NOON, PASSING, OwnClock, chain, put, running, wait


class Inside(Served):
    def run_server(self, *words, **more):
        return self.serve("--run", "--graph", follower(), *words, **more)

    def begun_book(self, *machines):
        """A journal with a table and machines, and a book on it that no server has yet."""
        book = Book.open(self.path("orders.db"), PROGRAM)
        self.addCleanup(book.close)
        book.table("items", {"id": "S"})
        for name, machine in machines:
            book.define(name, machine)
        return book

    def journal(self):
        with sqlite3.connect(self.path("orders.db")) as store:
            return [line for (line,) in store.execute("SELECT line FROM entry ORDER BY no")]


class Ends(unittest.IsolatedAsyncioTestCase):
    async def test_a_runner_that_ends_before_its_turn_comes_keeps_no_line_back(self):
        given = []
        turns = Turns(given.append, mock.Mock())
        server = mock.Mock(turns=turns)
        lines, inside = Lines(server, turns), InsideRunner(server, turns, mock.Mock(), Options(), mock.Mock())
        first = asyncio.ensure_future(lines.give("ann", b"step a"))
        await asyncio.sleep(0)
        inside._task = asyncio.ensure_future(inside._begin_turn())
        await asyncio.sleep(0)
        second = asyncio.ensure_future(lines.give("bob", b"step b"))
        await asyncio.sleep(0)
        self.assertEqual(given, [b"step a\n"])
        await inside.end()
        turns.feed(b"ok a#1 plain\n")
        self.assertEqual(await first, b"ok a#1 plain\n")
        await asyncio.sleep(0)
        self.assertEqual(given, [b"step a\n", b"step b\n"])
        turns.feed(b"ok b#1 plain\n")
        self.assertEqual(await asyncio.wait_for(second, PATIENCE), b"ok b#1 plain\n")


class Runs(Inside):
    def test_waits_retries_and_branches(self):
        server = self.run_server("--log", self.path("log"))
        with Book.connect(server.address, timeout=PATIENCE) as book:
            book.table("items", {"id": "S"})
            lock = put("lock", call=ABSENT, Retry=[{"ErrorEquals": ["States.ALL"], "IntervalSeconds": 0.05}])
            fork = {"Type": "Parallel", "Branches": [chain(wait(Seconds=0.1)), chain(PASSING, PASSING)]}
            book.define("m", chain(fork, wait(Seconds=0.1), lock))
            for name in ("a", "b"):
                book.start(name, "m", {})
            self.until(
                lambda: isinstance(book.show("a"), (Done, Failed)) and isinstance(book.show("b"), (Done, Failed))
            )
            ends = [type(book.show(name)) for name in ("a", "b")]
            self.assertEqual(sorted(kind.__name__ for kind in ends), ["Done", "Failed"])
        self.assertEqual(server.end(), (0, ""))
        entries = [json.loads(line) for line in pathlib.Path(self.path("log")).read_text().split("\n")[:-1]]
        steps = [entry for entry in entries if entry["line"].startswith("step ")]
        self.assertEqual({entry["caller"] for entry in steps}, {"runner"})
        self.assertEqual({entry["reply"][:2] for entry in steps}, {"ok"})

    def test_no_wait_ends_early(self):
        server = self.run_server("--log", self.path("log"))
        with Book.connect(server.address, timeout=PATIENCE) as book:
            book.table("items", {"id": "S"})
            book.define("m", chain(PASSING, wait(SecondsPath="$.s"), PASSING))
            seconds = {f"e{number}": number * 0.03 for number in range(20)}
            for name, of in seconds.items():
                book.define(f"m-{name}", chain(PASSING, wait(Seconds=of)))
                book.start(name, f"m-{name}", {})
            self.until(lambda: all(isinstance(book.show(name), Done) for name in seconds))
        server.end()
        times = {}
        for line in pathlib.Path(self.path("log")).read_text().split("\n")[:-1]:
            entry = json.loads(line)
            if entry["line"].startswith("step "):
                at = time.mktime(time.strptime(entry["time"][:19], "%Y-%m-%dT%H:%M:%S")) + float(entry["time"][19:-1])
                times.setdefault(entry["line"][5:], []).append(at)
        for name, of in seconds.items():
            first, second = times[name]
            # the log is written when a step was answered, to the millisecond
            self.assertGreaterEqual(second - first, of - 0.05, name)

    def test_it_takes_no_place_and_shares_the_book(self):
        server = self.run_server("--callers", "1")
        with Book.connect(server.address, timeout=PATIENCE, retry=PATIENCE) as book:
            book.table("items", {"id": "S"})
            book.define("loop", LOOP)
            for number in range(5):
                book.start(f"e{number}", "loop", {})
            for _ in range(20):
                self.until(lambda: book.show("e3").moves > 2)
                book.pause()
                before = book.history()
                self.assertEqual(book.history(), before)
                book.rollback("e3#1")
                self.assertEqual(book.show("e3"), Ready("A", 0))
                book.resume()
            self.assertEqual(book.waits(), [])
            book.pause()
        self.assertEqual(server.end()[0], 0)

    def test_pauses_outlast_a_restart(self):
        server = self.run_server()
        with Book.connect(server.address, timeout=PATIENCE) as book:
            book.table("items", {"id": "S"})
            book.define("m", chain(PASSING))
            book.pause(machine="m")
            book.start("a", "m", {})
        server.process.kill()
        server.process.wait(PATIENCE)
        server = self.run_server("--wait", str(PATIENCE))
        with Book.connect(server.address, timeout=PATIENCE) as book:
            book.define("n", chain(PASSING))
            book.start("b", "n", {})
            self.until(lambda: isinstance(book.show("b"), Done))
            self.assertEqual(book.show("a"), Ready("S0", 0))
            book.resume(machine="m")
            self.until(lambda: isinstance(book.show("a"), Done))

    def test_clocks_outlast_a_restart(self):
        server = self.run_server()
        with Book.connect(server.address, timeout=PATIENCE) as book:
            book.table("items", {"id": "S"})
            book.define("m", chain(wait(Seconds=3600)))
            book.start("a", "m", {})
            self.until(book.waits)
            before = book.waits()
        for number in (signal.SIGTERM, signal.SIGKILL):
            server.process.send_signal(number)
            server.process.wait(PATIENCE)
            server = self.run_server("--wait", str(PATIENCE))
            with Book.connect(server.address, timeout=PATIENCE) as book:
                self.until(book.waits)
                self.assertEqual(book.waits(), before)

    def test_a_follower_that_is_killed(self):
        server = self.run_server()
        with Book.connect(server.address, timeout=PATIENCE) as book:
            book.table("items", {"id": "S"})
            book.define("m", chain(*[PASSING] * 5))
            for round in range(3):
                children = pathlib.Path(f"/proc/{server.process.pid}/task/{server.process.pid}/children").read_text()
                os.kill(int(children.split()[1]), signal.SIGKILL)
                for number in range(20):
                    book.start(f"e{round}-{number}", "m", {})
                self.until(lambda: all(isinstance(book.show(f"e{round}-{number}"), Done) for number in range(20)))
        self.assertEqual(server.end()[0], 0)

    def test_copies_amid_its_steps(self):
        """Each copy is a journal of whole lines, and the runner goes on."""
        server = self.run_server()
        with Book.connect(server.address, timeout=PATIENCE) as book:
            book.table("items", {"id": "S"})
            book.define("loop", LOOP)
            for number in range(10):
                book.start(f"e{number}", "loop", {})
            self.until(lambda: len(book.history()) > 20)
            before = 20
            for number in range(5):
                lines, steps = copy_book(server.address, self.path(f"copy{number}"), PROGRAM, PATIENCE)
                self.assertEqual(lines, 2 + steps)
                self.assertGreaterEqual(steps, before)
                before = steps
            self.until(lambda: len(book.history()) > before)
            book.pause()

    def test_a_standing_runner_beside_the_one_inside(self):
        server = self.run_server(journal=None)
        with Book.connect(server.address, timeout=PATIENCE) as book:
            book.table("items", {"id": "S"})
            child = subprocess.Popen(
                [sys.executable, "-m", "rollback_client.runner", server.address, "--wait", "0"],
                cwd=TOP / "clients/python",
                stderr=subprocess.PIPE,
                text=True,
            )
            self.addCleanup(child.stderr.close)
            self.assertIn("stands by", child.stderr.readline())
            self.assertEqual(book.waits(), [])
        server.end()
        self.assertEqual(child.wait(PATIENCE), 1)


class Many(Inside):
    def test_none_starves(self):
        """A thousand executions of ten steps end before any of ten endless ones has taken more than eleven."""
        book = self.begun_book(("ten", chain(*[PASSING] * 10)), ("endless", LOOP))
        for number in range(10):
            book.start(f"endless-{number}", "endless", {})
        for number in range(1000):
            book.start(f"ten-{number}", "ten", {})
        book.close()
        server = self.run_server()
        with Book.connect(server.address, timeout=PATIENCE) as book:
            self.until(lambda: book.show("endless-0").moves > 11)
        self.assertEqual(server.end()[0], 0)
        steps = [line[5:] for line in self.journal() if line.startswith("step ")]
        last = max(place for place, thread in enumerate(steps) if thread.startswith("ten-"))
        self.assertEqual(sum(1 for thread in steps if thread.startswith("ten-")), 10_000)
        for number in range(10):
            self.assertLessEqual(steps[: last + 1].count(f"endless-{number}"), 11)

    def filled(self, left):
        """A book in which so many steps are left."""
        book = self.begun_book(("loop", LOOP), ("m", chain(PASSING, PASSING)))
        book.start("loop", "loop", {})
        book.drive(65_535 - left)
        return book

    def test_a_full_book(self):
        book = self.filled(1)
        book.start("a", "m", {})
        book.close()
        server = self.serve("--ask", "--graph", follower())
        with Book.connect(server.address, timeout=PATIENCE) as book, running(server.address) as run:
            self.until(lambda: run.said)
            run.rest()
            self.assertEqual(run.said, ["the book is full, and no step is taken until there is room"])
            self.assertEqual(book.show("a"), Ready("S0", 0))
            book.undo(f"loop#{65_534}")
            self.until(lambda: len(book.history()) == 65_536)
            run.rest()
            book.pause()
            book.settle()
            self.assertEqual(book.history(), [])
            book.resume(execution="a")
            book.resume()
            self.until(lambda: isinstance(book.show("a"), Done))
            book.pause()

    def test_it_settles_if_it_is_asked(self):
        book = self.begun_book(("loop", LOOP))
        book.start("loop", "loop", {})
        book.close()
        server = self.serve("--ask", "--graph", follower())
        with Book.connect(server.address, timeout=PATIENCE) as book, running(server.address, settle_at=200) as run:
            seen = []

            def has_settled():
                seen.append(len(book.history()))
                return len(run.said) >= 3

            self.until(has_settled)
            book.pause(execution="other")
            self.until(lambda: len(book.history()) > 300)
            self.assertLess(max(seen), 300)
            self.assertTrue(all(line.endswith("steps are settled") for line in run.said))
            book.pause()
            (first, *_) = book.history()
            book.hold(first)
            book.resume()
            before = len(run.said)
            run.rest()
            self.assertEqual(len(run.said), before)
            book.pause()


class Idle(Inside):
    def seconds(self, process):
        """The processor time that a process has taken."""
        fields = pathlib.Path(f"/proc/{process.pid}/stat").read_text().rpartition(")")[2].split()
        return (int(fields[11]) + int(fields[12])) / os.sysconf("SC_CLK_TCK")

    def test_nothing_is_done_while_all_wait(self):
        """Of 10,000 executions 9,990 wait an hour: in ten seconds a runner takes little beside what it took until it knew them."""
        machines = (("hour", chain(wait(Seconds=3600))), ("m", chain(PASSING)))
        servers = []
        for name in ("inside.db", "outside.db"):
            with Book.open(self.path(name), PROGRAM) as book:
                book.table("items", {"id": "S"})
                for machine in machines:
                    book.define(*machine)
                for number in range(10_000):
                    book.start(f"e{number}", "hour" if number >= 10 else "m", {})
            how = "--run" if name == "inside.db" else "--ask"
            socket = self.path(name + ".socket")
            servers.append(self.serve(how, "--graph", follower(), journal=name, address=socket))
        inside, outside = servers
        runner = subprocess.Popen(
            [sys.executable, "-m", "rollback_client.runner", outside.address], cwd=TOP / "clients/python"
        )
        try:
            with Book.connect(inside.address) as first, Book.connect(outside.address) as second:
                for book in (first, second):
                    self.until(lambda: self.waits_of(book) == 9_990)
            before = [self.seconds(process) for process in (inside.process, runner)]
            time.sleep(10)
            after = [self.seconds(process) for process in (inside.process, runner)]
        finally:
            runner.terminate()
            runner.wait(PATIENCE)
        for earlier, later in zip(before, after):
            self.assertLess(later - earlier, earlier / 5)

    @staticmethod
    def waits_of(book):
        try:
            return len(book.waits())
        except NoRunner:
            return -1


if __name__ == "__main__":
    unittest.main()

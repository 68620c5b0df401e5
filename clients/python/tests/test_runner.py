"""The runner beside a server, with a clock of its own: clocks, turns, holds, pauses, restarts."""
import os
import shutil
import signal
import sqlite3
import subprocess
import sys
import time
import unittest
from datetime import datetime, timezone

from rollback_client import Book, Done, Failed, NoRunner, Parked, Ready
from tests.program import LOOP, PATIENCE, PROGRAM, TOP, Served, follower
from tests.runners import (
    ABSENT,
    NOON,
    PASSING,
    OwnClock,
    chain,
    delete,
    get,
    poller,
    put,
    running,
    wait,
)


class Ran(Served):
    """A server that answers questions, in memory, and a book on it."""

    def setUp(self):
        super().setUp()
        self.server = self.serve("--ask", "--graph", follower(), journal=None)
        self.book = self.opened(self.server)
        self.book.table("items", {"id": "S"})

    def opened(self, server):
        book = Book.connect(server.address, timeout=PATIENCE)
        self.addCleanup(book.close)
        return book

    def start(self, execution, machine, input=None):
        self.book.define(f"m-{execution}", machine)
        self.book.start(execution, f"m-{execution}", {} if input is None else input)

    def moves(self, thread):
        return self.book.show(thread).moves

    def moments(self):
        """What the runner waits for, in seconds after noon."""
        return {
            found.thread: None if found.moment is None else round(found.moment.timestamp() - NOON, 6)
            for found in self.book.waits()
        }


class Clocks(Ran):
    def test_waits_by_each_field_first_and_amid_others(self):
        later = datetime.fromtimestamp(NOON + 40, timezone.utc).strftime("%Y-%m-%dT%H:%M:%SZ")
        for name, fields, seconds in (
            ("a", {"Seconds": 10}, 10),
            ("b", {"SecondsPath": "$.in.s", "InputPath": "$"}, 20),
            ("c", {"Timestamp": later}, 40),
            ("d", {"TimestampPath": "$.in.t"}, 40),
        ):
            given = {"in": {"s": 20, "t": later}}
            with self.subTest(name), running(self.server.address) as run:
                self.start(f"first-{name}", chain(wait(**fields)), given)
                self.start(f"amid-{name}", chain(PASSING, wait(**fields), PASSING), given)
                run.until(seconds - 0.001)
                self.assertEqual((self.moves(f"first-{name}"), self.moves(f"amid-{name}")), (0, 1))
                self.assertEqual(self.moments(), {f"first-{name}": seconds, f"amid-{name}": seconds})
                run.until(seconds)
                for execution in (f"first-{name}", f"amid-{name}"):
                    self.assertIsInstance(self.book.show(execution), Done)
                self.assertEqual(run.jumps, [seconds])

    def test_a_poller_and_the_job_that_it_waits_for(self):
        self.start("poll", poller(30, "done"))
        self.start("job", chain(wait(Seconds=100), put("done")))
        with running(self.server.address) as run:
            run.until(119)
            self.assertIsInstance(self.book.show("job"), Done)
            # at 30, 60 and 90 a Wait, a get and a Choice
            self.assertEqual(self.book.show("poll"), Ready("S0", 9))
            run.until(3600)
        self.assertIsInstance(self.book.show("poll"), Done)
        self.assertEqual(len([step for step in self.book.history() if step.thread == "poll"]), 1 + 4 * 3 + 1)
        self.assertEqual(run.jumps, [30, 60, 90, 100, 120])

    def test_eight_tenants_with_one_lock(self):
        """The lock is tried twelve times, every five seconds, and kept for three."""
        retry = [{"ErrorEquals": ["States.TaskFailed"], "IntervalSeconds": 5, "MaxAttempts": 12, "BackoffRate": 1}]
        self.book.define("tenant", chain(put("lock", call=ABSENT, Retry=retry), wait(Seconds=3), delete("lock")))
        for number in range(8):
            self.book.start(f"tenant-{number}", "tenant", {})
        with running(self.server.address) as run:
            run.until(60)
        self.assertEqual([type(self.book.show(f"tenant-{number}")) for number in range(8)], [Done] * 8)
        self.assertEqual(self.book.items(), [])

    def retried(self, name, seconds, **retrier):
        self.start(name, chain(put("there", call=ABSENT, Retry=[{"ErrorEquals": ["States.ALL"], **retrier}])))
        with running(self.server.address) as run:
            run.until(seconds)
        self.assertIsInstance(self.book.show(name), Failed)
        return run.jumps

    def test_retries(self):
        self.start("first", chain(put("there")))
        self.book.drive(10)
        self.assertEqual(self.retried("plain", 100, MaxAttempts=4), [1, 3, 7, 15])
        self.assertEqual(self.retried("bound", 100, MaxAttempts=5, MaxDelaySeconds=5), [1, 3, 7, 12, 17])
        self.assertEqual(self.retried("three", 100, IntervalSeconds=3, BackoffRate=1), [3, 6, 9])
        (first, second) = self.retried("drawn", 100, MaxAttempts=2, JitterStrategy="FULL", IntervalSeconds=4)
        self.assertTrue(0 <= first <= 4 and 0 <= second - first <= 8)

    def test_a_map_that_is_retried_waits_before_it_forks_again(self):
        processor = {"StartAt": "P", "States": {"P": put("there", call=ABSENT, End=True)}}
        fork = {"Type": "Map", "ItemsPath": "$", "ItemProcessor": processor}
        fork["Retry"] = [{"ErrorEquals": ["States.ALL"], "IntervalSeconds": 10, "MaxAttempts": 2}]
        self.start("first", chain(put("there")))
        self.book.drive(10)
        self.start("each", chain(fork), [1, 2])
        with running(self.server.address) as run:
            run.until(9)
            # it has forked, failed and ended the fork
            self.assertEqual(self.book.show("each"), Ready("S0", 2))
            run.until(100)
        self.assertIsInstance(self.book.show("each"), Failed)
        self.assertEqual(run.jumps, [10, 30])

    def test_waits_in_branches_under_a_bound(self):
        """A branch that waits for an earlier one begins its Wait when that one is done."""
        fork = {"Type": "Map", "ItemsPath": "$", "MaxConcurrency": 1}
        fork["ItemProcessor"] = {"StartAt": "W", "States": {"W": wait(Seconds=10, End=True)}}
        self.start("each", chain(fork), [1, 2, 3])
        with running(self.server.address) as run:
            run.until(35)
        self.assertIsInstance(self.book.show("each"), Done)
        self.assertEqual(run.jumps, [10, 20, 30])

    def test_what_gives_no_moment_ends_nothing(self):
        self.start("far", chain(wait(Seconds=1e300)))
        self.start("none", chain(wait(SecondsPath="$.no")))
        self.start("text", chain(wait(Timestamp="tomorrow")))
        self.start("first", chain(put("there")))
        retrier = {"ErrorEquals": ["States.ALL"], "BackoffRate": 1e200, "MaxAttempts": 5}
        self.start("rate", chain(put("there", call=ABSENT, Retry=[retrier])))
        self.start("other", chain(wait(Seconds=5)))
        with running(self.server.address) as run:
            run.until(10)
            self.assertEqual(sorted(self.moments()), ["far", "rate"])
        for name in ("none", "text", "other"):
            self.assertIsInstance(self.book.show(name), Done)
        self.assertEqual(
            sorted(run.said),
            [
                "none in S0: SecondsPath: $.no picks nothing, so it is due now",
                "text in S0: Timestamp: 'tomorrow' is no time, so it is due now",
            ],
        )


class Repairs(Ran):
    def test_a_rollback_of_a_step_before_the_wait_and_of_the_wait_itself(self):
        self.start("a", chain(PASSING, wait(Seconds=50), PASSING, wait(Seconds=1000)))
        with running(self.server.address) as run:
            run.until(20)
            self.book.rollback("a#1")
            run.rest()
            self.assertEqual(self.moments(), {"a": 70})
            run.until(80)
            self.assertEqual(self.moves("a"), 3)
            self.book.rollback("a#2")
            run.rest()
            self.assertEqual((self.moves("a"), self.moments()), (1, {"a": 130}))
            self.book.rollback("a#0")
            run.rest()
            self.assertEqual(self.moments(), {})

    def test_a_hold_in_the_way(self):
        self.start("bill", chain(put("ann")))
        self.book.drive(10)
        self.book.hold("bill#1")
        self.start("order", chain(get("ann", ResultPath="$.ann"), PASSING))
        self.start("other", chain(get("bob", ResultPath="$.bob"), PASSING))
        with running(self.server.address) as run:
            run.until(10)
            self.assertIsInstance(self.book.show("other"), Done)
            self.assertEqual((self.moves("order"), self.moments()), (0, {"order": None}))
            self.assertEqual([found.why for found in self.book.waits()], ["bill#1 is held"])
            self.book.undo("bill#1")
            run.until(20)
            self.assertIsInstance(self.book.show("order"), Done)
            self.assertIsInstance(self.book.show("bill"), Done)

    def test_pauses(self):
        self.start("a", chain(wait(Seconds=10), *[PASSING] * 3))
        self.start("b", chain(wait(Seconds=10), *[PASSING] * 3))
        self.start("c", chain(wait(Seconds=10), *[PASSING] * 3))
        with running(self.server.address) as run:
            run.until(5)
            self.book.pause(execution="a")
            self.book.pause(machine="m-b")
            run.until(30)
            self.assertEqual([self.moves("a"), self.moves("b")], [0, 0])
            self.assertIsInstance(self.book.show("c"), Done)
            self.book.resume(execution="a")
            run.until(31)
            self.assertIsInstance(self.book.show("a"), Done)
            self.assertEqual(self.moves("b"), 0)
            self.book.pause()
            self.book.resume(machine="m-b")
            run.until(32)
            self.assertEqual(self.moves("b"), 0)
            self.book.resume()
            run.until(33)
            self.assertIsInstance(self.book.show("b"), Done)

    def test_a_pause_amid_a_repair(self):
        """No step is given after the pause was answered, however busy the runner is."""
        self.book.define("loop", LOOP)
        for number in range(20):
            self.book.start(f"e{number}", "loop", {})
        with running(self.server.address):
            for _ in range(10):
                self.until(lambda: len(self.book.history()) > 60)
                self.book.pause()
                before = self.book.history()
                time.sleep(0.02)
                self.assertEqual(self.book.history(), before)
                self.book.rollback("e3#1")
                self.assertEqual(self.moves("e3"), 0)
                self.book.resume()
                self.until(lambda: self.moves("e3") > 0)
                self.book.pause()
                for number in range(20):
                    self.book.rollback(f"e{number}#1")
                self.book.resume()
            self.book.pause()

    def test_without_a_runner(self):
        self.assertRaises(NoRunner, self.book.waits)
        self.book.pause(execution="a")
        self.start("a", chain(PASSING))
        self.start("b", chain(PASSING))
        with running(self.server.address) as run:
            run.until(1)
            self.assertEqual((self.moves("a"), self.book.show("b")), (0, Done({})))
            self.assertEqual(self.book.waits(), [])
        self.until(lambda: self.raises(NoRunner))
        plain = self.begun(address=self.path("plain"), journal=None)
        with Book.connect(plain.address) as book:
            self.assertRaises(NoRunner, book.pause)
        with Book.open(program=PROGRAM) as book:
            self.assertRaises(NoRunner, book.resume, "a")
            self.assertRaises(NoRunner, book.waits)

    def raises(self, kind):
        try:
            self.book.waits()
        except kind:
            return True
        return False


class Others(Ran):
    def test_only_and_except(self):
        for name in ("a", "b", "c"):
            self.start(name, chain(PASSING))
        with running(self.server.address, only=frozenset(("m-a", "m-b")), exceptions=frozenset(("m-b",))) as run:
            run.until(1)
        self.assertEqual([type(self.book.show(name)) for name in "abc"], [Done, Ready, Ready])

    def test_a_rate(self):
        self.book.define("loop", LOOP)
        self.book.start("a", "loop", {})
        self.book.start("b", "loop", {})
        with running(self.server.address, rate=4) as run:
            run.until(10.01)
        self.assertEqual(self.moves("a") + self.moves("b"), 41)

    def test_somebody_else_steps(self):
        self.start("a", chain(wait(Seconds=10), wait(Seconds=10), PASSING))
        with running(self.server.address) as run:
            run.until(5)
            self.book.step("a")
            run.rest()
            self.assertEqual(self.moments(), {"a": 15})
            run.until(15)
        self.assertIsInstance(self.book.show("a"), Done)

    def test_two_runners(self):
        """The second one stands by, and takes over. None of the Waits ends early."""
        self.start("a", chain(wait(Seconds=100), PASSING, wait(Seconds=100)))
        with running(self.server.address) as first:
            first.until(40)
            with running(self.server.address) as second:
                second.clock.time = second.clock.limit = NOON + 40
                self.until(lambda: second.said == ["another runner runs: this one stands by"])
                self.start("b", chain(wait(Seconds=70)))
                first.rest()
                first.until(99)
                self.assertEqual((self.moments(), second.clock.idles), ({"a": 100, "b": 110}, 0))
                second.clock.time = second.clock.limit = NOON + 99
                first.stop()
                second.rest()
                self.assertEqual(self.moments(), {"a": 199, "b": 169})
                second.until(250)
                self.assertEqual(self.book.show("a"), Ready("S2", 2))
                self.assertIsInstance(self.book.show("b"), Done)


class Guide(Ran):
    def test_the_tutorial(self):
        """docs/USER_GUIDE.md says when each of the example's executions is stepped."""
        lines = (TOP / "examples/polls-and-locks.txt").read_text(encoding="utf-8").split("\n")
        for line in lines[1 : lines.index("drive 6")]:
            self.book.ask(line)
        with running(self.server.address) as run:
            run.until(0)
            self.assertEqual(self.moments(), {"export-2": 5, "export-1": 12, "arrival-1": 30, "courier-1": 75})
            self.assertEqual([found.why for found in self.book.waits()][:2], ["retry 1 of Lock", "Wait of Export"])
            run.until(3600)
        for execution in ("arrival-1", "courier-1", "export-1", "export-2"):
            self.assertIsInstance(self.book.show(execution), Done)
        # the lock is free after 12 seconds, tried for after 5, 10 and 15, and then kept for 12
        self.assertEqual(run.jumps, [5, 10, 12, 15, 27, 30, 60, 75, 90])


class Restarts(Served):
    def setUp(self):
        super().setUp()
        self.clock = self.path("clock")

    def again(self):
        server = self.serve("--ask", "--graph", follower())
        book = Book.connect(server.address, timeout=PATIENCE)
        self.addCleanup(book.close)
        return server, book

    def begin(self):
        server, book = self.again()
        book.table("items", {"id": "S"})
        book.define("m", chain(wait(Seconds=100), PASSING))
        book.start("a", "m", {})
        return server, book

    def moment(self, book):
        (found,) = book.waits()
        return round(found.moment.timestamp() - NOON, 6)

    def test_amid_a_wait(self):
        server, book = self.begin()
        with running(server.address, file=self.clock) as run:
            run.until(40)
        self.assertEqual(self.rows(self.clock), [("a", 2, NOON)])
        # without the file it counts from when it looked
        for file, moment in ((self.clock, 100), (None, 160), (self.path("other"), 160)):
            with running(server.address, file=file, clock=OwnClock(NOON + 60)) as run:
                run.rest()
                self.assertEqual(self.moment(book), moment)
        with running(server.address, file=self.clock, clock=OwnClock(NOON + 70)) as run:
            run.until(99.9)
            self.assertEqual(book.show("a"), Ready("S0", 0))
            run.until(100)
            self.assertIsInstance(book.show("a"), Done)
        self.assertEqual(self.rows(self.clock), [])

    def rows(self, path):
        with sqlite3.connect(path) as store:
            return store.execute("SELECT thread, entry, moment FROM arrival").fetchall()

    def test_a_file_that_doesnt_fit(self):
        server, book = self.begin()
        with running(server.address, file=self.clock) as run:
            run.until(40)
        self.assertEqual(self.rows(self.clock), [("a", 2, NOON)])
        for change in (
            "UPDATE arrival SET entry = 3",
            "UPDATE arrival SET thread = 'b'",
            "UPDATE arrival SET moment = moment + 1e6",
            "DELETE FROM arrival",
        ):
            path = self.path("changed")
            shutil.copy(self.clock, path)
            with sqlite3.connect(path) as store:
                store.execute(change)
            with running(server.address, file=path, clock=OwnClock(NOON + 50)) as run:
                run.rest()
                self.assertEqual(self.moment(book), 150)
                self.assertEqual(self.rows(path), [("a", 2, NOON + 50)])
        with open(self.path("damaged"), "wb") as file:
            file.write(b"no database " * 1000)
        with running(server.address, file=self.path("damaged")) as run:
            run.rest()
            self.assertEqual((self.moment(book), len(run.said)), (100, 1))

    def test_a_server_that_is_begun_again(self):
        server, book = self.begin()
        book.pause(execution="b")
        with running(server.address, wait=60) as run:
            run.until(40)
            server.process.kill()
            server.process.wait(PATIENCE)
            server, book = self.again()
            book.start("b", "m", {})
            self.until(lambda: self.is_back(book))
            self.assertEqual(self.moment_of(book, "a"), 100)
            run.until(200)
            self.assertIsInstance(book.show("a"), Done)
            # what is paused is kept by the server
            self.assertEqual(book.show("b"), Ready("S0", 0))
            self.assertIn("is gone, and waited for", run.said[0])
            book.resume()
            run.until(201)
            self.assertIsInstance(book.show("b"), Done)

    @staticmethod
    def is_back(book):
        try:
            return len(book.waits()) == 2
        except NoRunner:
            return False

    @staticmethod
    def moment_of(book, thread):
        (found,) = [found for found in book.waits() if found.thread == thread]
        return round(found.moment.timestamp() - NOON, 6)


class Command(Served):
    def command(self, *words, seconds=PATIENCE, **more):
        return subprocess.run(
            [sys.executable, "-m", "rollback_client.runner", *words],
            cwd=TOP / "clients/python",
            stdout=subprocess.PIPE,
            stderr=subprocess.PIPE,
            text=True,
            timeout=seconds,
            check=False,
            **more,
        )

    def test_a_server_without_questions(self):
        server = self.begun(journal=None)
        done = self.command(server.address)
        self.assertEqual(done.returncode, 2)
        self.assertIn("begin it with --ask", done.stderr)

    def test_no_server(self):
        done = self.command(self.path("nothing"), "--wait", "0.2")
        self.assertEqual((done.returncode, done.stdout), (1, ""))
        self.assertIn("no server", done.stderr)

    def test_wrong_words(self):
        for words in (
            (),
            ("a", "--rate", "0"),
            ("a", "--rate", "nan"),
            ("a", "--settle-at", "0"),
            ("a", "--only", "a b"),
            ("a", "--wait", "-1"),
            ("a", "b"),
        ):
            self.assertEqual(self.command(*words).returncode, 2, words)
        for words in (("--rate", "5"), ("--only", "m"), ("--settle-at", "5"), ("--graph", follower())):
            status, said = self.refused("--socket", self.path("s"), *words)
            self.assertEqual(status, 2)
            self.assertIn("--run", said)

    def test_it_ends_by_sigterm_and_with_its_server(self):
        server = self.begun("--ask", "--graph", follower(), journal=None)
        for end, status in ((lambda child: child.terminate(), 0), (lambda child: server.process.kill(), 1)):
            child = subprocess.Popen(
                [sys.executable, "-m", "rollback_client.runner", server.address, "--wait", "0.2"],
                cwd=TOP / "clients/python",
                stderr=subprocess.PIPE,
                text=True,
            )
            with child, Book.connect(server.address) as book:
                self.until(lambda: self.has_runner(book))
                end(child)
                said = child.communicate(timeout=PATIENCE)[1]
            self.assertEqual(child.returncode, status, said)
            self.assertNotIn("Traceback", said)

    @staticmethod
    def has_runner(book):
        try:
            return book.waits() == []
        except NoRunner:
            return False

    def test_a_killed_runner_leaves_its_place(self):
        server = self.begun("--ask", "--graph", follower(), journal=None, machine=chain(wait(Seconds=100)))
        with Book.connect(server.address) as book:
            children = []
            for _ in range(2):
                children.append(
                    subprocess.Popen(
                        [sys.executable, "-m", "rollback_client.runner", server.address], cwd=TOP / "clients/python"
                    )
                )
                self.until(lambda: self.has_runner(book))
            children[0].send_signal(signal.SIGKILL)
            children[0].wait(PATIENCE)
            book.pause(execution="x")
            self.until(lambda: self.has_runner(book))
            children[1].terminate()
            self.assertEqual(children[1].wait(PATIENCE), 0)


if __name__ == "__main__":
    unittest.main()

"""Copies of a running book."""
import os
import pathlib
import shutil
import socket
import stat
import subprocess
import sys
import threading
import time
import unittest

from rollback_client import Book, Busy, NoServer, Step
from rollback_client.copy import NoCopy, copy_book
from tests.program import PATIENCE, PROGRAM, TOP, Served, connected

COPIES = int(os.environ.get("ROLLBACK_COPIES", "20"))
GRAPH = os.environ.get("ROLLBACK_GRAPH", str(TOP / "crates/rollback_graph/out/rollback_graph"))


class Copies(Served):
    def checked(self, path):
        done = subprocess.run([PROGRAM, "--check", path], stdout=subprocess.PIPE, text=True, check=True)
        return tuple(map(int, done.stdout.split()[1:]))

    def test_copies_amid_eight_callers(self):
        server = self.begun()
        stop, answered = threading.Event(), [0] * 8

        def call(number):
            with Book.connect(server.address) as book:
                while not stop.is_set():
                    book.start(f"c{number}-{answered[number]}", "p", {})
                    answered[number] += 1
                    # On a slow machine the book doesn't grow without end, as copies of it take longer and longer.
                    time.sleep(0.002 if answered[number] < 200 else 0.05)

        callers = [threading.Thread(target=call, args=(number,)) for number in range(8)]
        for caller in callers:
            caller.start()
        self.addCleanup(stop.set)
        try:
            for number in range(COPIES):
                before = sum(answered)
                found = copy_book(server.address, self.path(f"copy{number}"), PROGRAM)
                after = sum(answered)
                self.assertEqual(self.checked(self.path(f"copy{number}")), found)
                self.assertGreaterEqual(found[0], 2 + before)
                self.assertLessEqual(found[1], after + 8)
        finally:
            stop.set()
            for caller in callers:
                caller.join()
        self.assertEqual(server.end(), (0, ""))
        # Nothing is left beside them.
        names = {name for name in os.listdir(self.room) if not name.startswith("orders.db")}
        self.assertLessEqual(
            names, {name for number in range(COPIES) for name in (f"copy{number}", f"copy{number}-wal")}
        )

    def test_what_is_made(self):
        server = self.begun()
        with Book.connect(server.address) as book:
            book.start("a", "p", {})
            self.assertEqual(copy_book(server.address, pathlib.Path(self.path("copy.db")), PROGRAM), (3, 1))
            self.assertEqual(stat.S_IMODE(os.stat(self.path("copy.db")).st_mode), 0o600)
            self.assertEqual(sorted(os.listdir(self.room)), ["copy.db", "orders.db", "orders.db-wal", "socket"])
            book.step("a")
        # The copy is a book of its own.
        with Book.open(self.path("copy.db"), PROGRAM) as book:
            self.assertEqual(book.history(), [Step("a", 0)])

    def test_what_is_there_stays(self):
        server = self.begun()
        for name, taken in (("a.db", "a.db"), ("b.db", "b.db-wal")):
            pathlib.Path(self.path(taken)).write_text("mine", encoding="utf-8")
            with self.assertRaises(FileExistsError) as found:
                copy_book(server.address, self.path(name), PROGRAM)
            self.assertIn(taken, str(found.exception))
            self.assertEqual(pathlib.Path(self.path(taken)).read_text(encoding="utf-8"), "mine")
        os.symlink(self.path("nowhere"), self.path("link"))
        with self.assertRaises(FileExistsError):
            copy_book(server.address, self.path("link"), PROGRAM)

    def test_a_book_in_memory(self):
        server = self.begun(journal=None)
        with self.assertRaisesRegex(NoCopy, "in memory"):
            copy_book(server.address, self.path("copy.db"), PROGRAM)
        self.assertEqual(os.listdir(self.room), ["socket"])
        with Book.connect(server.address) as book:
            self.assertEqual(book.items(), [])

    def test_other_servers(self):
        with self.assertRaises(NoServer):
            copy_book(self.path("nothing"), self.path("copy.db"), PROGRAM)
        server = self.begun("--callers", "1")
        with Book.connect(server.address, retry=PATIENCE):
            with self.assertRaises(Busy):
                copy_book(server.address, self.path("copy.db"), PROGRAM)

    def test_lines_go_on_though_nobody_reads_the_copy(self):
        server = self.begun("--grace", "0.1")
        with Book.connect(server.address) as book:
            for number in range(20):
                book.start(f"big{number}", "p", "x" * 500000)
            stream = connected(server.address)
            self.addCleanup(stream.close)
            stream.sendall(b"!copy\nhistory\n")
            first = stream.recv(1, socket.MSG_PEEK)
            self.assertEqual(first, b"o")
            for _ in range(20):
                self.assertEqual(len(book.history()), 20)
        status, said = server.end()
        self.assertEqual(status, 0)
        self.assertIn("1 caller was cut", said)

    def test_a_copy_that_breaks_off_leaves_nothing(self):
        server = self.begun()
        place = self.path("half")
        with socket.socket(socket.AF_UNIX, socket.SOCK_STREAM) as listening:
            listening.bind(place)
            listening.listen(4)

            def serve():
                for said in (b"ok 4096 0\nabc", b"ok 3 0\nabc", b"ok what\n", b""):
                    stream, _ = listening.accept()
                    with stream:
                        stream.recv(100)
                        stream.sendall(said)

            thread = threading.Thread(target=serve)
            thread.start()
            for _ in range(4):
                with self.assertRaises(Exception) as found:
                    copy_book(place, self.path("copy.db"), PROGRAM)
                self.assertIn(type(found.exception).__name__, ("NoCopy", "ConnectionLost"))
            thread.join()
        self.assertFalse([name for name in os.listdir(self.room) if "copy" in name])
        self.assertEqual(server.end(), (0, ""))


class Commands(Served):
    def run_module(self, name, *words):
        command = [sys.executable, "-m", f"rollback_client.{name}", *words]
        return subprocess.run(
            command,
            stdout=subprocess.PIPE,
            stderr=subprocess.PIPE,
            text=True,
            cwd=TOP / "clients/python",
            check=False,
            timeout=PATIENCE,
        )

    def test_copy(self):
        server = self.begun()
        done = self.run_module("copy", server.address, self.path("copy.db"), "--program", PROGRAM)
        self.assertEqual((done.returncode, done.stdout, done.stderr), (0, "ok 2 0\n", ""))
        done = self.run_module("copy", server.address, self.path("copy.db"), "--program", PROGRAM)
        self.assertEqual((done.returncode, done.stdout, done.stderr.count("\n")), (1, "", 1))
        self.assertIn("copy.db", done.stderr)
        done = self.run_module("copy", server.address, self.path("other.db"), "--program", self.path("nothing"))
        self.assertEqual((done.returncode, done.stderr.count("\n")), (1, 1))
        self.assertIn("--program", done.stderr)

    def test_look(self):
        if not os.access(GRAPH, os.X_OK):
            self.skipTest("there is no rollback_graph")
        server = self.begun()
        with Book.connect(server.address) as book:
            book.start("a", "p", {})
            book.step("a")
        words = ("--program", PROGRAM, "--graph", GRAPH)
        done = self.run_module("look", server.address, *words, "--", "--why", "a#0", "a#1")
        self.assertEqual((done.returncode, done.stdout, done.stderr), (0, "a#1 follows a#0\n", ""))
        done = self.run_module("look", *words, server.address, "--", "--plan", "a#9")
        self.assertNotEqual(done.returncode, 0)
        memory = self.begun(journal=None, address=self.path("memory"))
        done = self.run_module("look", memory.address, *words, "--", "--list")
        self.assertEqual(done.returncode, 1)
        self.assertIn("in memory", done.stderr)
        if shutil.which("rollback_graph") is None:
            done = self.run_module("look", server.address, "--program", PROGRAM, "--", "--list")
            self.assertEqual((done.returncode, "--graph" in done.stderr), (1, True))


if __name__ == "__main__":
    unittest.main()

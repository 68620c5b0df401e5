"""The server of lines: many callers, callers that go away, a program that is killed."""
import os
import shutil
import signal
import socket
import subprocess
import sys
import threading
import unittest

from rollback_client import Book, ConnectionLost, Done, RollbackError, Step
from tests.cluster_machines import free_ports
from tests.program import PASS, PATIENCE, PROGRAM, PUT, TOP, Served, connected, read_reply

CALLERS = 16
COMMANDS = int(os.environ.get("ROLLBACK_COMMANDS", "400"))


def session_of(name, count):
    """Lines of one caller, over executions of its own, with the reply that each has to get whatever the others do."""
    pairs, at = [], 0
    while len(pairs) < count:
        execution = f"{name}-{at}"
        at += 1
        pairs += [
            (f"start {execution} p {{}}", [f"ok {execution}#0"]),
            (f"step {execution}", [f"ok {execution}#1 plain"]),
            (f"show {execution}", ["ok done 7"]),
            (f"plan {execution}#0", ["ok 2", f"{execution}#1", f"{execution}#0"]),
            (f"undo {execution}#0", [f"no 8 {execution}#1"]),
            ("items", ["ok 0"]),
            (f"no line of {execution}", ["no 20"]),
            (f"rollback {execution}#1", ["ok 1", f"{execution}#1"]),
        ]
    return pairs[:count]


class Callers(Served):
    def call(self, server, name, wrong):
        """One caller. Half of them give all lines at once, half one after another."""
        pairs = session_of(name, COMMANDS)
        with connected(server.address) as stream, stream.makefile("rb") as lines:
            data = "".join(f"{line}\n" for line, _ in pairs).encode()
            given = threading.Thread(target=stream.sendall, args=(data,)) if name[-1] in "02468" else None
            if given:
                given.start()
            for line, wanted in pairs:
                if not given:
                    stream.sendall(line.encode() + b"\n")
                found = read_reply(lines, line.split(" ")[0])
                if found != wanted:
                    wrong.append((line, wanted, found))
                    break
            if given:
                given.join()

    def test_each_gets_its_own_replies_in_order(self):
        server, wrong = self.begun(), []
        names = [f"c{number}" for number in range(CALLERS)]
        callers = [threading.Thread(target=self.call, args=(server, name, wrong)) for name in names]
        for caller in callers:
            caller.start()
        for caller in callers:
            caller.join()
        self.assertEqual(wrong, [])
        self.assertEqual(server.end(), (0, ""))
        words = ("start", "step", "rollback")
        accepted = [
            line
            for name in names
            for line, reply in session_of(name, COMMANDS)
            if line.split(" ")[0] in words and reply[0] != "no 20"
        ]
        done = subprocess.run([PROGRAM, "--check", server.journal], stdout=subprocess.PIPE, text=True, check=True)
        self.assertEqual(done.stdout.split(" ")[1], str(2 + len(accepted)))

    def test_one_that_goes_away_harms_no_other(self):
        server = self.begun()
        with Book.connect(server.address) as book:
            book.define("w", PUT)
            book.start("big", "p", ["x" * 1000] * 20)
            for number in range(20):
                stream = connected(server.address)
                if number % 2:
                    # It goes in the middle of a line, which is dropped.
                    stream.sendall(b'start half p {}\nstart other w {"v":')
                    self.assertEqual(stream.recv(100)[:2], b"ok" if number == 1 else b"no")
                else:
                    # It goes in the middle of its replies.
                    stream.sendall(b"show big\n" * 40)
                    stream.recv(1000)
                stream.close()
                self.assertEqual(book.step("big").step, Step("big", 1))
                self.assertEqual(book.show("big"), Done(7))
                book.undo("big#1")
            self.assertEqual([str(step) for step in book.history()], ["big#0", "half#0"])

    def test_lines_of_all_kinds(self):
        server = self.begun()
        stream = connected(server.address)
        self.addCleanup(stream.close)
        lines = stream.makefile("rb")
        self.addCleanup(lines.close)
        stream.sendall(b"\n\r\nshow \xff\nstart a p {}\r\nshow " + b"a" * (1 << 20) + b"\nshow a\nhistory\n")
        self.assertEqual(
            [read_reply(lines, word) for word in ("show", "start", "show", "show", "history")],
            [["no 20"], ["ok a#0"], ["no 20"], ['ok ready "P" 0'], ["ok 1", "a#0"]],
        )

    def test_one_too_many_is_told(self):
        server = self.begun("--callers", "2")
        with Book.connect(server.address, retry=PATIENCE) as first, Book.connect(
            server.address, retry=PATIENCE
        ) as second:
            self.assertEqual(first.items(), second.items())
            third = connected(server.address)
            self.addCleanup(third.close)
            self.assertEqual(third.recv(100), b"busy\n")
            self.assertEqual(first.history(), [])


class Ends(Served):
    def test_a_program_that_is_killed(self):
        server = self.begun()
        callers = [Book.connect(server.address) for _ in range(4)]
        for number, book in enumerate(callers):
            self.addCleanup(book.close)
            book.start(f"e{number}", "p", {})
        os.kill(server.child(), signal.SIGKILL)
        for book in callers:
            with self.assertRaises(ConnectionLost):
                book.history()
        server.process.wait(PATIENCE)
        status, _ = server.end()
        self.assertEqual(status, 128 + signal.SIGKILL)
        with Book.open(server.journal, PROGRAM) as book:
            self.assertEqual(sorted(map(str, book.history())), [f"e{number}#0" for number in range(4)])

    def test_the_end_is_after_the_lines_at_hand(self):
        server = self.begun()
        with Book.connect(server.address) as book:
            book.start("a", "p", {})
            self.assertEqual(server.end(), (0, ""))
            with self.assertRaises(ConnectionLost):
                book.history()
        # The file has all lines by itself.
        shutil.copy(server.journal, self.path("copy.db"))
        with Book.open(self.path("copy.db"), PROGRAM) as book:
            self.assertEqual(book.history(), [Step("a", 0)])
        self.assertFalse(os.path.exists(server.address))

    def test_another_server_on_the_same_place(self):
        server = self.begun()
        command = [sys.executable, "-m", "rollback_client.serve", "--program", PROGRAM, "--socket", server.address]
        done = subprocess.run(
            command, stdout=subprocess.PIPE, stderr=subprocess.PIPE, cwd=TOP / "clients/python", check=False
        )
        self.assertEqual(done.returncode, 2)
        with Book.connect(server.address) as book:
            self.assertEqual(book.history(), [])

    def test_a_socket_that_was_left(self):
        left = socket.socket(socket.AF_UNIX, socket.SOCK_STREAM)
        left.bind(self.path("socket"))
        left.close()
        self.begun()

    def test_a_port(self):
        for address in ("0.0.0.0:1", "10.0.0.1:70", "127.0.0.1"):
            command = [sys.executable, "-m", "rollback_client.serve", "--program", PROGRAM, "--listen", address]
            done = subprocess.run(
                command, stdout=subprocess.PIPE, stderr=subprocess.PIPE, cwd=TOP / "clients/python", check=False
            )
            self.assertEqual(done.returncode, 2)
        address = f"127.0.0.1:{free_ports(1)[0]}"
        command = [sys.executable, "-m", "rollback_client.serve", "--program", PROGRAM, "--listen", address]
        with subprocess.Popen(command, stdout=subprocess.PIPE, text=True, cwd=TOP / "clients/python") as process:
            self.assertEqual(process.stdout.readline(), f"serving on {address}\n")
            with Book.connect(address) as book:
                book.table("items", {"id": "S"})
                self.assertEqual(book.items(), [])
            process.terminate()
        self.assertEqual(process.returncode, 0)

    def test_no_server(self):
        with self.assertRaises(RollbackError):
            Book.connect(self.path("nothing"))


if __name__ == "__main__":
    unittest.main()

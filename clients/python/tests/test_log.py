"""The audit log: each line answered once, in order."""
import json
import os
import re
import resource
import signal
import stat
import threading
import unittest

from rollback_client import Book
from tests.program import LOOP, PASS, Served, connected, read_reply

TIME = re.compile(r"\d{4}-\d\d-\d\dT\d\d:\d\d:\d\d\.\d+Z")


class Log(Served):
    def setUp(self):
        super().setUp()
        self.log = self.path("log")

    def entries(self, path=None):
        with open(path or self.log, "rb") as file:
            return [json.loads(line) for line in file.read().split(b"\n")[:-1]]

    def call(self, server, name, given):
        """One caller, with its lines and their replies."""
        pairs = []
        for number in range(100):
            execution = f"{name}-{number}"
            pairs += [
                (f"start {execution} p {{}}", f"ok {execution}#0"),
                (f"step {execution}", f"ok {execution}#1 plain"),
            ]
            pairs.append(("nonsense", "no 20"))
        with connected(server.address) as stream, stream.makefile("rb") as lines:
            stream.sendall("".join(f"{line}\n" for line, _ in pairs).encode())
            for line, _ in pairs:
                read_reply(lines, line.split(" ")[0])
        given[name] = pairs

    def test_each_answered_line_is_there_once_in_order(self):
        server = self.begun("--log", self.log, journal=None)
        given = {}
        callers = [threading.Thread(target=self.call, args=(server, f"c{number}", given)) for number in range(4)]
        for caller in callers:
            caller.start()
        for caller in callers:
            caller.join()
        with Book.connect(server.address) as book:
            history = [str(step) for step in book.history()]
        self.assertEqual(server.end(), (0, ""))
        entries = [(entry["line"], entry["reply"]) for entry in self.entries()]
        define = f"define p {json.dumps(PASS, separators=(',', ':'))}"
        self.assertEqual([line for line, _ in entries[:3]], ["connect", "table items id:S []", define])
        self.assertEqual([line for line, _ in entries[-2:]], ["connect", "history"])
        found = entries[3:-2]
        # Each caller's lines are there in its order, and all of them in that of the book.
        self.assertEqual(len(found), sum(map(len, given.values())))
        for name, pairs in given.items():
            wanted = [pair for pair in pairs if pair[0] != "nonsense"]
            self.assertEqual([pair for pair in found if f" {name}-" in pair[0]], wanted)
        self.assertEqual([reply.split(" ")[1] for line, reply in found if line != "nonsense"], history)

    def test_what_an_entry_has(self):
        server = self.begun("--log", self.log, journal=None, machine=LOOP)
        with Book.connect(server.address) as book:
            book.start("a", "p", {"text": "é" * 5000})
            book.drive(1000)
            for line in (b"x" * 3000000, b"show \xff", b"\r"):
                stream, lines = self.plain(server)
                stream.sendall(line + b"\r\n")
                self.assertEqual(read_reply(lines, ""), ["no 20"])
            stream.sendall(b"\n\r\n!what\n!copy\n")
            self.assertEqual([lines.readline(), lines.readline()], [b"no 20\n", b"no 30 memory\n"])
        self.assertEqual(server.end(), (0, ""))
        self.assertEqual(stat.S_IMODE(os.stat(self.log).st_mode), 0o600)
        entries = self.entries()
        for entry in entries:
            self.assertEqual(list(entry), ["time", "caller", "line", "reply", "length", "milliseconds"])
            self.assertRegex(entry["time"], TIME)
            self.assertEqual(entry["caller"], {"uid": os.getuid(), "pid": os.getpid()})
            self.assertGreaterEqual(entry["milliseconds"], 0)
        lines = [(entry["line"], entry["reply"], entry["length"]) for entry in entries[4:]]
        start = ('start a p {"text":"' + "é" * 5000)[:9999]
        self.assertEqual(lines[0][1:], ("ok a#0", len(start.encode()) + len('"}')))
        self.assertEqual(lines[0][0].encode()[:4000], start.encode()[:4000])
        self.assertLessEqual(len(lines[0][0].encode()), 4096 + 2)
        self.assertEqual(lines[1:3], [("drive 1000", "ok 1000", 10), ("x" * 4096, "no 20", 3000000)])
        self.assertEqual(lines[3:5], [("show \ufffd", "no 20", 6), ("\r", "no 20", 1)])
        self.assertEqual(lines[5:], [("!what", "no 20", 5), ("!copy", "no 30 memory", 5)])

    def test_over_tcp_the_caller_is_an_address(self):
        server = self.serve("--log", self.log, "--listen", "127.0.0.1:0", journal=None)
        with Book.connect(server.address) as book:
            host, port = book._stream.link.socket.getsockname()
        server.end()
        self.assertEqual([entry["caller"] for entry in self.entries()], [f"{host}:{port}"])

    def test_sighup_opens_it_again(self):
        server = self.begun("--log", self.log, journal=None)
        with Book.connect(server.address) as book:
            os.rename(self.log, self.path("old"))
            book.items()
            server.process.send_signal(signal.SIGHUP)
            self.until(lambda: os.path.exists(self.log))
            book.history()
        self.assertEqual(server.end(), (0, ""))
        self.assertEqual([entry["line"] for entry in self.entries(self.path("old"))][-1], "items")
        self.assertEqual([entry["line"] for entry in self.entries()], ["history"])

    def test_a_log_that_cant_be_written_is_said_once(self):
        server = self.begun("--log", self.log, journal=None)
        with Book.connect(server.address) as book:
            size = os.path.getsize(self.log)
            _, most = resource.prlimit(server.process.pid, resource.RLIMIT_FSIZE)
            resource.prlimit(server.process.pid, resource.RLIMIT_FSIZE, (size + 20, most))
            for _ in range(10):
                self.assertEqual(book.items(), [])
            resource.prlimit(server.process.pid, resource.RLIMIT_FSIZE, (most, most))
            book.history()
        status, said = server.end()
        self.assertEqual(
            (status, said.count("can't be written"), said.count("lacks 9 lines"), said.count("\n")), (0, 1, 1, 2)
        )
        self.assertEqual([entry["line"] for entry in self.entries()][-2:], ["items", "history"])

    def test_what_is_no_file_is_refused(self):
        os.mkdir(self.path("folder"))
        os.mkfifo(self.path("fifo"))
        for log in (self.path("folder"), self.path("fifo"), "/dev/null", self.path("no/folder")):
            status, said = self.refused("--socket", self.path("s"), "--log", log)
            self.assertEqual(status, 2)
            self.assertIn(log, said)


if __name__ == "__main__":
    unittest.main()

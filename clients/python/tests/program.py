"""Where the tests find the program, and what they say to it."""
import contextlib
import functools
import os
import pathlib
import shutil
import signal
import socket
import subprocess
import sys
import tempfile
import time
import unittest

from rollback_client import BadLine, Book

TOP = pathlib.Path(__file__).resolve().parents[3]
PROGRAM = os.environ.get("ROLLBACK_PROGRAM", str(TOP / "crates/rollback_program/out/rollback_program"))
GRAPH = os.environ.get("ROLLBACK_GRAPH", str(TOP / "crates/rollback_graph/out/rollback_graph"))
PLAIN_FOLLOWER = str(TOP / "tools/plain_follower.py")

PASS = {"StartAt": "P", "States": {"P": {"Type": "Pass", "Result": 7, "End": True}}}
FORK = {"StartAt": "S", "States": {"S": {"Type": "Parallel", "End": True, "Branches": [PASS, PASS]}}}


def call(name, **parameters):
    """A machine of one call of the table."""
    task = {
        "Type": "Task",
        "Resource": f"arn:aws:states:::dynamodb:{name}",
        "Parameters": {"TableName": "items", **parameters},
        "End": True,
    }
    return {"StartAt": "C", "States": {"C": task}}


PUT = call("putItem", Item={"id": {"S": "k"}, "v": {"S.$": "$.v"}})
ECHO = {"StartAt": "P", "States": {"P": {"Type": "Pass", "End": True}}}
LOOP = {"StartAt": "A", "States": {"A": {"Type": "Pass", "Next": "A"}}}
# How many seconds is waited for what has to come. It only ends a test that hangs: no slow machine needs so long.
PATIENCE = 900
# Files are made in memory, if there is room: each line of a journal waits for its disk, and a busy one takes minutes for all tests.
FOLDER = "/dev/shm" if os.access("/dev/shm", os.W_OK) and shutil.disk_usage("/dev/shm").free > 1 << 28 else None
LISTS = ("items", "history", "plan", "rollback", "drive", "work", "held")
GET = call("getItem", Key={"id": {"S": "k"}})


@functools.lru_cache(maxsize=None)
def follower():
    """The program that answers questions: rollback_graph, or a plain one in its place as long as that can't follow."""
    with contextlib.suppress(OSError):
        done = subprocess.run(
            [GRAPH, "--serve"],
            stdin=subprocess.DEVNULL,
            stdout=subprocess.DEVNULL,
            stderr=subprocess.DEVNULL,
            check=False,
        )
        if done.returncode == 0:
            return GRAPH
    return PLAIN_FOLLOWER


def ratio(one, other, most, times=6):
    """How many times as long the one takes as the other: both give their seconds, and are done in turn, at the same load of the machine.

    Of each the shortest time counts, and there are further turns as long as the ratio isn't below `most`.
    """
    ones, others = [], []
    for _ in range(times):
        ones.append(one())
        others.append(other())
        if min(ones) < most * min(others):
            break
    found = min(ones) / min(others)
    if os.environ.get("ROLLBACK_RATIOS"):
        print(f"ratio {found:.2f} of at most {most}: {min(ones):.3f} s to {min(others):.3f} s", flush=True)
    return found


def takes_work(book):
    """Whether the program has the line `work`."""
    try:
        book.work(1, 1)
    except BadLine:
        return False
    return True


def connected(address, timeout=PATIENCE):
    """A plain connection to a server of lines."""
    if ":" in address and "/" not in address:
        host, _, port = address.rpartition(":")
        return socket.create_connection((host, int(port)), timeout)
    found = socket.socket(socket.AF_UNIX, socket.SOCK_STREAM)
    found.settimeout(timeout)
    found.connect(address)
    return found


def read_reply(stream, word):
    """The lines of a reply to a command of this word, by the rule of docs/REFERENCE.md; nothing if the stream ends before."""
    said = [stream.readline().decode()]
    if word in LISTS and said[0].startswith("ok "):
        said += [stream.readline().decode() for _ in range(int(said[0][3:]))]
    return [line[:-1] for line in said] if all(line.endswith("\n") for line in said) else None


class InFolder(unittest.TestCase):
    """A test with a folder of its own."""

    def setUp(self):
        held = tempfile.TemporaryDirectory(dir=FOLDER)
        self.addCleanup(held.cleanup)
        self.room, self.began = held.name, time.time()

    def path(self, name):
        return os.path.join(self.room, name)

    def is_of_this_test(self, moment):
        """Whether a time of a clock is between the test's beginning and now, with what its digits leave out."""
        return self.began - 1 <= moment <= time.time() + 1


class Server:
    """A server of lines over a Unix socket, with its process."""

    def __init__(self, room, *words, journal="orders.db", program=PROGRAM, address=None, python=sys.executable, **more):
        self.journal = journal and os.path.join(room, journal)
        self.address = address or os.path.join(room, "socket")
        of_journal = ("--journal", self.journal) if journal else ()
        command = [python, "-m", "rollback_client.serve", "--program", program, *of_journal, *words]
        command += ("--socket", self.address) if "--listen" not in words else ()
        more = {"stdout": subprocess.PIPE, "stderr": subprocess.PIPE, **more}
        self.process = subprocess.Popen(command, text=True, cwd=TOP / "clients/python", **more)
        self.said = self.process.stdout.readline()
        if not self.said.startswith("serving on "):
            raise AssertionError(self.process.communicate()[1])
        if "--listen" in words:
            self.address = self.said.split()[-1]

    def child(self):
        """The number of the program's process."""
        ends = time.monotonic() + PATIENCE
        while time.monotonic() < ends:
            found = pathlib.Path(f"/proc/{self.process.pid}/task/{self.process.pid}/children").read_text().split()
            if found:
                return int(found[0])
            time.sleep(0.01)
        raise AssertionError("the server has no child")

    def end(self, seconds=PATIENCE, number=signal.SIGTERM):
        """Ends the server, and gives its status and what it said on standard error."""
        if self.process.poll() is None:
            self.process.send_signal(number)
        _, errors = self.process.communicate(timeout=seconds)
        return self.process.returncode, errors


class Served(InFolder):
    """A test with servers, which end with it."""

    def serve(self, *words, **more):
        server = Server(self.room, *words, **more)

        def end():
            if server.process.poll() is None:
                server.process.kill()
            server.process.communicate()

        self.addCleanup(end)
        return server

    def begun(self, *words, machine=PASS, **more):
        """A server whose book has a table and the machine `p`."""
        server = self.serve(*words, **more)
        with Book.connect(server.address, timeout=PATIENCE) as book:
            book.table("items", {"id": "S"})
            book.define("p", machine)
        return server

    def refused(self, *words, program=PROGRAM, seconds=PATIENCE, python=sys.executable):
        """The status of a server that doesn't serve, and what it says on standard error."""
        command = [python, "-m", "rollback_client.serve", "--program", program, *words]
        done = subprocess.run(
            command,
            stdout=subprocess.PIPE,
            stderr=subprocess.PIPE,
            cwd=TOP / "clients/python",
            timeout=seconds,
            check=False,
        )
        self.assertEqual(done.stdout, b"")
        self.assertNotIn(b"Traceback", done.stderr)
        return done.returncode, done.stderr.decode()

    def held_program(self):
        """A program that holds the second piece of a drive back, from `until_held` on to `let_go`."""
        path = self.path("held")
        held = TOP / "clients/python/tests/held_program.py"
        with open(path, "w", encoding="utf-8") as file:
            file.write(f'#!/bin/sh\nexec {sys.executable} {held} {PROGRAM} {self.room} "$@"\n')
        os.chmod(path, 0o755)
        return path

    def until_held(self):
        """Waits until one piece of the drive is answered, and the second one given."""
        self.until(lambda: os.path.exists(self.path("asked")))

    def let_go(self):
        """Lets the drive go on."""
        with open(self.path("go"), "w", encoding="utf-8"):
            pass

    def plain(self, server, timeout=PATIENCE):
        """A plain connection, with its lines."""
        stream = connected(server.address, timeout)
        self.addCleanup(stream.close)
        lines = stream.makefile("rb")
        self.addCleanup(lines.close)
        return stream, lines

    def until(self, is_so, seconds=PATIENCE):
        """Waits until something is so."""
        ends = time.monotonic() + seconds
        while not is_so():
            self.assertLess(time.monotonic(), ends)
            time.sleep(0.01)

"""Beginnings and ends of the server: signals, callers that read late or go away, files in use, sockets and their rights."""
import os
import signal
import socket
import stat
import subprocess
import sys
import tempfile
import threading
import time
import unittest

from rollback_client import Book, Done, NoServer, Step
from rollback_client.server.pieces import MOST_OF_A_PIECE
from tests.program import ECHO, LOOP, PASS, PATIENCE, PROGRAM, TOP, Served, connected, read_reply


def is_over(process):
    """Whether a process has ended, also if nobody has asked for its status yet."""
    try:
        with open(f"/proc/{process}/stat", encoding="ascii") as file:
            return file.read().rpartition(") ")[2].startswith("Z")
    except FileNotFoundError:
        return True


class Signals(Served):
    def late(self, number, *words, pause=0.5):
        """A server that is asked to end while a caller's large replies are at hand, and the bytes that the caller then reads."""
        server = self.begun(*words, journal=None, machine=ECHO)
        with Book.connect(server.address) as book:
            book.start("big", "p", "x" * 500000)
            book.step("big")
        stream, _ = self.plain(server)
        stream.sendall(b"show big\n" * 3 + b"half a line")
        stream.recv(1, socket.MSG_PEEK)  # the lines came together, and the first one is answered
        server.process.send_signal(number)
        self.until(lambda: not os.path.exists(server.address))  # a server that ends takes its place away
        time.sleep(pause)
        return server, stream

    def test_a_caller_that_reads_late_gets_its_replies_whole(self):
        for number in (signal.SIGTERM, signal.SIGINT, signal.SIGQUIT, signal.SIGHUP):
            with self.subTest(number):
                server, stream = self.late(number, "--grace", str(PATIENCE))
                with stream.makefile("rb") as lines:
                    said = lines.read()
                self.assertEqual(said, b'ok done "%s"\n' % (b"x" * 500000) * 3)
                self.assertEqual(server.end(), (0, ""))
                self.assertFalse(os.path.exists(server.address))

    def test_over_a_port_too(self):
        server, stream = self.late(signal.SIGTERM, "--listen", "127.0.0.1:0", "--grace", str(PATIENCE))
        with stream.makefile("rb") as lines:
            self.assertEqual(lines.read(), b'ok done "%s"\n' % (b"x" * 500000) * 3)
        self.assertEqual(server.process.wait(PATIENCE), 0)

    def test_one_that_never_reads_is_cut(self):
        server, _ = self.late(signal.SIGTERM, "--grace", "0.2")
        status, said = server.end()
        self.assertEqual((status, said.count("\n")), (0, 1))
        self.assertIn("1 caller was cut", said)

    def test_a_second_signal_waits_for_nobody(self):
        server, _ = self.late(signal.SIGTERM, "--grace", "1000")
        status, said = server.end()
        self.assertEqual(status, 0)
        self.assertIn("1 caller was cut", said)

    def test_idle_callers_hold_no_end_up(self):
        server = self.begun("--grace", "1000", journal=None)
        with Book.connect(server.address):
            self.plain(server)
            self.assertEqual(server.end(), (0, ""))

    def test_a_long_drive_ends_with_the_piece_at_hand(self):
        server = self.begun(journal=None, machine=LOOP, program=self.held_program())
        with Book.connect(server.address) as book:
            book.start("a", "p", {})
            stream, lines = self.plain(server)
            stream.sendall(b"drive 65000\n")
            self.until_held()
            server.process.terminate()
            self.until(lambda: not os.path.exists(server.address))  # a server that ends takes its place away
            self.let_go()
            taken = read_reply(lines, "drive")
        count = len(taken) - 1
        self.assertEqual(taken, [f"ok {count}"] + [f"a#{number}" for number in range(1, count + 1)])
        self.assertGreater(count, MOST_OF_A_PIECE)
        self.assertLessEqual(count, 2 * MOST_OF_A_PIECE)
        self.assertEqual(server.process.wait(PATIENCE), 0)


class Callers(Served):
    def test_nothing_is_written_for_callers_that_are_gone(self):
        """Standard error is a pipe that nobody reads: what is written there for each reply would stop the server."""
        reading, writing = os.pipe()
        self.addCleanup(os.close, reading)
        server = self.begun(journal=None, stderr=writing)
        os.close(writing)
        for _ in range(60):
            stream = connected(server.address)
            stream.sendall(b"held\n" * 64)
            stream.close()
        with Book.connect(server.address, timeout=PATIENCE) as book:
            for _ in range(10):
                self.assertEqual(book.items(), [])
        server.process.terminate()
        self.assertEqual(server.process.wait(PATIENCE), 0)
        os.set_blocking(reading, False)
        self.assertRaises(BlockingIOError, os.read, reading, 1) if False else self.assertEqual(
            os.read(reading, 100), b""
        )

    def test_a_full_standard_error_stops_nothing(self):
        reading, writing = os.pipe()
        self.addCleanup(os.close, reading)
        os.set_blocking(writing, False)
        while True:
            try:
                os.write(writing, b"x" * 4096)
            except BlockingIOError:
                break
        os.set_blocking(writing, True)
        # A log that can't be written is said there.
        folder = self.path("full")
        os.mkdir(folder)
        server = self.begun(
            "--log", os.path.join(folder, "log"), "--grace", "0.1", journal=None, stderr=writing, machine=ECHO
        )
        os.close(writing)
        with Book.connect(server.address) as book:
            book.start("big", "p", "x" * 500000)
            book.step("big")
            stream, _ = self.plain(server)
            stream.sendall(b"show big\n" * 3)
            time.sleep(0.2)
        server.process.terminate()
        self.assertEqual(server.process.wait(PATIENCE), 0)

    def test_lines_of_carriage_returns(self):
        server = self.begun(journal=None)
        stream, lines = self.plain(server)
        stream.sendall(b"\r\r\n\r\n\nitems\r\n\r\r\r\nheld\n")
        said = [read_reply(lines, word) for word in ("", "items", "", "held")]
        self.assertEqual(said, [["no 20"], ["ok 0"], ["no 20"], ["ok 0"]])


class Sockets(Served):
    def test_only_its_own_socket_is_removed(self):
        first = self.begun(journal=None)
        os.unlink(first.address)
        second = self.begun(journal=None)
        self.assertEqual(first.end(), (0, ""))
        with Book.connect(second.address) as book:
            self.assertEqual(book.items(), [])
        self.assertEqual(second.end(), (0, ""))
        self.assertFalse(os.path.exists(second.address))

    def test_a_file_that_is_no_socket_stays(self):
        with open(self.path("socket"), "w", encoding="utf-8") as file:
            file.write("a text")
        status, said = self.refused("--socket", self.path("socket"))
        self.assertEqual(status, 2)
        self.assertIn("another file", said)
        os.symlink(self.path("nowhere"), self.path("link"))
        self.assertEqual(self.refused("--socket", self.path("link"))[0], 2)
        self.assertTrue(os.path.exists(self.path("socket")) and os.path.islink(self.path("link")))

    def test_modes_and_groups(self):
        for words, mode in (((), 0o600), (("--mode", "0660"), 0o660), (("--mode", "606"), 0o606)):
            server = self.serve(*words, journal=None, address=self.path(f"s{mode:o}"))
            about = os.stat(server.address)
            self.assertEqual((stat.S_IMODE(about.st_mode), about.st_uid), (mode, os.getuid()))
        server = self.serve("--group", str(os.getgid()), journal=None, address=self.path("own"))
        self.assertEqual(os.stat(server.address).st_gid, os.getgid())
        for words in (("--mode", "0999"), ("--mode", "1777"), ("--group", "no such group"), ("--mode", "rw")):
            status, said = self.refused("--socket", self.path("x"), *words)
            self.assertEqual(status, 2)
            self.assertIn(words[0], said)
        self.assertEqual(self.refused("--listen", "127.0.0.1:0", "--mode", "0600")[0], 2)

    def test_it_never_has_a_wider_mode(self):
        """Looked at from the moment it is there, under a umask that takes nothing away."""
        from rollback_client.server.places import UnixPlace

        before = os.umask(0)
        self.addCleanup(os.umask, before)
        seen, steps = [], []

        def noting(name, call):
            def noted(*words, **more):
                if os.path.exists(place.path):
                    seen.append(stat.S_IMODE(os.stat(place.path).st_mode))
                steps.append(name)
                return call(*words, **more)

            return noted

        place = UnixPlace(self.path("s"), 0o640, os.getgid())
        calls = {name: getattr(os, name) for name in ("umask", "chown", "chmod")}
        for name, call in calls.items():
            setattr(os, name, noting(name, call))
            self.addCleanup(setattr, os, name, call)
        place.bind().close()
        self.assertEqual((steps, seen), (["umask", "umask", "chown", "chmod"], [0, 0, 0]))
        self.assertEqual(stat.S_IMODE(os.stat(place.path).st_mode), 0o640)
        self.assertEqual(calls["umask"](0), 0)

    def test_others_cant_open_it(self):
        """As the user nobody, if the tests may take its place."""
        if os.getuid() != 0:
            self.skipTest("only root can take the place of nobody")
        os.chmod(self.room, 0o755)
        for words, mode, status in (((), "0600", 13), (("--mode", "0666"), "0666", 0)):
            server = self.begun(*words, journal=None, address=self.path(f"s{mode}"))
            self.assertEqual(self.as_nobody(server.address), status)
            self.assertRegex(server.end()[1], f"others can reach the folder of .*{mode}")

    def as_nobody(self, address):
        """The number of the error with which nobody connects, in a process of its own."""
        child = os.fork()
        if child:
            return os.waitstatus_to_exitcode(os.waitpid(child, 0)[1])
        try:
            os.setgroups([])
            os.setgid(65534)
            os.setuid(65534)
            with socket.socket(socket.AF_UNIX, socket.SOCK_STREAM) as found:
                os._exit(found.connect_ex(address))
        finally:
            os._exit(99)

    def test_a_folder_that_others_cant_reach_is_passed_over_in_silence(self):
        self.assertEqual(self.begun(journal=None).end(), (0, ""))

    def test_odd_paths(self):
        status, said = self.refused("--socket", self.path("x" * 200))
        self.assertEqual(status, 2)
        self.assertIn("too long", said)
        self.assertEqual(self.refused("--socket", self.path("no/folder"))[0], 2)
        self.assertEqual(self.refused("--socket", "")[0], 2)
        path = os.fsencode(self.room) + b"/\xff"
        server = subprocess.Popen(
            [sys.executable, "-m", "rollback_client.serve", "--program", PROGRAM, "--socket", path],
            stdout=subprocess.PIPE,
            cwd=TOP / "clients/python",
        )
        with server:
            self.assertEqual(server.stdout.readline(), b"serving on " + path + b"\n")
            server.terminate()
        self.assertEqual((server.returncode, os.path.exists(path)), (0, False))

    def test_ports(self):
        for address in (
            "127.0.0.1:99999",
            "0.0.0.0:1",
            "10.0.0.1:70",
            "127.0.0.1",
            "host:x",
            "example.org:80",
            "127.0.0.1:\udcff",
        ):
            status, said = self.refused("--listen", address)
            self.assertEqual(status, 2, address)
            self.assertIn("--listen", said)
        with socket.socket() as taken:
            taken.bind(("127.0.0.1", 0))
            taken.listen()
            status, said = self.refused("--listen", f"127.0.0.1:{taken.getsockname()[1]}")
            self.assertEqual(status, 2)


class Files(Served):
    def words_of(self, journal):
        status, said = self.refused("--socket", self.path("s"), "--journal", journal)
        self.assertFalse(os.path.exists(self.path("s")))
        self.assertEqual(status, 3)
        first, _, rest = said.partition("\n")
        self.assertEqual(first, "rollback: store")
        return rest

    def test_why_a_file_gives_no_journal(self):
        self.assertIn("no folder", self.words_of(self.path("no/a.db")))
        os.mkdir(self.path("folder"))
        self.assertIn("is a folder", self.words_of(self.path("folder")))
        with open(self.path("text"), "w", encoding="utf-8") as file:
            file.write("this is a text of some length\n" * 50)
        self.assertIn("no SQLite database", self.words_of(self.path("text")))
        with Book.open(self.path("a.db"), PROGRAM) as book:
            book.table("items", {"id": "S"})
            self.assertIn("in use by another process", self.words_of(self.path("a.db")))
        os.link(self.path("a.db"), self.path("second"))
        self.assertIn("hard link", self.words_of(self.path("a.db")))
        self.assertIn("hard link", self.words_of(self.path("second")))

    def test_a_file_without_rights(self):
        if os.getuid() == 0:
            from rollback_client.server.program import why_not_opened

            access = os.access
            self.addCleanup(setattr, os, "access", access)
            os.access = lambda place, rights: place != self.path("a.db") and access(place, rights)
            with Book.open(self.path("a.db"), PROGRAM) as book:
                book.table("items", {"id": "S"})
            self.assertIn("no right", why_not_opened(self.path("a.db")))
            return
        with open(self.path("a.db"), "w", encoding="utf-8"):
            os.chmod(self.path("a.db"), 0)
        self.assertIn("no right", self.words_of(self.path("a.db")))

    def test_no_program(self):
        status, said = self.refused("--socket", self.path("s"), program=self.path("nothing"))
        self.assertEqual(status, 2)
        self.assertIn("nothing", said)
        status, said = self.refused("--socket", self.path("s"), program="/bin/cat")
        self.assertEqual(status, 2)
        self.assertIn("isn't rollback", said)
        self.assertEqual(self.refused("--socket", self.path("s"), program="/bin/true")[0], 1)

    def test_the_program_ends_with_a_server_that_is_killed(self):
        """The file is free at once, or while the next server waits, though a long round was under way."""
        server = self.begun(machine=LOOP)
        with Book.connect(server.address) as book:
            for number in range(50):
                book.start(f"e{number}", "p", {})
        child = server.child()
        stream, _ = self.plain(server)
        stream.sendall(b"work 1 250\n" * 60)
        server.process.kill()
        server.process.wait(PATIENCE)
        self.until(lambda: is_over(child))
        again = self.serve("--wait", str(PATIENCE))
        with Book.connect(again.address) as book:
            self.assertEqual(len([step for step in book.history() if step.number == 0]), 50)

    def test_a_server_waits_for_a_file_in_use(self):
        book = Book.open(self.path("orders.db"), PROGRAM)
        book.table("items", {"id": "S"})
        later = threading.Timer(0.5, book.close)
        later.start()
        server = self.serve("--wait", str(PATIENCE))
        later.join()
        with Book.connect(server.address) as served:
            self.assertEqual(served.items(), [])

    def test_it_says_that_it_serves_once_the_journal_is_open(self):
        server = self.begun()
        self.assertEqual(server.said, f"serving on {server.address}\n")
        status, said = self.refused("--socket", self.path("s"), "--journal", server.journal)
        self.assertEqual(status, 3)
        self.assertFalse(os.path.exists(self.path("s")))

    def test_the_program_is_a_direct_child_in_a_session_of_its_own(self):
        server = self.begun(journal=None)
        self.assertEqual(os.getsid(server.child()), server.child())

    def test_a_round_that_cant_be_written_ends_the_server_with_the_programs_words(self):
        """A program that ends amid a session, by itself."""
        program = self.path("program")
        with open(program, "w", encoding="utf-8") as file:
            file.write(
                "#!/bin/sh\nread a; echo no 20\nread a; echo ok 0\nread a; echo no 24; echo rollback: store >&2; exit 3\n"
            )
        os.chmod(program, 0o755)
        server = self.serve(journal=None, program=program)
        stream, lines = self.plain(server)
        stream.sendall(b"items\nwork 1 5\nitems\n")
        self.assertEqual(lines.read(), b"ok 0\nno 24\n")
        _, said = server.process.communicate(timeout=PATIENCE)
        self.assertEqual(server.process.returncode, 3)
        self.assertTrue(said.startswith("rollback: store\n"))
        self.assertFalse(os.path.exists(server.address))


if __name__ == "__main__":
    unittest.main()

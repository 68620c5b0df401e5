"""A book that is shared by threads, interrupted, forked, closed, or connected to a server without a place."""
import concurrent.futures
import os
import random
import signal
import socket
import subprocess
import sys
import textwrap
import threading
import time
import unittest

from rollback_client import (
    BadLine,
    Book,
    BookClosed,
    Busy,
    ConnectionLost,
    Done,
    NoServer,
    OtherProcess,
    Ready,
    RollbackError,
    Step,
    StreamBroken,
    Taken,
)
from tests.fakes import FakeServer, greeted
from tests.program import LOOP, PASS, PATIENCE, PROGRAM, TOP, InFolder

THREADS, CALLS = 8, 2000
ALARMS = int(os.environ.get("ROLLBACK_ALARMS", "300"))


class Interrupted(BaseException):
    """What an alarm raises."""


class Shared(InFolder):
    def test_each_of_eight_threads_gets_its_own_replies(self):
        with Book.open(program=PROGRAM) as book:
            book.table("items", {"id": "S"})
            book.define("p", PASS)
            wrong = []

            def call(name):
                for number in range(CALLS // 4):
                    execution = f"{name}-{number}"
                    found = [
                        book.start(execution, "p", {}),
                        book.step(execution),
                        book.plan(f"{execution}#0"),
                        book.show(execution),
                    ]
                    start, step = Step(execution, 0), Step(execution, 1)
                    if found != [start, Taken(step, "plain"), [step, start], Done(7)]:
                        wrong.append((execution, found))

            with concurrent.futures.ThreadPoolExecutor(THREADS) as threads:
                for done in [threads.submit(call, f"t{number}") for number in range(THREADS)]:
                    done.result()
            self.assertEqual(wrong, [])
            self.assertEqual(len(book.history()), THREADS * CALLS // 4 * 2)

    def test_close_waits_for_the_call_of_another_thread(self):
        book = Book.open(program=PROGRAM)
        book.table("items", {"id": "S"})
        book.define("loop", LOOP)
        book.start("a", "loop", {})
        with concurrent.futures.ThreadPoolExecutor(1) as threads:
            drive = threads.submit(book.drive, 30000)
            while book._stream._holder is None and not drive.done():
                time.sleep(0.001)
            book.close()
            self.assertEqual(len(drive.result()), 30000)


class Interrupts(InFolder):
    def alarm(self, fault):
        def rise(number, frame):
            raise fault

        before = signal.signal(signal.SIGALRM, rise)
        self.addCleanup(signal.signal, signal.SIGALRM, before)
        self.addCleanup(signal.setitimer, signal.ITIMER_REAL, 0)

    def looked_at(self, book):
        """The replies after an interrupt are those of their calls, or the book is broken."""
        try:
            self.assertEqual(book.show("still"), Ready("A", 0))
            with self.assertRaises(BadLine):
                book.ask("nonsense")
            self.assertEqual(book.plan("still#0"), [Step("still", 0)])
            return True
        except StreamBroken:
            with self.assertRaises(StreamBroken):
                book.items()
            return False

    def test_no_reply_is_wrong_after_an_alarm(self):
        self.alarm(Interrupted())
        draws = random.Random(1)
        book = Book.open(self.path("a.db"), PROGRAM)
        book.table("items", {"id": "S"})
        book.define("loop", LOOP)
        book.start("a", "loop", {})
        book.work(1, 2000)  # which are synced together
        book.start("still", "loop", {})
        taken, broken, began = 0, 0, time.monotonic()
        history = book.history()
        longest = 2 * (time.monotonic() - began)
        for _ in range(ALARMS):
            try:
                signal.setitimer(signal.ITIMER_REAL, draws.uniform(0.00001, longest))
                self.assertEqual(book.history(), history)
                signal.setitimer(signal.ITIMER_REAL, 0)
                longest *= 0.95  # on a busy machine the first call may have taken much longer than others
            except Interrupted:
                taken += 1
                longest *= 1.05
            if not self.looked_at(book):
                broken += 1
                # The file can be opened again at once.
                book = Book.open(self.path("a.db"), PROGRAM)
                self.assertTrue(self.looked_at(book))
        book.close()
        self.assertGreater(taken, 0)
        self.assertGreater(broken, 0)

    def test_an_alarm_amid_a_reply_of_a_server(self):
        def answer(line):
            if line != b"drive 3\n":
                return b"ok 0\n"
            # it is under way, and its reply never comes whole
            later = threading.Timer(0.1, signal.pthread_kill, (threading.main_thread().ident, signal.SIGALRM))
            self.addCleanup(later.join)
            later.start()
            return b"ok 3\na#1\n"

        server = FakeServer(self.room, answer)
        self.addCleanup(server.close)
        self.alarm(TimeoutError("of the caller"))
        book = Book.connect(server.address)
        with self.assertRaises(TimeoutError):  # the caller's own, as it is
            book.drive(3)
        for _ in range(2):
            with self.assertRaisesRegex(StreamBroken, "drive 3"):
                book.history()
        self.assertIn("broken", repr(book))

    def test_a_handler_that_calls_the_same_book(self):
        faults = []

        def rise(number, frame):
            try:
                book.history()
            except RollbackError as fault:
                faults.append(type(fault))

        before = signal.signal(signal.SIGALRM, rise)
        self.addCleanup(signal.signal, signal.SIGALRM, before)
        with Book.open(program=PROGRAM) as book:
            book.table("items", {"id": "S"})
            book.define("loop", LOOP)
            book.start("a", "loop", {})
            signal.setitimer(
                signal.ITIMER_REAL, 0.02, 0.02
            )  # again and again: between two calls the handler's own is answered
            self.addCleanup(signal.setitimer, signal.ITIMER_REAL, 0)
            while not faults:
                self.assertEqual(len(book.drive(1000)), 1000)
                book.settle()
            signal.setitimer(signal.ITIMER_REAL, 0)
        self.assertEqual(set(faults), {RollbackError})

    def test_ctrl_c_leaves_the_journal_whole(self):
        """The whole group of processes gets the signal, as from a terminal."""
        script = """
            import sys
            from rollback_client import Book, StreamBroken
            book = Book.open(sys.argv[1], sys.argv[2])
            book.table("items", {"id": "S"})
            book.define("loop", {"StartAt": "A", "States": {"A": {"Type": "Pass", "Next": "A"}}})
            book.start("a", "loop", {})
            answered = 0
            try:
                print("begun", flush=True)
                while True:
                    answered = book.step("a").step.number
            except KeyboardInterrupt:
                pass
            try:
                moves = book.show("a").moves
                book.close()
                word = "usable"
            except StreamBroken:
                moves, word = answered, "broken"
            with Book.open(sys.argv[1], sys.argv[2]) as again:
                print(word, answered <= moves <= again.show("a").moves <= answered + 1, flush=True)
        """
        command = [sys.executable, "-c", textwrap.dedent(script), self.path("a.db"), PROGRAM]
        for pause in (0.0, 0.03, 0.1):
            process = subprocess.Popen(
                command, stdout=subprocess.PIPE, text=True, cwd=TOP / "clients/python", start_new_session=True
            )
            with process:
                self.assertEqual(process.stdout.readline(), "begun\n")
                time.sleep(pause)
                os.killpg(process.pid, signal.SIGINT)
                self.assertIn(process.stdout.readline(), ("usable True\n", "broken True\n"))
            self.assertEqual(process.returncode, 0)
            for name in ("a.db", "a.db-wal"):
                if os.path.exists(self.path(name)):
                    os.unlink(self.path(name))


class Ends(InFolder):
    def test_a_forked_process_touches_nothing(self):
        with Book.open(program=PROGRAM) as book:
            book.table("items", {"id": "S"})
            child = os.fork()
            if child == 0:
                status = 0
                for call in (book.items, book.history, book.close, lambda: book.step("a")):
                    try:
                        call()
                    except OtherProcess:
                        continue
                    except BaseException:
                        pass
                    status = 1
                os._exit(status)
            self.assertEqual(os.waitpid(child, 0)[1], 0)
            self.assertEqual(book.items(), [])

    def test_a_closed_book_says_so(self):
        book = Book.open(program=PROGRAM)
        self.assertIn("open", repr(book))
        book.close()
        book.close()
        for call in (book.items, book.settle, lambda: book.ask("items")):
            with self.assertRaisesRegex(BookClosed, "^this book is closed$"):
                call()
        self.assertIn("closed", repr(book))

    def test_a_program_that_takes_long_to_end(self):
        from rollback_client import links

        self.addCleanup(setattr, links, "PATIENCE", links.PATIENCE)
        links.PATIENCE = 0.1
        program = self.path("program")
        with open(program, "w", encoding="utf-8") as file:
            file.write("#!/bin/sh\nread a; echo ok 0; read a; sleep 0.5; echo rest; exit $1\n")
        os.chmod(program, 0o755)
        with Book.open(program=program) as book:
            self.assertEqual(book.items(), [])

    def test_the_child_is_in_a_session_of_its_own(self):
        with Book.open(program=PROGRAM) as book:
            child = book._stream.link._child.pid
            self.assertEqual(os.getsid(child), child)

    def test_a_line_that_ends_with_a_carriage_return(self):
        with Book.open(program=PROGRAM) as book:
            for line in ("\r", "items\r", "a\n", "", "!copy", "\ud800"):
                with self.assertRaises(ValueError) as found:
                    book.ask(line)
                self.assertNotIsInstance(found.exception, UnicodeError)
            book.table("items", {"id": "S"})
            self.assertEqual(book.items(), [])


class Places(InFolder):
    CALLS = (
        ("settle", lambda book: book.settle()),
        ("undo a#1", lambda book: book.undo("a#1")),
        ("define p ", lambda book: book.define("p", PASS)),
        ("table items ", lambda book: book.table("items", {"id": "S"})),
        ("items", lambda book: book.items()),
        ("history", lambda book: book.history()),
        ("held", lambda book: book.held()),
        ("plan a#0", lambda book: book.plan("a#0")),
        ("rollback a#0", lambda book: book.rollback("a#0")),
        ("work 1 5", lambda book: book.work(1, 5)),
        ("drive 5", lambda book: book.drive(5)),
        ("hold a#0", lambda book: book.hold("a#0")),
        ("start a p {}", lambda book: book.start("a", "p", {})),
        ("step a", lambda book: book.step("a")),
        ("show a", lambda book: book.show("a")),
        ("nonsense", lambda book: book.ask("nonsense")),
    )

    def fake(self, answer, **more):
        server = FakeServer(self.room, answer, **more)

        def end():
            server.close()
            os.unlink(server.address)

        self.addCleanup(end)
        return server

    def test_busy_is_no_answer_to_any_call(self):
        server = self.fake(lambda line: b"busy\n")
        for line, call in self.CALLS:
            with self.subTest(line):
                book = Book.connect(server.address)
                with self.assertRaises(Busy):
                    call(book)
                with self.assertRaises(StreamBroken):
                    call(book)

    def test_a_reply_of_another_form_is_no_answer(self):
        wrong = [
            b"\n",
            b"ok what\n",
            b"yes\n",
            b"no\n",
            b"no x\n",
            b"ok 1\n[]\n",
            b"ok 01\n",
            b"OK\n",
            b"\xff\n",
            b"ok ready\n",
        ]
        said = []
        server = self.fake(lambda line: said[0])
        for line, call in self.CALLS[:-1]:
            for reply in wrong + (
                [b"ok 0\n"] if "ok 0" not in line and line[:4] in ("sett", "undo", "defi", "tabl") else []
            ):
                with self.subTest(line=line, reply=reply):
                    said[:] = [reply]
                    book = Book.connect(server.address)
                    with self.assertRaises(StreamBroken):
                        call(book)
                    with self.assertRaises(StreamBroken):
                        call(book)

    def test_a_reply_that_is_anothers(self):
        answers = {
            b"start a p {}\n": b"ok b#0\n",
            b"step a\n": b"ok a/1.0#1 plain\n",
            b"drive 1\n": b"ok 2\na#1\na#2\n",
            b"work 1 1\n": b"ok 2\na#1\na#2\n",
            b"plan a#0\n": b"ok 2\nb#1\nb#0\n",
            b"rollback a#0\n": b"ok 0\n",
            b"other\n": b"okay\n",
        }
        server = self.fake(answers.get)
        for line in answers:
            with self.assertRaises(StreamBroken, msg=line):
                Book.connect(server.address).ask(line.decode()[:-1])

    def test_connect_learns_that_no_place_is_free(self):
        server = self.fake(lambda line: b"busy\n", greet=False)
        with self.assertRaises(Busy):
            Book.connect(server.address)

    def test_what_was_said_before_the_end_is_read(self):
        """The server says busy, and closes before the greeting comes, so that this can't be sent any more."""
        place = self.path("early")
        with socket.socket(socket.AF_UNIX, socket.SOCK_STREAM) as listening:
            listening.bind(place)
            listening.listen(1)
            closed = threading.Event()

            def serve():
                stream, _ = listening.accept()
                stream.sendall(b"busy\n")
                stream.close()
                closed.set()

            threading.Thread(target=serve, daemon=True).start()
            from rollback_client import streams

            connected = streams.unix_socket

            def slow(address):
                found = connected(address)
                closed.wait(PATIENCE)
                return found

            streams.unix_socket = slow
            try:
                with self.assertRaises(Busy):
                    Book.connect(place)
            finally:
                streams.unix_socket = connected

    def test_a_full_queue_is_busy_and_not_no_server(self):
        with socket.socket(socket.AF_UNIX, socket.SOCK_STREAM) as listening:
            listening.bind(self.path("full"))
            listening.listen(0)
            waiting = []
            for _ in range(10):
                found = socket.socket(socket.AF_UNIX, socket.SOCK_STREAM)
                self.addCleanup(found.close)
                found.setblocking(False)
                try:
                    found.connect(self.path("full"))
                except BlockingIOError:
                    break
            else:
                self.skipTest("the queue of a socket isn't bounded here")
            for words in ({"timeout": 0.2}, {"timeout": 0.1, "retry": 0.2}):
                with self.assertRaises(Busy):
                    waiting.append(Book.connect(self.path("full"), **words))
        self.assertEqual(waiting, [])

    def test_no_server(self):
        for address in (self.path("nothing"), "127.0.0.1:1"):
            with self.assertRaises(NoServer):
                Book.connect(address, timeout=PATIENCE)
        for address in ("127.0.0.1:99999", "\ud800"):
            with self.assertRaises(ValueError) as found:
                Book.connect(address)
            self.assertNotIsInstance(found.exception, UnicodeError)
        for program in ("\ud800", "a\0b", self.room):
            with self.assertRaises(RollbackError):
                Book.open(program=program)

    def test_retry_waits_for_a_server(self):
        def come():
            time.sleep(0.3)
            self.fake(lambda line: b"ok 0\n")

        later = threading.Thread(target=come)
        later.start()
        book = Book.connect(os.path.join(self.room, "fake"), retry=PATIENCE)
        later.join()
        self.assertEqual(book.items(), [])
        with self.assertRaises(NoServer):
            Book.connect(self.path("nothing"), retry=0.1)

    def test_no_byte_for_as_long_as_the_caller_waits(self):
        server = self.fake(lambda line: b"ok 2\na#0\n")
        book = greeted(lambda: Book.connect(server.address, timeout=2))
        with self.assertRaisesRegex(ConnectionLost, "history"):
            book.history()
        with self.assertRaises(StreamBroken):
            book.history()


if __name__ == "__main__":
    unittest.main()

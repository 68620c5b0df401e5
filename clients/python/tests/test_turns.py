"""Callers that take turns, long drives in pieces, and places for callers."""
import concurrent.futures
import fcntl
import json
import os
import signal
import struct
import termios
import time
import unittest

from rollback_client import Book, Busy, ConnectionLost, Done, NoServer, Step
from rollback_client.server.callers import Cutter
from rollback_client.server.pieces import MOST_OF_A_PIECE, pieces_of
from tests.program import ECHO, LOOP, PASS, PATIENCE, Served, connected, read_reply


def answered(pieces, replies):
    """The lines that are given for these replies, and the reply to the whole."""
    given = []
    for reply in replies:
        given.append(pieces.next_line().decode())
        pieces.take(reply)
    return given, pieces.is_over, pieces.reply()


def unread(stream):
    """Bytes that the other side of a Unix socket hasn't read."""
    return struct.unpack("i", fcntl.ioctl(stream.fileno(), termios.TIOCOUTQ, b"\0" * 4))[0]


def steps(first, count):
    return b"ok %d\n%s" % (count, b"".join(b"a#%d\n" % number for number in range(first, first + count)))


class PiecesOfALine(unittest.TestCase):
    def test_short_lines_and_others_are_given_whole(self):
        for line in (
            b"drive 256",
            b"drive 65537",
            b"drive 0300",
            b"drive  300",
            b"drive 300 ",
            b"work 9 300",
            b"work 300",
            b"plan a#0",
        ):
            self.assertIsNone(pieces_of(line))

    def test_a_drive_ends_with_a_piece_that_takes_fewer(self):
        found = answered(pieces_of(b"drive 1000"), [steps(1, 256), steps(257, 100)])
        self.assertEqual(found, (["drive 256\n", "drive 256\n"], True, steps(1, 356)))

    def test_a_drive_takes_no_more_than_it_was_given(self):
        found = answered(pieces_of(b"drive 600"), [steps(1, 256), steps(257, 256), steps(513, 88)])
        self.assertEqual(found, (["drive 256\n", "drive 256\n", "drive 88\n"], True, steps(1, 600)))

    def test_a_drive_on_a_slow_disk_has_shorter_pieces(self):
        pieces = pieces_of(b"drive 2000")
        sizes = []
        for seconds in (0.5, 0.5, 0.5, 0.5, 0.5, 0.5, 0.05, 0.01, 0.01):
            sizes.append(int(pieces.next_line().split()[1]))
            pieces.take(steps(1, sizes[-1]), seconds)
        self.assertEqual(sizes, [256, 128, 64, 32, 16, 16, 16, 16, 32])
        pieces = pieces_of(b"work 2 2000")
        for _ in range(3):
            self.assertEqual(pieces.next_line(), b"work 2 256\n")
            pieces.take(steps(1, 256), 0.5)

    def test_work_tries_the_rest_at_once_after_a_short_piece(self):
        found = answered(pieces_of(b"work 4 1000"), [steps(1, 256), steps(257, 10), steps(267, 5)])
        self.assertEqual(found, (["work 4 256\n", "work 4 256\n", "work 4 734\n"], True, steps(1, 271)))
        found = answered(pieces_of(b"work 4 1000"), [b"ok 0\n", b"ok 0\n"])
        self.assertEqual(found, (["work 4 256\n", "work 4 1000\n"], True, b"ok 0\n"))

    def test_a_refusal_is_the_reply_if_no_step_was_taken(self):
        for line in (b"drive 300", b"work 1 300"):
            pieces = pieces_of(line)
            pieces.next_line()
            pieces.take(b"no 21\n")
            self.assertEqual((pieces.is_over, pieces.reply()), (True, b"no 21\n"))

    def test_a_refusal_after_steps_is_answered_by_these(self):
        for line in (b"drive 300", b"work 1 300"):
            for refusal in (b"no 10\n", b"no 24\n"):
                pieces = pieces_of(line)
                for reply in (steps(1, 256), refusal):
                    pieces.next_line()
                    pieces.take(reply)
                self.assertEqual((pieces.is_over, pieces.reply()), (True, steps(1, 256)))


class LinesOfACaller(unittest.TestCase):
    def cut(self, *chunks):
        cutter, found = Cutter(), []
        for chunk in chunks:
            cutter.feed(chunk)
            while (asked := cutter.next(0.0)) is not None:
                found.append((asked.line, asked.length, asked.own))
        return found

    def test_ends_of_lines(self):
        self.assertEqual(
            self.cut(b"a\r\n\r\n\nb\r\r\n\r\r", b"\nc"), [(b"a\r", 1, None), (b"b\r\r", 2, None), (b"\r\r", 1, None)]
        )

    def test_a_line_that_is_too_long(self):
        most = 1 << 20
        self.assertEqual(self.cut(b"a" * most + b"\r\n"), [(b"a" * most + b"\r", most, None)])
        for chunks in (
            [b"a" * (most + 1) + b"\n"],
            [b"a" * most, b"ab\n"],
            [b"a" * most, b"a\r", b"\n"],
            [b"a" * (most + 2), b"\n"],
        ):
            ((line, length, own),) = self.cut(*chunks)
            self.assertEqual(
                (line, length, own), (b"", sum(map(len, chunks)) - 1 - (b"\r" in b"".join(chunks)), b"no 20\n")
            )

    def test_lines_for_the_server_itself(self):
        self.assertEqual(self.cut(b"!what\n!copy\r\n"), [(b"!what", 5, b"no 20\n"), (b"!copy\r", 5, None)])


class Turns(Served):
    def test_shows_beside_a_long_drive(self):
        """Ten shows at least, one after another, are answered amid a drive: none waits for all of it.

        Another process may hold the caller up for as long as the drive takes, so it is tried a few times.
        """
        self.assertTrue(any(self.shows_beside_a_drive() >= 10 for _ in range(5)))

    def shows_beside_a_drive(self):
        """How many shows of another caller see that a drive has begun and isn't over."""
        # Each step fills a template, so that the drive takes seconds, and a moment of another process is little beside it.
        fill = {"Type": "Pass", "Parameters": {f"field{number}": number for number in range(100)}, "Next": "A"}
        server = self.begun(machine={"StartAt": "A", "States": {"A": fill}}, journal=None)
        with Book.connect(server.address) as driver, Book.connect(server.address) as other:
            driver.start("a", "p", {})
            with concurrent.futures.ThreadPoolExecutor(1) as threads:
                drive, count = threads.submit(driver.drive, 20000), 0
                while not drive.done():
                    count += 0 < other.show("a").moves < 20000
                self.assertEqual(drive.result(), [Step("a", number) for number in range(1, 20001)])
        server.end()
        return count

    def test_a_show_waits_for_few_pieces(self):
        """Beside a drive 100 shows are at hand at once: from one to the next the driven thread has moved by two pieces at most."""
        server = self.begun(machine=LOOP, journal=None)
        with Book.connect(server.address) as book:
            book.start("a", "p", {})
            driver, replies = self.plain(server)
            driver.sendall(b"drive 20000\n")
            self.until(lambda: book.show("a").moves > 0)
            other, lines = self.plain(server)
            other.sendall(b"show a\n" * 100)
            moves = [int(read_reply(lines, "show")[0].split(" ")[-1]) for _ in range(100)]
            self.assertLessEqual(max(after - before for before, after in zip(moves, moves[1:])), 2 * MOST_OF_A_PIECE)
            self.assertEqual(read_reply(replies, "drive")[0], "ok 20000")

    def test_joined_replies_are_those_of_the_whole(self):
        server = self.begun(machine=LOOP, journal=None)
        with Book.connect(server.address) as book:
            for name in ("a", "b"):
                book.start(name, "p", {})
            self.assertEqual(len(book.drive(MOST_OF_A_PIECE + 1)), MOST_OF_A_PIECE + 1)
            found = book.work(2, 600)
            self.assertGreater(len(found), 0)
            self.assertEqual(book.history()[-len(found) :], found)
            book.define("q", PASS)
        with Book.connect(self.begun(journal=None, address=self.path("other")).address) as book:
            for number in range(300):
                book.start(f"e{number}", "p", {})
            self.assertEqual(len(book.drive(65536)), 300)
            self.assertEqual(book.drive(1000), [])
            self.assertEqual(book.work(8, 1000), [])
            self.assertEqual(book.show("e299"), Done(7))

    def test_a_drive_ends_with_the_piece_at_hand_when_its_caller_goes(self):
        log = self.path("log")
        server = self.begun("--log", log, machine=LOOP, journal=None, program=self.held_program())
        with Book.connect(server.address) as book:
            book.start("a", "p", {})
            stream = connected(server.address)
            stream.sendall(b"drive 65000\n")
            self.until_held()
            stream.close()
            self.let_go()
            self.until(lambda: "drive 65000" in self.logged(log))
            self.assertLess(book.show("a").moves, 65000)

    def logged(self, log):
        """The lines that a log has by now, in order."""
        with open(log, encoding="utf-8") as file:
            return [json.loads(entry)["line"] for entry in file if entry.endswith("\n")]

    def test_callers_take_turns_a_line_each(self):
        """While the program is stopped two callers give 60 lines each, and a third one gives one: it is among the first answered."""
        log = self.path("log")
        server = self.begun("--log", log, journal=None)
        os.kill(server.child(), signal.SIGSTOP)
        bulk = [self.plain(server) for _ in range(2)]
        for stream, _ in bulk:
            stream.sendall(b"history\n" * 60)
            self.until(lambda: not unread(stream))
        one, lines = self.plain(server)
        one.sendall(b"held\n")
        self.until(lambda: not unread(one))
        os.kill(server.child(), signal.SIGCONT)
        self.assertEqual(read_reply(lines, "held"), ["ok 0"])
        for _, lines in bulk:
            for _ in range(60):
                self.assertEqual(read_reply(lines, "history"), ["ok 0"])
        order = self.logged(log)
        # 16 lines were with the program before it came; then the other two have a turn each.
        begun = order.index("history")
        self.assertLessEqual(order.index("held") - begun, 16 + 2)


class Places(Served):
    def test_a_server_without_a_place_is_busy(self):
        server = self.begun("--callers", "1", journal=None)
        with Book.connect(server.address, retry=PATIENCE) as first:
            self.assertEqual(first.items(), [])
            for _ in range(50):
                with self.assertRaises(Busy):
                    Book.connect(server.address)
            with self.assertRaises(Busy):
                Book.connect(server.address, retry=0.1)
        self.assertEqual(Book.connect(server.address, retry=PATIENCE).items(), [])

    def test_a_caller_that_idles_makes_room(self):
        server = self.begun("--callers", "2", "--idle", "0.2", journal=None, machine=LOOP)
        first, second = Book.connect(server.address, retry=PATIENCE), Book.connect(server.address, retry=PATIENCE)
        second.start("a", "p", {})
        time.sleep(0.3)
        second.items()
        third = Book.connect(server.address, retry=PATIENCE)
        self.assertEqual((third.items(), second.items()), ([], []))
        with self.assertRaises(ConnectionLost):
            first.items()

    def test_a_caller_that_is_owed_a_reply_isnt_idle(self):
        words = ("--callers", "1", "--idle", "0")
        server = self.begun(*words, journal=None, machine=LOOP, program=self.held_program())
        book = Book.connect(server.address, retry=PATIENCE)
        book.start("a", "p", {})
        with concurrent.futures.ThreadPoolExecutor(1) as threads:
            drive = threads.submit(book.drive, 30000)
            self.until_held()
            for _ in range(20):
                self.assertRaises(Busy, Book.connect, server.address)
            self.let_go()
            self.assertEqual(len(drive.result()), 30000)

    def test_replies_that_nobody_reads_are_bounded(self):
        server = self.begun("--unread", "4", journal=None, machine=ECHO)
        with Book.connect(server.address) as book:
            book.start("big", "p", "x" * 500000)
            book.step("big")
            greedy = [connected(server.address) for _ in range(4)]
            for number, stream in enumerate(greedy):
                self.addCleanup(stream.close)
                stream.sendall(b"show big\n" * (60 if number == 2 else 1))
            for _ in range(20):
                self.assertEqual(book.show("big"), Done("x" * 500000))
            # The one that left most was let go, and the others weren't.
            for number, stream in enumerate(greedy):
                with stream.makefile("rb") as lines:
                    if number != 2:
                        self.assertIsNotNone(read_reply(lines, "show"))
                    else:
                        self.assertLess(len(lines.read()), 60 * 500000)


class OtherAddresses(Served):
    def test_a_port_of_the_loopback(self):
        for listen, form in (("127.0.0.1:0", "127.0.0.1:"), ("localhost:0", "localhost:")):
            server = self.serve("--listen", listen, journal=None)
            self.assertTrue(server.address.startswith(form) and not server.address.endswith(":0"), server.address)
            with Book.connect(server.address, retry=PATIENCE) as book:
                book.table("items", {"id": "S"})
                self.assertEqual(book.items(), [])
            self.assertEqual(server.end(), (0, ""))
            with self.assertRaises(NoServer):
                Book.connect(server.address)


if __name__ == "__main__":
    unittest.main()

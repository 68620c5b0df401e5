"""A book for asyncio: calls that wait together, are cancelled, or meet an end."""
import asyncio
import contextlib
import inspect
import os
import random
import signal
import unittest

from rollback_client import (
    AsyncBook,
    Book,
    BookClosed,
    Busy,
    ConnectionLost,
    Done,
    NoServer,
    NoThread,
    OtherProcess,
    ProgramEnded,
    Ready,
    Step,
    StreamBroken,
    Taken,
)
from tests.fakes import FakeServer
from tests.program import ECHO, LOOP, PASS, PATIENCE, PROGRAM, Served

TASKS, CALLS = 8, 2000


async def call_often(book, name):
    """The wrong replies of one task's calls, each of which names its own execution."""
    wrong = []
    for number in range(CALLS // 4):
        execution = f"{name}-{number}"
        start, step = Step(execution, 0), Step(execution, 1)
        found = [
            await book.start(execution, "p", {}),
            await book.step(execution),
            await book.plan(start),
            await book.show(execution),
        ]
        if found != [start, Taken(step, "plain"), [step, start], Done(7)]:
            wrong.append((execution, found))
    return wrong


async def begun(book, machine=PASS):
    await book.table("items", {"id": "S"})
    await book.define("p", machine)
    return book


class Tasks(Served):
    def run_with(self, talk, machine=PASS):
        async def run():
            async with await AsyncBook.open(program=PROGRAM) as book:
                return await talk(await begun(book, machine))

        return asyncio.run(run())

    def test_each_of_eight_tasks_gets_its_own_replies(self):
        async def talk(book):
            wrong = await asyncio.gather(*(call_often(book, f"t{number}") for number in range(TASKS)))
            self.assertEqual(wrong, [[]] * TASKS)
            self.assertEqual(len(await book.history()), TASKS * CALLS // 4 * 2)

        self.run_with(talk)

    def test_over_a_server(self):
        server = self.begun(journal=None)

        async def talk():
            async with await AsyncBook.connect(server.address, timeout=PATIENCE) as book:
                self.assertEqual(
                    await asyncio.gather(*(call_often(book, f"t{number}") for number in range(2))), [[], []]
                )

        asyncio.run(talk())

    def test_a_reply_of_any_length(self):
        async def talk(book):
            value = "x" * 1_000_000
            await book.start("big", "p", value)
            await book.step("big")
            self.assertEqual(await book.show("big"), Done(value))

        self.run_with(talk, ECHO)

    def test_one_that_is_cancelled_before_its_turn_is_never_sent(self):
        async def talk(book):
            await book.start("a", "p", {})
            drive = asyncio.ensure_future(book.drive(5000))
            await asyncio.sleep(0)
            start = asyncio.ensure_future(book.start("b", "p", {}))
            last = asyncio.ensure_future(book.show("a"))
            await asyncio.sleep(0)
            self.assertFalse(drive.done())
            start.cancel()
            self.assertEqual(len(await drive), 5000)
            self.assertEqual(await last, Ready("A", 5000))
            with self.assertRaises(NoThread):
                await book.show("b")
            with self.assertRaises(asyncio.CancelledError):
                await start

        self.run_with(talk, LOOP)

    def test_the_reply_of_one_that_is_cancelled_later_is_nobody_elses(self):
        async def talk(book):
            draws = random.Random(7)
            await book.start("a", "p", {})
            await book.start("still", "p", {})
            for _ in range(200):
                drive = asyncio.ensure_future(book.drive(draws.randrange(1, 60)))
                await asyncio.sleep(draws.choice((0, 0, 0.0002, 0.001)))
                drive.cancel()
                self.assertEqual(await book.plan("still#0"), [Step("still", 0)])
                with self.assertRaises(NoThread):
                    await book.show("nobody")

        self.run_with(talk, LOOP)

    def test_a_timeout_of_the_caller(self):
        async def talk(book):
            await book.start("a", "p", {})
            with self.assertRaises(asyncio.TimeoutError):
                await asyncio.wait_for(book.drive(60000), 0.001)
            self.assertEqual(await book.show("a"), Ready("A", 60000))

        self.run_with(talk, LOOP)

    def test_a_loop_that_ends_with_a_call_under_way(self):
        books = []

        async def talk():
            book = await begun(await AsyncBook.open(self.path("a.db"), program=PROGRAM), LOOP)
            books.append(book)
            await book.start("a", "p", {})
            asyncio.ensure_future(book.work(1, 65536))
            await asyncio.sleep(0.01)

        asyncio.run(talk())
        self.assertIn(books[0]._stream.link.state, ("broken", "open"))
        if books[0]._stream.link.state == "open":
            asyncio.run(books[0].close())
        with Book.open(self.path("a.db"), PROGRAM) as book:
            self.assertEqual(book.history()[0], Step("a", 0))


class Ends(Served):
    def test_a_program_that_was_killed(self):
        async def talk():
            book = await begun(await AsyncBook.open(program=PROGRAM))
            os.kill(book._stream.link._child.pid, signal.SIGKILL)
            with self.assertRaises(ProgramEnded) as found:
                await book.items()
            self.assertEqual((found.exception.status, found.exception.line), (-signal.SIGKILL, "items"))
            with self.assertRaises(StreamBroken):
                await book.items()

        asyncio.run(talk())

    def test_closed_and_forked(self):
        async def talk():
            book = await AsyncBook.open(program=PROGRAM)
            child = os.fork()
            if child == 0:
                try:
                    await book.items()
                except OtherProcess:
                    os._exit(0)
                finally:
                    os._exit(1)
            self.assertEqual(os.waitpid(child, 0)[1], 0)
            await begun(book)
            await book.close()
            await book.close()
            with self.assertRaisesRegex(BookClosed, "^this book is closed$"):
                await book.items()
            self.assertIn("closed", repr(book))

        asyncio.run(talk())

    def test_places(self):
        replies = []
        fake = FakeServer(self.room, lambda line: replies[0])
        self.addCleanup(fake.close)

        async def connected(timeout):
            while True:  # a slow machine may need longer for the greeting
                with contextlib.suppress(ConnectionLost):
                    return await AsyncBook.connect(fake.address, timeout=timeout)

        async def talk():
            with self.assertRaises(NoServer):
                await AsyncBook.connect(self.path("nothing"))
            with self.assertRaises(NoServer):
                await AsyncBook.connect("127.0.0.1:1", timeout=PATIENCE)
            for reply, error, timeout in (
                (b"busy\n", Busy, PATIENCE),
                (b"ok what\n", StreamBroken, PATIENCE),
                (None, ConnectionLost, PATIENCE),
                (b"ok 1\n", ConnectionLost, 2),  # the rest never comes
            ):
                replies[:] = [reply]
                book = await connected(timeout)
                with self.assertRaises(error):
                    await book.history()
                with self.assertRaises(StreamBroken):
                    await book.history()

        asyncio.run(talk())

    def test_a_busy_server_is_waited_for(self):
        server = self.begun("--callers", "1", journal=None)

        async def talk():
            async with await AsyncBook.connect(server.address, retry=PATIENCE) as first:
                with self.assertRaises(Busy):
                    await AsyncBook.connect(server.address)
                waiting = asyncio.ensure_future(AsyncBook.connect(server.address, retry=PATIENCE))
                await asyncio.sleep(0.05)
                self.assertEqual(await first.items(), [])
            async with await waiting as second:
                self.assertEqual(await second.items(), [])

        asyncio.run(talk())


class Methods(unittest.TestCase):
    def test_both_books_have_the_same_methods(self):
        def methods(kind):
            return {name for name in dir(kind) if not name.startswith("_")}

        self.assertEqual(methods(Book), methods(AsyncBook))
        for name in methods(Book):
            of_book, of_async = (inspect.signature(getattr(kind, name)) for kind in (Book, AsyncBook))
            self.assertEqual(list(of_book.parameters.values()), list(of_async.parameters.values()), name)

    def test_each_method_says_what_it_does_and_raises(self):
        for kind in (Book, AsyncBook):
            for name, method in vars(kind).items():
                if name.startswith("_"):
                    continue
                said = inspect.getdoc(getattr(kind, name)) or ""
                self.assertTrue(said, name)
                if name not in ("open", "connect", "close") or kind is Book:
                    self.assertRegex(said, "Raises|RollbackError", name)


if __name__ == "__main__":
    unittest.main()

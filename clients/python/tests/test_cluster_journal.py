"""Journals of a cluster's servers, as the program writes them: what is read of them, what is cut, and what is refused as it is."""
import asyncio
import json
import os
import signal
import sqlite3
import subprocess
from contextlib import closing
from unittest import mock

from rollback_client import Book
from rollback_client.cluster.entries import chained
from rollback_client.cluster.faults import BrokenLog
from rollback_client.cluster.journal import Belongs, InUse, common_length, cut, rows_of
from rollback_client.cluster.log import Log
from rollback_client.cluster.seeding import Seeding, replayed
from tests.fake_etcd import FakeEtcd, Way
from tests.program import PASS, PROGRAM, InFolder


def hash_free(lines):
    return [("0" * 64, line) for line in lines]


class Journals(InFolder):
    def setUp(self):
        super().setUp()
        self.journal = self.path("orders.db")

    def begun(self, executions, text="x" * 300):
        """A journal of the program, with two lines of each execution."""
        with Book.open(self.journal, PROGRAM) as book:
            book.table("items", {"id": "S"})
            book.define("p", PASS)
            for number in range(executions):
                book.start(f"e{number}", "p", text)
                book.step(f"e{number}")

    def checked(self):
        """What the program says of the file: its lines and its remaining steps."""
        done = subprocess.run([PROGRAM, "--check", self.journal], stdout=subprocess.PIPE, text=True, check=True)
        return [int(word) for word in done.stdout.split(" ")[1:]]


class Cuts(Journals):
    def test_the_program_goes_on_from_a_journal_that_was_cut(self):
        self.begun(1000)
        rows = rows_of(self.journal)
        self.assertEqual(len(rows), 2002)
        self.assertEqual(cut(self.journal, 1001), 1001)
        with closing(sqlite3.connect(self.journal)) as file:
            self.assertGreater(file.execute("pragma freelist_count").fetchone()[0], 0)  # and yet it is a journal
        self.assertEqual(rows_of(self.journal), rows[:1001])
        self.assertEqual(self.checked(), [1001, 999])
        with Book.open(self.journal, PROGRAM) as book:
            self.assertEqual(len(book.history()), 999)
            self.assertEqual(str(book.step("e499").step), "e499#1")
        self.assertEqual(self.checked(), [1002, 1000])

    def test_cut_rows_are_kept(self):
        self.begun(3)
        rows = rows_of(self.journal)
        self.assertEqual((cut(self.journal, 6), cut(self.journal, 4), cut(self.journal, 4)), (2, 2, 0))
        with open(f"{self.journal}.cut", encoding="utf-8") as file:
            kept = [json.loads(line) for line in file]
        self.assertEqual([(row["no"], row["line"].encode()) for row in kept], [(at, rows[at]) for at in (6, 7, 4, 5)])
        self.assertEqual(os.stat(f"{self.journal}.cut").st_mode & 0o777, 0o600)

    def test_all_rows_may_be_cut(self):
        self.begun(2)
        cut(self.journal, 0)
        self.assertEqual(self.checked(), [0, 0])
        self.begun(1)
        self.assertEqual(self.checked(), [4, 2])

    def test_a_journal_whose_program_was_killed(self):
        process = subprocess.Popen([PROGRAM, "--journal", self.journal], stdin=subprocess.PIPE, stdout=subprocess.PIPE)
        lines = [b"table items id:S []", b"define p " + json.dumps(PASS, separators=(",", ":")).encode()]
        lines += [b"start e%d p {}" % number for number in range(50)]
        process.stdin.write(b"\n".join(lines) + b"\n")
        process.stdin.flush()
        for _ in lines:
            process.stdout.readline()
        with self.assertRaises(InUse):
            rows_of(self.journal)
        process.send_signal(signal.SIGKILL)
        process.communicate()
        self.assertTrue(os.path.getsize(f"{self.journal}-wal"))
        self.assertEqual(rows_of(self.journal), lines)
        self.assertEqual(cut(self.journal, 12), 40)
        self.assertEqual(self.checked(), [12, 10])


class Refused(Journals):
    def test_no_file_and_an_empty_one(self):
        self.assertEqual(rows_of(self.journal), [])
        self.assertFalse(os.path.exists(self.journal))
        open(self.journal, "w", encoding="ascii").close()
        self.assertEqual(rows_of(self.journal), [])

    def test_files_that_are_no_journals_stay_as_they_are(self):
        def other_table():
            with closing(sqlite3.connect(self.journal)) as file, file:
                file.execute("create table other(x)")

        def index():
            self.begun(1)
            with closing(sqlite3.connect(self.journal)) as file, file:
                file.execute("create index i on entry(line)")

        def gap():
            self.begun(2)
            with closing(sqlite3.connect(self.journal)) as file, file:
                file.execute("delete from entry where no = 3")

        def text():
            with open(self.journal, "wb") as file:
                file.write(b"no journal at all\n" * 500)

        for make in (other_table, index, gap, text):
            make()
            with open(self.journal, "rb") as file:
                before = file.read()
            with self.assertRaises(BrokenLog, msg=make.__name__):
                rows_of(self.journal)
            with open(self.journal, "rb") as file:
                self.assertEqual(file.read(), before, make.__name__)
            os.unlink(self.journal)
        os.mkdir(self.journal)
        with self.assertRaises(BrokenLog):
            rows_of(self.journal)


class Belonging(Journals):
    def test_it_is_kept_whole(self):
        self.assertIsNone(Belongs.read(self.journal))
        for lines in (0, 5):
            Belongs("7", "orders", lines).write(self.journal)
            self.assertEqual(Belongs.read(self.journal), Belongs("7", "orders", lines))
        self.assertEqual(os.listdir(self.room), ["orders.db.cluster"])
        for wrong in ("", "{}", "[1]", '{"cluster_id": "7"}'):
            with open(f"{self.journal}.cluster", "w", encoding="ascii") as file:
                file.write(wrong)
            with self.assertRaises(BrokenLog):
                Belongs.read(self.journal)


class WithLog(Journals):
    def setUp(self):
        super().setUp()
        self.etcd = FakeEtcd()
        self.said = []

    def tell(self, does, why, **more):
        self.said.append(does)

    async def filled(self, lines, length):
        """A log with these lines, in batches of so many."""
        log = Log(Way(self.etcd), "/b", 5)
        self.assertTrue(await log.campaign("one:1", "v"))
        for number in range(0, len(lines), length):
            await log.append(number, chained("", lines[:number]), hash_free(lines[number : number + length]))
        await log.resign()
        return log

    def test_how_much_a_journal_and_the_log_have_in_common(self):
        lines = [b"step a%d" % number for number in range(4500)]
        other = [*lines[:3000], b"step other", *lines[3001:]]

        async def look():
            log = await self.filled(lines, 700)
            for rows, wanted in (
                ([], (0, False)),
                (lines, (4500, False)),
                (lines[:4300], (4300, True)),
                (lines[:10], (10, True)),
                ([*lines, b"step more"], (4500, False)),
                (lines + [b"step more"] * 2500, (4500, False)),
                (other, (3000, True)),
                ([b"step other", *lines[1:]], (0, True)),
            ):
                found = await common_length(rows, log)
                if not rows:
                    found = (found[0], False)
                self.assertEqual(found, wanted, len(rows))

        asyncio.run(look())

    def test_the_end_of_a_journal_needs_a_short_read(self):
        lines = [b"step a%d" % number for number in range(20_000)]

        async def look():
            log = await self.filled(lines, 500)
            self.etcd.calls.clear()
            self.assertEqual(await common_length(lines, log), (20_000, False))
            self.assertLessEqual(len(self.etcd.calls), 2)

        asyncio.run(look())

    def test_a_log_is_filled_from_a_journal(self):
        self.begun(800)
        rows = rows_of(self.journal)

        async def fill():
            log = Log(Way(self.etcd), "/b", 5)
            await Seeding(log, "one:1", "v", self.tell).fill(PROGRAM, rows, 0)
            self.assertIsNone(await log.leader())  # any server may lead now
            self.assertEqual(await log.seeded(), len(rows))
            entries = [entry async for batch in log.batches(0) for entry in batch.entries]
            self.assertEqual(entries, replayed(PROGRAM, rows))
            self.assertEqual([line for _, line in entries], rows)
            self.assertEqual(await common_length(rows, log), (len(rows), False))

        asyncio.run(fill())

    def test_a_filling_that_was_broken_off_goes_on(self):
        self.begun(800)
        rows = rows_of(self.journal)

        async def fill():
            log = await self.filled(rows[:1000], 1000)
            await Seeding(log, "one:1", "v", self.tell).fill(PROGRAM, rows, 1000)
            self.assertEqual(await common_length(rows, log), (len(rows), False))

        asyncio.run(fill())

    def test_no_log_is_filled_while_another_leads_or_has_put_lines(self):
        self.begun(2)
        rows = rows_of(self.journal)

        async def fill():
            other, log = Log(Way(self.etcd), "/b", 5), Log(Way(self.etcd), "/b", 5)
            self.assertTrue(await other.campaign("two:2", "v"))
            with self.assertRaises(BrokenLog), mock.patch("rollback_client.cluster.seeding.PATIENCE", -5):
                await Seeding(log, "one:1", "v", self.tell).fill(PROGRAM, rows, 0)
            await other.append(0, "", hash_free([b"table other id:S []"]))
            await other.resign()
            with self.assertRaises(BrokenLog):
                await Seeding(log, "one:1", "v", self.tell).fill(PROGRAM, rows, 0)
            self.assertEqual(len(self.etcd.batches()), 1)

        asyncio.run(fill())

    def test_the_key_of_a_server_that_is_gone_is_waited_for(self):
        self.begun(2)
        rows = rows_of(self.journal)

        async def fill():
            other, log = Log(Way(self.etcd), "/b", 5), Log(Way(self.etcd), "/b", 5)
            self.assertTrue(await other.campaign("two:2", "v"))
            filling = asyncio.ensure_future(Seeding(log, "one:1", "v", self.tell).fill(PROGRAM, rows, 0))
            await asyncio.sleep(0.3)
            self.assertEqual(self.etcd.batches(), [])
            self.etcd.expire_leader()
            await filling
            self.assertEqual(await common_length(rows, log), (len(rows), False))

        asyncio.run(fill())

    def test_lines_that_the_program_refuses_fill_nothing(self):
        with self.assertRaises(BrokenLog):
            replayed(PROGRAM, [b"table items id:S []", b"step nobody"])

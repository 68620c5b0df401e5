"""What is kept beside the journal for Amazon's tools: times, inputs and machines as given, over a restart and without a file."""
import os
import sqlite3

from rollback_client.aws.book import Table, Watch
from rollback_client.aws.store import Machine, Store
from tests.program import InFolder


class Stores(InFolder):
    def setUp(self):
        super().setUp()
        self.said = []
        self.file = self.path("orders.db-aws")

    def store(self, now=100.0):
        store = Store(self.file, now, self.said.append)
        self.addCleanup(store.close)
        return store

    def test_what_comes_back(self):
        store = self.store()
        store.keep_machine("order", Machine(1.5, '{ "a": 1 }', "role", {"team": "a"}, {"tracingConfiguration": {}}))
        store.accepted(7, 20.0)
        store.started("e", 7, '{"x":1}')
        store.keep_input("e", '{ "x": 1 }')
        store.keep_fact("table", {"name": "items"})
        self.assertTrue(store.wants_flush)
        store.flush()
        self.assertFalse(store.wants_flush)
        self.assertEqual(store.input("e"), '{ "x": 1 }')
        store.close()
        again = self.store(now=999.0)
        machine = again.machine("order")
        self.assertEqual((machine.moment, machine.definition, machine.role), (1.5, '{ "a": 1 }', "role"))
        self.assertEqual((machine.tags, machine.more), ({"team": "a"}, {"tracingConfiguration": {}}))
        self.assertEqual((again.moment(7), again.start_entry("e"), again.input("e")), (20.0, 7, '{ "x": 1 }'))
        self.assertEqual((again.fact("table"), again.begun), ({"name": "items"}, 100.0))
        self.assertEqual(os.stat(self.file).st_mode & 0o777, 0o600)

    def test_moments_that_are_not_known(self):
        store = self.store()
        store.accepted(3, 30.0)
        store.accepted(6, 60.0)
        found = [store.moment(entry) for entry in (0, 2, 3, 5, 6, 9, None)]
        self.assertEqual(found, [100.0, 100.0, 30.0, 30.0, 60.0, 60.0, 100.0])

    def test_a_journal_with_fewer_lines(self):
        store = self.store()
        for entry in range(10):
            store.accepted(entry, float(entry + 1))
        store.started("e", 8, "{}")
        store.flush()
        store.forget_from(5)
        self.assertEqual((store.moment(9), store.start_entry("e")), (5.0, None))
        store.close()
        self.assertEqual((self.store().moment(9), self.store().start_entry("e")), (5.0, None))

    def test_a_file_that_can_not_be_used(self):
        os.mkdir(self.file)
        store = self.store()
        (said,) = self.said
        self.assertIn("can't be used", said)
        store.started("e", 1, "{}")
        store.accepted(1, 5.0)
        store.flush()
        self.assertEqual((store.input("e"), store.moment(1)), ("{}", 5.0))

    def test_a_file_that_is_something_else(self):
        with sqlite3.connect(self.file) as file:
            file.execute("CREATE TABLE machine(other INTEGER)")
        file.close()
        store = self.store()
        self.assertTrue(self.said)
        store.keep_machine("order", Machine(1.0, "{}"))
        store.flush()
        self.assertEqual(store.machine("order").definition, "{}")

    def test_lines_that_are_heard(self):
        store = self.store()
        watch = Watch(store, 0, lambda: 50.0)
        for line, reply, count in (
            ("table items id:S at:N []", "ok\n", 1),
            ("define p {}", "ok\n", 1),
            ("start e p {}", "no 1\n", 0),
            ("start e p {}", "ok e#0\n", 1),
            ("drive 9", "ok 2\ne#1\ne#2\n", 2),
            ("show e", "ok done 1\n", 0),
        ):
            self.assertEqual(watch.follow(line.encode(), reply.encode()), count, line)
        self.assertEqual(watch.table, Table("items", (("id", "S"), ("at", "N"))))
        self.assertEqual((watch.entries, watch.known, store.start_entry("e")), (5, {"e"}, 2))
        self.assertEqual(watch.follow(b"rollback e#0", b"ok 3\ne#2\ne#1\ne#0\n"), 1)
        self.assertEqual(watch.known, set())

"""The log, the leader and the standby over an etcd in memory whose answers are lost or held back: what has too small a window to be
met by killing processes."""
import asyncio
import hashlib
import unittest
from unittest import mock

from rollback_client.cluster import leading
from rollback_client.cluster.entries import MOST_BYTES, MOST_LINES, batch_length, chained, entries_of, hash_of
from rollback_client.cluster.faults import BrokenLog, Deposed, Differs, ProgramGone, Resigned, Unreachable
from rollback_client.cluster.leading import Leadership
from rollback_client.cluster.log import Batch, Log
from rollback_client.cluster.replica import Replica
from rollback_client.cluster.standing import Standby
from rollback_client.cluster.tasks import end, first_of, within
from rollback_client.cluster.turns import Role
from tests.fake_etcd import Counter, FakeEtcd, FakeServer, Way

STEP = (hashlib.sha256(b"ok a#1").hexdigest(), b"step a")


def silent(does, why, **more):
    pass


async def passes(rounds=60):
    """Lets all that can go on go on."""
    for _ in range(rounds):
        await asyncio.sleep(0)


class Entries(unittest.TestCase):
    def test_a_step_has_the_same_hash_alone_and_in_a_drive(self):
        [(alone, line)] = entries_of(b"step a/1.0", b"ok a/1.0#2 plain\n")
        [(driven, same)] = entries_of(b"drive 3", b"ok 1\na/1.0#2\n")
        self.assertEqual((alone, line), (driven, same))
        self.assertEqual(alone, hashlib.sha256(b"ok a/1.0#2").hexdigest())
        self.assertEqual(line, b"step a/1.0")

    def test_what_the_log_gets(self):
        self.assertEqual(entries_of(b"start a p {}", b"no 4\n"), [])
        self.assertEqual(entries_of(b"show a", b"ok done 7\n"), [])
        self.assertEqual(entries_of(b"drive 3", b"ok 0\n"), [])
        said = b"ok 2\na#1\na#0\n"
        [(found, line)] = entries_of(b"rollback a#0", said)
        self.assertEqual((found, line), (hashlib.sha256(said[:-1]).hexdigest(), b"rollback a#0"))

    def test_how_much_a_batch_has(self):
        self.assertEqual(batch_length([]), 0)
        self.assertEqual(batch_length([("h" * 64, b"step a")] * (MOST_LINES + 5)), MOST_LINES)
        long = ("h" * 64, b"x" * MOST_BYTES)
        self.assertEqual(batch_length([long, long]), 1)
        self.assertEqual(batch_length([("h" * 64, b"step a"), long]), 1)

    def test_a_batch_is_read_as_it_was_written(self):
        batch = Batch(17, 5, chained("", [b"x"]), [STEP, (STEP[0], 'start a p "ä"'.encode())])
        import base64

        pair = {
            "key": base64.b64encode(b"/b/log/000000000017").decode(),
            "value": base64.b64encode(batch.value()).decode(),
        }
        self.assertEqual(Batch.read(pair), batch)
        for wrong in (b"", b"5 c", b"5 c\nshort", b"x y z\n" + b"h" * 64 + b" l"):
            with self.assertRaises(BrokenLog):
                Batch.read({**pair, "value": base64.b64encode(wrong).decode()})


class InLoop(unittest.IsolatedAsyncioTestCase):
    """A test with an etcd in memory."""

    async def asyncSetUp(self):
        asyncio.get_running_loop().slow_callback_duration = 60  # what a busy machine takes isn't looked at
        self.etcd = FakeEtcd()
        self.tasks = []

    async def asyncTearDown(self):
        await end(*self.tasks)

    def log(self):
        """A log with a way of its own."""
        way = Way(self.etcd)
        found = Log(way, "/b", 5)
        found.way = way
        return found

    def begin(self, awaited):
        task = asyncio.ensure_future(awaited)
        self.tasks.append(task)
        return task

    async def leading_log(self, address="one:1"):
        log = self.log()
        self.assertTrue(await log.campaign(address, "v"))
        return log


class OfLog(InLoop):
    async def test_one_leads(self):
        first, second = await self.leading_log(), self.log()
        self.assertFalse(await second.campaign("two:2", "v"))
        found = await second.leader()
        self.assertEqual((found.address, found.version, found.term), ("one:1", "v", first.term))
        with self.assertRaises(Deposed):
            await second.guard()
        await first.guard()
        await first.resign()
        self.assertTrue(await second.campaign("two:2", "v"))
        self.assertGreater(second.term, found.term)
        with self.assertRaises(Deposed):
            await first.guard()

    async def test_a_lost_answer_of_the_campaign(self):
        log, other = self.log(), self.log()
        log.way.plan = [("kv/txn", "lose")]
        with self.assertRaises(Unreachable):
            await log.campaign("one:1", "v")
        # The key is there, and it isn't known to be this server's: whoever tries to lead looks at its lease.
        self.assertFalse(await other.campaign("two:2", "v"))
        found = await other.leader()
        self.assertTrue(await log.campaign("one:1", "v"))
        self.assertGreater(log.term, found.term)
        self.assertFalse(await other.campaign("two:2", "v"))
        self.etcd.expire_leader()
        self.assertTrue(await other.campaign("two:2", "v"))

    async def test_a_campaign_that_is_broken_off_leaves_no_key(self):
        """A server that ends meanwhile doesn't have the others wait for its lease."""
        log, other, held = self.log(), self.log(), asyncio.Event()
        log.way.plan = [("kv/txn", held)]
        trying = self.begin(log.campaign("one:1", "v"))
        await passes()
        self.assertIsNotNone(await other.leader())
        await end(trying)
        await log.resign()
        self.assertIsNone(await other.leader())
        self.assertTrue(await other.campaign("two:2", "v"))

    async def test_who_leads_no_more_keeps_nothing_while_nobody_leads(self):
        log = await self.leading_log()
        await log.keep("paused", b"all")
        await log.resign()
        with self.assertRaises(Deposed):
            await log.keep("paused", b"[]")
        self.assertEqual(await log.kept("paused"), b"all")

    async def test_books_that_share_an_etcd_know_nothing_of_each_other(self):
        logs = {name: Log(Way(self.etcd), f"/rollback/{name}", 5) for name in ("orders", "orders-2", "orders2")}
        for name, log in logs.items():
            self.assertTrue(await log.campaign(f"{name}:1", "v"))
            await log.append(0, "", [STEP] * (1 + len(name)))
            await log.keep("paused", name.encode())
            await log.join(f"{name}:1", "v")
        for name, log in logs.items():
            self.assertEqual([batch.end async for batch in log.batches(0)], [1 + len(name)])
            self.assertEqual((await log.leader()).address, f"{name}:1")
            self.assertEqual((await log.kept("paused"), await log.members()), (name.encode(), [(f"{name}:1", "v")]))
            self.assertEqual(await log.newest(0), 0)

    async def test_a_lease_that_runs_out(self):
        log = await self.leading_log()
        await log.renew()
        self.etcd.expire_leader()
        with self.assertRaises(Deposed):
            await log.renew()

    async def test_a_lost_answer_of_a_batch_is_asked_for_by_the_same_bytes(self):
        log = await self.leading_log()
        log.way.plan = [("kv/txn", "lose"), ("kv/txn", "refuse"), ("kv/txn", "lose")]
        for _ in range(3):
            with self.assertRaises(Unreachable):
                await log.append(0, "", [STEP])
        await log.append(0, "", [STEP])
        self.assertEqual([number for number, _ in self.etcd.batches()], [0])
        tries = [body for path, body in self.etcd.calls if path == "kv/txn" and len(body["compare"]) == 2]
        self.assertEqual(len(tries), 4)
        self.assertTrue(all(body == tries[0] for body in tries))

    async def test_a_batch_of_another_term_isnt_taken_for_ones_own(self):
        old, new = await self.leading_log(), self.log()
        self.etcd.expire_leader()
        self.assertTrue(await new.campaign("two:2", "v"))
        await new.append(0, "", [STEP])
        with self.assertRaises(Deposed):
            await old.append(0, "", [STEP])
        self.assertEqual(len(self.etcd.batches()), 1)

    async def test_one_that_leads_no_more_puts_nothing(self):
        old = await self.leading_log()
        self.etcd.expire_leader()
        with self.assertRaises(Deposed):
            await old.append(0, "", [STEP])
        with self.assertRaises(Deposed):
            await old.keep("paused", b"x")
        self.assertEqual(self.etcd.batches(), [])
        self.assertIsNone(await old.kept("paused"))

    async def test_one_that_led_and_leads_again_puts_nothing_of_the_earlier_term(self):
        log = await self.leading_log()
        log.way.plan = [("kv/txn", "refuse")]
        with self.assertRaises(Unreachable):
            await log.append(0, "", [STEP])
        term = log.term
        self.etcd.expire_leader()
        self.assertTrue(await log.campaign("one:1", "v"))
        self.assertNotEqual(log.term, term)

    async def test_a_batch_that_another_put_meanwhile_is_a_broken_log(self):
        log = await self.leading_log()
        import base64

        other = Batch(0, 1, "", [STEP]).value()
        self.etcd.put(base64.b64encode(log.key(0)).decode(), base64.b64encode(other).decode())
        with self.assertRaises(BrokenLog):
            await log.append(0, "", [STEP])

    async def test_the_log_is_read_in_pages(self):
        log = await self.leading_log()
        for number in range(25):
            await log.append(number, "", [STEP])
        found = [batch.number async for batch in self.log().batches(3)]
        self.assertEqual(found, list(range(3, 25)))
        self.assertEqual(await log.newest(0), 24)
        self.assertEqual(await log.newest(25), 24)

    async def test_etcd_that_has_gone_back(self):
        log = await self.leading_log()
        await log.append(0, "", [STEP])
        self.assertEqual(len([batch async for batch in log.batches(0)]), 1)
        self.etcd.revision -= 1
        with self.assertRaises(BrokenLog):
            [batch async for batch in log.batches(0)]


class OfReplica(InLoop):
    def setUp(self):
        self.program = Counter()

    async def answered(self, line):
        return self.program(line)

    def replica(self, rows=()):
        return Replica(list(rows), lambda line: asyncio.ensure_future(self.answered(line)))

    def batch(self, number, count, chain=""):
        names = range(number + 1, number + count + 1)
        return Batch(number, 1, chain, [(hashlib.sha256(b"ok a#%d" % name).hexdigest(), b"step a") for name in names])

    async def test_batches_follow_each_other(self):
        replica = self.replica()
        await replica.take(self.batch(0, 3))
        await replica.take(self.batch(3, 2, chained("", [b"step a"] * 3)))
        self.assertEqual((replica.position, self.program.count), (5, 5))
        await replica.take(self.batch(3, 2, chained("", [b"step a"] * 3)))  # met twice, by a read and a watch
        self.assertEqual(replica.position, 5)

    async def test_a_gap_and_another_chain(self):
        replica = self.replica()
        await replica.take(self.batch(0, 3))
        with self.assertRaises(BrokenLog):
            await replica.take(self.batch(4, 1, chained("", [b"step a"] * 4)))
        with self.assertRaises(BrokenLog):
            await replica.take(self.batch(3, 1, chained("", [b"step b"] * 3)))
        self.assertEqual(replica.position, 3)

    async def test_a_batch_that_the_journal_has_in_part(self):
        self.program.count = 2
        replica = self.replica([b"step a"] * 2)
        await replica.take(self.batch(0, 5))
        self.assertEqual((replica.position, self.program.count), (5, 5))
        self.assertEqual(replica.chain, chained("", [b"step a"] * 5))

    async def test_another_reply_is_named_with_its_line(self):
        replica, batch = self.replica(), self.batch(0, 5)
        batch.entries[3] = ("0" * 64, b"step a")
        with self.assertRaises(Differs) as caught:
            await replica.take(batch)
        self.assertEqual(caught.exception.number, 3)
        self.assertEqual(replica.position, 0)  # nothing of it counts as entered

    async def test_a_refusal_for_want_of_memory_or_disk_is_no_difference(self):
        for refusal in (b"no 11\n", b"no 24\n"):
            self.program = lambda line: refusal
            with self.assertRaises(ProgramGone):
                await self.replica().take(self.batch(0, 1))
        self.program = lambda line: b"no 7\n"
        with self.assertRaises(Differs):
            await self.replica().take(self.batch(0, 1))


class LeaderInLoop(InLoop):
    """A leader with callers, over etcd in memory."""

    async def asyncSetUp(self):
        await super().asyncSetUp()
        self.server = FakeServer(Counter())
        self.addCleanup(self.server.close)
        self.turns = self.server.turns
        without_pause = mock.patch.object(leading, "PAUSE", 0)
        without_pause.start()
        self.addCleanup(without_pause.stop)

    async def lead(self):
        self.the_log = await self.leading_log()
        self.replica = Replica([], self.turns.enter)
        self.leadership = Leadership(self.the_log, self.replica, self.turns, silent)
        self.leads = self.begin(self.leadership.lead())
        await passes()

    def give_up(self):
        """What the end of a life does with the lines at hand."""
        self.turns.role = Role.OUT
        self.turns.refusal = self.turns.refusal or "election"
        self.turns.drop_all()
        self.turns.go_on()


class OfLeader(LeaderInLoop):
    """Lines and questions at the leader."""

    async def test_a_reply_leaves_once_the_log_has_the_line(self):
        await self.lead()
        held = asyncio.Event()
        self.the_log.way.plan = [("kv/txn", held)]
        caller, reader = self.server.caller(), self.server.caller()
        caller.give("step a")
        await passes()
        reader.give("show a")
        await passes()
        self.assertEqual((caller.said, reader.said), ([], []))
        self.assertEqual(self.server.given, [b"step a", b"show a"])  # the program isn't waited for
        held.set()
        await passes()
        self.assertEqual((caller.said, reader.said), (["ok a#1 plain"], ['ok ready "P" 1']))
        self.assertEqual([number for number, _ in self.etcd.batches()], [0])

    async def test_questions_wait_for_one_read_that_began_behind_them(self):
        await self.lead()
        held = asyncio.Event()
        self.the_log.way.plan = [("kv/range", held)]
        readers = [self.server.caller() for _ in range(5)]
        readers[0].give("show a")
        await passes()
        before = len(self.etcd.calls)
        for reader in readers[1:]:
            reader.give("show a")
        await passes()
        self.assertEqual([reader.said for reader in readers], [[]] * 5)
        held.set()
        await passes()
        self.assertEqual([reader.said for reader in readers], [['ok ready "P" 0']] * 5)
        self.assertEqual([path for path, _ in self.etcd.calls[before:]], ["kv/range"])  # one for the four

    async def test_a_leader_that_is_deposed_answers_no_question(self):
        await self.lead()
        self.etcd.expire_leader()
        reader = self.server.caller()
        reader.give("show a", "? why")
        await passes()
        self.assertIsInstance(self.leads.exception(), Deposed)
        self.assertEqual(reader.said, [])
        self.give_up()
        await passes()
        self.assertEqual(reader.said, ["no 40 election"] * 2)

    async def test_a_leader_whose_member_is_cut_off_answers_no_question(self):
        # A member that is cut off answers a read that asks for that, or an empty transaction, by what it had: another leads by now.
        await self.lead()
        self.the_log.way.cut_off()
        self.etcd.expire_leader()
        other = await self.leading_log("two:2")
        await other.append(0, "", [STEP])
        reader = self.server.caller()
        reader.give("show a", "? why", "show a")
        await passes()
        self.assertEqual(reader.said, ["no 40 quorum"] * 3)

    async def test_lines_of_a_leader_that_is_deposed_are_refused_and_arent_in_the_log(self):
        await self.lead()
        self.the_log.way.plan = [("kv/txn", "refuse")]
        callers = [self.server.caller() for _ in range(3)]
        self.etcd.expire_leader()
        for caller in callers:
            caller.give("step a", "show a")
        await passes(200)
        self.assertIsInstance(self.leads.exception(), Deposed)
        self.give_up()
        self.assertEqual([caller.said for caller in callers], [["no 40 election"] * 2] * 3)
        self.assertFalse(any(caller.is_let_go for caller in callers))
        self.assertEqual(self.etcd.batches(), [])

    async def test_an_answer_that_never_comes_leaves_lines_open_and_refuses_others(self):
        await self.lead()
        self.the_log.way.is_cut = True
        caller, reader, late = (self.server.caller() for _ in range(3))
        with mock.patch.object(leading, "PATIENCE", -1):
            caller.give("step a")
            await passes(2)
            reader.give("show a")
            await passes()
            late.give("show a")
            await passes()
        self.assertTrue(caller.is_let_go)
        self.assertEqual(caller.said, [])
        self.assertEqual((reader.said, late.said), (["no 40 quorum"], ["no 40 quorum"]))
        self.the_log.way.is_cut = False  # and the line stands once etcd is back
        await passes()
        self.assertEqual(len(self.etcd.batches()), 1)

    async def test_a_task_that_is_ended_amid_a_try_leaves_its_lines_open(self):
        await self.lead()
        self.the_log.way.plan = [("kv/txn", asyncio.Event())]
        caller = self.server.caller()
        caller.give("step a")
        await passes()
        await end(self.leads)
        self.give_up()
        self.assertTrue(caller.is_let_go)
        self.assertEqual(caller.said, [])
        self.assertEqual(len(self.etcd.batches()), 1)  # it does stand

    async def test_no_space_is_refused_by_name_since_nothing_was_put(self):
        await self.lead()
        self.etcd.has_space = False
        caller = self.server.caller()
        caller.give("step a", "show a")
        await passes()
        fault = self.leads.exception()
        self.assertIsInstance(fault, Resigned)
        self.turns.refusal = fault.reason
        self.give_up()
        self.assertEqual(caller.said, ["no 40 space"] * 2)

    async def test_no_space_behind_a_lost_answer_leaves_lines_open(self):
        await self.lead()
        caller = self.server.caller()
        with mock.patch.object(leading, "PATIENCE", -1):
            self.the_log.way.plan = [("kv/txn", "lose")]
            self.etcd.carry_out, real = self.no_space_after_one(), self.etcd.carry_out
            caller.give("step a")
            await passes(100)
            self.assertTrue(caller.is_let_go)
            self.etcd.carry_out = real

    def no_space_after_one(self):
        real, count = self.etcd.carry_out, [0]

        def carry_out(path, body):
            if path == "kv/txn":
                count[0] += 1
                if count[0] > 1:
                    from rollback_client.cluster.faults import NoSpace

                    raise NoSpace("no space")
            return real(path, body)

        return carry_out

    async def test_a_drive_of_which_the_log_has_a_part_is_left_open(self):
        await self.lead()
        caller, other = self.server.caller(), self.server.caller()
        held = asyncio.Event()
        self.the_log.way.plan = [("kv/txn", held)] + [("kv/txn", "refuse")] * 100_000
        caller.give("drive 1500")
        await passes()
        other.give("step a")
        held.set()
        await passes()
        self.etcd.expire_leader()
        self.the_log.way.plan = []
        await passes()
        self.assertIsInstance(self.leads.exception(), Deposed)
        in_log = sum(value.count(b" step a") for _, value in self.etcd.batches())
        self.assertTrue(0 < in_log < 1500, in_log)
        self.give_up()
        self.assertEqual((caller.said, caller.is_let_go), ([], True))
        self.assertEqual((other.said, other.is_let_go), (["no 40 election"], False))

    async def test_a_long_drive_is_logged_as_its_steps(self):
        await self.lead()
        caller = self.server.caller()
        caller.give("drive 2500")
        await passes(400)
        self.assertEqual(caller.said[0], "ok 2500")
        self.assertEqual(caller.said[1:], [f"a#{number}" for number in range(1, 2501)])
        sizes = [value.count(b"\n") for _, value in self.etcd.batches()]
        self.assertEqual(sum(sizes), 2500)
        self.assertLessEqual(max(sizes), MOST_LINES)
        self.assertEqual(self.replica.position, 2500)

    async def test_a_journal_that_takes_no_line_ends_the_leading(self):
        await self.lead()
        self.server.answer = lambda line: b"no 24\n"
        caller = self.server.caller()
        caller.give("step a", "step a")
        await passes()
        self.assertIsInstance(self.leads.exception(), ProgramGone)
        self.give_up()
        self.assertEqual(caller.said[0], "no 24")

    async def test_a_line_that_is_too_long_has_its_reply_in_order(self):
        await self.lead()
        caller = self.server.caller()
        caller.give("step a", "show " + "a" * (1 << 20), "show a")
        await passes()
        self.assertEqual(caller.said, ["ok a#1 plain", "no 20", 'ok ready "P" 1'])


class OfStandby(InLoop):
    """A standby with callers, beside a leader that the test is."""

    async def asyncSetUp(self):
        await super().asyncSetUp()
        self.server = FakeServer(Counter())
        self.addCleanup(self.server.close)
        self.turns = self.server.turns
        self.leader = await self.leading_log("lead:1")
        self.own = self.log()
        self.replica = Replica([], self.turns.enter)
        self.standby = Standby(self.own, self.replica, self.turns, "two:2", "v", silent)

    def stand_by(self):
        return self.begin(first_of(self.standby.stand_by(), self.standby.answer_questions()))

    async def put(self, number):
        chain = chained("", [b"step a"] * number)
        await self.leader.append(number, chain, [(hash_of(b"step a", b"ok a#%d plain\n" % (number + 1)), b"step a")])

    async def test_it_refuses_lines_by_the_leaders_address(self):
        caller = self.server.caller()
        caller.give("show a")
        await passes()
        self.assertEqual(caller.said, ["no 40 election"])
        self.stand_by()
        await passes()
        caller.give("step a", "connect", "drive 300", "step a")
        await passes()
        self.assertEqual(caller.said[1:], ["no 40 leader lead:1"] * 4)
        self.assertEqual(self.server.given, [])

    async def test_a_question_waits_until_the_book_has_what_the_log_had(self):
        self.stand_by()
        await passes()
        await self.put(0)
        await passes()
        self.etcd.notify = lambda event: None  # nothing comes by the watch any more
        await self.put(1)
        caller = self.server.caller()
        caller.give("show a", "show a")
        await passes()
        self.assertEqual(caller.said, [])
        await self.standby.catch_up()
        await passes()
        self.assertEqual(caller.said, ['ok ready "P" 2'] * 2)

    async def test_a_question_without_a_majority_is_refused(self):
        self.stand_by()
        await passes()
        self.own.way.is_cut = True
        caller = self.server.caller()
        caller.give("show a", "? why")
        await passes()
        self.assertEqual(caller.said, ["no 40 quorum"] * 2)

    async def test_it_leads_once_the_leader_is_gone_and_has_all_that_was_put_before(self):
        stands = self.stand_by()
        await passes()
        await self.put(0)
        self.etcd.notify, notify = (lambda event: None), self.etcd.notify
        await self.put(1)  # which it hears nothing of
        self.etcd.notify = notify
        self.etcd.expire_leader()
        await passes()
        self.assertTrue(stands.done())
        self.assertIsNone(stands.exception())
        self.assertEqual((await self.own.leader()).address, "two:2")
        await self.standby.catch_up()
        self.assertEqual(self.replica.position, 2)

    async def test_lines_put_between_its_last_look_and_its_key_are_read_before_it_leads(self):
        # The window of the campaign: the old leader puts a line after this server has read the log, and goes.
        real = self.own.campaign

        async def campaign(address, version):
            other = await self.leading_log("third:3")
            await other.append(0, "", [STEP])
            self.etcd.expire_leader()
            return await real(address, version)

        self.own.campaign = campaign
        self.etcd.expire_leader()
        stands = self.stand_by()
        await passes()
        self.assertTrue(stands.done())
        self.assertEqual(self.replica.position, 0)
        leadership = Leadership(self.own, self.replica, self.turns, silent)
        from rollback_client.cluster.member import Identity, Member

        begun = mock.AsyncMock()
        member = Member(Identity("two:2", "b", "", "v", "nothing"), self.own, self.turns, begun, silent)
        self.begin(member._take_over(self.standby, leadership, self.replica))
        await passes()
        self.assertEqual((self.replica.position, self.turns.role), (1, Role.LEADER))
        begun.begin_leading.assert_awaited_once_with(self.own)
        caller = self.server.caller()
        caller.give("step a")
        await passes()
        self.assertEqual(caller.said, ["ok a#2 plain"])
        self.assertEqual([number for number, _ in self.etcd.batches()], [0, 1])

    async def test_one_of_another_version_stands_aside(self):
        self.etcd.expire_leader()
        other = self.log()
        self.assertTrue(await other.campaign("new:9", "v2"))
        self.leader = other
        self.stand_by()
        await passes()
        await self.put(0)
        await passes()
        self.assertEqual((self.turns.role, self.replica.position), (Role.ASIDE, 0))
        caller = self.server.caller()
        caller.give("show a", "step a")
        await passes()
        self.assertEqual(caller.said, ["no 40 leader new:9"] * 2)


class OfFollower(LeaderInLoop):
    """Questions of a follower, which knows lines before the log has them: their answers wait as all replies do."""

    def ask(self, given):
        self.asked.append(given)

    async def lead(self):
        self.asked = []
        self.turns.ask = self.ask
        await super().lead()

    async def test_an_answer_waits_until_the_log_has_what_the_follower_knew(self):
        await self.lead()
        held = asyncio.Event()
        self.the_log.way.plan = [("kv/txn", held)]
        caller, reader = self.server.caller(), self.server.caller()
        caller.give("step a")
        await passes()
        reader.give("? threads", "show a")
        await passes()
        [given] = self.asked
        self.turns.finish(given, b"{}\n")
        await passes()
        self.assertEqual((caller.said, reader.said), ([], []))
        held.set()
        await passes()
        self.assertEqual(reader.said, ["{}", 'ok ready "P" 1'])

    async def test_an_answer_that_comes_after_the_leading_is_nobodys(self):
        await self.lead()
        reader = self.server.caller()
        reader.give("? threads")
        await passes()
        [given] = self.asked
        self.etcd.expire_leader()
        self.give_up()
        await passes()
        self.assertEqual(reader.said, ["no 40 election"])
        self.turns.finish(given, b"{}\n")
        await passes()
        self.assertEqual(reader.said, ["no 40 election"])

    async def test_lines_of_the_log_wait_until_a_copy_for_the_follower_is_made(self):
        copied = []
        self.turns.when_quiet(lambda: copied.append(1))
        self.turns.go_on()
        coming = self.turns.enter(b"step a")
        await passes()
        self.assertEqual((copied, self.server.given, coming.done()), ([1], [], False))
        self.turns.go_on_after_copy()
        await passes()
        self.assertEqual((self.server.given, coming.result()), ([b"step a"], b"ok a#1 plain\n"))


class Tasks(unittest.IsolatedAsyncioTestCase):
    async def test_the_first_that_ends_decides(self):
        ended = []

        async def waits():
            try:
                await asyncio.Event().wait()
            finally:
                ended.append(1)

        async def fails():
            raise Deposed

        with self.assertRaises(Deposed):
            await first_of(waits(), fails())
        self.assertEqual(ended, [1])
        self.assertFalse(await within(0.01, waits()))
        self.assertTrue(await within(60, asyncio.sleep(0)))


if __name__ == "__main__":
    unittest.main()

"""What the console and Amazon's calls give and ask within a server of a cluster, over an etcd in memory."""
import asyncio
import json
import subprocess
import unittest
from unittest import mock

from rollback_client.aws.actions import Actions
from rollback_client.aws.book import Book, Table, Watch, begin_call, elsewhere_fault
from rollback_client.aws.names import Arns
from rollback_client.aws.store import Store
from rollback_client.aws.wire import Call, Fault, Service
from rollback_client.aws.writes import Writes
from rollback_client.cluster import leading
from rollback_client.cluster.faults import Deposed
from rollback_client.cluster.lines import ClusterLines
from rollback_client.cluster.turns import Role
from rollback_client.server.within import Elsewhere, Ended, where
from rollback_client.web.seen import logged_in
from tests.pages import python_with
from tests.program import PATIENCE, TOP, InFolder
from tests.test_cluster_log import LeaderInLoop, passes


class OfPages(LeaderInLoop):
    """Lines, turns and questions of a console at the leader, and at a server that doesn't lead."""

    async def asyncSetUp(self):
        await super().asyncSetUp()
        self.lines = ClusterLines(self.server, self.turns)
        self.asked = []

        def ask(given):
            self.asked.append(given)
            asyncio.get_running_loop().call_soon(self.turns.finish, given, b'{"entries":1}\n')

        self.turns.ask = ask

    async def given_in_turn(self, line):
        """The reply to a line that is given in a turn of its own."""
        async with self.lines.turn("token ann") as turn:
            return await turn.give(line)

    async def refusal_of(self, awaited):
        with self.assertRaises(Elsewhere) as caught:
            await asyncio.wait_for(awaited, PATIENCE)
        return caught.exception

    async def test_a_question_waits_until_the_log_has_what_was_known(self):
        await self.lead()
        held = asyncio.Event()
        self.the_log.way.plan = [("kv/txn", held)]
        giving = self.begin(self.lines.give("token ann", b"step a"))
        await passes()
        asking = self.begin(self.lines.ask(b"? list"))
        confirming = self.begin(self.lines.confirm())
        await passes()
        self.assertEqual((giving.done(), asking.done(), confirming.done(), len(self.asked)), (False, False, False, 1))
        held.set()
        await passes()
        self.assertEqual((giving.result(), asking.result()), (b"ok a#1 plain\n", b'{"entries":1}'))
        self.assertTrue(confirming.done())

    async def test_a_server_that_does_not_lead_gives_and_answers_nothing(self):
        for role, refusal in ((Role.OUT, "election"), (Role.STANDBY, "leader two:2"), (Role.LEADER, "quorum")):
            self.turns.role, self.turns.refusal = role, refusal
            reply = f"no 40 {refusal}\n".encode()
            self.assertEqual(await self.lines.give("token ann", b"step a"), reply)
            self.assertEqual(await asyncio.wait_for(self.given_in_turn(b"step a"), PATIENCE), reply)
            if role is not Role.LEADER:
                self.assertEqual((await self.refusal_of(self.lines.confirm())).reply, reply)
        self.assertEqual(self.server.given, [])

    async def test_lines_given_at_once_are_refused_unless_it_leads(self):
        caller = self.server.caller()
        for role, refusal in ((Role.OUT, "election"), (Role.STANDBY, "leader two:2"), (Role.LEADER, "quorum")):
            self.turns.role, self.turns.refusal = role, refusal
            self.turns.give_at_once(caller, [b"step a", b"step b"])
        await passes()
        replies = ["no 40 election", "no 40 leader two:2", "no 40 quorum"]
        self.assertEqual((self.server.given, caller.said), ([], [reply for reply in replies for _ in range(2)]))

    async def test_a_leader_that_is_cut_off_answers_no_question(self):
        await self.lead()
        self.the_log.way.cut_off()
        self.etcd.expire_leader()
        for awaited in (self.lines.ask(b"? list"), self.lines.confirm(), self.lines.confirm()):
            fault = await self.refusal_of(awaited)
            self.assertEqual((fault.reply, fault.is_led), (b"no 40 quorum\n", False))

    async def test_a_turn_of_a_leader_that_is_deposed_meanwhile_gives_nothing_more(self):
        await self.lead()
        async with self.lines.turn("token ann") as turn:
            self.assertEqual(await turn.give(b"show a"), b'ok ready "P" 0\n')
            self.etcd.expire_leader()
            giving = self.begin(turn.give(b"step a"))
            await passes()
            self.assertIsInstance(self.leads.exception(), Deposed)
            self.give_up()
            for reply in (giving, turn.give(b"step a")):
                self.assertEqual(await asyncio.wait_for(reply, PATIENCE), b"no 40 election\n")
        self.assertEqual((self.server.given, self.etcd.batches()), ([b"show a", b"step a"], []))

    async def test_a_turn_that_waits_when_a_life_ends_is_refused(self):
        await self.lead()
        self.the_log.way.plan = [("kv/txn", asyncio.Event())]
        self.begin(self.lines.give("token ann", b"step a"))
        await passes()

        waiting = self.begin(self.given_in_turn(b"show a"))
        await passes()
        self.assertFalse(waiting.done())
        await self.end_leading()
        self.turns.end_quiet()
        self.assertEqual(await asyncio.wait_for(waiting, PATIENCE), b"no 40 election\n")

    async def end_leading(self):
        self.leads.cancel()
        await asyncio.wait([self.leads])
        self.give_up()

    async def test_a_turn_begins_although_questions_wait(self):
        await self.lead()
        held = asyncio.Event()
        self.the_log.way.plan = [("kv/range", held)]
        reader = self.server.caller()
        reader.give("show a")
        await passes()
        entered = []

        async def enters():
            async with self.lines.turn("token ann"):
                entered.append(list(reader.said))

        await asyncio.wait_for(self.begin(enters()), PATIENCE)
        self.assertEqual(entered, [[]])
        held.set()
        await passes()
        self.assertEqual(len(reader.said), 1)

    async def test_lines_are_refused_by_name_while_a_turn_waits_for_etcd(self):
        """A turn waits until the log has all lines. Others are refused meanwhile, and so is the turn."""
        await self.lead()
        self.the_log.way.is_cut = True
        caller, late = self.server.caller(), self.server.caller()
        caller.give("step a")
        self.assertIsNone(self.turns.refusal_now())
        with mock.patch("rollback_client.server.within.LOOKS_AGAIN", 0.01):
            for _ in range(2):  # one that waits meanwhile, and one that comes later
                reply = await asyncio.wait_for(self.given_in_turn(b"show a"), PATIENCE)
                self.assertEqual(reply, b"no 40 quorum\n")
            self.assertTrue(self.turns.is_stopped)
            late.give("step a", "show a", "drive 300")
            await passes()
            self.assertEqual(late.said, ["no 40 quorum"] * 3)
            self.the_log.way.is_cut = False
            await passes(200)
            self.assertEqual(caller.said, ["ok a#1 plain"])
            self.assertFalse(self.turns.is_stopped)
            late.give("step a")
            await passes()
            self.assertEqual(late.said[3:], ["ok a#2 plain"])

    async def test_of_a_line_that_is_left_open_nothing_is_said(self):
        await self.lead()
        self.the_log.way.is_cut = True
        with mock.patch.object(leading, "PATIENCE", -1), self.assertRaises(Ended):
            await asyncio.wait_for(self.lines.give("token ann", b"step a"), PATIENCE)

    async def test_questions_arent_in_the_log_file(self):
        await self.lead()
        self.turns.log = mock.Mock()
        await self.lines.ask(b"? list")
        await self.lines.give("token ann", b"show a")
        written = [entry[0] for (entries,), _ in self.turns.log.write.call_args_list for entry in entries]
        self.assertEqual(written, ["token ann"])


class Sentences(unittest.TestCase):
    def test_each_refusal_has_one(self):
        for why, part in (
            ("leader 10.0.0.2:7070", "10.0.0.2:7070"),
            ("election", "soon"),
            ("quorum", "etcd"),
            ("space", "quota"),
            ("other", "other"),
        ):
            self.assertIn(part, where(f"no 40 {why}\n".encode()))
        self.assertTrue(Elsewhere(b"no 40 leader a:1\n").is_led)


class OfLog(InFolder):
    """Who gave which lines, as a leader's log file says it."""

    def test_lines_that_were_left_open_or_refused_have_no_number(self):
        path = self.path("log")
        with open(path, "w", encoding="utf-8") as file:
            for number, reply in enumerate(("ok", "open", "no 40 election", "ok 2")):
                told = {"time": "2026-11-29T17:00:00.000Z", "caller": "token ann", "line": "step a", "reply": reply}
                file.write(json.dumps({**told, "entries": [[number, 1]]}) + "\n")
            file.write('{"time":"2026-11-29T17:00:00.000Z","event":"leads","why":"leads"}\nno JSON\n')
        self.assertEqual([(kept.first, kept.who) for kept in logged_in(path)], [(0, "ann"), (3, "ann")])
        self.assertEqual(logged_in(self.path("none")), [])


class OfRunner(InFolder):
    """The runner of a leader, in a Python that has aiohttp."""

    def try_to(self, name):
        python = python_with("aiohttp")
        if python is None:
            self.skipTest("no Python has aiohttp (Debian's package python3-aiohttp)")
        words = [python, "-m", "tests.cluster_runner", name, self.room]
        done = subprocess.run(
            words, cwd=TOP / "clients/python", capture_output=True, text=True, timeout=PATIENCE, check=False
        )
        self.assertEqual(done.returncode, 0, done.stderr)

    def test_it_gives_no_step_before_its_server_leads(self):
        self.try_to("begins")

    def test_its_steps_keep_no_server_from_ending(self):
        self.try_to("ends")


class Told:
    """Lines that are answered as a test says."""

    def __init__(self, **replies):
        self.replies = replies

    async def give(self, name, line):
        word = line.decode().split(" ")[0]
        return (self.replies.get(word, "ok") + "\n").encode()


class Deaf(Told):
    """Lines of a server that leads no more, and hears so once it asks."""

    async def confirm(self):
        raise Elsewhere(b"no 40 leader two:2\n")


class OfTools(unittest.TestCase):
    """What a tool of Amazon's is told if another server leads, or none."""

    def test_what_a_server_knows_is_told_only_while_it_leads(self):
        """So are faults: the book may have another table by now. Tags that are refused aren't kept."""
        store = Store(None, 0.0, print)
        watch = Watch(store, 1)
        watch.table = Table("items", (("id", "S"),))
        actions = Actions(Book(Deaf(), store, watch), Arns("us-east-1", "000000000000"))
        arn = "arn:aws:dynamodb:us-east-1:000000000000:table/items"
        for action, body in (
            ("ListTables", {}),
            ("DescribeTimeToLive", {"TableName": "items"}),
            ("DescribeTimeToLive", {"TableName": "others"}),
            ("TagResource", {"ResourceArn": arn, "Tags": [{"Key": "a", "Value": "b"}]}),
        ):
            begin_call()
            with self.assertRaises(Elsewhere):
                asyncio.run(actions.answer("aws ann", Call(Service.TABLES, action, body)))
        self.assertIsNone(store.fact("table"))

    def put(self, **replies):
        async def called():
            begin_call()
            store = Store(None, 0.0, print)
            watch = Watch(store, 1)
            watch.table = Table("items", (("id", "S"),))
            call = Call(Service.TABLES, "PutItem", {"TableName": "items", "Item": {"id": {"S": "k"}}})
            try:
                return await Writes(Book(Told(**replies), store, watch)).put("aws ann", call)
            except Elsewhere as why:
                return elsewhere_fault(why)

        return asyncio.run(called())

    def test_what_has_changed_nothing_is_refused_by_name(self):
        refusal = "no 40 leader two:2"
        fault = self.put(define=refusal)
        self.assertEqual((fault.name, fault.status), ("NotLeader", 421))
        self.assertIn("two:2", fault.message)
        for why in ("election", "quorum", "space"):
            fault = self.put(define=f"no 40 {why}")
            self.assertIsInstance(fault, Fault)
            self.assertEqual((fault.name, fault.status), ("ServiceUnavailable", 503))

    def test_of_what_may_be_done_nothing_is_said(self):
        refusal = "no 40 election"
        for replies in (
            {"start": "ok x#0", "step": refusal, "show": refusal, "undo": refusal},
            {"start": "ok x#0", "step": "ok x#1 plain", "show": refusal},
            {"start": "ok x#0", "step": refusal, "show": 'ok ready "Write" 0'},
        ):
            with self.assertRaises(Ended):
                self.put(**replies)


if __name__ == "__main__":
    unittest.main()

"""Trials of a cluster: what is killed, stopped, lost and filled, and what has to hold afterwards.

    python3 -m tests.cluster_trials [--ttl SECONDS] [--times N] [NAME ..]      in clients/python
"""
import argparse
import asyncio
import contextlib
import itertools
import json
import os
import random
import signal
import sqlite3
import statistics
import subprocess
import sys
import time
from contextlib import closing

from rollback_client import AsyncBook, Book, ConnectionLost, Done, NoServer, NotLeader, Ready, Unavailable
from rollback_client.copy import copy_book
from rollback_client.lines import MOST_BYTES
from tests.cluster_beginnings import begins_and_refuses
from tests.cluster_callers import PASSES, SETUP, Caller, Reader, Said, started, stepped, told
from tests.cluster_checks import KEPT, check, journals_agree, log_lines
from tests.certificates import Authority
from tests.cluster_machines import PREFIX, TTL, Cluster, Connection, encoded, follower_of, has_followed, run_command
from tests.cluster_pages import pages_follow
from tests.program import PATIENCE, PROGRAM, TOP, follower


NUMBERS = itertools.count()  # of executions


class Trial:
    """Callers amid whatever happens to the cluster, and the check at its end."""

    def __init__(self, cluster, callers=4, readers=2):
        self.cluster, self.said, self.gone = cluster, [], []
        self.callers = [Caller(f"c{number}", cluster, self.said) for number in range(callers)]
        self.callers += [Reader(f"r{number}", cluster, self.said) for number in range(readers)]
        self.tasks = []

    async def begin(self, seconds=0.7):
        """Begins the book and the callers."""
        for line in SETUP:
            await self.cluster.ask(
                None, line
            )  # refused, if it was taken and its answer got lost: the check looks at the log
        self.tasks = [asyncio.ensure_future(caller.run()) for caller in self.callers]
        await asyncio.sleep(seconds)

    async def end(self):
        """Ends the callers, and checks all."""
        for caller in self.callers:
            caller.ends = True
        await asyncio.gather(*self.tasks)
        wrong = [each for caller in self.callers for each in caller.wrong]
        assert not wrong, wrong[:3]
        found = await check(self.cluster, self.said)
        for number in range(3):
            assert await self.cluster.end_server(number, signal.SIGTERM) == 0, self.cluster.errors(number)[-500:]
        journals_agree(self.cluster)
        cut = sum(each["cut"] for each in self.cluster.events("cut"))
        of_gone = f"accepted again after {in_words(self.gone)}; " if self.gone else ""
        return f"{of_gone}{found}, {cut} rows cut"

    async def accepted_since(self, moment, most=None):
        """How long after a moment the first line was accepted that was sent later. More than `most` seconds, if given, are an error."""

        async def found():
            since = [each for each in self.said[-800:] if each.sent > moment and each.word in ("start", "step")]
            return next((each.answered - moment for each in since if each.reply and not each.is_refused), 0)

        seconds = await self.cluster.until(found)
        if most is not None:
            assert seconds <= allowed(most), f"accepted again after {seconds:.1f} s, and not within {allowed(most)} s"
        self.gone.append(seconds)
        return seconds

    def was_told(self, reply):
        """Whether a line had this reply."""
        return any(each.reply == reply for each in self.said)

    def are_refused(self, reply):
        """Whether lines have one reply, the last twenty of them that have any."""

        async def holds():
            found = [each.reply for each in self.said[-200:] if each.reply is not None][-20:]
            assert found == 20 * [reply], found
            return True

        return holds


def allowed(seconds):
    """What a limit in seconds is on this machine now: longer, if more processes want its processors than there are."""
    return seconds * max(1.0, os.getloadavg()[0] / len(os.sched_getaffinity(0)))


def in_words(seconds):
    """Some durations."""
    return f"{statistics.median(seconds):.1f} s ({min(seconds):.1f} to {max(seconds):.1f})"


async def leader_killed(words):
    """The leader's server, by kill -9, amid callers: lines are answered again."""
    async with Cluster(words.ttl) as cluster:
        trial = Trial(cluster)
        await trial.begin()
        for _ in range(words.times):
            number, moment = await cluster.leader(), time.monotonic()
            await cluster.end_server(number)
            await trial.accepted_since(moment)
            cluster.start_server(number)
            await cluster.ask(number, "history")
        return await trial.end()


async def leader_stopped(words):
    """The leader's server, stopped past its lease with a question and a step in its socket, and let go on."""
    async with Cluster(words.ttl) as cluster:
        trial, late = Trial(cluster), []
        await trial.begin()
        for _ in range(words.times):
            number = await cluster.leader()
            asked = [await cluster.connect(number) for _ in range(2)]
            assert (await asked[0].ask("show shared") or "").startswith("ok")
            moment = time.monotonic()
            cluster.servers[number].send_signal(signal.SIGSTOP)
            coming = [
                asyncio.ensure_future(said_late(asked[0], "show shared")),
                asyncio.ensure_future(said_late(asked[1], "step shared")),
            ]
            await trial.accepted_since(moment)
            await asyncio.sleep(0.3)
            cluster.servers[number].send_signal(signal.SIGCONT)
            late += await asyncio.gather(*coming)
            for connection in asked:
                connection.close()
            await cluster.ask(number, "history")
        trial.said += late  # so the check looks whether each was true when it came
        return f"late lines got {sorted({str(each.reply).split(' 127')[0] for each in late})}; {await trial.end()}"


async def said_late(connection, line):
    """A line to a server that is stopped, with what it answers once it goes on."""
    sent = time.monotonic()
    reply = await connection.ask(line)
    return Said("late", line, sent, reply, time.monotonic())


async def idle_leader_stopped(words):
    """The leader's server, stopped past its lease without other callers, and asked meanwhile; the next leader has moved on."""
    async with Cluster(words.ttl) as cluster:
        trial, late = Trial(cluster, callers=0, readers=0), []
        await trial.begin(0)
        for turn in range(2 * words.times):
            number = await cluster.leader()
            old = await cluster.connect(number)
            cluster.servers[number].send_signal(signal.SIGSTOP)
            coming = asyncio.ensure_future(old.ask("step shared" if turn % 2 else "show shared"))
            while (await cluster.until(cluster.leader_key))[0] == cluster.addresses[number]:
                await asyncio.sleep(0.05)
            asked = await cluster.ask(None, "show shared" if turn % 2 else "step shared")
            count = int(asked.removesuffix(" plain").replace("#", " ").rsplit(" ", 1)[1])
            cluster.servers[number].send_signal(signal.SIGCONT)
            late.append(await coming)
            is_true = not late[-1] or late[-1].startswith("no 40") or late[-1] == f'ok ready "P" {count}'
            assert is_true, f"the stopped leader answers {late[-1]!r} when the count is {count}"
            old.close()
            await cluster.ask(number, "history")
        return f"late lines got {sorted({str(reply).split(' 127')[0] for reply in late})}"


async def nearest_stopped(words):
    """Each server knows its nearest member of etcd alone; the leader's is stopped past the lease, and let go on."""
    async with Cluster(words.ttl, nearest_only=True) as cluster:
        trial = Trial(cluster)
        await trial.begin()
        for _ in range(words.times):
            number, moment = await cluster.leader(), time.monotonic()
            cluster.members[number].send_signal(signal.SIGSTOP)
            await trial.accepted_since(moment)
            await asyncio.sleep(0.5)
            cluster.members[number].send_signal(signal.SIGCONT)
            await cluster.ask(number, "history")
        return await trial.end()


async def member_killed(words):
    """One member of etcd, by kill -9: in turn the one that leads etcd, and the one beside the leader's server."""
    async with Cluster(words.ttl) as cluster:
        trial = Trial(cluster)
        await trial.begin()
        for turn in range(2 * words.times):
            number = await cluster.leader() if turn % 2 else await cluster.etcd_leader()
            moment = time.monotonic()
            await cluster.end_member(number)
            await trial.accepted_since(moment)
            cluster.start_member(number)
            await asyncio.sleep(1)
        return await trial.end()


async def majority_lost(words):
    """Two members of etcd, by kill -9, for longer than the TTL: lines are refused by name, and go on when they are back."""
    async with Cluster(words.ttl) as cluster:
        trial, terms = Trial(cluster), set()
        for caller in trial.callers:
            caller.patience = 5 * words.ttl  # so the servers' own ends
        await trial.begin()
        for turn in range(words.times):
            terms.add(await cluster.term())
            lost = [turn % 3, (turn + 1) % 3]
            for number in lost:
                await cluster.end_member(number)
            await asyncio.sleep(3 * words.ttl)
            await cluster.until(trial.are_refused("no 40 quorum"))
            moment = time.monotonic()
            for number in lost:
                cluster.start_member(number)
            await trial.accepted_since(moment)
            await asyncio.sleep(0.5)
        terms.add(await cluster.term())
        assert cluster.events("quorum"), "the log file doesn't say that the majority was lost"
        return f"{len(terms)} terms; {await trial.end()}"


async def answers_lost(words):
    """Each tenth answer of etcd is lost on its way, with the connection, after what was asked was done."""
    async with Cluster(words.ttl, loss=0.1) as cluster:
        trial = Trial(cluster)
        await trial.begin()
        await asyncio.sleep(4 * words.times)
        return await trial.end()


async def space_used_up(words):
    """etcd's quota, used up by lines of the greatest length: named, and standbys answer questions. Then there is room again."""
    async with Cluster(words.ttl, quota=12 << 20) as cluster:
        trial, count = Trial(cluster), 0
        await trial.begin()
        for number in range(1000):
            if trial.was_told("no 40 space"):
                break
            reply = await long_line(trial, f"long-{number}")
            count += (reply or "").startswith("ok")

        async def is_named():
            return is_out_of_space([each for each in trial.said if each.reply])

        await cluster.until(is_named)
        assert cluster.events("space"), "the log file doesn't say that there is no space"
        cluster.quota = 1 << 30
        for number in range(3):
            await cluster.end_member(number)
            cluster.start_member(number)
            await cluster.until(cluster.has_quorum)
            await asyncio.sleep(0.5)
        moment = time.monotonic()
        for alarm in (await cluster.etcd_soon("maintenance/alarm", {"action": "GET"})).get("alarms", []):
            await cluster.etcd_soon("maintenance/alarm", {"action": "DEACTIVATE", **alarm})
        await trial.accepted_since(moment)
        return f"{count} lines of {MOST_BYTES} bytes went in; {await trial.end()}"


def is_out_of_space(said):
    """Whether each line that changes the book is refused by now, twenty of them at least, while questions are answered.

    What the book itself refuses isn't kept, and so needs no space: a caller is told so as ever.
    """
    last = max(number for number, each in enumerate(said) if each.word in KEPT and not each.is_refused)
    since = [each for each in said[last + 1 :] if each.sent > said[last].answered]
    changes = [each for each in since if each.word in KEPT]
    of_book = [each for each in changes if each.is_refused_by_book]
    assert all(is_as_ever(each) for each in of_book), of_book
    refused = [each.reply for each in changes if not each.is_refused_by_book]
    is_read = any(each.word == "show" and not each.is_refused for each in since)
    return len(refused) > 20 and "no 40 space" in refused and is_read


def is_as_ever(each):
    """Whether this is what a caller gives so that the book refuses it, with its refusal."""
    return each.word == "undo" and each.reply == f"no 8 {each.line.removeprefix('undo ').removesuffix('#0')}#1"


async def long_line(trial, execution):
    """The reply of the leader to a line of the greatest length, which the check knows as that of a caller of its own."""
    begin = f'start {execution} p "'
    line = begin + "x" * (MOST_BYTES - len(begin) - 1) + '"'

    async def leads_or_is_full():
        return "full" if trial.was_told("no 40 space") else await trial.cluster.leading()

    number = await trial.cluster.until(leads_or_is_full)
    if number == "full":
        return None  # other lines have used up the space, and nobody leads
    connection = await trial.cluster.connect(int(number))
    sent = time.monotonic()
    reply = await connection.ask(line)
    trial.said.append(Said("long", line, sent, reply, time.monotonic()))
    connection.close()
    return reply


async def reply_differs(words):
    """A server whose program answers otherwise cuts that row, and stops by name. With the right program it takes part again."""
    async with Cluster(words.ttl) as cluster:
        trial = Trial(cluster)
        await trial.begin()
        number = (await cluster.leader() + 1) % 3
        assert await cluster.end_server(number, signal.SIGTERM) == 0
        wrong = cluster.room / "wrong"
        wrong.write_text(
            f'#!/bin/sh\n[ "$1" = --version ] && exec {PROGRAM} --version\n'
            f"{PROGRAM} \"$@\" | sed -u 's/^ok \\(c1-.*\\)#0$/ok \\1#9/'\n"
        )
        wrong.chmod(0o755)
        for _ in range(2):  # begun again it doesn't lead either
            cluster.start_server(number, wrong)
            status = await asyncio.to_thread(cluster.servers[number].wait, PATIENCE)
            assert status == 6 and "Differs" in cluster.errors(number), (status, cluster.errors(number)[-300:])
        with closing(sqlite3.connect(cluster.journal(number))) as file:
            rows = [line for (line,) in file.execute("select line from entry order by no")]
        lines, _ = await log_lines(cluster)
        assert rows == [line for _, line in lines[: len(rows)]] and len(rows) < len(lines)
        assert lines[len(rows)][1].startswith("start c1-"), lines[len(rows)]
        cluster.start_server(number)
        await cluster.ask(number, "history")
        return await trial.end()


async def journal_damaged(words):
    """A standby's journal with another row, and a file that is no journal: both are refused, and nothing is cut. Moved away, the
    server takes the log from the start."""
    async with Cluster(words.ttl) as cluster:
        trial = Trial(cluster)
        await trial.begin()
        for turn in range(2 * words.times):
            number = (await cluster.leader() + 1) % 3
            await cluster.ask(number, "history")  # it has all lines that were answered before
            assert await cluster.end_server(number, signal.SIGTERM) == 0
            journal = cluster.journal(number)
            if turn % 2:
                journal.write_bytes(b"no journal" * 1000)
            else:
                with closing(sqlite3.connect(journal)) as file, file:
                    changed = file.execute("update entry set line = 'start other p {}' where no = 3").rowcount
                assert changed == 1
            before = journal.read_bytes()
            cluster.start_server(number)
            status = await asyncio.to_thread(cluster.servers[number].wait, PATIENCE)
            assert status == 5 and "nothing was cut" in cluster.errors(number), (status, cluster.errors(number)[-300:])
            assert journal.read_bytes() == before, "the journal was changed"
            for path in cluster.room.glob(f"book{number}.db*"):
                path.rename(path.with_name(f"damaged{turn}-{path.name}"))
            cluster.start_server(number)
            await cluster.ask(number, "history")
        return await trial.end()


async def rolling_restart(words):
    """Each server in turn by SIGTERM, amid callers who lose no line. The one that leads gives its key back, which a kill leaves there."""
    async with Cluster(words.ttl) as cluster:
        trial, handed, turn = Trial(cluster), 0, 0
        await trial.begin()
        while turn < 3 * words.times or not handed and turn < 30:
            number, (leader, term) = turn % 3, await cluster.until(cluster.leader_key)
            assert await cluster.end_server(number, signal.SIGTERM) == 0, cluster.errors(number)[-500:]
            handed += leader == cluster.addresses[number] and not await is_key_there(cluster, term)
            await trial.accepted_since(time.monotonic())
            cluster.start_server(number)
            await cluster.ask(number, "history")
            turn += 1
        assert handed, "the key of a server that ends stays until its lease runs out"
        return f"{handed} handed over; {await trial.end()}"


async def is_key_there(cluster, term):
    """Whether the leader's key is still that of a term."""
    found = (await cluster.etcd_soon("kv/range", {"key": encoded(f"{PREFIX}/leader")})).get("kvs", [])
    return any(int(pair["create_revision"]) == term for pair in found)


async def drives(words):
    """The leader's server, by kill -9, amid drives of more steps than a batch has."""
    async with Cluster(words.ttl) as cluster:
        for line in SETUP:
            await cluster.ask(None, line)
        told, most = [], 1500

        async def drive():
            number = await cluster.leader()
            connection = await cluster.connect(number)
            reply = await connection.ask(f"drive {most}", PATIENCE)
            connection.close()
            if (reply or "").startswith("ok"):
                told.append(reply.split("\n")[1:])

        for _ in range(words.times):
            await drive()
            number = await cluster.leader()
            driving = asyncio.ensure_future(drive())
            await asyncio.sleep(random.uniform(0, 0.2))
            await cluster.end_server(number)
            cluster.start_server(number)
            await asyncio.gather(driving, cluster.ask(number, "history"))
        lines, _ = await log_lines(cluster)
        steps = sum(1 for _, line in lines if line == "step shared")
        wanted = [f"shared#{count + 1}" for count in range(steps)]
        assert steps + len(SETUP) == len(lines)
        for names in told:
            first = wanted.index(names[0])
            assert wanted[first : first + most] == names, "the steps of a drive that was answered aren't in the log"
        for number in range(3):
            assert (await cluster.ask(number, "history")).split("\n")[2:] == wanted
        return f"{len(told)} drives of {most} steps answered, {steps - most * len(told)} steps of others stand"


async def client_follows(words):
    """A book and an asyncio book of the client: a call that was under way is lost, and the next one finds the new leader."""
    async with Cluster(words.ttl) as cluster:
        address = "cluster:" + ",".join(cluster.addresses)
        for line in SETUP:
            await cluster.ask(None, line)
        book = await asyncio.to_thread(Book.connect, address, retry=PATIENCE)
        other = await AsyncBook.connect(address, retry=PATIENCE)
        calls, lost = (lambda: asyncio.to_thread(book.step, "shared"), lambda: other.step("shared")), []
        for turn in range(2 * words.times):
            number, ended = await cluster.leader(), asyncio.Event()
            both = [asyncio.ensure_future(steps_until(call, ended, lost)) for call in calls]
            await asyncio.sleep(0.2)
            await cluster.end_server(number, signal.SIGKILL if turn % 2 == 0 else signal.SIGTERM)
            ended.set()
            await asyncio.wait_for(asyncio.gather(*both), PATIENCE)
            cluster.start_server(number)
            await cluster.ask(number, "history")
        history = await told(other.history)
        assert history == await told(lambda: asyncio.to_thread(book.history))
        assert [str(step) for step in history] == [f"shared#{number}" for number in range(len(history))]
        # What workers took, in an order that only the leader's program knows, is the same in all books.
        taken = await told(lambda: works(other))
        history = await told(other.history)
        assert taken and history[-len(taken) :] == taken
        for each in cluster.addresses:
            assert await told(lambda each=each: asyncio.to_thread(history_at, each)) == history
        await cluster.until(lambda: refuses_a_step(cluster))
        await told(lambda: asyncio.to_thread(copy_is_the_log, cluster, address))
        for number in range(3):
            await cluster.end_member(number)
        await cluster.until(lambda: lacks_quorum(address))
        await other.close()
        return f"{len(lost)} calls were under way at {2 * words.times} ends, {len(history)} steps"


async def steps_until(call, ended, lost):
    """Takes steps, until one was taken since the leader has ended. What was under way then is lost."""
    is_over = False
    while not is_over:
        try:
            await call()
            is_over = ended.is_set()
        except ConnectionLost as fault:
            assert fault.line == "step shared"
            lost.append(fault)
        except Unavailable:
            pass


def history_at(address):
    """The history, as one server answers it."""
    with Book.connect(address) as book:
        return book.history()


async def works(book):
    """What workers take of forty executions."""
    for _ in range(40):
        await started(book, f"w{next(NUMBERS)}", {})
    return await book.work(4, 60)


async def refuses_a_step(cluster):
    """Whether a book at a server that stands by is told who leads, in place of a step."""
    leader = await cluster.leader()
    try:
        await asyncio.to_thread(step_at, cluster.addresses[(leader + 1) % 3])
    except NotLeader as refusal:
        return refusal.leader == cluster.addresses[leader]
    return False


def step_at(address):
    """A step of the execution that all share, at this server."""
    with Book.connect(address) as book:
        book.step("shared")


async def lacks_quorum(address):
    """Whether a book is refused since its servers have no etcd."""
    try:
        await asyncio.to_thread(Book.connect(address, retry=2).history)
    except (Unavailable, ConnectionLost, NoServer) as refusal:
        return getattr(refusal, "why", None) == "quorum"
    raise SystemExit("a book without etcd answers")


def copy_is_the_log(cluster, address):
    """A copy of the running book is the leader's, checked."""
    lines, steps = copy_book(address, cluster.room / "copy.db", PROGRAM)
    assert lines == steps + len(SETUP) - 1


async def questions(words):
    """Questions of a follower, at the leader and at standbys, amid a leader's death: each sees what was answered before."""
    async with Cluster(words.ttl, ask="--ask") as cluster:
        for line in SETUP:
            await cluster.ask(None, line)
        book = await AsyncBook.connect("cluster:" + ",".join(cluster.addresses), retry=PATIENCE)
        for turn in range(words.times + 1):
            number = await cluster.leader()
            for each in range(10):
                execution = f"q{turn}-{each}"
                await started(book, execution, {})
                found = json.loads(await cluster.ask((number + 1) % 3, f"? threads {execution}"))
                assert found["threads"][0]["moves"] == 0, found
                await stepped(book, execution)
                (row,) = (await told(lambda execution=execution: book.threads(execution)))["threads"]
                assert row["moves"] == 1, row
            for each in range(3):
                os.kill(follower_of(cluster.servers[each]), signal.SIGKILL)
            for each in range(10):
                await started(book, f"k{turn}-{each}", {})
            for each in range(3):
                await cluster.until(lambda each=each, turn=turn: has_followed(cluster, each, f"k{turn}-9"))
            if turn < words.times:
                await cluster.end_server(number)
                cluster.start_server(number)
                await cluster.ask(number, "history")
                await told(book.history)
        entries = []
        for number in range(3):
            entries.append(json.loads(await cluster.ask(number, "? threads ready"))["entries"])
        assert entries[0] == entries[1] == entries[2], entries
        await book.close()
        await refuses_graphs(cluster)
        return f"{entries[0]} entries in the three followers"


async def refuses_graphs(cluster):
    """A program that can't follow is a wrong word. One that can, and not on this journal, is worth another start."""
    graph = cluster.room / "graph"
    graph.write_text(f'#!/bin/sh\n[ "$1" = --serve ] && exec {follower()} --serve\nexit 1\n', encoding="utf-8")
    graph.chmod(0o755)
    number = (await cluster.leader() + 1) % 3
    await cluster.end_server(number, signal.SIGTERM)
    for path, status, why in (("/bin/true", 2, "answers no questions"), (graph, 1, f"ProgramGone: {graph}")):
        cluster.start_server(number, words=("--graph", str(path)))
        assert await asyncio.to_thread(cluster.servers[number].wait, PATIENCE) == status, cluster.errors(number)[-500:]
        assert why in cluster.errors(number), cluster.errors(number)[-500:]


async def runner_follows(words):
    """A runner at the leader alone: behind another leader it goes on, and what was paused stays paused."""
    async with Cluster(words.ttl, ask="--run") as cluster:
        for line in SETUP[:2]:
            await cluster.ask(None, line)
        book = await AsyncBook.connect("cluster:" + ",".join(cluster.addresses), retry=PATIENCE)
        for turn in range(words.times + 1):
            await started(book, f"r{turn}", {})
            assert await told(lambda turn=turn: book.wait(f"r{turn}", PATIENCE)) == Done(7)
            await told(lambda: book.pause(machine="p"))
            number = await cluster.leader()
            await cluster.end_server(number)
            cluster.start_server(number)
            await cluster.ask(number, "history")
            await started(book, f"late{turn}", {})
            await asyncio.sleep(0.5)
            late = await told(lambda turn=turn: book.show(f"late{turn}"))
            assert isinstance(late, Ready), "what was paused is moved by the next leader"
            await cluster.until(lambda: names_leader(cluster, "!waits"))
            await told(lambda: book.resume(machine="p"))
            assert await told(lambda turn=turn: book.wait(f"late{turn}", PATIENCE)) == Done(7)
        histories = [await cluster.ask(number, "history") for number in range(3)]
        assert histories[0] == histories[1] == histories[2]
        lines, _ = await log_lines(cluster)
        assert sum(1 for _, line in lines if line.startswith("step ")) == 2 * (words.times + 1)
        await book.close()
        return f"{len(lines)} lines of {words.times + 2} leaders"


async def names_leader(cluster, line):
    """Whether a server that stands by refuses a line by the leader's address."""
    leader = await cluster.leader()
    standby = await cluster.connect((leader + 1) % 3)
    try:
        return await standby.ask(line, PATIENCE) == f"no 40 leader {cluster.addresses[leader]}"
    finally:
        standby.close()


async def runner_beside(words):
    """A runner beside the servers follows the leader, with certificates."""
    async with Cluster(words.ttl, ask="--ask", tls=True) as cluster:
        for line in SETUP[:2]:
            await cluster.ask(None, line)
        address, files = "cluster:" + ",".join(cluster.addresses), cluster.caller_files
        command = [sys.executable, "-m", "rollback_client.runner", address, "--tls", ",".join(files)]
        runner = subprocess.Popen(command, cwd=TOP / "clients/python", stderr=subprocess.DEVNULL)
        try:
            async with await AsyncBook.connect(address, tls=files, retry=PATIENCE) as book:
                for turn in range(words.times + 1):
                    await started(book, f"r{turn}", {})
                    assert await told(lambda turn=turn: book.wait(f"r{turn}", PATIENCE)) == Done(7)
                    number = await cluster.leader()
                    await cluster.end_server(number)
                    cluster.start_server(number)
                    await cluster.ask(number, "history")
            return f"{words.times + 1} leaders followed"
        finally:
            runner.kill()
            runner.wait()


async def secured(words):
    """Servers and etcd with TLS: callers with a certificate are served, others aren't, and all commands take one."""
    async with Cluster(words.ttl, tls=True) as cluster:
        address = "cluster:" + ",".join(cluster.addresses)
        for line in SETUP:
            await cluster.ask(None, line)
        book = await asyncio.to_thread(Book.connect, address, tls=cluster.caller_files, retry=PATIENCE)
        other = await AsyncBook.connect(address, tls=cluster.caller_files, retry=PATIENCE)
        await asyncio.gather(asyncio.to_thread(step_at_last, book), told(lambda: other.step("shared")))
        assert len(await told(other.history)) >= 3
        assert await started(other, "big", ["x" * 1000] * 900) == "big#0"
        big = await told(lambda: asyncio.to_thread(book.show, "big"))
        assert big == await told(lambda: other.show("big"))
        number = await cluster.leader()
        await cluster.end_server(number)
        await asyncio.to_thread(step_at_last, book)
        await other.close()
        cluster.start_server(number)
        await cluster.ask(number, "history")
        await takes_certificates(cluster, address)
        await refuses_certificates(cluster, address)
        return "served, and refused, by certificates"


async def takes_certificates(cluster, address):
    """All commands take a certificate, and the log file says whose it was."""
    files = ",".join(cluster.caller_files)
    client = [sys.executable, "-m"]
    copy = ["rollback_client.copy", address, str(cluster.room / "copy.db"), "--program", PROGRAM, "--tls", files]
    shell = ["rollback_client.shell", address, "--tls", files, "-c", "show big"]
    await cluster.until(does_well(cluster.server_words(0) + ["--cluster-status"], "leads since", " 0 behind"))
    await cluster.until(does_well(client + copy, "ok "))
    await cluster.until(does_well(client + shell, "big"))
    entries = [line for path in cluster.room.glob("log?") for line in path.read_text(encoding="utf-8").splitlines()]
    assert any('"name": "caller"' in line for line in entries), "the log file doesn't say who called"


async def refuses_certificates(cluster, address):
    """Callers with other certificates, or none, are refused. A server that etcd refuses for its own says so, and refuses by name."""
    strangers = Authority(cluster.room / "strangers")
    for files in (strangers.files("stranger"), (*strangers.files("guest")[:2], cluster.caller_files[2])):
        await cluster.until(lambda files=files: is_refused_for_certificate(address, files))
    plain = await Connection.open(cluster.addresses[0])
    assert await plain.ask("history", 5) is None, "a caller without TLS is answered"
    plain.close()
    await cluster.end_server(0, signal.SIGTERM)
    cluster.start_server(0, words=("--etcd-tls", ",".join(strangers.files("wrong"))))
    connection = await cluster.until(lambda: cluster.connect(0))
    assert await connection.ask("history", PATIENCE) in ("no 40 election", "no 40 quorum")
    await cluster.until(refuses_for_quorum(cluster))
    assert "CERTIFICATE" in cluster.errors(0).upper(), cluster.errors(0)[-500:]
    connection.close()


def does_well(command, *said):
    """Whether a command ends well and says this. A busy server may be too slow for it, and then it is given again."""

    async def ends_well():
        done = await asyncio.to_thread(run_command, command)
        assert done.returncode == 0 and all(text in done.stdout for text in said), done
        return True

    return ends_well


def refuses_for_quorum(cluster):
    """Whether the first server refuses by name since etcd doesn't answer it."""

    async def refuses():
        connection = await cluster.connect(0)
        try:
            return await connection.ask("step shared", PATIENCE) == "no 40 quorum"
        finally:
            connection.close()

    return refuses


def step_at_last(book):
    """Has the execution that all share take a step. A call that was under way is lost, and another one finds who leads."""
    while True:
        with contextlib.suppress(*PASSES):
            return book.step("shared")


async def is_refused_for_certificate(address, files):
    """Whether a caller with other certificates is told so. A busy server may be too slow to say anything."""
    try:
        await asyncio.to_thread(Book.connect, address, tls=files, retry=0.5)
    except (ConnectionLost, NoServer, OSError) as fault:
        return "certificate" in str(fault).lower()
    raise SystemExit("a stranger is served")


TRIALS = {
    each.__name__: each
    for each in (
        leader_killed,
        leader_stopped,
        idle_leader_stopped,
        nearest_stopped,
        member_killed,
        majority_lost,
        answers_lost,
        space_used_up,
        reply_differs,
        journal_damaged,
        rolling_restart,
        drives,
        client_follows,
        questions,
        runner_follows,
        runner_beside,
        pages_follow,
        secured,
        begins_and_refuses,
    )
}


def main():
    """Runs trials one after another, and says of each what was found."""
    parser = argparse.ArgumentParser()
    parser.add_argument("--ttl", type=int, default=TTL)
    parser.add_argument("--times", type=int, default=1)
    parser.add_argument("names", nargs="*", metavar="NAME")
    words = parser.parse_args()
    for name in words.names or TRIALS:
        began = time.monotonic()
        found = asyncio.run(TRIALS[name](words))
        print(f"{name}: {words.times} times, {time.monotonic() - began:.0f} s: {found}", flush=True)
    return 0


if __name__ == "__main__":
    sys.exit(main())

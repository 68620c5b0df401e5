"""A trial of how the servers of a cluster begin: with a journal, by a copy, behind one another; and what they refuse."""
import asyncio
import signal

from rollback_client.copy import copy_book
from tests.cluster_callers import SETUP
from tests.cluster_checks import log_lines
from tests.cluster_machines import PREFIX, Cluster, encoded, run_command
from tests.program import PATIENCE, PROGRAM


async def begins_and_refuses(words):
    """A log that is filled from a journal; journals of another book, another etcd, a log with a gap; another version; who leads."""
    async with Cluster(words.ttl) as cluster:
        for number in range(3):
            await cluster.end_server(number, signal.SIGTERM)
            for path in cluster.room.glob(f"book{number}.db*"):
                path.unlink()
        lines = [*SETUP, *(line for each in range(700) for line in (f"start e{each} p {{}}", f"step e{each}"))]
        made = run_command([PROGRAM, "--journal", str(cluster.journal(0))], "\n".join(lines) + "\n")
        assert made.returncode == 0
        before = cluster.journal(0).read_bytes()
        cluster.start_server(0)
        status = await asyncio.to_thread(cluster.servers[0].wait, PATIENCE)
        assert status == 5 and "--seed" in cluster.errors(0), (status, cluster.errors(0)[-500:])
        assert cluster.journal(0).read_bytes() == before
        cluster.start_server(0, words=("--seed",))
        history = await cluster.ask(0, "history")
        assert len(history.split("\n")) == 1402, history[:100]
        cluster.start_server(1)
        assert await cluster.ask(1, "history") == history
        logged, _ = await log_lines(cluster)
        assert [line for _, line in logged] == lines
        await begins_by_a_copy(cluster, history)
        await shows_who_leads(cluster)
        await stands_aside(cluster)
        await refuses_others(cluster)
        return f"{len(lines)} lines of a journal filled the log"


async def begins_by_a_copy(cluster, history):
    """A new machine may begin with a copy of the book, with whatever the log has beyond it."""
    address = "cluster:" + ",".join(cluster.addresses)
    await asyncio.to_thread(copy_book, address, cluster.journal(2), PROGRAM)
    assert await cluster.ask(None, "step shared") == "ok shared#1 plain"
    cluster.start_server(2)
    assert (await cluster.ask(2, "history")).split("\n")[1:-1] == history.split("\n")[1:]
    opened = cluster.events("opened")[-1]
    assert any(each.get("lines", 0) >= 1404 for each in cluster.events("opened")), opened


async def shows_who_leads(cluster):
    """The status says who leads and how far the others are, and ends with 1 if one is gone."""
    words = cluster.server_words(1) + ["--cluster-status"]
    await cluster.until(lambda: says_all_are_there(cluster, words))
    await cluster.end_server(0)
    found = await asyncio.to_thread(run_command, words)
    assert found.returncode == 1 and "doesn't answer" in found.stdout, found
    cluster.start_server(0)
    await cluster.ask(0, "history")


async def says_all_are_there(cluster, words):
    """Whether the status says that all are there, and who leads."""
    leader = cluster.addresses[await cluster.leader()]
    found = await asyncio.to_thread(run_command, words)
    assert found.returncode == 0, found
    assert f"book orders: {leader} leads since revision" in found.stdout, found
    assert "the log has 1405 lines" in found.stdout, found
    assert found.stdout.count("1405 lines, 0 behind") == 3 and found.stdout.count("answers, ") == 3, found
    return True


async def refusal_of_leader(cluster):
    """How others refuse lines while a server leads."""
    return f"no 40 leader {cluster.addresses[await cluster.leader()]}"


async def stands_aside(cluster):
    """A server whose program has another version follows nobody, names the leader, and takes part again with the same one."""
    number = (await cluster.leader() + 1) % 3
    await cluster.end_server(number, signal.SIGTERM)
    other = cluster.room / "other"
    other.write_text(f'#!/bin/sh\n[ "$1" = --version ] && echo "rollback 9.9.9" && exit 0\nexec {PROGRAM} "$@"\n')
    other.chmod(0o755)
    cluster.start_server(number, other)
    connection = await cluster.until(lambda: cluster.connect(number))
    while (reply := await connection.ask("history", PATIENCE)) != await refusal_of_leader(cluster):
        assert (reply or "").startswith("no 40 "), reply
        await asyncio.sleep(0.05)
    connection.close()
    assert cluster.events("aside"), "the log file doesn't say that it stands aside"
    await cluster.end_server(number, signal.SIGTERM)
    cluster.start_server(number)
    await cluster.ask(number, "history")


async def refuses_others(cluster):
    """Another etcd's journal, and a log with a gap, are refused by name, and nothing is cut."""
    number = (await cluster.leader() + 1) % 3
    await cluster.end_server(number, signal.SIGTERM)
    journal = cluster.journal(number)
    beside, before = journal.with_name(journal.name + ".cluster"), journal.read_bytes()
    kept = beside.read_text(encoding="utf-8")
    beside.write_text(kept.replace('"cluster_id": "', '"cluster_id": "1'), encoding="utf-8")
    cluster.start_server(number)
    assert await asyncio.to_thread(cluster.servers[number].wait, PATIENCE) == 5
    assert "belongs to" in cluster.errors(number) and journal.read_bytes() == before, cluster.errors(number)[-500:]
    beside.write_text(kept, encoding="utf-8")
    first = (await cluster.batches())[1][0]
    key = f"{PREFIX}/log/{first:012d}"
    pair = (await cluster.etcd_soon("kv/range", {"key": encoded(key)}))["kvs"][0]
    for path in cluster.room.glob(f"book{number}.db*"):
        path.unlink()
    await cluster.etcd_soon("kv/deleterange", {"key": encoded(key)})
    cluster.start_server(number)
    assert await asyncio.to_thread(cluster.servers[number].wait, PATIENCE) == 5
    assert "gap" in cluster.errors(number), cluster.errors(number)[-500:]
    assert pair["value"]

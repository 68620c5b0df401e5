#!/usr/bin/env python3
"""Lines a second of a book on three machines, beside the same server without etcd, in one run.

    python3 tools/bench_cluster.py [--program PATH] [--callers 1,16,64] [--rounds N] [--seconds N] [--folder F]

Three members of etcd and three servers run on this machine, so the processors are shared by all of them: the share counts, and not the
lines. Each caller gives a start, a step and a question in turn and waits for each reply. In each round both arrangements take their turns.
Printed are the medians of the rounds, their share, the shares of the middle rounds, and how long a leader's line took to be in the books that stand by.
"""
import argparse
import asyncio
import os
import pathlib
import statistics
import subprocess
import sys
import tempfile
import time

TOP = pathlib.Path(__file__).resolve().parent.parent
sys.path.insert(0, str(TOP / "clients/python"))


class Alone:
    """The same server without etcd."""

    def __init__(self, cluster, program, port):
        self.address = f"127.0.0.1:{port}"
        words = [cluster.python, "-m", "rollback_client.serve", "--program", program, "--journal", str(cluster.room / "alone.db")]
        self.process = subprocess.Popen([*words, "--listen", self.address], stdout=subprocess.DEVNULL, cwd=TOP / "clients/python")


async def call(address, name, ends):
    """How many lines a caller got answered until then, one after another."""
    from tests.cluster_machines import Connection

    connection, count, number = await Connection.open(address), 0, 0
    while time.monotonic() < ends:
        execution, number = f"{name}-{number}", number + 1
        for line in (f"start {execution} p {{}}", f"step {execution}", f"show {execution}"):
            reply = await connection.ask(line)
            if not (reply or "").startswith("ok"):
                raise SystemExit(f"bench_cluster: {line} is answered {reply}")
            count += 1
    connection.close()
    return count


async def once(address, line):
    """The reply to one line."""
    from tests.cluster_machines import Connection

    connection = await Connection.open(address)
    reply = await connection.ask(line, 60)
    connection.close()
    return reply


async def rate(address, callers, seconds, turn):
    """Lines a second of so many callers, who begin together. The book is settled first, so that it has room."""
    await once(address, "settle")
    began = time.monotonic()
    counts = await asyncio.gather(*(call(address, f"t{turn}c{number}", began + seconds) for number in range(callers)))
    return sum(counts) / (time.monotonic() - began)


async def behind(cluster, leader, seconds):
    """Milliseconds from a line's reply at the leader until a standby shows it, asked without a linearizable read: by its `!place`."""
    from tests.cluster_machines import Connection
    import json

    own, other = await Connection.open(cluster.addresses[leader]), await Connection.open(cluster.addresses[(leader + 1) % 3])
    found, ends, number = [], time.monotonic() + seconds, 0
    while time.monotonic() < ends:
        number += 1
        await own.ask(f"start behind-{time.monotonic_ns()} p {{}}")
        lines, moment = json.loads(await own.ask("!place"))["lines"], time.monotonic()
        while json.loads(await other.ask("!place"))["lines"] < lines:
            await asyncio.sleep(0)
        found.append(1000 * (time.monotonic() - moment))
    own.close()
    other.close()
    return sorted(found)


async def bench(words):
    from tests.cluster_callers import SETUP
    from tests.cluster_machines import Cluster, free_ports

    async with Cluster(5, place=words.folder) as cluster:
        alone = Alone(cluster, words.program, free_ports(1)[0])
        try:
            leader = await cluster.leader()
            places = {"alone": alone.address, "on three": cluster.addresses[leader]}
            for line in SETUP:
                await cluster.until(lambda: once(alone.address, line))
                await cluster.ask(leader, line)
            for callers in map(int, words.callers.split(",")):
                found = {name: [] for name in places}
                for turn in range(words.rounds):
                    for name, address in places.items():
                        found[name].append(await rate(address, callers, words.seconds, f"{callers}x{turn}"))
                        await asyncio.sleep(0.3)
                medians_of = {name: statistics.median(rates) for name, rates in found.items()}
                shares = sorted(three / one for one, three in zip(found["alone"], found["on three"]) if one) or [0.0]
                quarters = f"{shares[len(shares) // 4]:.2f} to {shares[len(shares) * 3 // 4]:.2f}"
                spread = f"{medians_of['on three'] / max(1.0, medians_of['alone']):.2f} (half of the rounds {quarters})"
                medians = ", ".join(f"{name} {median:.0f}" for name, median in medians_of.items())
                print(f"{callers} callers: lines a second {medians}; share {spread}", flush=True)
            late = await behind(cluster, leader, words.seconds)
            print(
                f"a standby has a line {statistics.median(late):.1f} ms after its reply, 99 of 100 within {late[len(late) * 99 // 100]:.1f} ms"
            )
            print(f"load {os.getloadavg()[0]:.1f}, {len(os.sched_getaffinity(0))} processors for all of it")
        finally:
            alone.process.terminate()
            alone.process.wait()


def main():
    parser = argparse.ArgumentParser(description="Lines a second of a book on three machines.")
    parser.add_argument("--program", default=str(TOP / "crates/rollback_program/out/rollback_program"))
    parser.add_argument("--callers", default="1,16,64")
    parser.add_argument("--rounds", type=int, default=5)
    parser.add_argument("--seconds", type=float, default=3)
    parser.add_argument("--folder", default=tempfile.gettempdir(), help="where all files are, on a disk")
    words = parser.parse_args()
    os.environ["ROLLBACK_PROGRAM"] = words.program
    from tests.cluster_machines import what_is_missing

    if missing := what_is_missing():
        raise SystemExit(f"bench_cluster: {missing}")
    asyncio.run(bench(words))


if __name__ == "__main__":
    main()

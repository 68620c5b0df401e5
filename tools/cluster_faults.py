#!/usr/bin/env python3
"""Tries a book on three machines by hand: each trial of the client's tests some times, and a machine off the network.

    python3 tools/cluster_faults.py [--times N] [--ttl SECONDS] [--program PATH] [NAME ..]

Three members of etcd and three servers run on the loopback, and are killed, stopped and filled amid callers. After each trial the histories
of all callers are checked against the log, and the three books against each other. `off_network` needs root: each machine is a network
namespace with its own address, and is cut off by taking its link down. docs/TESTING.md says what else is needed.
"""
import argparse
import asyncio
import os
import pathlib
import subprocess
import sys
import time

TOP = pathlib.Path(__file__).resolve().parent.parent
sys.path.insert(0, str(TOP / "clients/python"))


class Machines:
    """Three network namespaces on one bridge, with an address each; this process is on the bridge too."""

    def __init__(self):
        self.name = f"rb{os.getpid() % 10000}"
        self.addresses = [f"10.213.7.{number + 1}" for number in range(3)]

    def run(self, *words):
        subprocess.run(["ip", *words], check=True, stderr=subprocess.PIPE)

    def __enter__(self):
        self.run("link", "add", self.name, "type", "bridge")
        self.run("address", "add", "10.213.7.254/24", "dev", self.name)
        self.run("link", "set", self.name, "up")
        for number, address in enumerate(self.addresses):
            space, ours, theirs = self.space(number), f"{self.name}h{number}", f"{self.name}n{number}"
            self.run("netns", "add", space)
            self.run("link", "add", ours, "type", "veth", "peer", "name", theirs, "netns", space)
            self.run("link", "set", ours, "master", self.name, "up")
            for words in (("link", "set", "lo", "up"), ("address", "add", f"{address}/24", "dev", theirs), ("link", "set", theirs, "up")):
                self.run("-n", space, *words)
        return self

    def __exit__(self, *fault):
        for number in range(3):
            self.remove("link", "delete", f"{self.name}h{number}")
            self.remove("netns", "delete", self.space(number))
        self.remove("link", "delete", self.name)

    def remove(self, *words):
        subprocess.run(["ip", *words], check=False, stderr=subprocess.DEVNULL)

    def space(self, number):
        return f"{self.name}s{number}"

    def set_link(self, number, state):
        """Takes a machine off the network, or puts it back."""
        self.run("link", "set", f"{self.name}h{number}", state)


def clusters():
    """The cluster of the tests, each machine in a namespace. Imported late, since the program is named by the environment."""
    from tests.cluster_machines import Cluster

    class Apart(Cluster):
        """Members and servers with addresses of their own, beyond the loopback, with certificates made for this."""

        def __init__(self, ttl, machines):
            super().__init__(ttl)
            self.machines = machines
            self.clients = [f"http://{address}:2379" for address in machines.addresses]
            self.peers = [f"http://{address}:2380" for address in machines.addresses]
            self.addresses = [f"{address}:7070" for address in machines.addresses]
            self.secure(machines.addresses)

        def placed(self, number, command):
            """A command as this machine runs it."""
            return ["ip", "netns", "exec", self.machines.space(number), *command]

    return Apart


async def late(connection):
    """A question that is sent to a machine off the network: its answer, if one comes, has to be true when it comes."""
    from tests.cluster_callers import Said

    sent = time.monotonic()
    reply = await connection.ask("show shared", 60)
    return Said("late", "show shared", sent, reply, time.monotonic())


async def off_network(words):
    """The leader's machine, off the network with its member of etcd past the lease, and back, with a question under way."""
    from tests.cluster_trials import Trial

    with Machines() as machines:
        async with clusters()(words.ttl, machines) as cluster:
            trial = Trial(cluster)
            await trial.begin()
            for turn in range(words.times):
                number = await cluster.leader()
                old = await cluster.connect(number)
                moment = time.monotonic()
                machines.set_link(number, "down")
                coming = asyncio.ensure_future(late(old))
                await trial.accepted_since(moment, 2 * words.ttl + 5 + trial.callers[0].patience)
                machines.set_link(number, "up")
                trial.said.append(await coming)
                old.close()
                await cluster.ask(number, "history", 60)
            return await trial.end()


# Trials that do what they do once: they are begun anew as often as they are wanted.
ONCE = ("space_used_up", "reply_differs", "secured", "begins_and_refuses")


def tried(trial, name, words):
    """What a trial found, or what was wrong."""
    once = argparse.Namespace(**{**vars(words), "times": 1})
    try:
        if name not in ONCE:
            return asyncio.run(trial(words)), True
        for _ in range(words.times):
            found = asyncio.run(trial(once))
        return f"the last time: {found}", True
    except Exception as fault:
        return f"FAILED: {fault!r}", False


def main():
    parser = argparse.ArgumentParser(description="Tries a book on three machines.")
    parser.add_argument("--times", type=int, default=3)
    parser.add_argument("--ttl", type=int, default=2)
    parser.add_argument("--program", help="the program, that of the gate if it is left out")
    parser.add_argument("names", nargs="*", metavar="NAME")
    words = parser.parse_args()
    if words.program:
        os.environ["ROLLBACK_PROGRAM"] = words.program
    from tests.cluster_machines import what_is_missing
    from tests.cluster_trials import TRIALS

    if missing := what_is_missing():
        raise SystemExit(f"cluster_faults: {missing}")
    trials = {**TRIALS, "off_network": off_network}
    failed = 0
    for name in words.names or trials:
        if name == "off_network" and os.geteuid():
            print("off_network: left out, since it needs root", flush=True)
            continue
        began = time.monotonic()
        found, holds = tried(trials[name], name, words)
        failed += not holds
        print(f"{name}: {words.times} times, {time.monotonic() - began:.0f} s: {found}", flush=True)
    return 1 if failed else 0


if __name__ == "__main__":
    sys.exit(main())

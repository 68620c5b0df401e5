#!/usr/bin/env python3
"""Calls a second of boto3: of a book that answers Amazon's tools, and of moto's server, in turn.

    python3 tools/bench_aws.py [--program PATH] [--graph PATH] [--seconds S] [--rounds N] [--folder F]

Each client is a process of its own with one connection, and waits for each answer. In each round the two servers take their turns, each with one
client and with 16. The medians of the rounds are printed. It needs a Python with boto3, one with aiohttp, and one with moto and Flask, which may be three;
what has no moto is measured alone. moto fails at a second execution, so executions are the book's alone.
"""
import argparse
import json
import multiprocessing
import os
import pathlib
import signal
import statistics
import subprocess
import sys
import tempfile
import time

TOP = pathlib.Path(__file__).resolve().parent.parent
sys.path.insert(0, str(TOP / "clients/python"))

from tests.amazon import ROLE, client_of  # noqa: E402: beside this file
from tests.pages import python_with  # noqa: E402
from tests.program import PASS  # noqa: E402

PROGRAM = TOP / "crates/rollback_program/out/rollback_program"
GRAPH = TOP / "crates/rollback_graph/out/rollback_graph"
TABLE = {
    "TableName": "items",
    "AttributeDefinitions": [{"AttributeName": "id", "AttributeType": "S"}],
    "KeySchema": [{"AttributeName": "id", "KeyType": "HASH"}],
    "BillingMode": "PAY_PER_REQUEST",
}
CALLS = ("PutItem", "GetItem", "DescribeStateMachine", "StartExecution")
CLIENTS = (1, 16)


class Served:
    """A server, with its address."""

    def __init__(self, command, first, **more):
        self.process = subprocess.Popen(
            command, stdout=subprocess.PIPE, stderr=subprocess.DEVNULL, text=True, cwd=TOP / "clients/python", **more
        )
        self.url = first(self.process)

    def end(self):
        self.process.send_signal(signal.SIGTERM)
        self.process.wait()


def book(options, room):
    """A book on a file of its own."""
    files = ("--journal", f"{room}/orders.db", "--socket", f"{room}/socket")
    programs = ("--program", os.path.abspath(options.program), "--graph", os.path.abspath(options.graph))
    words = (*programs, "--run", "--aws", "--http", "127.0.0.1:0")

    def first(process):
        process.stdout.readline()
        return process.stdout.readline().split(" at ")[1].split("/?")[0]

    return Served([python_with("aiohttp"), "-m", "rollback_client.serve", *files, *words], first)


def moto():
    """A server of moto."""
    command = [python_with("moto", "flask"), "-m", "tests.moto_server"]
    return Served(command, lambda process: process.stdout.readline().strip(), stdin=subprocess.PIPE)


def caller(url, name, number, seconds, begun, counts):
    """One client, which counts the answers that it gets."""
    service = "dynamodb" if name.endswith("Item") else "stepfunctions"
    client = client_of(service, url)
    machine = "arn:aws:states:us-east-1:123456789012:stateMachine:p"
    calls = {
        "PutItem": lambda at: client.put_item(TableName="items", Item={"id": {"S": f"k{number}-{at % 50}"}, "v": {"N": str(at)}}),
        "GetItem": lambda at: client.get_item(TableName="items", Key={"id": {"S": "read"}}),
        "DescribeStateMachine": lambda at: client.describe_state_machine(stateMachineArn=machine),
        "StartExecution": lambda at: client.start_execution(stateMachineArn=machine, input="{}"),
    }
    call = calls[name]
    if name != "StartExecution":
        call(0)
    begun.wait()
    at, ends = 0, time.monotonic() + seconds
    while time.monotonic() < ends:
        at += 1
        call(at)
    counts.put(at)


def rate(url, name, clients, seconds):
    """Calls a second of so many clients."""
    counts, begun = multiprocessing.Queue(), multiprocessing.Barrier(clients)
    arguments = [(url, name, number, seconds, begun, counts) for number in range(clients)]
    processes = [multiprocessing.Process(target=caller, args=given) for given in arguments]
    for process in processes:
        process.start()
    found = sum(counts.get() for _ in processes) / seconds
    for process in processes:
        process.join()
    return found


def prepared(url):
    """The table, an item and a machine."""
    tables, states = client_of("dynamodb", url), client_of("stepfunctions", url)
    tables.create_table(**TABLE)
    tables.put_item(TableName="items", Item={"id": {"S": "read"}, "v": {"N": "1"}})
    states.create_state_machine(name="p", definition=json.dumps(PASS), roleArn=ROLE)


def measured(options):
    """The rates by call, server and clients."""
    found = {}
    for _ in range(options.rounds):
        with tempfile.TemporaryDirectory(dir=options.folder) as room:
            servers = {"book": book(options, room)}
            if python_with("moto", "flask"):
                servers["moto"] = moto()
            try:
                for server in servers.values():
                    prepared(server.url)
                for name in CALLS:
                    for clients in CLIENTS:
                        for kind, server in servers.items():
                            if (kind, name) != ("moto", "StartExecution"):
                                row = found.setdefault((name, kind, clients), [])
                                row.append(rate(server.url, name, clients, options.seconds))
            finally:
                for server in servers.values():
                    server.end()
    return found


def main():
    parser = argparse.ArgumentParser(description="Calls a second of boto3, beside moto.")
    parser.add_argument("--program", default=os.environ.get("ROLLBACK_PROGRAM", str(PROGRAM)))
    parser.add_argument("--graph", default=os.environ.get("ROLLBACK_GRAPH", str(GRAPH)))
    parser.add_argument("--seconds", type=float, default=3.0)
    parser.add_argument("--rounds", type=int, default=3)
    parser.add_argument("--folder", help="where the journal is (a temporary folder)")
    options = parser.parse_args()
    if python_with("boto3", "aiohttp") is None and (python_with("boto3") != sys.executable or not python_with("aiohttp")):
        raise SystemExit("bench_aws: this Python needs boto3, and some Python aiohttp")
    found = measured(options)
    print("| Call | A book, one client | 16 clients | moto, one client | 16 clients |\n|---|---|---|---|---|")
    for name in CALLS:
        cells = []
        for kind in ("book", "moto"):
            for clients in CLIENTS:
                rates = found.get((name, kind, clients))
                cells.append("-" if rates is None else f"{statistics.median(rates):,.0f}")
        print(f"| {name} | {' | '.join(cells)} |")


if __name__ == "__main__":
    main()

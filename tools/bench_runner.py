#!/usr/bin/env python3
"""Steps a second on a file: `step` lines of one caller through the server of lines, and steps of a runner, within the server and beside it.

    python3 tools/bench_runner.py [--program PATH] [--graph PATH] [--executions N] [--rounds N] [--folder F]

Each has N executions of one Pass. The caller sends its lines without waiting for replies. A runner is paused while the executions are
started, and its time is that from the end of the pause until the last execution is done. In each round all take their turns. The median of
the rounds is printed, with that of the shares of the caller's rate.
"""
import argparse
import os
import pathlib
import statistics
import subprocess
import sys
import tempfile
import time

sys.dont_write_bytecode = True
from bench_server import PROGRAM, TOP, connected, talk  # noqa: E402: beside this file

GRAPH = TOP / "crates/rollback_graph/out/rollback_graph"
ENVIRONMENT = {**os.environ, "PYTHONPATH": str(TOP / "clients/python")}
BEGIN = b'table items id:S []\ndefine p {"StartAt":"P","States":{"P":{"Type":"Pass","Result":7,"End":true}}}\n'


class Part:
    """A server on a file of its own."""

    def __init__(self, name, words, room, count, *more):
        self.name, self.count, self.round, self.runner = name, count, 0, None
        place = room / f"{name.replace(' ', '-')}.socket"
        files = ("--journal", place.with_suffix(".db"), "--socket", place)
        command = [sys.executable, "-m", "rollback_client.serve", "--program", words.program.resolve(), *files, *more]
        self.server = subprocess.Popen(command, stdout=subprocess.PIPE, env=ENVIRONMENT)
        self.server.stdout.readline()
        self.stream = connected(place)
        talk(self.stream, self.stream, BEGIN)
        if name == "a runner beside it":
            self.runner = subprocess.Popen([sys.executable, "-m", "rollback_client.runner", place], env=ENVIRONMENT)

    def ask(self, line):
        self.stream.write(line)
        self.stream.flush()
        return self.stream.readline()

    def take(self):
        """The seconds of so many steps."""
        names = [f"e{self.round}-{number}".encode() for number in range(self.count)]
        self.round += 1
        is_run = self.name != "one caller"
        if is_run and not self.ask(b"!pause\n").startswith(b"ok"):
            raise SystemExit("bench_runner: there is no runner")
        talk(self.stream, self.stream, b"".join(b"start %s p {}\n" % name for name in names))
        time.sleep(0.5)  # a runner looks at what was started
        began = time.monotonic()
        if is_run:
            self.ask(b"!resume\n")
            while not self.ask(b"show %s\n" % names[-1]).startswith(b"ok done"):
                time.sleep(0.002)
        else:
            talk(self.stream, self.stream, b"".join(b"step %s\n" % name for name in names))
        return time.monotonic() - began

    def end(self):
        if self.runner is not None:
            self.runner.terminate()
            self.runner.wait()
        self.server.terminate()
        self.server.communicate()


def main():
    parser = argparse.ArgumentParser(description="Steps a second of a runner, beside those of one caller.")
    parser.add_argument("--program", type=pathlib.Path, default=PROGRAM)
    parser.add_argument("--graph", default=str(GRAPH))
    parser.add_argument("--executions", type=int, default=1000)
    parser.add_argument("--rounds", type=int, default=8)
    parser.add_argument("--folder", help="where the files are made, the system's for temporary files if it is left out")
    words = parser.parse_args()
    with tempfile.TemporaryDirectory(dir=words.folder) as room:
        room = pathlib.Path(room)
        of_graph = ("--graph", words.graph)
        parts = [
            Part("one caller", words, room, words.executions, "--ask", *of_graph),
            Part("a runner within it", words, room, words.executions, "--run", *of_graph),
            Part("a runner beside it", words, room, words.executions, "--ask", *of_graph),
        ]
        rounds = [[part.take() for part in parts] for _ in range(words.rounds)]
        for part in parts:
            part.end()
    for place, part in enumerate(parts):
        rate = statistics.median(words.executions / taken[place] for taken in rounds)
        share = statistics.median(taken[0] / taken[place] for taken in rounds)
        print(f"| the server, {part.name} | {rate:,.0f} | {share:.2f} |")


if __name__ == "__main__":
    main()

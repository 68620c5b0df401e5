#!/usr/bin/env python3
"""Lines a second on a file, in bulk: by the program alone, and through the server of lines from one caller and from 16.

    python3 tools/bench_server.py [--program PATH] [--lines N] [--rounds N] [--folder F]

Starts and steps are sent without waiting for replies, each caller's over executions of its own. In each round the three take their
turns, each with so many lines on its own file in the same folder, since what a disk does in one second says little of the next. The
median of the rounds is printed, with that of the shares of the program alone.
"""
import argparse
import os
import pathlib
import socket
import statistics
import subprocess
import sys
import tempfile
import threading
import time

TOP = pathlib.Path(__file__).resolve().parent.parent
PROGRAM = TOP / "crates/rollback_program/out/rollback_program"
BEGIN = b'table items id:S []\ndefine p {"StartAt":"P","States":{"P":{"Type":"Pass","Result":7,"End":true}}}\n'


def lines_of(caller, first, count):
    """Starts and steps of one caller, over executions of its own."""
    return b"".join(b"start c%d-%d p {}\nstep c%d-%d\n" % (caller, n, caller, n) for n in range(first, first + count // 2))


def talk(output, replies, lines):
    """Sends lines, and reads a reply to each."""
    sending = threading.Thread(target=lambda: (output.write(lines), output.flush()))
    sending.start()
    for _ in range(lines.count(b"\n")):
        if not replies.readline().startswith(b"ok"):
            raise SystemExit("bench_server: a line was refused")
    sending.join()


class Alone:
    """The program, with its lines on a pipe."""

    def __init__(self, program, room, count):
        self.process = subprocess.Popen([program, "--journal", room / "alone.db"], stdin=subprocess.PIPE, stdout=subprocess.PIPE)
        talk(self.process.stdin, self.process.stdout, BEGIN)
        self.count, self.first = count, 0

    def take(self):
        """Seconds of so many lines."""
        lines = lines_of(0, self.first, self.count)
        self.first += self.count // 2
        began = time.monotonic()
        talk(self.process.stdin, self.process.stdout, lines)
        return time.monotonic() - began

    def end(self):
        self.process.communicate()


class Served:
    """The server, with callers in processes of their own, so that they don't hold up each other."""

    def __init__(self, program, room, count, callers):
        place = room / f"socket{callers}"
        command = [sys.executable, "-m", "rollback_client.serve", "--program", program, "--journal", room / f"{callers}.db", "--socket", place]
        self.server = subprocess.Popen(command, stdout=subprocess.PIPE, env={**os.environ, "PYTHONPATH": str(TOP / "clients/python")})
        self.server.stdout.readline()
        with connected(place) as stream:
            talk(stream, stream, BEGIN)
        words = [sys.executable, __file__, "--caller", place, "--lines", str(count // callers)]
        self.callers = [
            subprocess.Popen([*words, "--number", str(number)], stdin=subprocess.PIPE, stdout=subprocess.PIPE) for number in range(callers)
        ]

    def take(self):
        """Seconds of so many lines, of all callers together."""
        began = time.monotonic()
        for caller in self.callers:
            caller.stdin.write(b"go\n")
            caller.stdin.flush()
        for caller in self.callers:
            if caller.stdout.readline() != b"done\n":
                raise SystemExit("bench_server: a caller has ended")
        return time.monotonic() - began

    def end(self):
        for caller in self.callers:
            caller.communicate()
        self.server.terminate()
        self.server.communicate()


def connected(place):
    with socket.socket(socket.AF_UNIX, socket.SOCK_STREAM) as stream:
        stream.connect(str(place))
        return stream.makefile("rwb")


def call(words):
    """One caller: at each line of the input it sends its next lines."""
    with connected(words.caller) as stream:
        for first, _ in enumerate(sys.stdin):
            talk(stream, stream, lines_of(words.number, first * words.lines, words.lines))
            print("done", flush=True)


def main():
    parser = argparse.ArgumentParser(description="Lines a second through the server of lines, beside the program alone.")
    parser.add_argument("--program", type=pathlib.Path, default=PROGRAM)
    parser.add_argument("--lines", type=int, default=1600, help="of each turn")
    parser.add_argument("--rounds", type=int, default=20)
    parser.add_argument("--folder", help="where the files are made, the system's for temporary files if it is left out")
    parser.add_argument("--caller", help=argparse.SUPPRESS)
    parser.add_argument("--number", type=int, help=argparse.SUPPRESS)
    words = parser.parse_args()
    if words.caller:
        return call(words)
    with tempfile.TemporaryDirectory(dir=words.folder) as room:
        room, program = pathlib.Path(room), words.program.resolve()
        parts = [Alone(program, room, words.lines), *(Served(program, room, words.lines, callers) for callers in (1, 16))]
        rounds = [[part.take() for part in parts] for _ in range(words.rounds)]
        for part in parts:
            part.end()
    for place, name in enumerate(("the program alone", "the server, one caller", "the server, 16 callers")):
        rate = statistics.median(words.lines / taken[place] for taken in rounds)
        share = statistics.median(taken[0] / taken[place] for taken in rounds)
        print(f"| {name} | {rate:,.0f} | {share:.2f} |")


if __name__ == "__main__":
    main()

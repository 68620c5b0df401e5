#!/usr/bin/env python3
"""Reads journals that a session has open, and files that are none: reading changes nothing.

usage: running_reads.py [--program PATH] [--graph PATH] [--reads N]

A session writes lines to a journal's file, a thousand steps a second at most, and copies its log into the file now and then. Meanwhile
`rollback --check` and `rollback_graph --machines` read it N times (60): each answers, of a beginning of the lines that were given, and of no
fewer than had been answered before it began. Then files that are no journals, or damaged ones, are read: a text, zeros, an empty file, one of
a byte, a log with a wrong bit. They, and what is beside them, stay as they were, byte for byte; and once the bit is put right all lines are
there again.

The last line is `N passed, M failed`.
"""
import argparse
import json
import os
import pathlib
import subprocess
import sys
import tempfile
import threading
import time

TOP = pathlib.Path(__file__).resolve().parent.parent
PROGRAM = TOP / "crates/rollback_program/out/rollback_program"
GRAPH = TOP / "crates/rollback_graph/out/rollback_graph"
PASS = '{"StartAt":"P","States":{"P":{"Type":"Pass","Next":"Q"},"Q":{"Type":"Pass","End":true}}}'


class Failed(Exception):
    pass


def ensure(holds, why):
    if not holds:
        raise Failed(why)


def ran(words):
    return subprocess.run([str(word) for word in words], stdin=subprocess.DEVNULL, capture_output=True, timeout=600, check=False)


class Writer(threading.Thread):
    """A session that is given lines one by one, until it has to end."""

    def __init__(self, program, journal):
        super().__init__()
        self.process = subprocess.Popen([str(program), "--journal", journal], stdin=subprocess.PIPE, stdout=subprocess.PIPE, text=True)
        self.given = self.answered = 0
        self.is_ending = False
        for line in ("table t id:S []", f"define m {PASS}"):
            self.give(line)

    def give(self, line):
        self.given += 1
        self.process.stdin.write(line + "\n")
        self.process.stdin.flush()
        ensure(self.process.stdout.readline().startswith("ok"), f"refused: {line}")
        self.answered += 1

    def run(self):
        number = 0
        while not self.is_ending:
            # (a long input fills the log, so that it is copied into the file often)
            text = json.dumps({"text": "x" * (20_000 if number % 5 == 0 else 10)}, separators=(",", ":"))
            self.give(f"start e{number} m {text}")
            self.give(f"step e{number}")
            number += 1
            # (else the log is emptied more often than a grown file can be read)
            time.sleep(0.001)
            # (a book is full at 65,536 steps)
            if number % 5_000 == 0:
                self.give("settle")

    def end(self):
        self.is_ending = True
        self.join()
        self.process.stdin.close()
        self.process.wait()


def lines_by_check(program, journal):
    found = ran([program, "--check", journal])
    ensure(found.returncode == 0, f"--check ends with {found.returncode} {found.stderr.decode()}")
    return int(found.stdout.split()[1])


def lines_by_graph(graph, journal):
    found = ran([graph, journal, "--machines", "--json"])
    ensure(found.returncode == 0, f"rollback_graph ends with {found.returncode} {found.stderr.decode()}")
    return json.loads(found.stdout)["entries"]


def read_running(program, graph, folder, reads):
    """Reads a journal while a session writes it."""
    journal = os.path.join(folder, "running.db")
    writer = Writer(program, journal)
    writer.start()
    try:
        for number in range(reads):
            before = writer.answered
            found = lines_by_graph(graph, journal) if number % 4 == 3 else lines_by_check(program, journal)
            ensure(before <= found <= writer.given, f"{found} lines, of {before} answered and {writer.given} given")
            time.sleep(0.001)
    finally:
        writer.end()
    return lines_by_check(program, journal), writer.answered


def whole(folder):
    return {path.name: path.read_bytes() for path in pathlib.Path(folder).iterdir()}


def read_files(program, graph, folder):
    """Reads files that are no journals: they stay as they are, and nothing is put beside them."""
    passed = 0
    for name, data in (("text", b"no journal\n" * 50), ("zeros", bytes(8192)), ("empty", b""), ("byte", b"S")):
        place = os.path.join(folder, name)
        os.mkdir(place)
        path = os.path.join(place, "file.db")
        pathlib.Path(path).write_bytes(data)
        before = whole(place)
        for words in ([program, "--check", path], [graph, path, "--list"], [graph, path, "--machines"]):
            found = ran(words)
            ensure(found.returncode in (0, 3), f"{name}: {words[1:]} ends with {found.returncode}")
            ensure(whole(place) == before, f"{name}: {words[1:]} has changed the folder")
        passed += 1
    return passed


def read_damaged(program, graph, folder):
    """A wrong bit in the log costs the lines behind it, until it is put right."""
    place = os.path.join(folder, "damaged")
    os.mkdir(place)
    journal = os.path.join(place, "file.db")
    writer = subprocess.Popen([str(program), "--journal", journal], stdin=subprocess.PIPE, stdout=subprocess.PIPE, text=True)
    for line in ("table t id:S []", f"define m {PASS}", *(f"start e{number} m {{}}" for number in range(30))):
        writer.stdin.write(line + "\n")
        writer.stdin.flush()
        writer.stdout.readline()
    writer.kill()
    writer.wait()
    log = pathlib.Path(journal + "-wal")
    right = log.read_bytes()
    at = len(right) // 3  # the log's end may be room that no line has yet
    log.write_bytes(right[:at] + bytes([right[at] ^ 1]) + right[at + 1 :])
    before = whole(place)
    ensure(lines_by_check(program, journal) < 32 and lines_by_graph(graph, journal) < 32, "a wrong bit costs no line")
    ensure(whole(place) == before, "reading a damaged log has changed it")
    log.write_bytes(right)
    ensure(lines_by_check(program, journal) == 32, "lines are lost for good")


def main():
    parser = argparse.ArgumentParser(description=__doc__, formatter_class=argparse.RawDescriptionHelpFormatter)
    parser.add_argument("--program", default=PROGRAM)
    parser.add_argument("--graph", default=GRAPH)
    parser.add_argument("--reads", type=int, default=60)
    given = parser.parse_args()
    passed = failed = 0
    with tempfile.TemporaryDirectory() as folder:
        for trial in (
            lambda: read_running(given.program, given.graph, folder, given.reads),
            lambda: read_files(given.program, given.graph, folder),
            lambda: read_damaged(given.program, given.graph, folder),
        ):
            try:
                trial()
                passed += 1
            except Failed as failure:
                failed += 1
                print(failure)
    print(f"{passed} passed, {failed} failed")
    return failed != 0


sys.exit(main())

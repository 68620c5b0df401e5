#!/usr/bin/env python3
"""Tries what `rollback_graph --serve` answers to lines that are none, and how it ends.

    python3 tools/follower_ends.py [--graph PATH]

The last line is `N passed, M failed`.
"""
import argparse
import os
import subprocess
import sys
import tempfile

HERE = os.path.dirname(os.path.abspath(__file__))
GRAPH = os.path.join(HERE, "..", "crates", "rollback_graph", "out", "rollback_graph")
TABLE = b"= table items id:S []\n"

# lines, and what is answered to them
LINES = (
    ("not lines of a journal", b"drive 5\n\n= drive 5\n= plan a#0\n=\n? \n", [b"no 20", b"no 20", b"no 20", b"no 20", b"NO"]),
    ("no questions", b"? what\n? causes a\n? steps 1\n? threads since -1\n", [b"NO"] * 4),
    ("a question that isn't UTF-8", b"? find \xff\n", [b"NO"]),
    ("a line that isn't UTF-8", b"= step \xff\n", [b"no 20"]),
    ("refused lines", TABLE + b"= step a\n= undo a#0\n= start a m 1\n" + TABLE, [b"ok", b"no 5", b"no 7", b"no 1", b"no 22"]),
    ("a line without its end", TABLE + b"= settle", [b"ok", b"ok"]),
    ("a line that ends as in DOS", b"= table items id:S []\r\n", [b"ok"]),
    (
        "answers as text",
        TABLE + b"? text machines\n? text show a\n? text what\n",
        [b"ok", b'{"entries":1,"rollback_graph":1,"text":""}', b'{"error":"a is no execution","rollback_graph":1}', b"NO"],
    ),
    ("before a table", b"= settle\n? machines\n", [b"no 21", b'{"entries":0,"machines":[],"more":false,"rollback_graph":1}']),
)
NO_QUESTION = b'{"error":"no question","rollback_graph":1}'


def answers(graph, data):
    """The lines that are answered, if it ends well."""
    done = subprocess.run([graph, "--serve"], input=data, capture_output=True, timeout=600, check=False)
    return done.stdout.splitlines() if (done.returncode, done.stderr) == (0, b"") else [done.stderr]


def ending(graph, words, **streams):
    """The status, and what is said on standard error."""
    done = subprocess.run([graph, *words], stderr=subprocess.PIPE, timeout=600, check=False, **streams)
    return done.returncode, done.stderr


def checks(graph):
    """What is tried, and whether it is so."""
    for title, data, wanted in LINES:
        yield title, answers(graph, data) == [NO_QUESTION if line == b"NO" else line for line in wanted]
    folder = os.open(HERE, os.O_RDONLY)
    unread = ending(graph, ["--serve"], stdin=folder, stdout=subprocess.DEVNULL)
    os.close(folder)
    yield "rollback: input", unread == (4, b"rollback: input\n")
    with open("/dev/full", "wb") as full:
        yield "rollback: output", ending(graph, ["--serve"], input=b"? machines\n", stdout=full) == (4, b"rollback: output\n")
    with tempfile.TemporaryDirectory() as room:
        absent = ending(graph, [os.path.join(room, "none.db"), "--serve"], input=b"", stdout=subprocess.DEVNULL)
        yield "a file that isn't there", absent == (3, b"rollback: store\n") and not os.listdir(room)


def main():
    parser = argparse.ArgumentParser(description="Tries how rollback_graph --serve answers bad lines, and how it ends.")
    parser.add_argument("--graph", default=os.environ.get("ROLLBACK_GRAPH", GRAPH))
    passed = failed = 0
    for title, is_so in checks(parser.parse_args().graph):
        passed, failed = passed + is_so, failed + (not is_so)
        if not is_so:
            print(f"{title}: it isn't so")
    print(f"{passed} passed, {failed} failed")
    return 1 if failed or not passed else 0


if __name__ == "__main__":
    sys.exit(main())

#!/usr/bin/env python3
"""Says what rollback_graph's answers cost, in instructions. A maintainer's tool: no test runs it.

usage: bench_graph.py [--program PATH] [--graph PATH] [--steps N] [questions | pictures]

Prints rows `name<TAB>value<TAB>unit`, of one part or of both. It counts by valgrind's callgrind (Debian's package valgrind).

questions: a follower is given N steps (60,000) of executions of ten steps each, and then a line `= step T` and questions with at most eleven
steps in their answers. Of each question: its instructions, and how many times those of the line these are.

pictures: journals of a tenth of these steps, in three executions of plain steps, in three of a Map, and in three of a Map with a bound of half
its elements, are asked for the `--plan` of an execution, `--dot` and `--html`. Of each: the instructions without those of opening the journal.
"""
import argparse
import json
import os
import pathlib
import re
import subprocess
import sys
import tempfile

import callgrind

TOP = pathlib.Path(__file__).resolve().parent.parent
PROGRAM = TOP / "crates/rollback_program/out/rollback_program"
GRAPH = TOP / "crates/rollback_graph/out/rollback_graph"
VALGRIND = [*callgrind.COUNTED, "--quiet"]


def row(name, value, unit):
    print(f"{name}\t{value:,.1f}\t{unit}" if value < 100 else f"{name}\t{value:,.0f}\t{unit}", flush=True)


def definition(states):
    return json.dumps({"StartAt": next(iter(states)), "States": states}, separators=(",", ":"))


# ---- lines


def ten_steps(steps):
    """Executions of ten steps, whose third reads an item of its own and whose fourth writes it; all take their steps in turns."""
    call = {"TableName": "t", "Key": {"id": {"S.$": "$.id"}}}
    put = {"TableName": "t", "Item": {"id": {"S.$": "$.id"}}}
    states = {f"P{number}": {"Type": "Pass", "Next": f"P{number + 1}"} for number in range(1, 10)}
    states["P3"] = {"Type": "Task", "Resource": "arn:aws:states:::dynamodb:getItem", "Parameters": call, "ResultPath": None, "Next": "P4"}
    states["P4"] = {"Type": "Task", "Resource": "arn:aws:states:::dynamodb:putItem", "Parameters": put, "ResultPath": None, "Next": "P5"}
    states["P9"] = {"Type": "Pass", "End": True}
    yield "table t id:S []"
    yield f"define m {definition(states)}"
    names = [f"e{number}" for number in range(steps // 10)]
    for name in names:
        yield f'start {name} m {{"id":"k{name}"}}'
    for _ in range(9):
        for name in names:
            yield f"step {name}"


def plain_steps(steps, executions=3):
    """Executions of plain steps, which have no end."""
    yield "table t id:S []"
    yield f"define m {definition({'P': {'Type': 'Pass', 'Next': 'P'}})}"
    for number in range(executions):
        yield f"start e{number} m {{}}"
    for _ in range(steps // executions):
        for number in range(executions):
            yield f"step e{number}"


def map_steps(steps, is_bounded, maps=3):
    """Executions of one Map each, of branches of two steps, without a bound or with one of half the branches."""
    size = steps // (2 * maps)
    branch = {"StartAt": "A", "States": {"A": {"Type": "Pass", "Next": "B"}, "B": {"Type": "Pass", "End": True}}}
    each = {"Type": "Map", "ItemsPath": "$.list", "MaxConcurrency": size // 2 if is_bounded else 0, "ItemProcessor": branch, "End": True}
    yield "table t id:S []"
    yield f"define m {definition({'Each': each})}"
    for number in range(maps):
        yield f"start e{number} m {json.dumps({'list': [0] * size})}"
        yield f"step e{number}"
    for branch_number in range(size):
        for number in range(maps):
            yield from (f"step e{number}/1.{branch_number}",) * 2


# ---- questions


class Follower:
    """A follower under callgrind, which counts nothing until it is asked to."""

    def __init__(self, graph, folder):
        self.out = os.path.join(folder, "counts")
        words = [*VALGRIND, "--instr-atstart=no", f"--callgrind-out-file={self.out}", str(graph), "--serve"]
        self.process = subprocess.Popen(words, env=callgrind.ENVIRONMENT, stdin=subprocess.PIPE, stdout=subprocess.PIPE)
        self.dumps = 0

    def give(self, lines):
        for line in lines:
            if self.ask(f"= {line}") != "ok":
                raise SystemExit(f"bench_graph: refused: {line[:200]}")

    def ask(self, line):
        self.process.stdin.write(line.encode() + b"\n")
        self.process.stdin.flush()
        answer = self.process.stdout.readline().decode()
        if not answer:
            raise SystemExit(f"bench_graph: the follower ended at: {line[:200]}")
        return answer.rstrip("\n")

    def control(self, *words):
        subprocess.run(["callgrind_control", *words, str(self.process.pid)], check=True, stdout=subprocess.DEVNULL, stderr=subprocess.DEVNULL)

    def count(self, line):
        """The instructions that a line takes."""
        self.control("--zero")
        answer = self.ask(line)
        if '"error":"' in answer[:200] or answer.startswith("no"):
            raise SystemExit(f"bench_graph: {line}: {answer[:200]}")
        self.control("--dump")
        self.dumps += 1
        with open(f"{self.out}.{self.dumps}", encoding="utf-8") as text:
            return int(re.search(r"^(?:totals|summary): (\d+)", text.read(), re.M)[1])


def questions(asked, folder):
    follower = Follower(asked.graph, folder)
    follower.give(ten_steps(asked.steps))
    follower.give([f'start {name} m {{"id":"k{name}"}}' for name in ("more", "other")])
    follower.give(["step more", "step other"])
    follower.control("--instr=on")
    step = follower.count("= step more")
    row("= step more", step, "instructions")
    middle = f"e{asked.steps // 20}"
    key = json.dumps({"id": {"S": f"k{middle}"}}, separators=(",", ":"))
    for question in (f"causes {middle}#9", f"item {key}", f"show {middle}", f"explain {middle}", "threads more", f"log {asked.steps // 2} 10",
                     f"plan {middle}#0", "list most 5", "find P7 most 3"):
        count = follower.count(f"? {question}")
        row(question, count, "instructions")
        row(question, count / step, "times a step's line")
    follower.process.stdin.close()
    follower.process.wait()


# ---- pictures


def opened(asked, folder, name, lines):
    journal = os.path.join(folder, f"{name}.db")
    text = "".join(line + "\n" for line in lines).encode()
    found = subprocess.run([str(asked.program), "--journal", journal], input=text, stdout=subprocess.PIPE, check=True)
    if b"no " in b"".join(line[:3] for line in found.stdout.split(b"\n")):
        raise SystemExit("bench_graph: a line is refused")
    return journal


def counted(asked, folder, journal, words):
    out = os.path.join(folder, "one")
    done = subprocess.run([*VALGRIND, f"--callgrind-out-file={out}", str(asked.graph), journal, *words], env=callgrind.ENVIRONMENT, stdout=subprocess.DEVNULL, check=False)
    if done.returncode not in (0, 1):  # 1 if the step isn't there
        raise SystemExit(f"bench_graph: {words} ended with {done.returncode}")
    with open(out, encoding="utf-8") as text:
        return int(re.search(r"^(?:totals|summary): (\d+)", text.read(), re.M)[1])


def pictures(asked, folder):
    steps = asked.steps // 10
    plain = opened(asked, folder, "plain", plain_steps(steps))
    maps = opened(asked, folder, "maps", map_steps(steps, False))
    bounded = opened(asked, folder, "bounded", map_steps(steps, True))
    for journal, name in ((plain, "plain steps"), (maps, "Maps"), (bounded, "Maps with a bound")):
        opening = counted(asked, folder, journal, ["--plan", "none#0"])
        for words in (["--plan", "e0#0"], ["--dot"], ["--html"]):
            row(f"{words[0]} of {name}", counted(asked, folder, journal, words) - opening, "instructions")


def main():
    parser = argparse.ArgumentParser(usage=__doc__.split("\n\n")[1].removeprefix("usage: "))
    parser.add_argument("--program", default=PROGRAM)
    parser.add_argument("--graph", default=GRAPH)
    parser.add_argument("--steps", type=int, default=60_000)
    parser.add_argument("part", nargs="?", choices=("questions", "pictures"))
    asked = parser.parse_args()
    with tempfile.TemporaryDirectory() as folder:
        for part in (questions, pictures):
            if asked.part in (None, part.__name__):
                part(asked, folder)
    return 0


if __name__ == "__main__":
    sys.exit(main())

#!/usr/bin/env python3
"""How many calls of the project's functions a line makes, and in how many crates, counted by valgrind's callgrind.

usage: calls.py [--program FILE] [--crates] [--functions N]

Runs the program (crates/rollback_program/out/rollback_program, which has its functions' names) on sessions in which one kind of line comes 20 and 40
times, and prints for each kind the difference for one line: how often a function of the project's crates was entered, how many functions and how
many crates those were. A function that was inlined isn't seen, so the figures are lower bounds. With --crates, the calls of each crate; with
--functions, the N functions that are called most. Debian's package valgrind has to be there.
"""
import argparse
import collections
import concurrent.futures
import os
import re
import subprocess
import tempfile

import callgrind

HERE = os.path.dirname(os.path.abspath(__file__))
PROGRAM = os.path.join(HERE, "../crates/rollback_program/out/rollback_program")
FEW, MANY = 20, 40

HEAD = [
    "table t id:S []",
    'define p {"StartAt":"P","States":{"P":{"Type":"Pass","Next":"P"}}}',
    'define c {"StartAt":"P","States":{"P":{"Type":"Task","Resource":"arn:aws:states:::dynamodb:putItem","Parameters":{"TableName":"t","Item":'
    '{"id":{"S.$":"$.k"},"v":{"N":"5"}}},"ResultPath":null,"Next":"P"}}}',
    'define r {"StartAt":"P","States":{"P":{"Type":"Task","Resource":"arn:aws:states:::dynamodb:putItem","Parameters":{"TableName":"t","Item":'
    '{"id":{"S.$":"$.k"}},"ConditionExpression":"attribute_not_exists(id)"},"Retry":[{"ErrorEquals":["States.TaskFailed"],"MaxAttempts":1000}],'
    '"End":true}}}',
    'start e p {"k":"x"}',
    'start w c {"k":"y"}',
    'start f r {"k":"y"}',
    "step w",
]
# Of each kind of line: the lines that come each time, and which of them are taken off again, as another kind has them.
KINDS = {
    "step of a Pass": (lambda i: ["step e"], {}),
    "step of a Task that puts an item": (lambda i: ["step w"], {}),
    "step of a Task whose put is refused and retried": (lambda i: ["step f"], {}),
    "start": (lambda i: [f'start s{i} p {{"k":"x"}}'], {}),
    "undo": (lambda i: ["step e", "undo e#1"], {"step of a Pass": 1}),
    "rollback of four steps": (lambda i: ["step e"] * 4 + ["rollback e#1"], {"step of a Pass": 4}),
    "show": (lambda i: ["show e"], {}),
}


def project():
    with open(os.path.join(HERE, "../crates.txt"), encoding="utf-8") as lines:
        return {line.split(":")[0] for line in lines if ":" in line and not line.startswith("#")}


def crate_of(function, crates):
    """The project's crate that a function is of, if it is of one: of a method of another's type, the first crate that its name has."""
    return next((word for word in re.findall(r"[a-z_][a-z0-9_]*(?=::)", function) if word in crates), None)


def calls(program, lines, room, name):
    """How often each function was entered."""
    out, session = os.path.join(room, f"{name}.callgrind"), os.path.join(room, f"{name}.txt")
    with open(session, "w", encoding="utf-8") as file:
        file.write("\n".join(lines) + "\n")
    with open(session, "rb") as stdin:
        subprocess.run([*callgrind.NAMED, f"--callgrind-out-file={out}", program], env=callgrind.ENVIRONMENT,
                       stdin=stdin, stdout=subprocess.DEVNULL, stderr=subprocess.DEVNULL, check=True)
    entered, callee = collections.Counter(), None
    with open(out, errors="replace") as lines_of:
        for line in lines_of:
            if line.startswith("cfn="):
                callee = re.sub(r"'\d+$", "", line[4:].strip())
            elif line.startswith("calls="):
                entered[callee] += int(line[6:].split()[0])
    return entered


def counted(program, room, pool):
    """Of each kind of line, how often one enters each function."""
    runs = {}
    for number, (kind, (lines, _)) in enumerate(KINDS.items()):
        for count in (FEW, MANY):
            session = HEAD + [line for i in range(count) for line in lines(i)]
            runs[kind, count] = pool.submit(calls, program, session, room, f"{number}-{count}")
    found = {}
    for kind, (_, others) in KINDS.items():
        few, many = runs[kind, FEW].result(), runs[kind, MANY].result()
        found[kind] = {it: (many[it] - few[it]) / (MANY - FEW) for it in many}
        for other, times in others.items():
            for it, each in found[other].items():
                found[kind][it] = found[kind].get(it, 0) - times * each
    return found


def show(kind, entered, crates, asked):
    # a function that only grows a list now and then isn't one of each line
    own = {it: count for it, count in entered.items() if count >= 0.5 and crate_of(it, crates)}
    by_crate = collections.Counter()
    for it, count in own.items():
        by_crate[crate_of(it, crates)] += count
    print(f"{kind}: {sum(own.values()):.0f} calls of {len(own)} functions in {len(by_crate)} crates")
    if asked.crates:
        print("    " + ", ".join(f"{crate} {count:.0f}" for crate, count in by_crate.most_common()))
    for it, count in sorted(own.items(), key=lambda pair: -pair[1])[: asked.functions]:
        print(f"    {count:6.1f}  {it[:140]}")


def main():
    words = argparse.ArgumentParser()
    words.add_argument("--program", default=PROGRAM)
    words.add_argument("--crates", action="store_true")
    words.add_argument("--functions", type=int, default=0)
    words.add_argument("--jobs", type=int, default=2)
    asked = words.parse_args()
    crates = project()
    with tempfile.TemporaryDirectory() as room, concurrent.futures.ThreadPoolExecutor(asked.jobs) as pool:
        for kind, entered in counted(asked.program, room, pool).items():
            show(kind, entered, crates, asked)


if __name__ == "__main__":
    main()

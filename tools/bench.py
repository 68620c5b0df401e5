#!/usr/bin/env python3
"""Says what lines cost, of the program that is there. A maintainer's tool: no test runs it.

usage: bench.py [--program PATH] [--scale F] [--instructions | --clock | --life] [--jobs N] [--runs N] [--folder F] [NAME ..]

Prints rows `name<TAB>value<TAB>unit`, of each NAME or of all. Without --instructions or --clock both kinds are printed.

--instructions counts by valgrind's callgrind (Debian's package valgrind), and comes to the same each time: the instructions a line of
each workload of tools/workloads.py, what four times the work makes of them (about 1 where a line doesn't cost more for what came
before), and single calls, as the difference of two runs with and without them. What an empty input takes is left out. --scale says how
large the workloads are (0.1 where nothing is said), --jobs how many are counted at a time. What workers spend waiting differs a little.

--clock takes the best of --runs runs (3): lines a second of the same workloads, in memory, and of kinds of lines alone; rounds of workers
(`workers`); and a journal on a file in the folder --folder (the system's for temporary files), beside as many inserts by Python's sqlite3 in the same folder.
Nothing else should run meanwhile.

--life counts the memory of rounds of settlements, until a book is full, and the time of a settlement beside that of the steps.
"""
import argparse
import concurrent.futures
import os
import re
import shutil
import sqlite3
import subprocess
import sys
import tempfile
import time

import callgrind
import workloads
from workloads import TABLE, define, text_of

HERE = os.path.dirname(os.path.abspath(__file__))
PROGRAM = os.path.join(HERE, "..", "crates", "rollback_program", "out", "rollback_program")


def row(name, value, unit):
    print(f"{name}\t{value:,.2f}\t{unit}" if value < 10 else f"{name}\t{value:,.0f}\t{unit}", flush=True)


# ---- Instructions ----


class Counter:
    """Counts what the program spends on lines, each list of them once."""

    def __init__(self, program, room, jobs):
        self.program, self.room = program, room
        self.pool = concurrent.futures.ThreadPoolExecutor(jobs)
        self.running, self.made = {}, 0

    def start(self, name, lines):
        """Begins to count a list of lines under a name, and tells how many they are."""
        if name not in self.running:
            file = os.path.join(self.room, f"{len(self.running)}.txt")
            count = workloads.write(file, lines)
            self.running[name] = self.pool.submit(self.count, file), count
        return self.running[name]

    def count(self, file):
        with open(file, "rb") as stdin:
            done = subprocess.run([*callgrind.COUNTED, f"--callgrind-out-file={file}.out", self.program], env=callgrind.ENVIRONMENT,
                                  stdin=stdin, stdout=subprocess.DEVNULL, stderr=subprocess.PIPE, text=True, check=False)
        found = re.search(r"Collected : (\d+)", done.stderr)
        if done.returncode != 0 or not found:
            sys.exit(f"bench: {os.path.basename(file)} ended with status {done.returncode}: {done.stderr[-400:]}")
        os.remove(file)
        os.remove(file + ".out")
        return int(found.group(1))

    def spent(self, name):
        return self.running[name][0].result()


def many_threads(count):
    """Executions that have two steps each, a read of one of a hundred items and a Pass that isn't taken."""
    machine = workloads.states("Read", Read={**workloads.call("getItem", Key={"id": {"S.$": "$.key"}}), "ResultPath": None, "Next": "Then"},
                               Then={"Type": "Pass", "End": True})
    yield TABLE
    yield define("two", machine)
    for at in range(count // 2):
        yield f'start run-{at} two {{"key":"key-{at % 100}"}}'
        yield f"step run-{at}"


def with_dependents(count):
    """A step with ten dependents, a write of an item and nine reads of it, among as many later steps of others."""
    yield TABLE
    yield define("write", workloads.WRITE)
    yield define("read", workloads.READ)
    yield from ('start first write {"key":"hot","value":"v"}', "step first")
    for at in range(10):
        yield f'start reader-{at} read {{"key":"hot"}}'
        yield f"step reader-{at}"
    for at in range(count // 2):
        yield f'start run-{at} read {{"key":"key-{at % 100}"}}'
        yield f"step run-{at}"


def readers_that_went_on(count):
    """A write of an item, and so many steps that need it: half are reads of it, and half the next steps of the readers."""
    machine = workloads.states("Read", Read={**workloads.call("getItem", Key={"id": {"S": "hot"}}), "ResultPath": None, "Next": "Then"},
                               Then={"Type": "Pass", "End": True})
    yield TABLE
    yield define("write", workloads.WRITE)
    yield define("two", machine)
    yield 'start first write {"key":"hot","value":"v"}'
    for at in range(count // 2):
        yield f"start reader-{at} two {{}}"
    yield "step first"
    yield f"drive {count}"


def one_map(branches, bound):
    """An execution of a Map over so many elements, of which so many branches may run at a time, each with one Pass."""
    over = {"Type": "Map", "ItemsPath": "$.all", "ItemProcessor": workloads.chain(1), "End": True}
    yield TABLE
    yield define("over", workloads.states("Each", Each={**over, "MaxConcurrency": bound} if bound else over))
    yield f'start run over {{"all":[{",".join(["{}"] * branches)}]}}'


def one_item_written():
    """A write of an item, and machines of a write, a read, and three Passes."""
    yield TABLE
    yield define("write", workloads.WRITE)
    yield define("read", workloads.READ)
    yield define("three", workloads.chain(3))
    yield from ('start first write {"key":"hot","value":"v"}', "step first")


def one_item_read(count, held):
    """A write of an item and so many reads of it, which are held or not; and executions that wait before a Pass, and before a write of it."""
    yield from one_item_written()
    for at in range(count):
        yield f'start reader-{at} read {{"key":"hot"}}'
        yield f"step reader-{at}"
    for at in range(50):
        yield f"start run-{at} three {{}}"
        yield f'start writer-{at} write {{"key":"hot","value":"w"}}'
    if held:
        yield "hold first#1"


def passed_by(count):
    """So many executions that wait before a read of an item whose write is held, and behind them, by name, others that can move."""
    yield from one_item_written()
    for at in range(count):
        yield f'start a-{at} read {{"key":"hot"}}'
    for at in range(600):
        yield f"start run-{at} three {{}}"
    yield "hold first#1"


def branches_passed_by(count):
    """A held fork of so many branches, and behind them, by name, executions that can move."""
    yield from one_item_written()
    processor = workloads.states("Only", Only={"Type": "Pass", "End": True})
    yield define("map", workloads.states("Each", Each={"Type": "Map", "ItemsPath": "$", "ItemProcessor": processor, "End": True}))
    yield f"start a map {text_of(list(range(count)))}"
    yield "step a"
    for at in range(100):
        yield f"start run-{at} three {{}}"
    yield "hold a#1"


def filled(count, size):
    """So many executions that stand before a Pass whose template fills so many bytes by paths."""
    fields = {f"field-{at}.$": "$.text" for at in range(size // 32)}
    yield TABLE
    yield define("fill", workloads.states("Fill", Fill={"Type": "Pass", "Parameters": fields, "End": True}))
    for at in range(count):
        yield f'start run-{at} fill {{"text":"{"t" * 16}"}}'


def placing(fields):
    """An execution over an object of so many fields, of a hundred states of which each places one more."""
    machine = {f"P{at}": {"Type": "Pass", "Result": 1, "ResultPath": f"$.new-{at}", "Next": f"P{at + 1}"} for at in range(100)}
    yield TABLE
    yield define("place", {"StartAt": "P0", "States": {**machine, "P100": {"Type": "Pass", "End": True}}})
    yield f'start run place {text_of({f"field-{at:05}": at for at in range(fields)})}'
    yield "drive 1"


def large_items(attributes):
    """Executions that put an item of so many attributes, and that get it."""
    item = {"id": {"S": "k"}, **{f"a-{at:05}": {"S": f"v-{at}"} for at in range(attributes)}}
    yield TABLE
    yield define("put", workloads.states("Put", Put={**workloads.call("putItem", Item=item), "End": True}))
    yield define("get", workloads.states("Get", Get={**workloads.call("getItem", Key={"id": {"S": "k"}}), "End": True}))
    for at in range(10):
        yield from (f"start put-{at} put {{}}", f"start get-{at} get {{}}")
    yield from ("step put-0", "step get-0")


def many_ended(count):
    """So many executions that ended, and one that hasn't begun."""
    yield TABLE
    yield define("one", workloads.ONE_PASS)
    for at in range(count):
        yield f"start run-{at:05} one {{}}"
    yield f"drive {count}"
    yield "start zz one {}"


def waiting(count, value="{}"):
    """So many executions over a value that wait before the first of three Passes."""
    yield TABLE
    yield define("three", workloads.chain(3))
    for at in range(count):
        yield f"start run-{at} three {value}"


def undoings(remain):
    """Undoings of steps in the middle and at the end of so many, and one that is refused."""
    base, middle = f"among {remain:,} steps", range(remain // 4, remain // 4 + 50)

    def first():
        return many_threads(remain)

    def reads():
        return one_item_read(remain // 2, False)

    yield f"undo of a middle step {base}", "instructions", first, [f"undo run-{at}#1" for at in middle], 50
    yield f"undo of the latest steps {base}", "instructions", first, [f"undo run-{remain // 2 - 1 - at}#1" for at in range(50)], 50
    yield f"undo of a middle read of one item {base}", "instructions", reads, [f"undo reader-{at}#1" for at in middle], 50
    yield f"undo refused for its dependent {base}", "instructions", first, [f"undo run-{at}#0" for at in middle], 50


def lines_of_threads(remain):
    """Lines that step, start and show threads among so many steps, and that plan one of these."""
    base, middle = f"among {remain:,} steps", range(remain // 4, remain // 4 + 50)

    def first():
        return many_threads(remain)

    yield f"step of a Pass {base}", "instructions", first, [f"step run-{at}" for at in middle], 50
    yield f"start {base}", "instructions", first, [f'start new-{at} two {{"key":"key-7"}}' for at in middle], 50
    yield f"show {base}", "instructions", first, [f"show run-{at}" for at in middle], 50
    yield f"plan of a middle step {base}", "instructions", first, [f"plan run-{at}#1" for at in middle], 50


def plans_of_few(remain):
    """A rollback of a step with few dependents among so many steps, and plans of it."""
    base = f"a step and ten dependents among {remain:,} steps"

    def first():
        return with_dependents(remain)

    yield f"rollback of {base}", "instructions", first, ["rollback first#1"], 1
    yield f"plan of {base}", "instructions", first, ["plan first#1"] * 20, 20


def turns_beside_ended(count):
    """Steps that are undone and taken again in turn, beside so many executions that ended."""
    turns = ["undo run-00000#1", "drive 2", "undo zz#1"] * 20
    yield f"undo, drive and undo in turn beside {count:,} executions that ended", "instructions", lambda: many_ended(count), turns, 60


def plans_of_many(count):
    """A plan and a rollback of a step that so many others need."""
    def needing():
        return readers_that_went_on(count)

    yield f"plan of {count:,} consequences, a consequence", "instructions", needing, ["plan first#1"], count
    yield f"rollback of {count:,} consequences, a consequence", "instructions", needing, ["rollback first#1"], count


def settlements(count):
    """A settlement of so many steps."""
    yield f"settle of {count:,} steps, a step", "instructions", lambda: many_threads(count), ["settle"], count


def drives_and_rounds(count):
    """A drive, and a round of one worker, over so many executions."""
    yield f"step by drive, {count:,} executions", "instructions", lambda: waiting(count), ["drive 60"], 60
    yield f"step by one worker, {count:,} executions", "instructions", lambda: waiting(count), ["work 1 60"], 60


def passed_threads(count):
    """Rounds of one worker that pass by so many threads, and that then take steps or none."""
    for moves, said in ((0, "a thread passed by"), (60, "these and 60 steps")):
        lines = [f"work 1 {count + moves}"]
        yield f"round of {count:,} threads passed by: {said}", "instructions", lambda: passed_by(count), lines, count + moves


def passed_holds(count):
    """A drive and a round that pass by so many executions, and by so many branches of a fork, that a hold stops."""
    for before, said in ((passed_by, "held executions"), (branches_passed_by, "branches of a held fork")):
        for line in ("drive 1", f"work 1 {count + 1}"):
            name = f"{line.split(' ')[0]} past {count:,} {said}, each of these"
            yield name, "instructions", lambda before=before: before(count), [line], count


def beside_many_reads():
    """Steps beside many reads of an item, which are held or not, and the hold of them."""
    for held, said in ((False, "beside 6,000 reads of an item"), (True, "beside a hold of 6,000 reads of an item")):
        def reads(held=held):
            return one_item_read(6_000, held)

        yield f"step of a Pass {said}", "instructions", reads, [f"step run-{at}" for at in range(50)], 50
        yield f"write of that item {said}", "instructions", reads, ["step writer-0"], 1
    yield "hold of 6,000 reads of an item", "instructions", lambda: one_item_read(6_000, False), ["hold first#1"], 1


def maps(branches):
    """The steps of a Map of so many branches, without a bound and with one."""
    for bound, said in ((0, "without a bound"), (10, "with a bound of 10")):
        name = f"step of a Map of {branches:,} branches {said}"
        yield name, "instructions", lambda bound=bound: one_map(branches, bound), [f"drive {branches + 2}"], branches + 2


def over_inputs():
    """Steps and starts of executions over a small input and over a large one."""
    for value, said in (("{}", "an empty input"), (text_of(workloads.large_input(10_000)), "an input of 10,000 bytes")):
        def given(value=value):
            return waiting(100, value)

        yield f"step over {said}", "instructions", given, [f"step run-{at}" for at in range(100)], 100
        yield f"start with {said}", "instructions", given, [f"start new-{at} three {value}" for at in range(100)], 100


def large_values():
    """A field that is placed into a large object, and calls for a large item."""
    yield "a field placed into 10,000", "instructions", lambda: placing(10_000), ["drive 99"], 99
    for call in ("put", "get"):
        yield f"{call} of an item of 5,000 attributes", "instructions", lambda: large_items(5_000), [f"step {call}-{at}" for at in range(1, 10)], 9


def single_calls():
    """Each call as its name, its unit, the lines before it, the lines that are it, and how many they are."""
    for remain in (600, 6_000, 60_000):
        yield from undoings(remain)
        yield from lines_of_threads(remain)
        yield from plans_of_few(remain)
    for topic, counts in ((turns_beside_ended, (100, 10_000)), (plans_of_many, (600, 6_000, 40_000)), (settlements, (600, 6_000)),
                          (drives_and_rounds, (60, 600, 6_000)), (passed_threads, (10, 1_000)), (passed_holds, (256, 4_096))):
        for count in counts:
            yield from topic(count)
    yield from beside_many_reads()
    for branches in (64, 4_096):
        yield from maps(branches)
    yield from over_inputs()
    yield from large_values()


def instructions(program, names, scale, jobs):
    if not shutil.which("valgrind"):
        sys.exit("bench: no valgrind is installed")
    with tempfile.TemporaryDirectory() as room:
        counter = Counter(program, room, jobs)
        counter.start("nothing", [])
        calls = [call for call in single_calls() if not names or any(name in call[0] for name in names)]
        works = [name for name in workloads.WORKLOADS if not names or name in names]
        for name in works:
            for part in (scale, scale / 4):
                counter.start((name, part), workloads.WORKLOADS[name](part))
        for name, _, before, lines, _ in calls:
            counter.start(list_of(before), before())
            counter.start(name, [*before(), *lines])
        nothing = counter.spent("nothing")
        if not names or "nothing" in names:
            row("an empty input", nothing, "instructions")
        for name in works:
            each = [(counter.spent((name, part)) - nothing) / counter.running[(name, part)][1] for part in (scale, scale / 4)]
            row(name, each[0], "instructions a line")
            row(f"{name}, four times the work", each[0] / each[1], "times")
        for name, unit, before, _, count in calls:
            row(name, (counter.spent(name) - counter.spent(list_of(before))) / count, unit)


def list_of(before):
    """What tells the lines before a call from others: how many, and the last."""
    count, last = 0, ""
    for line in before():
        count, last = count + 1, line
    return count, last


# ---- The life of a book ----


def rounds(count):
    """So many rounds of a thousand executions that are started, driven to their end and settled."""
    yield TABLE
    yield define("one", workloads.ONE_PASS)
    for at in range(count):
        for run in range(1_000):
            yield f"start run-{at}-{run} one {{}}"
        yield "drive 1000"
        yield "settle"


def peak(program, file):
    """The most memory that the program holds while it answers a file's lines, in bytes, and its last reply."""
    with open(file, "rb") as stdin, tempfile.TemporaryFile() as said:
        child = subprocess.Popen([program], stdin=stdin, stdout=said)
        _, status, used = os.wait4(child.pid, 0)
        child.returncode = os.waitstatus_to_exitcode(status)
        if child.returncode != 0:
            sys.exit(f"bench: {os.path.basename(file)} ended with status {child.returncode}")
        said.seek(max(0, said.seek(0, os.SEEK_END) - 200))
        return used.ru_maxrss * 1024, said.read().decode().splitlines()[-1]


def life(program, runs, folder):
    """Rounds of settlements until the book is full, and a settlement of all the steps that may remain beside what taking them cost."""
    with tempfile.TemporaryDirectory(dir=folder) as room:
        file = os.path.join(room, "lines.txt")
        held = {}
        for count in (100, 400, 520):
            workloads.write(file, rounds(count))
            held[count], last = peak(program, file)
            row(f"memory after {count} rounds", held[count] / 1_000_000, "MB")
            if count == 520 and not last.startswith("no 10"):
                sys.exit(f"bench: the last round was answered {last}")
        row("memory for a settled execution", (held[400] - held[100]) / 300_000, "bytes")

        def best(lines):
            workloads.write(file, lines)
            return min(taken(program, file) for _ in range(runs))

        lines = list(many_threads(workloads.MOST))
        nothing, begun = best(lines[:2]), best(lines)
        row(f"settle of {workloads.MOST:,} steps beside taking them", (best([*lines, "settle"]) - begun) / (begun - nothing), "times")


# ---- The clock ----


def taken(program, file, words=()):
    """Seconds that the program takes to answer a file's lines."""
    with open(file, "rb") as stdin:
        began = time.perf_counter()
        done = subprocess.run([program, *words], stdin=stdin, stdout=subprocess.DEVNULL, check=False)
        ended = time.perf_counter()
    if done.returncode != 0:
        sys.exit(f"bench: {os.path.basename(file)} ended with status {done.returncode}")
    return ended - began


def kinds_of_lines(count):
    """Of each kind, the lines before it and as many lines of it."""
    table = [TABLE, define("one", workloads.ONE_PASS)]
    starts = [f'start run-{at} one {{"n":7}}' for at in range(count)]
    steps = [f"step run-{at}" for at in range(count)]
    shows = [f"show run-{at}" for at in range(count)]
    undos = [f"undo run-{at}#1" for at in range(count)]
    yield "start", table, starts
    yield "step", table + starts, steps
    yield "show", table + starts + steps, shows
    yield "undo from the end", table + starts + steps, undos[::-1]
    yield "undo from the start", table + starts + steps, undos


def remove_journal(file):
    for end in ("", "-wal", "-shm"):
        if os.path.exists(file + end):
            os.remove(file + end)


def inserted(file, lines):
    """Seconds that Python's sqlite3 takes for as many lines in a table of its own: one prepared insert and one commit each."""
    remove_journal(file)
    connection = sqlite3.connect(file, isolation_level=None)
    connection.execute("PRAGMA journal_mode=WAL")
    connection.execute("PRAGMA synchronous=FULL")
    connection.execute("CREATE TABLE entry(no INTEGER PRIMARY KEY, line TEXT NOT NULL) STRICT")
    began = time.perf_counter()
    for no, line in enumerate(lines):
        connection.execute("INSERT INTO entry VALUES (?, ?)", (no, line))
    ended = time.perf_counter()
    connection.close()
    return ended - began


class Timer:
    """Takes the best of some runs of the program over a file of lines."""

    def __init__(self, program, runs, room):
        self.program, self.runs, self.room = program, runs, room
        self.file, self.journal = os.path.join(room, "lines.txt"), os.path.join(room, "journal.db")
        self.nothing = self.best([])

    def best(self, lines, words=()):
        """The fewest seconds that the program takes to answer these lines."""
        workloads.write(self.file, lines)
        return min(taken(self.program, self.file, words) for _ in range(self.runs))


def time_workloads(timer, names, scale):
    """Rows of the workloads that are asked for."""
    for name, work in workloads.WORKLOADS.items():
        if not names or name in names:
            count = workloads.write(timer.file, work(scale))
            row(name, count / (timer.best(work(scale)) - timer.nothing), "lines a second")


def time_kinds(timer, names, scale):
    """Rows of the kinds of lines that are asked for."""
    for name, before, lines in kinds_of_lines(max(100, int(30_000 * scale))):
        if not names or name in names:
            row(name, len(lines) / max(timer.best(before + lines) - timer.best(before), 1e-6), "lines a second")


def time_workers(timer, scale):
    """Rows of a drive and of rounds of workers over templates, and of two and four workers beside one."""
    count = max(100, int(3_000 * scale))
    before = list(filled(count, 16_384))
    begun = timer.best(before)
    spent = {line: max(timer.best([*before, f"{line} {count}"]) - begun, 1e-6) for line in ("drive", "work 1", "work 2", "work 4")}
    for line, seconds in spent.items():
        row(f"templates of 16 kB, {line}", count / seconds, "steps a second")
    for line in ("work 2", "work 4"):
        row(f"{line} beside work 1, on {os.cpu_count()} processors", spent["work 1"] / spent[line], "times as fast")


def has_lines(journal, lines):
    """Whether sqlite3 reads these lines in a journal, and finds it sound."""
    found = sqlite3.connect(journal)
    same = found.execute("SELECT line FROM entry ORDER BY no").fetchall() == [(line,) for line in lines]
    sound = found.execute("PRAGMA integrity_check").fetchall() == [("ok",)]
    found.close()
    return same and sound


def time_journal(timer, scale):
    """Rows of a journal on a file, and of as many inserts by Python's sqlite3."""
    lines = [TABLE, define("one", workloads.ONE_PASS)]
    for at in range(max(100, int(20_000 * scale)) // 2):
        lines += [f"start run-{at} one {{}}", f"step run-{at}"]
    plain = os.path.join(timer.room, "plain.db")
    # One after another, run by run, so that a disk that is slow for a while is slow for both.
    times = []
    workloads.write(timer.file, lines)
    for _ in range(timer.runs):
        remove_journal(timer.journal)
        times.append((taken(timer.program, timer.file, ("--journal", timer.journal)), inserted(plain, lines)))
    ours, theirs = (min(column) for column in zip(*times))
    row("journal on a file", len(lines) / (ours - timer.nothing), "lines a second")
    row("inserts by Python's sqlite3", len(lines) / theirs, "lines a second")
    row("journal, time beside sqlite3", ours / theirs, "times")
    if not has_lines(timer.journal, lines):
        sys.exit("bench: sqlite3 reads other lines in the journal than were given, or finds it unsound")


def write_journal(file, lines):
    """Writes a session's lines into a journal by sqlite3, all at once."""
    remove_journal(file)
    written = sqlite3.connect(file, isolation_level=None)
    written.execute("PRAGMA journal_mode=WAL")
    written.execute("CREATE TABLE entry(no INTEGER PRIMARY KEY, line TEXT NOT NULL) STRICT")
    written.execute("BEGIN")
    written.executemany("INSERT INTO entry VALUES (?, ?)", enumerate(lines))
    written.execute("COMMIT")
    written.close()


def time_opening(timer, scale):
    """Rows of a session of many lines, in memory and on a journal that is opened again."""
    many = [TABLE, define("one", workloads.ONE_PASS)]
    for at in range(max(100, int(25_000 * scale))):
        many += [f"start run-{at} one {{}}", f"step run-{at}", f"undo run-{at}#1", f"undo run-{at}#0"]
    write_journal(timer.journal, many)
    row("the same lines in memory", len(many) / (timer.best(many) - timer.nothing), "lines a second")
    row("a journal opened again", len(many) / (timer.best([], ("--check", timer.journal)) - timer.nothing), "lines a second")


def clock(program, names, scale, runs, folder):
    """Rows of all that is asked for, by the clock."""
    with tempfile.TemporaryDirectory(dir=folder) as room:
        timer = Timer(program, runs, room)
        if not names or "nothing" in names:
            row("an empty input", timer.nothing * 1_000_000, "microseconds")
        time_workloads(timer, names, scale)
        time_kinds(timer, names, scale)
        if not names or "workers" in names:
            time_workers(timer, scale)
        if not names or "journal" in names:
            time_journal(timer, scale)
            time_opening(timer, scale)


def main():
    parser = argparse.ArgumentParser(description="Says what lines cost, of the program that is there.")
    parser.add_argument("names", nargs="*", metavar="NAME")
    parser.add_argument("--program", default=PROGRAM)
    parser.add_argument("--scale", type=float)
    parser.add_argument("--instructions", action="store_true")
    parser.add_argument("--clock", action="store_true")
    parser.add_argument("--life", action="store_true")
    parser.add_argument("--jobs", type=int, default=os.cpu_count() or 1)
    parser.add_argument("--runs", type=int, default=3)
    parser.add_argument("--folder")
    asked = parser.parse_args()
    if not os.access(asked.program, os.X_OK):
        sys.exit(f"bench: no program {os.path.relpath(asked.program)}: run rt run in crates/rollback_program first")
    program = os.path.abspath(asked.program)
    if asked.instructions or not (asked.clock or asked.life):
        instructions(program, asked.names, asked.scale or 0.1, asked.jobs)
    if asked.life:
        life(program, asked.runs, asked.folder)
    elif asked.clock or not asked.instructions:
        clock(program, asked.names, asked.scale or 1.0, asked.runs, asked.folder)


if __name__ == "__main__":
    main()

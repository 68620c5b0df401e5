#!/usr/bin/env python3
"""Runs the rows of rows/graph/*.txt against rollback_graph, and compares it with a plain reference on drawn sessions.

    tools/graph_rows.py [--program PATH] [--graph PATH] [--only TITLE].. [--sessions N] [--seed S] [FILE..]

A row is a session that `rollback` keeps in a journal, and questions that `rollback_graph` is asked of it, each with its whole answer and its
status. The head of rows/graph/tutorials.txt says how rows are written.

A drawn session starts executions of drawn machines over few keys, takes steps, undoes, rolls back and settles. Dependence is worked out here,
from its definition, pair by pair. Then

- the nodes of --dot have to be the remaining steps, with their kinds and keys; each edge a direct dependence for its first reason; the steps
  that lead to one through a barrier those for which it waited under its Map's bound; and what follows from edges and barriers has to be what
  follows from all direct dependences;
- with --from the edges have to be those whose later step is in the plan, the nodes these steps and those at the edges and barriers, and the marks
  the plan; and what follows within the plan has to be the same as in the whole picture;
- --why has to be a shortest chain, of direct dependences each with its reason; or to end with status 1 where the plan lacks the step;
- --plan has to list the plan, each step with a direct dependence on another one of the plan; its last lines have to be the threads that
  `show` tells to be ready after the rollback, of those that stood elsewhere before;
- --list has to tell each thread as `show` does, with its remaining steps counted;
- --html has to have the nodes and edges of --dot with the same words, each once, in its data and in its table; each step has to begin at the
  frame and the item that the one before it left, and the last ones have to leave what `show` and `items` answer. Names and items have signs in
  them that mean something in HTML, and no element may come of these. The page's policy has to have the digests of its script and style.

Where Graphviz's `dot` is there, it has to read each picture. The last line is `N passed, M failed`; the status is 1 where one failed, or
none was run.
"""
import argparse
import collections
import glob
import itertools
import json
import os
import pathlib
import random
import re
import shutil
import subprocess
import sys
import tempfile

sys.dont_write_bytecode = True
from drawn_steps import Difference, Session, lies_under, path_of  # noqa: E402: beside this file
from graph_pages import check_changes, check_page, ensure  # noqa: E402: beside this file

TOP = pathlib.Path(__file__).resolve().parent.parent
PROGRAM = TOP / "crates/rollback_program/out/rollback_program"
GRAPH = TOP / "crates/rollback_graph/out/rollback_graph"
RESOURCE = "arn:aws:states:::dynamodb:"
DOT = shutil.which("dot")


def ran(program, words, data=b""):
    return subprocess.run([str(program), *words], input=data, capture_output=True, timeout=600, check=False)


# ---- rows


class Question:
    """Words, and the wanted answer."""

    def __init__(self, place, words):
        self.place, self.words, self.wanted, self.status, self.errors = place, words, [], 0, ""


class Row:
    def __init__(self, title, place):
        self.title, self.place, self.lines, self.questions, self.file = title, place, [], [], None


def read_rows(path):
    rows, name = [], os.path.relpath(path)
    for number, line in enumerate(pathlib.Path(path).read_text().split("\n"), 1):
        place, mark, rest = f"{name}:{number}", line[:2], line[2:]
        if not line or line.startswith("#"):
            continue
        if mark == "= ":
            rows.append(Row(rest, place))
        elif mark == ": ":
            file, _, count = rest.partition(" ")
            lines = (TOP / file).read_text().split("\n")
            rows[-1].lines += lines[: int(count)] if count else lines[:-1]
        elif mark == "> ":
            rows[-1].lines.append(rest)
        elif mark == "$ ":
            rows[-1].questions.append(Question(place, rest.split(" ")))
        elif mark == "! ":
            status, _, errors = rest.partition(" ")
            question = rows[-1].questions[-1]
            question.status, question.errors = int(status), errors + "\n" if errors else ""
        else:
            rows[-1].questions[-1].wanted.append(line)
    return rows


def answer(graph, journal, words):
    """A whole answer: its text, its status and what stands on standard error."""
    found = ran(graph, [journal if word == "FILE" else word for word in words])
    return found.stdout.decode(), found.returncode, found.stderr.decode()


def run_row(program, graph, row):
    """What is told of the answers that aren't the wanted ones."""
    told = []
    with tempfile.TemporaryDirectory() as folder:
        journal = os.path.join(folder, "journal.db")
        served = ran(program, ["--journal", journal], "".join(line + "\n" for line in row.lines).encode())
        if served.returncode or served.stderr:
            return [f"{row.place}: the session ended with status {served.returncode}"]
        for question in row.questions:
            words = question.words if "FILE" in question.words or "(none)" in question.words else ["FILE", *question.words]
            words = [word for word in words if word != "(none)"]
            text, status, errors = answer(graph, journal, words)
            wanted = "".join(line + "\n" for line in question.wanted)
            parts = [line[2:].strip() for line in question.wanted if line.startswith("..")]
            is_met = all(part in text for part in parts) if parts else text == wanted
            if not is_met or status != question.status or errors != question.errors:
                told.append(
                    f"{question.place}: {' '.join(question.words)}\n  wanted, with status {question.status}:\n{wanted}{question.errors}"
                    f"  found, with status {status}:\n{text}{errors}"
                )
            told += unread_by_graphviz(question.place, text, status, question.words)
            told += other_page(graph, journal, question.place, text, status, words)
    return told


def unread_by_graphviz(place, text, status, words):
    if DOT is None or "--dot" not in words or status != 0:
        return []
    found = ran(DOT, ["-Tplain"], text.encode())
    if found.returncode == 0:
        return []
    return [f"{place}: Graphviz refuses: {found.stderr.decode()[:300]}"]


def other_page(graph, journal, place, text, status, words):
    """What of a page differs from the picture for Graphviz."""
    if "--html" not in words or status != 0:
        return []
    drawn = answer(graph, journal, ["FILE", "--dot"])[0]
    try:
        check_page(text, Graph(drawn), words[words.index("--from") + 1] if "--from" in words else None)
    except Difference as difference:
        return [f"{place}: {difference}"]
    return []


# ---- drawn sessions: tables and machines

# some with signs that mean something in HTML or to Graphviz
KEYS = ("k0", "k1", 'k"2\\', "</script>&lt;<b>'3'")
ENDINGS = ("", "", "", "<i>&amp;\"'</script>")


def task(chance, next_state, made):
    """A state that calls for an item. Its name says how: R, W or D, and the key's number."""
    mode, key = chance.choice("RRWWD"), chance.randrange(len(KEYS))
    name = f"{mode}{key}x{made()}{chance.choice(ENDINGS)}"
    item = {"id": {"S": KEYS[key]}}
    call = {"TableName": "t", "Item" if mode == "W" else "Key": item}
    word = {"R": "getItem", "W": "putItem", "D": "deleteItem"}[mode]
    return name, {"Type": "Task", "Resource": RESOURCE + word, "Parameters": call, "ResultPath": None, **next_state}


def machine(chance, made, depth=0):
    """A machine of a few states one after the other."""
    count, states, names = chance.randrange(1, 4), {}, []
    kinds = [chance.choice(("task", "task", "task", "pass", "parallel", "map") if depth < 2 else ("task", "pass")) for _ in range(count)]
    if chance.random() < 0.15:
        kinds[-1] = "fail"
    follow = {"End": True}
    for kind in reversed(kinds):
        if kind == "task":
            name, state = task(chance, follow, made)
        elif kind == "pass":
            name, state = f"P{made()}", {"Type": "Pass", **follow}
        elif kind == "fail":
            name, state = f"F{made()}", {"Type": "Fail", "Error": "E"}
        elif kind == "parallel":
            branches = [machine(chance, made, depth + 1) for _ in range(chance.randrange(0, 4))]
            name, state = f"B0x{made()}", {"Type": "Parallel", "Branches": branches, "ResultPath": None, **follow}
        else:
            bound, size = chance.randrange(0, 3), chance.randrange(1, 6)
            name = f"B{bound}x{made()}"
            state = {"Type": "Map", "ItemsPath": "$.list", "ItemProcessor": machine(chance, made, depth + 1), "ResultPath": None, **follow}
            state["ItemSelector"] = {"list": list(range(size))}
            if bound:
                state["MaxConcurrency"] = bound
        states[name] = state
        names.append(name)
        follow = {"Next": name}
    return {"StartAt": names[-1], "States": states}


# ---- drawn sessions: steps, and which depends on which


class Step:
    def __init__(self, name, kind, access, bound):
        thread, _, no = name.rpartition("#")
        self.name, self.kind, self.access, self.bound = name, kind, access, bound
        self.thread, self.path, self.no = thread, path_of(thread), int(no)

    def node(self):
        if self.access is None:
            return self.kind
        return f"{self.kind} {'writes' if self.access[1] else 'reads'} {key_text(self.access[0])}"


def key_text(key):
    return json.dumps({"S": key}, separators=(",", ":"))


def awaits(later, earlier):
    above = later.path[:-1]
    if not later.bound or len(earlier.path) <= len(above) or earlier.path[: len(above)] != above:
        return False
    (fork, branch), (other, before) = later.path[-1], earlier.path[len(above)]
    return other == fork and before + later.bound <= branch


def reason(later, earlier):
    """The first reason why a later step depends directly on an earlier one."""
    if later.path == earlier.path:
        return "thread"
    if earlier.no == 0 and earlier.path == later.path[:1]:
        return "start"
    if earlier.kind == "fork" and lies_under(later.path, earlier.path, earlier.no):
        return "fork"
    if later.kind in ("join", "terminate") and lies_under(earlier.path, later.path, later.no - 1):
        return "join"
    if later.access and earlier.access and later.access[0] == earlier.access[0] and (later.access[1] or earlier.access[1]):
        return "item"
    if awaits(later, earlier):
        return "bound"
    return None


def because(later, earlier):
    why = reason(later, earlier)
    if why == "item":
        own, other = ("writes" if step.access[1] else "reads" for step in (later, earlier))
        words = f"{own} item {key_text(later.access[0])} {'written' if other == 'writes' else 'read'} by"
    else:
        words = {
            "thread": "follows",
            "start": "is in the execution started by",
            "fork": "is in a branch forked by",
            "join": "joins the branch of" if later.kind == "join" else "terminates the branch of",
            "bound": "waited for the branch of",
            None: "has nothing to do with",
        }[why]
    return f"{later.name} {words} {earlier.name}"


class Reference:
    """Of the remaining steps, the direct dependences, pair by pair, and what follows from them."""

    def __init__(self, steps):
        self.steps = steps
        self.places = {step.name: place for place, step in enumerate(steps)}
        self.direct = [[a for a in range(b) if reason(steps[b], steps[a])] for b in range(len(steps))]
        self.all = closure(self.direct)

    def plan(self, at):
        return [place for place in range(len(self.steps) - 1, at - 1, -1) if place == at or self.all[place] >> at & 1]

    def distance(self, first, last):
        """How many dependences the shortest chain has; nothing where there is none."""
        left, seen = collections.deque([(last, 0)]), {last}
        while left:
            place, count = left.popleft()
            if place == first:
                return count
            for before in self.direct[place]:
                if before >= first and before not in seen:
                    seen.add(before)
                    left.append((before, count + 1))
        return None


def closure(direct):
    found = []
    for befores in direct:
        found.append(0)
        for before in befores:
            found[-1] |= 1 << before | found[before]
    return found


class Drawn:
    """A session that is drawn while it is served on a journal's file."""

    def __init__(self, chance, program, journal):
        self.chance, self.session = chance, Session(str(program), ["--journal", journal])
        self.facts, self.starts, self.lines, self.settled, self.held = {}, 0, [], 0, None

    def ask(self, line):
        self.lines.append(line)
        return self.session.ask([line])[0]

    def begin(self, machines):
        self.ask("table t id:S " + json.dumps([{"id": {"S": KEYS[0]}}]))
        made = iter(range(1_000_000)).__next__
        for number in range(machines):
            text = json.dumps(machine(self.chance, made), separators=(",", ":"))
            if self.ask(f"define m{number} {text}") != ["ok"]:
                raise Difference(f"a machine is refused: {text}")
        self.machines = machines

    def start(self):
        name = f"e{self.starts}"
        self.starts += 1
        if self.ask(f"start {name} m{self.chance.randrange(self.machines)} " + '{"list":[0,1,2]}')[0].startswith("ok"):
            self.facts[f"{name}#0"] = Step(f"{name}#0", "start", None, 0)

    def threads(self):
        """The threads that have a frame, with what `show` tells of each."""
        names = {self.thread_of(entry) for entry in self.history()} | {f"e{n}" for n in range(self.starts)}
        found, left = {}, sorted(names)
        while left:
            name = left.pop()
            told = self.ask(f"show {name}")[0]
            if name in found or not told.startswith("ok "):
                continue
            found[name] = told[3:]
            if told.startswith("ok parked"):
                count, branches = told.rsplit(" ", 2)[1:]
                left += [f"{name}/{count}.{index}" for index in range(int(branches))]
        return found

    @staticmethod
    def thread_of(step):
        return step.rpartition("#")[0]

    def history(self):
        return self.ask("history")[1:]

    def step(self, thread, shown):
        """Takes a step, and keeps what its names say of it."""
        reply = self.ask(f"step {thread}")[0]
        if not reply.startswith("ok "):
            return reply
        _, name, kind = reply.split(" ")
        access, state = None, json.loads(shown.split(" ")[1]) if shown.startswith(("ready", "parked")) else ""
        if kind == "call":
            access = (KEYS[int(state[1])], state[0] != "R")
        self.facts[name] = Step(name, kind, access, self.bound_of(thread, name))
        return reply

    def bound_of(self, thread, name):
        """The bound of the Map above, which its state's name says, for a branch's first move."""
        if not name.endswith("#1") or "/" not in thread:
            return 0
        above = thread.rpartition("/")[0]
        shown = self.ask(f"show {above}")[0]
        return int(json.loads(shown.split(" ")[2])[1])

    def move(self):
        threads = self.threads()
        ready = [name for name, told in threads.items() if told.startswith(("ready", "parked"))]
        if ready:
            name = self.chance.choice(ready)
            self.step(name, threads[name])

    def take_back(self):
        steps = self.history()
        if steps:
            self.ask(f"{self.chance.choice(('undo', 'rollback', 'undo'))} {self.chance.choice(steps)}")

    def hold(self):
        steps = self.history()
        if steps:
            self.held = self.chance.choice(steps)
            self.ask(f"hold {self.held}")

    def line(self):
        drawn = self.chance.random()
        if drawn < 0.12 or not self.starts:
            self.start()
        elif drawn < 0.95:
            self.move()
        elif drawn < 0.99:
            self.take_back()
        elif self.chance.random() < 0.5:
            self.settled += len(self.history())
            self.ask("settle")

    def close(self):
        self.session.close()


# ---- what the program draws of a session

NODE = re.compile(r'^ {6}"([^"]+)" \[label="([^"#]+#\d+)\\n((?:[^"\\]|\\.)*)"(.*)\];$')
EDGE = re.compile(r'^ {2}"([^"]+)" -> "([^"]+)" \[label="((?:[^"\\]|\\.)*)"\];$')
BARRIER = re.compile(r'^ {2}"barrier ([^" ]+) (\d+)" \[shape=point, tooltip="branches up to (\d+) of ([^"]+)"\];$')
OTHERS = re.compile(r'^(digraph rollback \{| {2}newrank=true;| {2}node .*| {2}edge .*| *subgraph "cluster (execution|thread) [^"]+" \{| *label="[^"]+";| *\})$')


def unquoted(text):
    return re.sub(r"\\(.)", r"\1", text).replace("&amp;", "&")


class Graph:
    """A picture that was read: nodes with their words and marks, edges with their labels, and what leads to each barrier and to each step behind one."""

    def __init__(self, text):
        self.nodes, self.edges, self.marks, self.asked, self.barriers, self.behind = {}, {}, set(), None, {}, {}
        for line in text.split("\n")[:-1]:
            node, edge, barrier = NODE.match(line), EDGE.match(line), BARRIER.match(line)
            if barrier:
                name = f"barrier {barrier[1]} {barrier[2]}"
                if name in self.barriers or (barrier[3], barrier[4]) != (barrier[2], barrier[1]):
                    raise Difference(f"a barrier twice or of other words: {line}")
                self.barriers[name] = []
            elif edge and (edge[1] in self.barriers or edge[2] in self.barriers):
                self.lead(edge[1], edge[2], edge[3])
            elif node:
                if node[1] in self.nodes or node[1] != node[2]:
                    raise Difference(f"a node twice or of another name: {line}")
                self.nodes[node[1]] = unquoted(node[3])
                if node[4]:
                    self.marks.add(node[1])
                if "penwidth" in node[4]:
                    self.asked = node[1]
            elif edge:
                if (edge[1], edge[2]) in self.edges:
                    raise Difference(f"an edge twice: {line}")
                self.edges[edge[1], edge[2]] = unquoted(edge[3])
            elif not OTHERS.match(line):
                raise Difference(f"a line of another form: {line}")

    def lead(self, earlier, later, label):
        """An arrow to a barrier, or from one."""
        into = self.barriers[later] if later in self.barriers else self.behind.setdefault(later, [])
        if earlier in into or label != "bound":
            raise Difference(f"an arrow twice or of another label: {earlier} -> {later} {label}")
        into.append(earlier)

    def waited(self, step):
        """The steps that lead to one through barriers."""
        left, found = list(self.behind.get(step, ())), set()
        while left:
            name = left.pop()
            if name not in found:
                found.add(name)
                left += self.barriers.get(name, ())
        return sorted(found - set(self.barriers))


def check_barriers(reference, graph, explained):
    """A first move that waited has one barrier, and the steps before it are those for which it waited."""
    for step in explained:
        barriers = graph.behind.get(step.name, [])
        ensure(len(barriers) <= 1, f"{step.name} has barriers {barriers}")
        for name in graph.waited(step.name):
            ensure(awaits(step, reference.steps[reference.places[name]]), f"{step.name} didn't wait for {name}")
        for barrier in barriers:
            above, _, branch = step.thread.rpartition("/")
            fork, number = branch.split(".")
            ensure(barrier == f"barrier {above}#{fork} {int(number) - step.bound}", f"{step.name} is behind {barrier}")
    ensure(set(graph.behind) <= {step.name for step in explained}, "a barrier of another step")


def check_edges(reference, graph):
    for (earlier, later), label in graph.edges.items():
        one, other = reference.steps[reference.places[earlier]], reference.steps[reference.places[later]]
        ensure(reference.places[earlier] < reference.places[later], f"an edge backwards: {earlier} {later}")
        why = reason(other, one)
        wanted = f"item {key_text(other.access[0])}" if why == "item" else why
        ensure(label == wanted, f"an edge {earlier} -> {later} is labelled {label}, wanted {wanted}")


def check_whole(reference, graph):
    steps = reference.steps
    ensure(set(graph.nodes) == set(reference.places), "the nodes are other steps")
    for step in steps:
        ensure(graph.nodes[step.name] == step.node(), f"{step.name} is told as {graph.nodes[step.name]}, wanted {step.node()}")
    check_edges(reference, graph)
    check_barriers(reference, graph, steps)
    for place, found in enumerate(closure(links(reference, graph))):
        ensure(found == reference.all[place], f"what {steps[place].name} depends on isn't what follows from the edges")
    ensure(not graph.marks, "a mark in a whole picture")


def links(reference, graph):
    """Of each step the places of those that lead to it, through barriers too."""
    direct = [[] for _ in reference.steps]
    for earlier, later in graph.edges:
        direct[reference.places[later]].append(reference.places[earlier])
    for later in graph.behind:
        direct[reference.places[later]] += [reference.places[earlier] for earlier in graph.waited(later)]
    return direct


def check_from(reference, whole, graph, at):
    places = reference.plan(at)
    plan = {reference.steps[place].name for place in places}
    wanted = {pair: label for pair, label in whole.edges.items() if pair[1] in plan}
    ensure(graph.edges == wanted, f"other edges from {reference.steps[at].name}")
    check_barriers(reference, graph, [reference.steps[place] for place in places])
    least = plan | {earlier for earlier, _ in wanted}
    more = {name for step in plan for name in graph.waited(step)}
    ensure(least <= set(graph.nodes) and all(name in least or name in more for name in graph.nodes), "other nodes with --from")
    within = sum(1 << place for place in places)
    for place, found in enumerate(closure(links(reference, graph))):
        if within >> place & 1:
            ensure(found & within == reference.all[place] & within, f"another part of the plan leads to {reference.steps[place].name}")
    ensure(graph.marks == plan and graph.asked == reference.steps[at].name, "other marks")


def check_why(reference, found, first, last):
    text, status, _ = found
    one, other = reference.steps[first], reference.steps[last]
    count = reference.distance(first, last) if first <= last else None
    if count is None:
        ensure((text, status) == (f"{other.name} is no consequence of {one.name}\n", 1), f"no chain: {text}")
        return
    if count == 0:
        ensure((text, status) == (f"{one.name} is the step itself\n", 0), f"itself: {text}")
        return
    lines = text.split("\n")[:-1]
    ensure(status == 0 and len(lines) == count, f"a chain of {count} is told in {len(lines)} lines")
    here = one
    for line in lines:
        step = reference.steps[reference.places[line.split(" ")[0]]]
        ensure(line == because(step, here), f"{line}; wanted {because(step, here)}")
        here = step
    ensure(here is other, f"the chain ends at {here.name}")


def check_plan(reference, text, at):
    steps, plan = reference.steps, reference.plan(at)
    lines = text.split("\n")[:-1]
    executions = sorted({steps[place].name.partition("#")[0].partition("/")[0] for place in plan})
    count = lambda number, thing: f"{number} {thing}{'' if number == 1 else 's'}"  # noqa: E731
    ensure(lines[0] == f"{count(len(plan), 'step')} of {count(len(executions), 'execution')}: {', '.join(executions)}", f"the head: {lines[0]}")
    keys = sorted({steps[place].access[0] for place in plan if steps[place].access and steps[place].access[1]})
    changes = list(itertools.takewhile(lambda line: line.startswith("item "), lines[1:]))
    named = [line.partition(": ")[0] for line in changes]
    # a write of what was there changes nothing
    ensure(named == [name for name in (f"item {key_text(key)}" for key in keys) if name in named], f"other items change: {changes}")
    for line in changes:
        now, _, then = line.partition(": ")[2].partition(" becomes ")
        ensure(now != then, f"an item that stays: {line}")
    lines = lines[1 + len(changes) :]
    told = lines[: len(plan)]
    ensure([line.split(" ")[0] for line in told] == [steps[place].name for place in plan], "another plan")
    ensure(lines[len(plan) : len(plan) + 1] == ["ready again afterwards:"], "no line of what is ready again")
    for line, place in zip(told, plan):
        cause = line.partition("; undone, ")[0]
        if place == at:
            ensure(cause == f"{steps[at].name} is the step itself", f"the step itself: {line}")
        else:
            earlier = cause.rpartition(" ")[2]
            ensure(reference.places.get(earlier) in plan, f"a reason outside of the plan: {line}")
            ensure(cause == because(steps[place], steps[reference.places[earlier]]), f"another reason: {line}")
    return lines[len(plan) + 1 :]


def check_ready(copy, lines, name):
    """The threads that are told to be ready again are those whose frames are other ones after the rollback, and ready."""
    before = copy.threads()
    ensure(copy.ask(f"rollback {name}")[0].startswith("ok "), "a rollback is refused")
    after = copy.threads()
    wanted = {
        f"{thread} {told}"
        for thread, told in after.items()
        if told.startswith("ready") and before.get(thread) != told
    }
    found = set(lines)
    ensure(wanted <= found, f"not told to be ready: {wanted - found}")
    for line in found - wanted:
        thread, _, told = line.partition(" ")
        ensure(after.get(thread) == told, f"told to be ready: {line}")


def end_of(shown):
    """How an execution is, by what `show` answers of it."""
    return shown.split(" ")[0] if shown.split(" ")[0] in ("done", "failed") else "open"


def check_list(drawn, text, steps):
    threads, lines = drawn.threads(), text.split("\n")[:-1]
    whole = collections.Counter(end_of(shown) for name, shown in threads.items() if "/" not in name)
    ensure(lines[0] == f"executions: {whole['done']} done, {whole['failed']} failed, {whole['open']} open", lines[0])
    machines = [re.fullmatch(r"machine (\S+): (\d+) done, (\d+) failed, (\d+) open", line) for line in lines[1 : 1 + drawn.machines]]
    ensure([found[1] for found in machines] == sorted(f"m{number}" for number in range(drawn.machines)), f"other machines: {lines[1:4]}")
    sums = [sum(int(found[at]) for found in machines) for at in (2, 3, 4)]
    ensure(sums == [whole["done"], whole["failed"], whole["open"]], f"other sums: {sums}")
    lines = lines[1 + drawn.machines :]
    ensure(lines[0] == f"remaining steps: {len(steps)} of 65536", lines[0])
    counts = collections.Counter(drawn.thread_of(step) for step in steps)
    told = {}
    held = drawn.ask("held")
    wanted = [f"held: {drawn.held}; left: {len(held) - 1}"] if held != ["ok 0"] else []
    ensure([line for line in lines if line.startswith("held: ")] == wanted, f"another hold: {lines[2]}, wanted {wanted}")
    for line in lines[2 + len(wanted) :]:
        name, _, rest = line.partition(" ")
        ensure(name not in told, f"twice: {line}")
        told[name] = rest
    ensure(set(told) == set(threads) | set(counts), f"other threads: {set(told) ^ (set(threads) | set(counts))}")
    for name, rest in told.items():
        state, *parts = rest.split("; ")
        shown = threads.get(name, "closed")
        ensure(state == ("done" if shown.startswith("done") else shown), f"{name}: {rest}, shown {shown}")
        ensure(f"remaining: {counts[name]}" in parts, f"{name}: {rest}, wanted {counts[name]}")
        if name in threads:
            check_next(drawn, name, shown, parts[0])


def check_next(drawn, name, shown, told):
    """A thread that is told to wait or to have nothing has no move; one that has a move is not tried here."""
    if told in ("next: wait", "next: nothing"):
        wanted = {"next: wait": "no 6 waiting", "next: nothing": "no 6 " + shown.split(" ")[0]}[told]
        ensure(drawn.ask(f"step {name}")[0] == wanted, f"{name} is told {told}")
    else:
        ensure(told in ("next: step", "next: join", "next: terminate"), told)


def check_session(program, graph, chance, count):
    """Draws a session, asks of its journal, and compares."""
    with tempfile.TemporaryDirectory() as folder:
        journal = os.path.join(folder, "journal.db")
        drawn = Drawn(chance, program, journal)
        drawn.begin(chance.randrange(1, 4))
        for _ in range(count):
            drawn.line()
        if chance.random() < 0.3:
            drawn.hold()
        names = drawn.history()
        drawn.close()
        kept = os.path.join(folder, "kept.db")
        shutil.copy(journal, kept)
        reference = Reference([drawn.facts[name] for name in names])
        whole = check_pictures(graph, journal, reference, chance)
        check_pages(program, graph, journal, kept, whole, drawn)
        check_chains(graph, journal, reference, chance)
        check_plans(program, graph, journal, kept, reference, chance, drawn)
        drawn.session = Session(str(program), ["--journal", kept])
        check_list(drawn, answer(graph, journal, ["FILE", "--list"])[0], names)
        drawn.close()
        return len(names), len(whole.edges)


def picture(graph, journal, words):
    text, status, errors = answer(graph, journal, ["FILE", "--dot", *words])
    ensure(status == 0 and errors == "", f"a picture ends with {status} {errors}")
    told = unread_by_graphviz("", text, status, ["--dot"])
    ensure(not told, "".join(told))
    return Graph(text)


def check_pictures(graph, journal, reference, chance):
    whole = picture(graph, journal, [])
    check_whole(reference, whole)
    for at in chance.sample(range(len(reference.steps)), min(4, len(reference.steps))):
        words = ["--from", reference.steps[at].name]
        part = picture(graph, journal, words)
        check_from(reference, whole, part, at)
        if chance.random() < 0.3:
            check_page(answer(graph, journal, ["FILE", "--html", *words])[0], whole, words[1])
    return whole


def check_pages(program, graph, journal, kept, whole, drawn):
    text, status, errors = answer(graph, journal, ["FILE", "--html"])
    ensure(status == 0 and errors == "", f"a page ends with {status} {errors}")
    page = check_page(text, whole)
    drawn.session = Session(str(program), ["--journal", kept])
    check_changes(page, drawn.threads(), drawn.ask("items")[1:])
    drawn.close()


def check_chains(graph, journal, reference, chance):
    count = len(reference.steps)
    for _ in range(12 if count else 0):
        first, last = sorted((chance.randrange(count), chance.randrange(count)))
        if chance.random() < 0.1:
            first, last = last, first
        words = ["FILE", "--why", reference.steps[first].name, reference.steps[last].name]
        check_why(reference, answer(graph, journal, words), first, last)


def check_plans(program, graph, journal, kept, reference, chance, drawn):
    for at in chance.sample(range(len(reference.steps)), min(3, len(reference.steps))):
        name = reference.steps[at].name
        left = check_plan(reference, answer(graph, journal, ["FILE", "--plan", name])[0], at)
        copied = kept + ".copy"
        shutil.copy(kept, copied)
        drawn.session = Session(str(program), ["--journal", copied])
        check_ready(drawn, left, name)
        drawn.close()


# ---- all


def main():
    parser = argparse.ArgumentParser(description=__doc__, formatter_class=argparse.RawDescriptionHelpFormatter)
    parser.add_argument("--program", default=PROGRAM)
    parser.add_argument("--graph", default=GRAPH)
    parser.add_argument("--only", action="append")
    parser.add_argument("--sessions", type=int, default=40)
    parser.add_argument("--lines", type=int, default=60)
    parser.add_argument("--seed", type=int, default=1)
    parser.add_argument("--session", type=int)
    parser.add_argument("files", nargs="*")
    given = parser.parse_args()
    passed = failed = 0
    rows = [row for file in given.files or sorted(glob.glob(str(TOP / "rows/graph/*.txt"))) for row in read_rows(file)]
    for row in rows:
        if given.only and row.title not in given.only:
            continue
        told = run_row(given.program, given.graph, row)
        passed, failed = passed + (not told), failed + bool(told)
        for text in told:
            print(text)
    steps = edges = 0
    for number in [] if given.only else [given.session] if given.session is not None else range(given.sessions):
        try:
            more = check_session(given.program, given.graph, random.Random(f"{given.seed}/{number}"), given.lines)
            steps, edges, passed = steps + more[0], edges + more[1], passed + 1
        except Difference as difference:
            failed += 1
            print(f"session {number} of seed {given.seed}: {difference}")
    print(f"{steps} steps and {edges} dependences in drawn sessions" + ("" if DOT else "; no Graphviz here"))
    print(f"{passed} passed, {failed} failed")
    return 1 if failed or not passed else 0


if __name__ == "__main__":
    sys.exit(main())

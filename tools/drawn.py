#!/usr/bin/env python3
"""Tests the program's headline from outside, by sessions that are drawn at random.

usage: drawn.py [--program PATH] [--sessions N | --seconds N] [--seed S] [--session I] [--lines L] [--jobs N]

After any list of commands the book's executions and items are those that its remaining steps alone, run forward from the
start, give. A rollback takes a step and its dependents and no other, with one result for every order in which they may be undone.

A session is a table, some machines over few keys, and about L drawn lines: starts, steps, drives, undoings, plans, rollbacks,
in half of them holds, in some settlements, and lines of all kinds that are refused. While it goes on,

- the remaining steps, as `history` lists them, are taken anew in a fresh process, behind those that were settled: each has to answer
  its name and kind, and items and threads have to be the same bytes. So after each undoing, before and after each rollback, and at the
  end, where the steps are also taken in another order that dependence allows;
- each step's plan has to be the least set that dependence closes, and each step with a dependent has to be refused to `undo` by
  its first one. Dependence is worked out here, from its definition: the machines are made so that the name of a state says
  which item it calls for, and a Map's its bound;
- a hold has to count the plan of its step, and what is left is that plan without the steps that were taken back since. Each move under
  a hold is tried in a fresh process without it: one that depends on what is left has to be refused for the earliest step on which it
  does, and any other has to be answered as there. A drive has to pass by the first kind, and a round of workers takes none of it;
- a rollback has to take its plan and leave the others in their order; and in two copies of the session the plan's steps are undone one
  by one, in the plan's order and in another one that is allowed: each is accepted, and all three come to the same.

One session in eight is on a journal file, which is checked and opened again at its end.

Session I of seed S is the same each time, up to its first `work`: later lines go by the steps that the workers took. Without --seconds, 400
sessions are run. --session runs the one alone. A session in
which something differs is cut short, line by line, while something still differs, and is printed. The last line is
`N passed, M failed`; the status is 1 where one failed, or none was run.
"""
import argparse
import concurrent.futures
import fractions
import json
import os
import random
import signal
import subprocess
import sys
import tempfile
import time

sys.dont_write_bytecode = True
from drawn_holds import Hold, can_move, wanted_reply  # noqa: E402: beside this file
from drawn_steps import Dependence, Difference, Session, Step, path_of, served  # noqa: E402: beside this file

HERE = os.path.dirname(os.path.abspath(__file__))
PROGRAM = os.path.join(HERE, "..", "crates", "rollback_program", "out", "rollback_program")
RESOURCE = "arn:aws:states:::dynamodb:"
CHANGES = ("table", "define", "start", "step", "undo", "rollback", "settle", "hold")
SETTLE = "settle"


def text_of(value):
    return json.dumps(value, separators=(",", ":"), ensure_ascii=False)


# ---- Tables and machines ----


class Table:
    """A table's form, and its keys by number. A key of numbers is spelled in several ways."""

    NUMBERS = (("0", "-0", "0.00"), ("1", "1.0", "01"), ("-2.5", "-2.50", "-02.5"))

    def __init__(self, chance):
        self.name, self.fields = chance.choice(
            (("items", (("id", "S"),)), ("items", (("id", "S"),)), ("t.1_-", (("id", "N"),)), ("items", (("id", "S"), ("at", "N"))))
        )

    def key(self, chance, number):
        parts = {}
        for at, (field, kind) in enumerate(self.fields):
            if len(self.fields) == 2:
                kept = number % 2 if at == 0 else number // 2
            else:
                kept = number
            parts[field] = {kind: f"k{kept}" if kind == "S" else chance.choice(self.NUMBERS[kept])}
        return parts

    def key_of(self, item):
        return tuple(item[field][kind] if kind == "S" else fractions.Fraction(item[field][kind]) for field, kind in self.fields)

    def fields_from(self, path):
        """A template of the key's fields that picks them below a path."""
        return {field: {kind + ".$": f"{path}.{field}.{kind}"} for field, kind in self.fields}

    def line(self, chance):
        items = [dict(self.key(chance, number), v={"S": "first"}) for number in range(3) if chance.random() < 0.5]
        keys = " ".join(f"{field}:{kind}" for field, kind in self.fields)
        return f"table {self.name} {keys} {text_of(items)}"


def table_of(line):
    """The form of a table that a line makes."""
    table = Table.__new__(Table)
    words = line.split(" ")
    table.name, table.fields = words[1], tuple(tuple(word.split(":")) for word in words[2:-1])
    return table


CALLS = ("get", "put", "delete")
ERRORS = (["States.ALL"], ["States.TaskFailed"], ["DynamoDB.ConditionalCheckFailedException", "X"], ["States.BranchFailed"], ["X"])


def drawn_kind(chance, depth, last):
    if last and chance.random() < 0.25:
        return chance.choice(("succeed", "succeed", "fail"))
    kinds = ["get"] * 8 + ["put"] * 10 + ["delete"] * 4 + ["pass"] * 6 + ["wait", "choice"] * 3 + ["wrong"]
    if depth > 0:
        kinds += ["parallel"] * 6 + ["map"] * 6
    kind = chance.choice(kinds)
    return "pass" if last and kind == "choice" else kind


def drawn_machine(chance, table, depth):
    """A machine whose states' names say what they do: a call's has the number of its key, or `own` for the input's, and its condition, and
    a Map's its bound."""
    count = chance.choice((1, 2, 2, 3, 3, 4))
    kinds = [drawn_kind(chance, depth, at == count - 1) for at in range(count)]
    if depth > 1 and not {"parallel", "map"} & set(kinds):
        kinds[chance.randrange(count)] = chance.choice(("parallel", "map"))
        if kinds[-1] == "choice":
            kinds[-1] = "pass"
    names = []
    for at, kind in enumerate(kinds):
        name = f"s{at} {kind}"
        if kind in CALLS:
            name += " " + chance.choice(("0", "0", "1", "2", "own", "own"))
            if kind != "get" and chance.random() < 0.35:
                name += chance.choice((" if id", " unless id", " if v", " unless v"))
        elif kind == "map":
            name += chance.choice((" 0", " 0", " 1", " 2"))
        names.append(name)
    states = {}
    for at, (kind, name) in enumerate(zip(kinds, names)):
        state = drawn_state(chance, table, depth, kind, name, names)
        if kind not in ("choice", "succeed", "fail"):
            if at == count - 1 or chance.random() < 0.05:
                state["End"] = True
            else:
                state["Next"] = names[at + 1] if chance.random() < 0.9 else chance.choice(names)
        states[name] = state
    return {"StartAt": names[0], "States": states}


def drawn_state(chance, table, depth, kind, name, names):
    """A state of a kind, without what comes next: its own fields, and how its errors are handled."""
    if kind in CALLS or kind == "wrong":
        state = drawn_task(chance, table, kind, name)
    elif kind == "pass":
        state = drawn_pass(chance)
    elif kind == "wait":
        state = {"Type": "Wait", "Seconds": 3}
    elif kind == "succeed":
        state = {"Type": "Succeed", **chance.choice(({}, {"OutputPath": "$.v"}, {"InputPath": "$.found"}))}
    elif kind == "fail":
        state = {"Type": "Fail", "Error": chance.choice(("X", "Y")), "Cause": "as drawn"}
    elif kind == "choice":
        state = drawn_choice(chance, names)
    elif kind == "parallel":
        state = drawn_parallel(chance, table, depth)
    else:
        state = drawn_map(chance, table, depth, name)
    if kind in CALLS or kind in ("wrong", "parallel", "map"):
        state.update(drawn_handlers(chance, names))
    return state


def drawn_task(chance, table, kind, name):
    state = {"Type": "Task", **drawn_call(chance, table, kind, name)}
    state.update(chance.choice(({"ResultPath": None}, {"ResultPath": "$.found"}) * 4 + ({"ResultPath": "$.v.no"}, {})))
    if "ResultPath" in state and chance.random() < 0.1:
        state["ResultSelector"] = chance.choice(({"Item.$": "$.Item"}, {"all.$": "$", "n": 1}))
    return state


def drawn_pass(chance):
    state = {"Type": "Pass", "Result": chance.randrange(9), "ResultPath": "$.r"}
    if chance.random() < 0.3:
        state = {"Type": "Pass", **chance.choice((
            {}, {"Parameters": {"v.$": "$.v", "l": [1, {"n.$": "$.n"}]}, "ResultPath": "$.p"}, {"InputPath": "$.found", "ResultPath": "$.was"},
            {"InputPath": "$.v", "ResultPath": "$.was"},
            {"Result": 7}, {"OutputPath": "$.found"}))}
    return state


def drawn_choice(chance, names):
    tests = (
        {"Variable": "$.found.Item", "IsPresent": True}, {"Variable": "$.n", "NumericGreaterThan": 1},
        {"And": [{"Variable": "$.found.Item.v.S", "IsPresent": True}, {"Not": {"Variable": "$.found.Item.v.S", "StringEquals": "first"}}]},
        {"Or": [{"Variable": "$.n", "NumericEquals": 0}, {"Variable": "$.error", "IsPresent": True}]})
    state = {"Type": "Choice", "Choices": [dict(test, Next=chance.choice(names)) for test in chance.sample(tests, chance.choice((1, 2)))]}
    if chance.random() < 0.9:
        state["Default"] = names[-1] if chance.random() < 0.8 else chance.choice(names)
    return state


def drawn_parallel(chance, table, depth):
    branches = [drawn_machine(chance, table, depth - 1) for _ in range(chance.choice((0, 1, 2, 2, 2, 3)))]
    return {"Type": "Parallel", "Branches": branches, **chance.choice(({"ResultPath": None}, {"ResultPath": "$.found"}, {}))}


def drawn_map(chance, table, depth, name):
    state = {"Type": "Map", "ItemsPath": "$.list", "ItemProcessor": drawn_machine(chance, table, depth - 1)}
    state.update(chance.choice(({"ResultPath": None}, {"ResultPath": "$.found"}, {})))
    if (bound := int(name.split(" ")[2])) or chance.random() < 0.1:
        state["MaxConcurrency"] = bound
    if chance.random() < 0.6:
        state["ItemSelector"] = {"key.$": "$$.Map.Item.Value.key", "n.$": "$$.Map.Item.Index", "v.$": "$.v", "list.$": "$.list"}
    return state


def drawn_handlers(chance, names):
    """Now and then a retrier and a catcher of a state's errors."""
    handlers = {}
    if chance.random() < 0.35:
        handlers["Retry"] = [{"ErrorEquals": chance.choice(ERRORS), "MaxAttempts": chance.choice((0, 1, 1, 2)), "BackoffRate": 2.0}]
    if chance.random() < 0.4:
        errors, path = chance.choice(ERRORS[:2]), chance.choice((None, "$.error", "$.error"))
        handlers["Catch"] = [{"ErrorEquals": errors, "ResultPath": path, "Next": chance.choice(names)}]
    return handlers


def drawn_call(chance, table, kind, name):
    if kind == "wrong":
        call = chance.choice(({"TableName": "other", "Key": {"id": {"S": "k"}}}, {"TableName": table.name, "Key": {}}, {"TableName": table.name}))
        return {"Resource": RESOURCE + chance.choice(("getItem", "deleteItem")), "Parameters": call}
    words = name.split(" ")
    key = table.fields_from("$.key") if words[2] == "own" else table.key(chance, int(words[2]))
    call = {"TableName": table.name}
    if kind == "put":
        call["Item"] = {**key, **chance.choice(({"v": {"S.$": "$.v"}}, {"v": {"S.$": "$.v"}}, {"w": {"L": [{"N": "1.50"}, {"BOOL": True}]}}))}
    else:
        call["Key"] = key
    if len(words) > 3:
        call["ConditionExpression"] = f"attribute_{'exists' if words[3] == 'if' else 'not_exists'}({words[4]})"
    if kind != "get" and chance.random() < 0.3:
        call["ReturnValues"] = "ALL_OLD"
    return {"Resource": f"{RESOURCE}{kind}Item", "Parameters": call}


# ---- A session and what is checked of it ----


def fork_above(path, at):
    """The name of the fork that made the branch at a place of a thread."""
    upper = "/".join([path[0], *(f"{fork}.{branch}" for fork, branch in path[1:at])])
    return f"{upper}#{path[at][0]}"


def bound_of(name, forks):
    """The bound for which a step waits: that of its branch's Map where it is the first move of its branch, else 0."""
    thread, _, no = name.rpartition("#")
    path = path_of(thread)
    if len(path) == 1 or no != "1":
        return 0
    kind, *bound = forks[fork_above(path, len(path) - 1)]
    return int(bound[0]) if kind == "map" else 0


class Checked:
    """A session that is checked while its lines are given."""

    def __init__(self, program, chance, journal):
        self.program, self.chance, self.journal = program, chance, journal
        self.live = Session(program, ("--journal", journal) if journal else ())
        self.lines, self.entries = [], 0
        self.table, self.first, self.starts, self.kinds = None, [], {}, {}
        self.history, self.items, self.shown, self.seen = [], [], {}, set()
        self.base, self.forks = [], {}
        self.dependence = self.hold = None
        self.checks = 0

    def left(self):
        """What is left of the hold, the latest first."""
        return self.hold.names() if self.hold else []

    def take(self, line):
        """Gives a line, and checks what it leaves."""
        word = line.split(" ", 1)[0]
        step = line[9:]
        plan = None
        if word == "rollback" and step in self.history:
            self.check_forward()
            self.check_plans()
            dependence, before, earlier = self.dependence, list(self.history), list(self.lines)
            plan = [before[place] for place in dependence.plan(before.index(step))]
        wanted, was_held = wanted_reply(self, line), self.hold is not None
        reply = self.live.ask([line])[0]
        if wanted is not None and reply != wanted:
            raise Difference(f"{line}: answered {reply}, and {wanted} is right by what is held")
        self.lines.append(line)
        if word == "work" and reply[0].startswith("ok "):
            # Another process might take other steps: these are the ones that were taken.
            self.lines[-1:] = ["step " + name.rsplit("#", 1)[0] for name in reply[1:]]
        if not reply or reply[0].startswith("no "):
            if plan is not None:
                raise Difference(f"{line}: {reply[0]}, though the step remains")
            if reply and (reply[0] in ("no 10", "no 11", "no 24") or (reply[0].startswith("no 13") and wanted is None)):
                raise Difference(f"{line}: {reply[0]}")
            return reply
        if not reply[0].startswith("ok"):
            raise Difference(f"{line}: {reply[0]}")
        self.keep(word, line, reply)
        if word == "undo":
            self.look()
            self.check_forward()
        elif plan is not None:
            if reply[1:] != plan:
                raise Difference(f"{line}: it took {reply[1:]}, and its plan was {plan}")
            self.look()
            self.check_rollback(line, earlier, before, plan, dependence)
            self.check_forward()
        if was_held or self.hold:
            self.check_held(word, reply)
        return reply

    def keep(self, word, line, reply):
        """Notes what an accepted line has changed."""
        if word == "hold":
            self.hold = Hold(self, line[5:])
        elif word in CHANGES or word in ("drive", "work"):
            self.dependence = None
        if word in CHANGES:
            self.entries += 1
        if word == "settle":
            self.base += [*self.history, SETTLE]
            self.look()
            if self.history:
                raise Difference(f"{line}: {self.history} remain")
        if word == "table":
            self.table = table_of(line)
        if word in ("table", "define"):
            self.first.append(line)
        elif word == "start":
            self.starts[line.split(" ")[1]] = line
            self.look()
        elif word == "step":
            name, kind = reply[0].split(" ")[1:]
            self.kinds[name] = kind
            if kind in ("plain", "call"):
                thread = line[5:]
                self.history.append(name)
                self.shown[thread] = self.live.ask(["show " + thread])[0][0]
            else:
                self.look()
        elif word in ("drive", "work"):
            if len(reply) - 1 > int(line.rsplit(" ", 1)[1]):
                raise Difference(f"{line}: it took {len(reply) - 1} steps")
            self.entries += len(reply) - 1
            for name in reply[1:]:
                self.kinds.pop(name, None)
            before = list(self.history)
            self.look()
            if self.history != before + reply[1:]:
                raise Difference(f"{line}: it told {reply[1:]}, and {before} came to {self.history}")

    def look(self):
        """Reads the history, and each thread that is there, by going down the forks."""
        (_, *self.history), (_, *self.items) = self.live.ask(["history", "items"])
        self.shown = self.threads(self.live)
        self.seen.update(self.shown)
        if self.hold:
            self.hold = self.hold.after(self.history)

    def threads(self, live):
        """Each thread that is there in a session of these executions, as it is shown."""
        found = {}
        level = sorted({name.split("#")[0].split("/")[0] for name in [*self.base, *self.history] if name != SETTLE})
        while level:
            below = []
            for thread, (shown,) in zip(level, live.ask(["show " + thread for thread in level])):
                found[thread] = shown
                if shown.startswith("ok parked "):
                    *_, count, branches = shown.split(" ")
                    below += [f"{thread}/{count}.{branch}" for branch in range(int(branches))]
            level = below
        return found

    def picture(self):
        """The lines that show all: the history, the items, and each thread that was ever seen."""
        return ["history", "items", *("show " + thread for thread in sorted(self.seen))]

    def check_forward(self, order=None):
        """Takes the remaining steps anew in a fresh process, in their order or in another, and compares what they give."""
        if not self.first:
            return
        if self.dependence is not None and order is None:
            return
        self.checks += 1
        names = self.history if order is None else order
        picture = self.picture()
        replies = iter(served(self.program, self.forward_lines(names, ("show", "items")) + picture))
        for line in self.first:
            (reply,) = next(replies)
            if reply != "ok":
                raise Difference(f"run forward, {line[:80]} is answered {reply}")
        self.forks = {}
        steps = [self.ran_forward(name, replies) for name in [*self.base, *names]][len(self.base) :]
        found = [next(replies) for _ in picture]
        live = self.live.ask(picture)
        for line, wanted, here in zip(picture, found, live):
            if wanted != here and not (line == "history" and order is not None):
                raise Difference(f"{line}: the session answers {here}, and its remaining steps run forward give {wanted}")
        if order is None:
            self.dependence = Dependence(steps)

    def forward_lines(self, names, looks=()):
        """The lines that take steps anew, behind those that were settled, each move after these looks."""
        lines = list(self.first)
        for name in [*self.base, *names]:
            thread, _, no = name.rpartition("#")
            if name == SETTLE:
                lines.append(name)
            elif no == "0":
                lines.append(self.starts[thread])
            else:
                lines += [look + " " + thread if look == "show" else look for look in looks] + ["step " + thread]
        return lines

    def ran_forward(self, name, replies):
        """A step as its replies say that it is, where it was taken anew."""
        thread, _, no = name.rpartition("#")
        if name == SETTLE or no == "0":
            (reply,) = next(replies)
            if reply != ("ok" if name == SETTLE else f"ok {name}"):
                raise Difference(f"run forward, {name} is answered {reply}")
            return None if name == SETTLE else Step(name, "start", None)
        (shown,), (_, *items), (reply,) = next(replies), next(replies), next(replies)
        words = reply.split(" ")
        if words[:2] != ["ok", name] or len(words) != 3:
            raise Difference(f"run forward, step {thread} is answered {reply}, and {name} remains")
        if self.kinds.get(name, words[2]) != words[2]:
            raise Difference(f"run forward, {name} is {words[2]}, and it was {self.kinds[name]}")
        return self.step_of(name, words[2], shown, items, self.forks)

    def step_of(self, name, kind, shown, items, forks):
        """A step that a thread took which was shown so, with these items there."""
        access = None
        if shown.startswith("ok ready "):
            state = json.loads(shown[9 : shown.rindex(" ")])
            if kind == "fork":
                forks[name] = state.split(" ")[1:]
            elif kind == "call":
                access = self.access_of(name, state, forks, items)
        elif kind == "call":
            raise Difference(f"{name} is a call of a thread that was {shown}")
        return Step(name, kind, access, bound_of(name, forks))

    def access_of(self, name, state, forks, items):
        """The key of a call, and whether it writes."""
        words = state.split(" ")
        if words[1] not in CALLS:
            raise Difference(f"{name} is told to be a call in state {state}")
        path = path_of(name.rsplit("#", 1)[0])
        if words[2] == "own":
            given = json.loads(self.starts[path[0]].split(" ", 3)[3])
            key = given["key"]
            for at in range(len(path) - 1, 0, -1):
                if forks[fork_above(path, at)][0] == "map":
                    key = given["list"][path[at][1]]["key"]
                    break
        else:
            key = self.table.key(random, int(words[2]))
        key = self.table.key_of(key)
        writes = words[1] != "get"
        if len(words) > 3:
            old = next((item for item in map(json.loads, items) if self.table.key_of(item) == key), {})
            writes = (words[4] in old) == (words[3] == "if")
        return key, writes

    def check_plans(self):
        """Compares the plan of each remaining step with the least set, and asks each that isn't free to be undone."""
        dependence = self.dependence
        if not dependence or not self.history:
            return
        self.checks += 1
        lines, wanted = [], []
        for place, name in enumerate(self.history):
            plan = [self.history[later] for later in dependence.plan(place)]
            lines.append("plan " + name)
            wanted.append([f"ok {len(plan)}", *plan])
            first = dependence.first_dependent(place)
            if first is not None:
                lines.append("undo " + name)
                wanted.append([f"no 8 {self.history[first]}"])
        for line, right, here in zip(lines, wanted, self.live.ask(lines)):
            if right != here:
                raise Difference(f"{line}: answered {here}, and dependence says {right}")

    def check_held(self, word, reply):
        """Looks that no new step needs what is left, and after an undoing that what is left is told, as the plan of the held step."""
        if word == "work":
            self.check_forward()
            steps = {step.name: step for step in self.dependence.steps}
            for name in reply[1:]:
                if (first := self.hold.first_needed(steps[name])) is not None:
                    raise Difference(f"work took {name}, which needs {first}, and that is held")
        elif word in ("hold", "undo", "rollback"):
            self.checks += 1
            wanted = [f"ok {len(self.left())}", *self.left()]
            for line in ("held", "plan " + self.hold.name) if self.hold else ("held",):
                if (here := self.live.ask([line])[0]) != wanted:
                    raise Difference(f"{line}: answered {here}, and {wanted} is left")

    def check_rollback(self, line, earlier, before, plan, dependence):
        """Compares what a rollback left with what undoing one by one leaves, in the plan's order and in another."""
        self.checks += 1
        taken = set(plan)
        if self.history != [name for name in before if name not in taken]:
            raise Difference(f"{line}: {before} came to {self.history}")
        places = [before.index(name) for name in plan]
        other = [before[place] for place in reversed(dependence.drawn_order(self.chance, places))]
        picture = [*self.picture(), "held"]
        left = self.live.ask(picture)
        for order in [plan] if other == plan else [plan, other]:
            replies = served(self.program, earlier + ["undo " + name for name in order] + picture)
            for name, (reply, *_) in zip(order, replies[len(earlier) :]):
                if reply != "ok":
                    raise Difference(f"{line}: undone one by one as {order}, {name} is answered {reply}")
            for shown, wanted, here in zip(picture, replies[len(earlier) + len(order) :], left):
                if wanted != here:
                    raise Difference(f"{line}: {shown} answers {here}, and undone one by one as {order} {wanted}")

    def end(self):
        """What is checked of a whole session."""
        if self.first:
            self.look()
            self.dependence = None
            self.check_forward()
            self.check_plans()
            order = self.dependence.drawn_order(self.chance)
            self.check_forward([self.history[place] for place in order])
        picture = [*self.picture(), "held"]
        left = self.live.ask(picture)
        if self.live.close() != 0:
            raise Difference("the session ended with another status than 0")
        if not self.journal:
            return
        self.checks += 1
        done = subprocess.run([self.program, "--check", self.journal], stdout=subprocess.PIPE, text=True, check=False)
        if done.stdout != f"ok {self.entries} {len(self.history)}\n":
            raise Difference(f"--check says {done.stdout.strip()} of {self.entries} lines and {len(self.history)} remaining steps")
        for line, wanted, here in zip(picture, served(self.program, picture, ("--journal", self.journal)), left):
            if wanted != here:
                raise Difference(f"{line}: opened again, the journal answers {wanted}, and it was {here}")


# ---- Drawn lines ----


class Drawer:
    """Draws a session's lines, each one after what the session has answered so far."""

    def __init__(self, chance, count, aside=None):
        self.chance, self.left, self.aside = chance, count, aside
        self.holds, self.settles = (aside.random() < 0.5, aside.random() < 0.25) if aside else (False, False)
        self.form = Table(chance)
        self.depths = [chance.choice((0, 1, 2)) for _ in range(chance.choice((2, 3)))]
        self.names = [f"e{at}" for at in range(5)]
        self.begun = False
        self.pending = []
        self.before = chance.randrange(4) if chance.random() < 0.2 else 0

    def line(self, session):
        if self.before:
            self.before -= 1
            return self.chance.choice(("items", "step e0", "define m0 {}", "history", "no line", "show e0", "drive 3", "rollback e0#0", "table items id:X []"))
        if not self.begun:
            self.begun = True
            self.pending = [f"define m{at} {text_of(drawn_machine(self.chance, self.form, depth))}" for at, depth in enumerate(self.depths)]
            return self.form.line(self.chance)
        if self.pending:
            return self.pending.pop(0)
        if self.left == 0:
            return None
        self.left -= 1
        return self.beside(session) or self.drawn(session)

    def beside(self, session):
        """Now and then a line of a hold or a settlement, by chances of its own: in a session without these all lines stay as they are."""
        if not (self.holds or self.settles) or not session.history:
            return None
        chance, left = self.aside, session.left()
        kind = chance.random()
        if self.settles and kind > 0.98:
            return "settle"
        if not self.holds:
            return None
        if not left:
            late = session.history[len(session.history) // 2 :]
            step = chance.choice(late if chance.random() < 0.5 else session.history)
            return f"hold {step}" if kind < 0.1 else "held" if kind < 0.11 else None
        if kind < 0.2:
            return "undo " + (left[0] if chance.random() < 0.6 else chance.choice(left))
        if kind < 0.23:
            return "rollback " + chance.choice(left)
        if kind < 0.28:
            return chance.choice(("held", "settle", "hold " + chance.choice(session.history), f"hold {left[-1]}"))
        return None

    def drawn(self, session):
        chance = self.chance
        free = [name for name in self.names if name not in session.shown]
        ready = [thread for thread in session.shown if can_move(thread, session.shown)]
        if free and (not session.history or chance.random() < (0.08 if ready else 0.4)):
            return self.start(chance.choice(free))
        if not session.history:
            return "step " + chance.choice(ready) if ready else "drive 1"
        kind = chance.random()
        if kind < 0.62 and ready:
            return "step " + chance.choice(ready)
        if kind < 0.66:
            return f"drive {chance.choice((1, 2, 3, 5, 8))}"
        if kind < 0.69:
            return f"work {chance.choice((1, 2, 3, 8))} {chance.choice((1, 2, 5, 8))}"
        if kind < 0.82:
            threads = {name.rsplit("#", 1)[0]: name for name in session.history}
            name = chance.choice(list(threads.values())) if chance.random() < 0.6 else chance.choice(session.history)
            return "undo " + name
        if kind < 0.87:
            late = session.history[len(session.history) // 3 :]
            return "rollback " + chance.choice(late if chance.random() < 0.7 else session.history)
        if kind < 0.90:
            return chance.choice(("items", "history", "plan " + chance.choice(session.history), "show " + chance.choice(list(session.shown))))
        return self.refused(session)

    def start(self, name):
        chance, key = self.chance, self.form.key
        given = {"key": key(chance, chance.randrange(3)), "list": [{"key": key(chance, chance.randrange(3)), "v": f"{name}.{at}"} for at in range(chance.choice((0, 1, 2, 2, 3)))],
                 "n": chance.randrange(4), "v": f"{name}-{self.left}"}
        value = text_of(given) if chance.random() < 0.95 else chance.choice(("7", "[]", '"text"', "null"))
        return f"start {name} m{chance.randrange(len(self.depths))} {value}"

    def refused(self, session):
        """Lines that are mostly refused, each for another cause."""
        chance = self.chance
        taken = chance.choice(list(session.shown) or ["e0"])
        step = chance.choice(session.history or ["e0#0"])
        number = chance.randrange(9)
        return chance.choice((
            "", "step", "step ", f"step  {taken}", f"step {taken} ", f"step {taken}#1", f"step {taken}/{number}", f"step {taken}/0.1", f"step {taken}/{number}.01",
            f"step {taken}/{number}.{number}", "step nobody", f"step {taken}", f"show {taken}/1.{number}", f"undo {taken}", f"undo {taken}#0{number}", f"undo {taken}#{number}", "undo nobody#1",
            f"undo {step}", f"undo {taken}/{number}.0#1", f"plan {taken}#{number + 7}", "rollback nobody#0", f"rollback {taken}#4294967296", "start e0 m0 {}", "start e1 m1 []", "start e9 nothing {}",
            "start e9 m0", "start e9 m0 {", 'start e9 m0 {"n":1.5}', "start e9/1.0 m0 {}", "start e+ m0 {}", "define m0 {}", "define x {}", "define x [", 'define x {"StartAt":"A","States":{}}',
            'define x {"StartAt":"A","States":{"A":{"Type":"Pass","Next":"B"}}}', "define x 7", f"table {self.form.name} id:S []", "table items id:B []", "table t id:S", "drive 0", "drive 65537", "drive -1", "drive",
            "items all", "history 3", "Items", "undo e0#1 e0#2", "step e0\udcff", "work 0 1", "work 9 1", "work 1 65537", "work 1", "hold e0", f"rollback {step} ", f"show {step}"))


# ---- Sessions, one after another ----


def too_long(*_):
    raise Difference("there was no end within a quarter of an hour")


def follow(program, chance, on_file, next_line):
    """Runs one session, and tells what differs, its lines, and how much was checked."""
    signal.signal(signal.SIGALRM, too_long)
    signal.alarm(900)
    with tempfile.TemporaryDirectory() as room:
        session = Checked(program, chance, os.path.join(room, "journal.db") if on_file else None)
        try:
            while (line := next_line(session)) is not None:
                session.take(line)
            session.end()
            return None, session.lines, session.checks
        except Difference as difference:
            return str(difference), session.lines, session.checks
        finally:
            signal.alarm(0)
            if session.live.process.poll() is None:
                session.live.process.kill()
                session.live.process.wait()


def run_lines(program, seed, number, on_file, lines):
    """Whether something still differs where these lines alone are given."""
    left = iter(lines)
    return follow(program, random.Random(f"orders {seed} {number}"), on_file, lambda _: next(left, None))[0]


def cut_short(program, seed, number, on_file, lines, limit):
    """Leaves out what can be left out while something still differs."""
    ends = time.monotonic() + limit
    size = max(1, len(lines) // 2)
    while True:
        at, cut = 0, False
        while at < len(lines) and time.monotonic() < ends:
            shorter = lines[:at] + lines[at + size :]
            if shorter and run_lines(program, seed, number, on_file, shorter):
                lines, cut = shorter, True
            else:
                at += size
        if time.monotonic() >= ends or (size == 1 and not cut):
            return lines
        size = max(1, size // 2)


def run_session(program, seed, number, count):
    chance = random.Random(f"lines {seed} {number}")
    on_file = chance.random() < 0.125
    drawer = Drawer(chance, chance.randrange(count // 2, count + count // 2 + 1), random.Random(f"holds {seed} {number}"))
    difference, lines, checks = follow(program, random.Random(f"orders {seed} {number}"), on_file, drawer.line)
    if difference is None:
        return number, len(lines), checks, None
    given = len(lines)
    on_file = on_file and not run_lines(program, seed, number, False, lines)
    # The line at hand isn't among the lines yet where the check before it failed.
    lines = cut_short(program, seed, number, on_file, lines, 60)
    shorter = run_lines(program, seed, number, on_file, lines)
    text = [f"session {number} of seed {seed}: {difference}", f"{given} lines, cut to {len(lines)}{' on a journal file' if on_file else ''}:"]
    return number, given, checks, "\n".join(text + ["    " + ascii(line)[1:-1].replace("\\\\", "\\") for line in lines] + [f"there: {shorter}"])


def asked_for():
    """What the command line asks for."""
    parser = argparse.ArgumentParser(description="Tests the program's headline by sessions that are drawn at random.")
    parser.add_argument("--program", default=PROGRAM)
    parser.add_argument("--sessions", type=int)
    parser.add_argument("--seconds", type=float)
    parser.add_argument("--seed", default="1")
    parser.add_argument("--session", type=int, help="this one alone")
    parser.add_argument("--lines", type=int, default=60, help="about how many lines a session has")
    parser.add_argument("--jobs", type=int, default=os.cpu_count() or 1)
    return parser.parse_args()


def numbers_of(asked):
    """The numbers of the sessions to run. Where a time is given there is no last one."""
    if asked.session is not None:
        return iter([asked.session])
    if asked.seconds is not None:
        return iter(range(1, 1 << 60))
    return iter(range(1, (asked.sessions if asked.sessions is not None else 400) + 1))


def results(asked, began):
    """Runs the sessions, some at a time, and gives the result of each one that has ended."""
    numbers = numbers_of(asked)
    with concurrent.futures.ProcessPoolExecutor(asked.jobs) as pool:
        running = set()

        def more():
            if asked.seconds is not None and time.monotonic() - began >= asked.seconds:
                return
            if (number := next(numbers, None)) is not None:
                running.add(pool.submit(run_session, asked.program, asked.seed, number, asked.lines))

        for _ in range(asked.jobs):
            more()
        while running:
            done, running = concurrent.futures.wait(running, return_when=concurrent.futures.FIRST_COMPLETED)
            for one in done:
                yield one.result()
                more()


def main():
    asked = asked_for()
    if not os.access(asked.program, os.X_OK):
        print(f"drawn: no program {os.path.relpath(asked.program)}: run rt run in crates/rollback_program first", file=sys.stderr)
        print("0 passed, 0 failed")
        return 1
    began = time.monotonic()
    passed = failed = lines = checks = 0
    for _, given, checked, difference in results(asked, began):
        lines, checks = lines + given, checks + checked
        if difference is None:
            passed += 1
        else:
            failed += 1
            print(difference, flush=True)
    print(f"{lines} lines in {passed + failed} drawn sessions of seed {asked.seed}, {checks} checks, in {time.monotonic() - began:.0f} s")
    print(f"{passed} passed, {failed} failed")
    return 1 if failed or not passed else 0


if __name__ == "__main__":
    sys.exit(main())

#!/usr/bin/env python3
"""Workloads of command lines, for tools/bench.py.

usage: workloads.py FOLDER [--scale F] [NAME ..]

Writes the workloads of these names, or all, to FOLDER/NAME.txt, F times as large as the whole ones, which go as far as the
65,536 steps that may remain. They are the same lines each time.
"""
import json
import os
import random
import sys

MOST = 65_536
TABLE = "table items id:S []"


def text_of(value):
    return json.dumps(value, separators=(",", ":"), ensure_ascii=False)


def states(start, **of):
    return {"StartAt": start, "States": of}


def call(name, **parameters):
    return {"Type": "Task", "Resource": f"arn:aws:states:::dynamodb:{name}", "Parameters": {"TableName": "items", **parameters}}


def define(name, machine):
    return f"define {name} {text_of(machine)}"


ONE_PASS = states("Only", Only={"Type": "Pass", "Result": 7, "End": True})
ECHO = states("Only", Only={"Type": "Pass", "End": True})
READ = states("Read", Read={**call("getItem", Key={"id": {"S.$": "$.key"}}), "End": True})
WRITE = states("Write", Write={**call("putItem", Item={"id": {"S.$": "$.key"}, "value": {"S.$": "$.value"}}), "End": True})


def chain(count):
    """As many Pass states, one after another, which pass their input on."""
    machine = {f"P{at}": {"Type": "Pass", "Next": f"P{at + 1}"} for at in range(count - 1)}
    machine[f"P{count - 1}"] = {"Type": "Pass", "End": True}
    return {"StartAt": "P0", "States": machine}


def kept(scale):
    """Executions of one step, which is undone again; their starts stay."""
    yield TABLE
    yield define("one", ONE_PASS)
    for at in range(int(60_000 * scale)):
        yield f"start run-{at} one {{}}"
        yield f"step run-{at}"
        yield f"show run-{at}"
        yield f"undo run-{at}#1"
    yield "history"


def forgotten(scale):
    """The same, and their starts are undone too, so that little ever remains."""
    yield TABLE
    yield define("one", ONE_PASS)
    for at in range(int(90_000 * scale)):
        yield f"start run-{at} one {{}}"
        yield f"step run-{at}"
        yield f"show run-{at}"
        yield f"undo run-{at}#1"
        yield f"undo run-{at}#0"
    yield "history"


def order_machine():
    """An order is stored under a condition, its article looked at and held, and shipped, or all is given up."""
    again = [{"ErrorEquals": ["States.TaskFailed"], "MaxAttempts": 2, "IntervalSeconds": 1}]
    give_up = [{"ErrorEquals": ["States.ALL"], "ResultPath": "$.why", "Next": "Forget"}]
    store = call("putItem", Item={"id": {"S.$": "$.order"}, "state": {"S": "new"}, "of": {"L": [{"M": {"article": {"S.$": "$.article"}, "count": {"N.$": "$.count"}}}]}},
                 ConditionExpression="attribute_not_exists(id)")
    look = call("getItem", Key={"id": {"S.$": "$.article"}})
    hold = call("putItem", Item={"id": {"S.$": "$.article"}, "order": {"S.$": "$.order"}}, ConditionExpression="attribute_not_exists(order)")
    free = call("deleteItem", Key={"id": {"S.$": "$.article"}}, ConditionExpression="attribute_exists(order)", ReturnValues="ALL_OLD")
    forget = call("deleteItem", Key={"id": {"S.$": "$.order"}})
    return states(
        "Store",
        Store={**store, "ResultPath": None, "Retry": again, "Catch": give_up, "Next": "Look"},
        Look={**look, "ResultSelector": {"item.$": "$"}, "ResultPath": "$.article_is", "Next": "Which"},
        Which={"Type": "Choice", "Default": "Hold", "Choices": [
            {"And": [{"Variable": "$.urgent", "BooleanEquals": True}, {"Variable": "$.article_is.item.Item", "IsPresent": True}], "Next": "Free"},
            {"Variable": "$.weight", "NumericGreaterThanEquals": 95, "Next": "TooHeavy"}]},
        Hold={**hold, "ResultPath": None, "Retry": again, "Catch": give_up, "Next": "Ship"},
        Free={**free, "ResultPath": "$.was", "Retry": again, "Catch": give_up, "Next": "Ship"},
        Forget={**forget, "ResultPath": None, "Next": "NotThere"},
        NotThere={"Type": "Fail", "Error": "Order.NotThere", "Cause": "the article is held for another order"},
        TooHeavy={"Type": "Fail", "Error": "Order.TooHeavy"},
        Ship={"Type": "Pass", "Parameters": {"order.$": "$.order", "parcels": [{"article.$": "$.article"}], "state": "shipped"}, "ResultPath": "$.shipped", "OutputPath": "$.shipped", "End": True})


def orders(scale):
    """Orders over some two thousand articles, thirty-two at a time; now and then one is shown, undone a step, or rolled back."""
    chance = random.Random("orders")
    yield TABLE
    yield define("order", order_machine())
    running, made = [], 0
    for at in range(int(50_000 * scale)):
        if len(running) < 32:
            name = f"order-{made}"
            made += 1
            given = {"order": name, "article": f"article-{chance.randrange(2_000)}", "count": str(chance.randrange(1, 20)), "weight": chance.randrange(100), "urgent": chance.random() < 0.25}
            yield f"start {name} order {text_of(given)}"
            running.append([name, 0])
            continue
        order = chance.choice(running)
        order[1] += 1
        yield f"step {order[0]}"
        if at % 20 == 0:
            yield f"show {order[0]}"
        if at % 40 == 0:
            yield f"undo {order[0]}#{order[1]}"
        if at % 500 == 0:
            yield f"rollback {order[0]}#1"
        if order[1] == 7:
            running.remove(order)
    yield "items"
    yield "history"


def wide_map(scale):
    """A Map over a thousand elements: driven to its end, shown, planned and rolled back, time after time."""
    each = states("Each", Each={"Type": "Pass", "Parameters": {"element.$": "$.element", "place.$": "$.place"}, "ResultPath": "$.kept", "Next": "Out"},
                  Out={"Type": "Pass", "OutputPath": "$.kept", "End": True})
    selector = {"element.$": "$$.Map.Item.Value", "place.$": "$$.Map.Item.Index", "all.$": "$.all"}
    yield TABLE
    yield define("wide", states("All", All={"Type": "Map", "ItemsPath": "$.elements", "ItemSelector": selector, "ItemProcessor": each, "ResultPath": "$.out", "OutputPath": "$.out", "End": True}))
    given = text_of({"all": "of one order", "elements": list(range(max(1, int(1_000 * min(1, 4 * scale)))))})
    for _ in range(max(1, int(50 * scale))):
        yield f"start run wide {given}"
        yield "drive 65536"
        yield "show run"
        yield "plan run#1"
        yield "rollback run#0"
    for at in range(max(1, int(25 * scale))):
        yield f"start run-{at} wide {given}"
        yield "drive 65536"
    yield "history"


def nested_forks(scale):
    """Parallel states five deep, of two branches each, and one that fails and is tried again; driven, undone in one leaf, rolled back."""

    def level(depth):
        if depth == 0:
            return chain(2)
        return states("Both", Both={"Type": "Parallel", "Branches": [level(depth - 1), level(depth - 1)], "End": True})

    failing = {"Type": "Parallel", "Branches": [level(3), states("Fails", Fails={"Type": "Fail", "Error": "Broken"})], "Retry": [{"ErrorEquals": ["States.BranchFailed"], "MaxAttempts": 2}], "End": True}
    count = max(1, int(220 * scale))
    yield TABLE
    yield define("deep", level(5))
    yield define("failing", states("Tries", Tries=failing))
    for at in range(count):
        yield f"start deep-{at} deep {{}}"
        yield f"start failing-{at} failing {{}}"
        yield "drive 65536"
        yield f"show deep-{at}"
        yield f"undo deep-{at}/1.1/1.0#1"
    yield "history"
    for at in reversed(range(count)):
        yield f"plan deep-{at}/1.1/1.0/1.1#1"
        yield f"rollback deep-{at}#1"
        yield f"rollback failing-{at}#0"
    yield "history"


def hot_item(scale):
    """One item that a thousand executions read or write after a first one: plans of the first, undoings, and its rollback."""
    chance = random.Random("hot item")
    yield TABLE
    yield define("read", READ)
    yield define("write", WRITE)
    count = max(1, int(1_000 * min(1, 4 * scale)))
    for turn in range(max(1, int(20 * scale))):
        yield f'start first-{turn} write {{"key":"hot","value":"first"}}'
        yield f"step first-{turn}"
        for at in range(count):
            machine = "write" if at > count // 2 and at % 5 == 0 else "read"
            yield f'start run-{turn}-{at} {machine} {{"key":"hot","value":"{at}"}}'
            yield f"step run-{turn}-{at}"
        yield f"undo first-{turn}#1"
        for _ in range(10):
            yield f"plan first-{turn}#1"
        for _ in range(40):
            yield f"undo run-{turn}-{chance.randrange(count)}#1"
        yield f"rollback first-{turn}#1"
    yield "items"
    yield "history"


def middle_undo(scale):
    """Sixty thousand steps; then free ones out of the middle are undone and taken again, and others are refused to be undone."""
    chance = random.Random("middle")
    reads, runs = int(21_000 * scale), max(1, int(1_600 * scale))
    yield TABLE
    yield define("read", READ)
    yield define("ten", chain(10))
    for at in range(reads):
        yield f'start read-{at} read {{"key":"key-{at % 700}"}}'
        yield f"step read-{at}"
    for at in range(runs):
        yield f"start ten-{at} ten {{}}"
        for _ in range(10):
            yield f"step ten-{at}"
    for _ in range(int(90_000 * scale)):
        at = chance.randrange(reads)
        yield f"undo read-{at}#1"
        yield f"step read-{at}"
    for _ in range(int(50_000 * scale)):
        yield f"undo ten-{chance.randrange(runs)}#{chance.randrange(10)}"
    yield "history"


def large_input(size):
    """A JSON value of about as many bytes: records of texts, numbers and lists, with characters that are escaped."""
    chance = random.Random("large")
    records = []
    while len(text_of(records)) < size:
        records += [{"number": len(records), "name": f'Café "{len(records)}"\n', "tags": ["new", "used", "lent"][: len(records) % 4],
                     "place": {"row": chance.randrange(100), "shelf": chance.randrange(-9, 9)}, "there": True, "note": None} for _ in range(max(1, size // 2_000))]
    return {"records": records}


def big_inputs(scale):
    """Inputs of a hundred thousand bytes: read, placed into, filled into a template, and shown."""
    yield TABLE
    yield define("big", states(
        "Place",
        Place={"Type": "Pass", "Result": {"x": 1}, "ResultPath": "$.records[0].place.more", "Next": "Fill"},
        Fill={"Type": "Pass", "Parameters": {"first.$": "$.records[0]", "all.$": "$", "constant": [1, {"two": 2}]}, "ResultPath": "$.copy", "Next": "Pick"},
        Pick={"Type": "Pass", "OutputPath": "$.copy.first", "End": True}))
    yield define("echo", ECHO)
    value = large_input(100_000)
    texts = text_of(value), json.dumps(value)
    for at in range(max(1, int(180 * scale))):
        yield f"start run-{at} {'big' if at % 4 else 'echo'} {texts[at % 2]}"
        yield "drive 3"
        yield f"show run-{at}"
    yield "history"


def listings(scale):
    """Thirty thousand items and twice as many steps, listed over and over."""
    yield TABLE
    yield define("write", WRITE)
    places = list(range(int(30_000 * scale)))
    random.Random("listings").shuffle(places)
    for at in places:
        yield f'start run-{at} write {{"key":"key-{at}","value":"value {at}"}}'
        yield f"step run-{at}"
    for _ in range(16):
        yield "items"
        yield "history"


def drives(scale):
    """Two thousand executions of ten steps, driven a thousand steps at a time, which drives the least thread that can move."""
    yield TABLE
    yield define("ten", chain(10))
    count = int(2_000 * scale)
    for at in range(count):
        yield f"start run-{at} ten {{}}"
    for _ in range(count // 100 + 1):
        yield "drive 1000"
    yield "history"


def definitions(scale):
    """Definitions of forty-one states, under other names each."""
    machine = {f"S{at}": {**state, "Next": f"S{at + 1}"} for at, state in enumerate([
        {"Type": "Pass", "Parameters": {"a.$": "$.a", "b": [1, 2]}, "ResultPath": "$.p"},
        {**call("getItem", Key={"id": {"S.$": "$.key"}}), "ResultPath": "$.found", "Retry": [{"ErrorEquals": ["States.ALL"], "MaxAttempts": 2}]},
        {"Type": "Wait", "Seconds": 60},
        {"Type": "Parallel", "Branches": [ECHO, ONE_PASS], "ResultPath": "$.both"}] * 10)}
    machine["S40"] = {"Type": "Succeed"}
    yield TABLE
    for at in range(max(1, int(4_000 * scale))):
        yield f"define machine-{at} {text_of({'StartAt': 'S0', 'States': machine})}"


WORKLOADS = {work.__name__: work for work in (
    kept, forgotten, orders, wide_map, nested_forks, hot_item, middle_undo, big_inputs, listings, drives, definitions)}


def write(file, lines):
    """Writes lines to a file, and tells how many they are."""
    count = 0
    with open(file, "w", encoding="utf-8", newline="\n") as text:
        for line in lines:
            text.write(line + "\n")
            count += 1
    return count


def main(words):
    scale = 1.0
    if "--scale" in words:
        at = words.index("--scale")
        scale = float(words[at + 1])
        words = words[:at] + words[at + 2 :]
    if not words or words[0].startswith("-") or set(words[1:]) - set(WORKLOADS):
        sys.exit(f"{__doc__}\nThe names are {' '.join(WORKLOADS)}.")
    os.makedirs(words[0], exist_ok=True)
    for name in words[1:] or WORKLOADS:
        print(f"{name}\t{write(os.path.join(words[0], name + '.txt'), WORKLOADS[name](scale))} lines")


if __name__ == "__main__":
    main(sys.argv[1:])

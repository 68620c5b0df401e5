"""Draws definitions for the linter: machines of the examples and the rows, with a few changes each."""
import copy
import json
import random
import re

from rollback_client.lint import fields
from tests.program import TOP

NAMES = sorted(
    {name for value in vars(fields).values() if isinstance(value, tuple) for name in value}
    | {"end", "Nexts", "Resources", "x.$", "x", ".$", "StringEqual", "Table", ""}
)
ARN = "arn:aws:states:::dynamodb:"
VALUES = [
    None, True, False, 0, 1, -1, 3, 4096, 4294967295, 4294967296, 2**63 - 1, 2**63, -(2**63), -(2**63) - 1, 2**64, 1.0, 0.5, 1e3, 1e300, -0.0,
    "", "$", "$.a", "$.a.b[0]", "$['a b']", "$[1:]", "$.a[*]", "$..a", '$["a"]', "$.a[4294967295]", "$.a[4294967296]", "$[01]", "$.", "$.é-_1", "$['']", "$['a']['b']x",
    "$$", "$$.Map.Item.Index", "$$.Map.Item.Value", "$$.Map.Item.Value.a[0]", "$$.Map.Item.Valuable", "$$.Map.Item.Index.a", "$$.Execution.Id", "$name.x",
    "States.Format('{}', $.a)", "States.UUID()", "States.ALL", "States.TaskFailed", "States", " States.UUID()", "{% $states.input %}",
    ARN + "getItem", ARN + "putItem", ARN + "deleteItem", ARN + "updateItem", ARN + "getitem", "arn:aws:lambda:eu-west-1:1:function:f",
    "JSONPath", "JSONata", "jsonpath", "INLINE", "DISTRIBUTED", "Pass", "Task", "Choice", "Wait", "Succeed", "Fail", "Parallel", "Map", "pass",
    [], {}, [[]], [{}], [None], ["States.ALL"], ["States.ALL", "A"], ["A", "States.ALL"], ["A"], [1], "\u00e9\U0001f600", "\u0007", "a/b~c",
    {"Mode": "INLINE"}, {"Mode": "DISTRIBUTED"}, {"Mode": 1}, {"Mode": "EXPRESS"}, {"x.$": "$.a"}, {"x.$": "$.a", "x": 1}, {"x.$": 1}, {"x.$": "a"}, {"x.$": "$$.Map.Item.Index"},
    {"x": {"y": [{"z.$": "States.UUID()"}]}}, {".$": "$"}, {".$": "$", "": 1}, {"x": 0.5}, {"x.$": [1.5]}, {"x.$": {"y.$": "$"}},
    {"Variable": "$.a", "StringEquals": "b"}, {"Not": {"Variable": "$.a", "IsNull": True}}, {"Variable": "$.a"}, {"StringEquals": "b"},
    {"And": []}, {"Or": [{"Variable": "$.a", "NumericEquals": 1}], "Variable": "$.b"}, {"And": [{"Variable": "$.a", "IsPresent": False, "Next": "A"}]},
    {"ErrorEquals": ["A"]}, {"ErrorEquals": ["States.ALL"], "Next": "A"}, {"ErrorEquals": []}, [{"ErrorEquals": ["States.ALL"]}, {"ErrorEquals": ["A"]}],
    {"Type": "Succeed"}, {"Type": "Pass", "End": True}, {"StartAt": "A", "States": {"A": {"Type": "Succeed"}}}, {"StartAt": "A", "States": {"B": {"Type": "Succeed"}}},
]  # fmt: skip
PIECES = [
    "",
    ",",
    "{",
    "}",
    "[",
    "]",
    '"',
    ":",
    "1",
    "-",
    ".0",
    "e5",
    "NaN",
    "Infinity",
    "null",
    "\\ud800",
    "\\udc00",
    "\\ud83d\\ude00",
    "\\",
    "\t",
    " ",
    "\u00a0",
    "\\u00",
    "//",
    "'",
    "1e999",
    "0",
    "\\q",
]


def sources():
    """The machines of the examples and the rows, each a text once."""
    found = []
    for path in sorted((TOP / "rows").glob("*.txt")) + sorted((TOP / "examples").glob("*.txt")):
        for line in path.read_text().splitlines():
            begin = re.match(r"(?:@ |(?:> )?define )[\w-]+ (?=\{)", line)
            if begin and "%(" not in line:
                found.append(line[begin.end() :])
    for path in sorted((TOP / "examples/from-aws").glob("*.asl.json")):
        found.append(json.dumps(json.loads(path.read_text())))
    return sorted({text for text in found if len(text) < 6000 and is_json(text)})


def is_json(text):
    try:
        json.loads(text)
    except ValueError:
        return False
    return True


def holders(value):
    """Each object and list of a value, with itself."""
    inside = value.values() if isinstance(value, dict) else value if isinstance(value, list) else ()
    if isinstance(value, (dict, list)):
        yield value
    for part in inside:
        yield from holders(part)


def levels(depth, kind):
    """A machine with as many `States` objects within each other, by Maps, or by lists in a Result."""
    if kind == "lists":
        value = 1
        for _ in range(depth):
            value = [value]
        return {"StartAt": "A", "States": {"A": {"Type": "Pass", "Result": value, "End": True}}}
    machine = {"StartAt": "A", "States": {"A": {"Type": "Succeed"}}}
    for _ in range(depth - 1):
        machine = {"StartAt": "A", "States": {"A": {"Type": "Map", "Iterator": machine, "End": True}}}
    return machine


class Drawing:
    """Definitions that are drawn by a seed."""

    def __init__(self, seed):
        self.chance = random.Random(seed)
        self.sources = [json.loads(text) for text in sources()]
        self.parts = [part for source in self.sources for part in holders(source)]
        self.values = {}
        for part in self.parts:
            for name, value in part.items() if isinstance(part, dict) else ():
                self.values.setdefault(name, []).append(value)

    def text(self):
        """One definition, on one line."""
        if self.chance.random() < 0.01:
            return json.dumps(levels(self.chance.choice((31, 32, 33, 34)), "maps"))
        if self.chance.random() < 0.01:
            return json.dumps(levels(self.chance.choice((122, 123, 124, 125)), "lists"))
        # the longest of three, since most of the rows' machines are short
        drawn = copy.deepcopy(max(self.chance.choices(self.sources, k=3), key=lambda source: len(str(source))))
        for _ in range(self.chance.choice((0, 1, 1, 1, 2, 2, 3))):
            drawn = self.changed(drawn)
        text = json.dumps(
            drawn, ensure_ascii=self.chance.random() < 0.5, separators=self.chance.choice(((",", ":"), (", ", ": ")))
        )
        if self.chance.random() < 0.08:
            text = self.spoilt(text)
        if self.chance.random() < 0.05:
            text = self.doubled(text)
        return text

    def value(self, name=None):
        """A value: of a field, as likely as not one that such a field has in another machine."""
        if name in self.values and self.chance.random() < 0.5:
            return copy.deepcopy(self.chance.choice(self.values[name]))
        if self.chance.random() < 0.15:
            return copy.deepcopy(self.chance.choice(self.parts))
        return copy.deepcopy(self.chance.choice(VALUES))

    def changed(self, drawn):
        """A definition with one change."""
        places = list(holders(drawn))
        if not places or self.chance.random() < 0.005:
            return self.value()
        # the outermost objects are few, and a change there hides all others
        holder = self.chance.choice(places[2:] or places)
        keys = list(holder) if isinstance(holder, dict) else list(range(len(holder)))
        change = self.chance.random()
        if change < 0.2 or not keys:
            self.add(holder)
        elif change < 0.4:
            del holder[self.chance.choice(keys)]
        elif change < 0.55 and isinstance(holder, dict):
            self.rename(holder, self.chance.choice(keys))
        elif change < 0.65:
            key = self.chance.choice(keys)
            holder[key] = self.chance.choice([[holder[key]], {"x": holder[key]}, [holder[key]] * 2])
        elif change < 0.75:
            self.swap(places, holder, self.chance.choice(keys))
        else:
            key = self.chance.choice(keys)
            holder[key] = self.value(key)
        return drawn

    def add(self, holder):
        if isinstance(holder, dict):
            name = self.chance.choice(NAMES)
            holder[name] = self.value(name)
        else:
            holder.insert(self.chance.randint(0, len(holder)), self.value())

    def rename(self, holder, key):
        named = [(self.chance.choice(NAMES) if name == key else name, value) for name, value in holder.items()]
        holder.clear()
        holder.update(named)

    def swap(self, places, holder, key):
        other = self.chance.choice(places)
        keys = list(other) if isinstance(other, dict) else list(range(len(other)))
        if keys:
            taken = copy.deepcopy(other[self.chance.choice(keys)])
            holder[key] = taken

    def spoilt(self, text):
        """A text with a piece put in or taken out."""
        at = self.chance.randrange(len(text) + 1)
        return text[:at] + self.chance.choice(PIECES) + text[at + self.chance.choice((0, 0, 1, 1, 3)) :]

    def doubled(self, text):
        """A text in which an object has a field more, perhaps one that it has."""
        at = [found.end() for found in re.finditer(r"\{(?=\s*\")", text)]
        if not at:
            return text
        place = self.chance.choice(at)
        return f"{text[:place]}{json.dumps(self.chance.choice(NAMES))}:{json.dumps(self.value())},{text[place:]}"

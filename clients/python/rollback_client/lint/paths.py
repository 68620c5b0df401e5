"""Paths, and why a text is none."""
from __future__ import annotations

import re
from typing import Optional

from .findings import BAD, LEFT_OUT, Path, Report, json_string, refusal_of
from .scanner import Node

_STEPS = re.compile(r"(?:\.[A-Za-z0-9_\-\x80-\U0010ffff]+|\['[^']*'\]|\[(?:0|[1-9][0-9]*)\])*")
_INDEX = re.compile(r"\[([0-9]{10,})\]")
_QUOTED = re.compile(r"'[^']*'")
_DOUBLE_QUOTED = re.compile(r'\["([^"\']*)"\]')
_SLICE = re.compile(r"\[[^\]\[']*:[^\]\[']*\]")
_MANY = re.compile(r"\.\.|\[\*\]|\.\*|\[\?|\[[^\]\[']*,[^\]\[']*\]|\[-[0-9]+\]")
_INTRINSIC = re.compile(r"\s*States\.([A-Za-z0-9_]+)\s*\(")
_JSONATA = re.compile(r"\{%.*%\}", re.S)
_LARGEST_INDEX = 4_294_967_295

ITEM_INDEX, ITEM_VALUE = "$$.Map.Item.Index", "$$.Map.Item.Value"


def is_steps(text: str) -> bool:
    """Whether a text is the steps of a path, without its `$`."""
    if not _STEPS.fullmatch(text):
        return False
    indexes = _INDEX.findall(_QUOTED.sub("''", text))
    return all(int(index) <= _LARGEST_INDEX for index in indexes)


def is_path(text: str) -> bool:
    """Whether a text is a path: `$`, and then `.name`, `['name']` and `[n]`."""
    return text.startswith("$") and is_steps(text[1:])


class Fault:
    """Why a text is no path: a code, a sentence, what to do, and a replacement if one is sure."""

    def __init__(self, code: str, message: str, help: str, replacement: Optional[str] = None):
        self.code, self.message, self.help, self.replacement = (code, message, help, replacement)


def context_fault(text: str) -> Fault:
    """Of a text that begins with `$$`."""
    message = f"{text} is of the context object, which is left out"
    helps = {
        "$$.Execution": "pass it in the execution's input, when it is started",
        "$$.State.Name": "write the state's name as a text",
        "$$.State.RetryCount": "leave it out, since a machine doesn't see how often it retries",
        "$$.State.EnteredTime": "pass the time in the input, since a machine has no clock here",
        "$$.StateMachine": "write the machine's name as a text",
        "$$.Task.Token": "leave the callback out, since nothing waits for a token here",
        ITEM_INDEX: "read it in ItemSelector, since nothing else has it",
        ITEM_VALUE: "read it in ItemSelector, as $$.Map.Item.Value and the steps of a path",
    }
    for begin, advice in helps.items():
        if text.startswith(begin):
            return Fault("CONTEXT_OBJECT", message, advice)
    return Fault("CONTEXT_OBJECT", message, "pass what it says in the execution's input")


def intrinsic_fault(text: str) -> Fault:
    """Of a text that begins with `States.`, as `States.Format(..)`."""
    found = _INTRINSIC.match(text)
    name = f"States.{found[1]}" if found else text
    advice = {
        "States.Format": "pass the whole text in the input",
        "States.UUID": "pass an identifier in the input",
        "States.JsonToString": "pass the text in the input",
        "States.StringToJson": "pass the value in the input, not its text",
        "States.Array": "write the list, with fields `x.$` in its objects",
        "States.ArrayGetItem": "take the element by a path, as $.list[0]",
        "States.MathAdd": "work it out before, and pass it in the input",
        "States.MathRandom": "pass it in the input",
        "States.JsonMerge": "place one into the other by ResultPath",
    }.get(name, "work it out before, and pass the result in the input")
    return Fault("INTRINSIC_FUNCTION", f"{name} is an intrinsic function, and these are left out", advice)


def path_fault(text: str) -> Fault:
    """Why this text, which is no path, is none."""
    if _JSONATA.search(text):
        return Fault("JSONATA", "{% %} is JSONata, which is left out", "write a path, as $.order.id")
    if _INTRINSIC.match(text) or text.startswith("States."):
        return intrinsic_fault(text)
    if _SLICE.search(text):
        return Fault(
            "SLICE",
            f"{text} is a slice, and these are left out",
            "take one element, as $.list[0], or go over the list by a Map",
        )
    if _MANY.search(text):
        return Fault(
            "MANY_VALUED_PATH",
            f"{text} leads to many values, and a path to one",
            "name each step, or go over the list by a Map",
        )
    if text.startswith("$$"):
        return context_fault(text)
    if re.match(r"\$[A-Za-z_]", text):
        return Fault(
            "VARIABLES",
            f"{text} begins with a variable, and these are left out",
            "keep the value in the state's data, and read it as $.name",
        )
    return _form_fault(text)


def _form_fault(text: str) -> Fault:
    quoted = _DOUBLE_QUOTED.sub(r"['\1']", text)
    if quoted != text and is_path(quoted):
        return Fault("BAD_PATH", f"{text} is no path, since a quoted name has single quotes", f"write {quoted}", quoted)
    if not text.startswith("$"):
        dotted = "$." + text
        advice = f"write {dotted}" if is_path(dotted) else "begin it with $"
        return Fault("BAD_PATH", f"{text or 'an empty text'} is no path, which begins with $", advice)
    matched = _STEPS.match(text, 1)
    good = text[: matched.end() if matched else 1]
    return Fault("BAD_PATH", f"{text} is no path behind {good}", "a step is .name, ['name'] or [0]")


def check_path(report: Report, node: Node, path: Path, field: str, nullable: bool) -> None:
    """Adds why a field's value is no path, if it isn't."""
    text = node.text()
    if text is not None and is_path(text) or nullable and node.kind == "null":
        return
    if text is None:
        kinds = "a path or null" if nullable else "a path"
        report.bad(node, path, field, f"{field} has to be {kinds}", 'write a path within quotes, as "$.order"')
        return
    fault = path_fault(text)
    report.bad(node, path, field, fault.message, fault.help, fault.code, json_string(fault.replacement))


def source_refusal(text: str, field: str) -> str:
    """What `define` answers of a template's field whose text is no source."""
    return refusal_of(LEFT_OUT if text.startswith(("States.", "$$")) else BAD, field)

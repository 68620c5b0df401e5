"""The commands that begin a book: table, define, start."""
from __future__ import annotations

import re
from typing import Optional

from .. import lines
from ..faults import BadJson, MachineFault, Refusal
from ..lint import Finding, Table, lint_text
from ..lint.output import summary
from ..lint.scanner import Node, Scanner
from . import given
from .core import Command, Shell
from .reading import Given, split
from .refusing import Refused

_KEY = re.compile(r"([^ :\[][^ :]*):[SN]")


def _ask_json(shell: Shell, head: str, text: Given, what: str) -> list[str]:
    """Gives a line that ends with a JSON text. If it isn't what the program reads, its place is said."""

    def fault(refusal: Refusal) -> Optional[Refused]:
        return _json_fault(text, what) if isinstance(refusal, BadJson) else None

    return shell.ask(f"{head} {text.line}", fault)


def _json_fault(text: Given, what: str) -> Refused:
    scanner = Scanner(text.text)
    places = [(flaw.start, flaw.message, flaw.help) for flaw in scanner.flaws]
    if scanner.root:
        for node in _no_whole_numbers(scanner.root):
            number = text.text[node.start : node.end]
            places.append(
                (node.start, f"the number {number} isn't whole, or doesn't fit 64 bits", "write it as a text")
            )
    if not places:
        return Refused(f"{what} isn't JSON that the program reads")
    line, column = scanner.place(places[0][0])
    where = f"{text.file or what}, line {line}, column {column}"
    return Refused(f"{where}: {places[0][1]}", places[0][2])


def _no_whole_numbers(node: Node) -> list[Node]:
    inside = [*node.items, *(member.value for member in node.fields.values())]
    found = [node] if node.kind == "number" and not node.whole else []
    return found + [inner for value in inside for inner in _no_whole_numbers(value)]


def _table(shell: Shell, rest: str) -> None:
    (*words,), rest = split(rest, 2)
    if len(words) < 2 or not _KEY.fullmatch(words[1]):
        raise Refused(
            "a table has a name and a key", "write table NAME KEY:TYPE [KEY:TYPE] [JSON | @FILE], a type is S or N"
        )
    second, behind = split(rest, 1)
    if second and _KEY.fullmatch(second[0]):
        words.append(second[0])
        rest = behind
    try:
        lines.table_name(words[0])
    except ValueError as fault:
        raise Refused(str(fault)) from None
    items = shell.json(rest, "the items") if rest else Given("[]")
    reply = _ask_json(shell, f"table {' '.join(words)}", items, "the items")
    key = [word.rpartition(":") for word in words[1:]]
    shell.table = Table(words[0], tuple((attribute, kind) for attribute, _, kind in key))
    if not shell.raw(reply):
        shell.output.say(f"the book begins with the table {words[0]}")


def _define(shell: Shell, rest: str) -> None:
    words, rest = split(rest, 1)
    if not words:
        raise Refused("a machine has a name and a definition", "write define NAME JSON, or define NAME @FILE")
    name = given.name("a machine", words[0])
    definition = shell.json(rest, "the definition")

    def faults(refusal: Refusal) -> Optional[Refused]:
        is_faulty = isinstance(refusal, (MachineFault, BadJson))
        return _faults(shell, name, definition, refusal) if is_faulty else None

    reply = shell.ask(f"define {name} {definition.line}", faults)
    shell.session.machines.add(name)
    if not shell.raw(reply):
        shell.output.say(f"the machine {name} is defined")
        found = lint_text(definition.text, definition.file, shell.table)
        _show(shell, definition, [finding for finding in found if finding.severity == "warning"])


def _faults(shell: Shell, name: str, definition: Given, refusal: Refusal) -> Refused:
    """Shows all faults of a refused definition, each with its line."""
    findings = lint_text(definition.text, definition.file, shell.table)
    _show(shell, definition, findings)
    where = f" of {definition.file}" if definition.file else ""
    return Refused(
        f"the definition{where} is refused, so there is no machine {name} ({summary(findings)}; {refusal.detail})"
    )


def _show(shell: Shell, definition: Given, findings: list[Finding]) -> None:
    """Writes findings, each with the line of the text that it is about."""
    texts = definition.text.split("\n")
    width = shell.output.width or 0
    for finding in findings:
        shell.output.say(f"{finding.severity}: {finding} [{finding.code}]")
        text = texts[finding.line - 1].rstrip()
        shown = f"{finding.line:>6} | {text.strip()}"
        if text.strip() and len(texts) > 1:
            shell.output.say(shown if not width or len(shown) <= width else shown[: width - 2] + "..")


def _start(shell: Shell, rest: str) -> None:
    words, rest = split(rest, 2)
    if len(words) < 2:
        raise Refused(
            "an execution has a name, a machine and an input", "write start NAME MACHINE JSON, or @FILE for JSON"
        )
    name, machine = given.name("an execution", words[0]), given.name("a machine", words[1])
    value = shell.json(rest, "the input")
    reply = _ask_json(shell, f"start {name} {machine}", value, "the input")
    if not shell.raw(reply):
        shell.output.say(f"{name} is started ({reply[0][3:]})")


COMMANDS = (
    Command(
        "table",
        "table NAME KEY:TYPE [KEY:TYPE] [JSON | @FILE]",
        "begins the book: its table, the table's key and its items",
        _table,
        (
            "NAME has 1 to 255 ASCII letters, digits, _, - and points. A type is S or N, the partition key is first.",
            "The items are a list of items in DynamoDB's JSON, [] if they are left out. A book has one table.",
        ),
        ("", "", "file"),
    ),
    Command(
        "define",
        "define NAME JSON | @FILE",
        "defines a machine",
        _define,
        (
            "NAME has 1 to 64 ASCII letters, digits, _ and -. A definition may go over several lines.",
            "If it is refused, all its faults are shown with their lines. A machine can't be changed or removed.",
        ),
        ("", "file"),
    ),
    Command(
        "start",
        "start NAME MACHINE JSON | @FILE",
        "starts an execution of a machine, with its input",
        _start,
        ("NAME has 1 to 64 ASCII letters, digits, _ and -. Numbers of the input are whole and fit 64 bits.",),
        ("", "machine", "file"),
    ),
)

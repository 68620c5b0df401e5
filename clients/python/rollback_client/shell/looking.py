"""The commands that look: show, items, history, list."""
from __future__ import annotations

import json
from typing import Any, Mapping, Sequence

from ..faults import NoAnswer
from ..values import Done, Failed, Frame, Parked, Ready, frame_of
from . import given
from .answers import execution_lines, outcome_of, text_of, what
from .asking import question, told
from .core import Command, Shell
from .moving import THREAD, counted
from .output import laid_out
from .refusing import Refused


def in_words(thread: str, frame: Frame) -> str:
    """Where a thread is."""
    if isinstance(frame, Ready):
        return f"{thread} is before the state {frame.state}, after {_moves(frame.moves)}"
    if isinstance(frame, Parked):
        branches = ", ".join(frame.branch(thread, index) for index in range(min(frame.branches, 3)))
        more = ", .." if frame.branches > 3 else ""
        where = f"in the state {frame.state}, after {_moves(frame.moves)}"
        return f"{thread} waits for its {_branches(frame.branches)} {where}: {branches}{more}"
    if isinstance(frame, Done):
        text = json.dumps(frame.output, indent=2, ensure_ascii=False)
        return f"{thread} is done, with the output {text}"
    return f"{thread} has failed with {frame.error}" + (f": {frame.cause}" if frame.cause else "")


def _moves(count: int) -> str:
    return f"{count} move{'' if count == 1 else 's'}"


def _branches(count: int) -> str:
    return f"{count} branch{'' if count == 1 else 'es'}"


def _show(shell: Shell, rest: str) -> None:
    word = given.exactly(rest, "show THREAD", 1)[0]
    if "#" in word:
        _show_step(shell, given.step_name(word))
        return
    thread = given.thread_name(word)
    if not shell.is_raw and shell.session.answers_questions():
        try:
            for line in execution_lines(shell.session.question(f"show {thread}")):
                shell.output.say(line)
            return
        except NoAnswer:
            pass  # the program says why, with names that nearly fit
    reply = shell.ask(f"show {thread}")
    if not shell.raw(reply):
        shell.output.say(in_words(thread, frame_of(reply[0])))


def _show_step(shell: Shell, step: str) -> None:
    answer = question(shell, f"show {step}", f"--show {step}")
    if told(shell, answer):
        return
    row = answer["step"]
    shell.output.say(f"{what(row)} {outcome_of(row)}".rstrip())
    for of, name in (("before", "before"), ("after", "after")):
        if row.get("items"):
            shell.output.say(f"  the item {of}: {_item_text(row['items'][name])}")
    for cause in row["on"]:
        shell.output.say(f"  depends on {cause['step']} ({cause['reason']})")
    if "waited" in row:
        shell.output.say(f"  waited for the branches up to {row['waited']}")
    for later in answer["dependents"]:
        shell.output.say(f"  {later['step']} depends on it ({later['reason']})")


def _item_text(item: Any) -> str:
    return "none" if item is None else text_of(item)


# ---- items


def cell(value: Any) -> str:
    """An attribute's value as a table shows it: texts and numbers as they are, others as JSON."""
    plain = _plain(value)
    if isinstance(plain, str):
        return plain
    return json.dumps(plain, ensure_ascii=False, separators=(",", ":"))


def _plain(value: Any) -> Any:
    """An attribute's value without its types."""
    if not isinstance(value, dict) or len(value) != 1:
        return value
    ((kind, held),) = value.items()
    if kind == "L":
        return [_plain(item) for item in held]
    if kind == "M":
        return {name: _plain(item) for name, item in held.items()}
    return None if kind == "NULL" else held


def _columns(items: Sequence[Mapping[str, Any]], key: Sequence[str]) -> list[str]:
    """The attributes of items: those of the key first, then those that most items have."""
    counts: dict[str, int] = {}
    for item in items:
        for name in item:
            counts[name] = counts.get(name, 0) + 1
    others = sorted((name for name in counts if name not in key), key=lambda name: (-counts[name], name))
    return [*(name for name in key if name in counts), *others]


def _items(shell: Shell, rest: str) -> None:
    given.exactly(rest, "items", 0)
    reply = shell.ask("items")
    if shell.raw(reply):
        return
    items = [json.loads(line) for line in reply[1:]]
    if items:
        heads = _columns(items, [attribute for attribute, _ in shell.table.key] if shell.table else [])
        rows = [[cell(item[name]) if name in item else "" for name in heads] for item in items]
        for line in laid_out(heads, rows, shell.output.width):
            shell.output.say(line)
    shell.output.say(f"{len(items)} item{'' if len(items) == 1 else 's'}")


# ---- steps and executions


def _history(shell: Shell, rest: str) -> None:
    given.exactly(rest, "history", 0)
    reply = shell.ask("history")
    if not shell.raw(reply):
        for step in reply[1:]:
            shell.output.say(step)
        shell.output.say(f"{counted(len(reply) - 1)} remain")


def _row(shell: Shell, execution: str, steps: int) -> list[str]:
    """An execution in a table: its status, where it is, and how many of its steps remain."""
    frame = frame_of(shell.ask(f"show {execution}")[0])
    if isinstance(frame, Failed):
        where = frame.error + (f": {frame.cause}" if frame.cause else "")
        return [execution, "failed", str(steps), where]
    if isinstance(frame, Done):
        return [execution, "done", str(steps), json.dumps(frame.output, ensure_ascii=False, separators=(",", ":"))]
    if isinstance(frame, Parked):
        return [execution, "open", str(steps), f"in {frame.state}, waits for its {_branches(frame.branches)}"]
    return [execution, "open", str(steps), f"before {frame.state}"]


def _list(shell: Shell, rest: str) -> None:
    # without words a list can be made of other commands, so a file isn't read for it
    if rest.strip() or shell.session.answers_questions():
        _list_by_question(shell, rest)
        return
    steps: dict[str, int] = {}
    for step in shell.ask("history")[1:]:
        execution = step.partition("#")[0].partition("/")[0]
        steps[execution] = steps.get(execution, 0) + 1
    rows = []
    for execution, count in steps.items():
        try:
            rows.append(_row(shell, execution, count))
        except Refused:
            # another caller has taken its start back
            continue
    if rows:
        for line in laid_out(["execution", "status", "steps", "where"], rows, shell.output.width):
            shell.output.say(line)
    shell.output.say(f"{len(rows)} execution{'' if len(rows) == 1 else 's'} with steps that remain")


def _list_by_question(shell: Shell, rest: str) -> None:
    words = rest.split()
    if words not in ([], ["failed"], ["open"], ["done"]) and not (len(words) == 2 and words[0] == "machine"):
        raise Refused("a list is of all, failed, open or done executions, or of a machine's", "write list machine NAME")
    of_graph = "".join(f" --{word}" for word in words[:1]) + "".join(f" {name}" for name in words[1:])
    answer = question(shell, " ".join(["list", *words]), f"--list{of_graph}")
    if told(shell, answer):
        return
    rows = [
        [row["execution"], row["machine"], row["status"], str(row["steps"]), row["error"] or row["state"] or ""]
        for row in answer["executions"]
    ]
    if rows:
        for line in laid_out(["execution", "machine", "status", "steps", "where"], rows, shell.output.width):
            shell.output.say(line)
    counts = answer["counts"]
    shell.output.say(f"executions: {counts['done']} done, {counts['failed']} failed, {counts['open']} open")
    if answer.get("held"):
        shell.output.say(
            f"{answer['held']['step']} is held, and {counted(answer['held']['left'])} of the hold are left"
        )


COMMANDS = (
    Command(
        "show",
        "show THREAD",
        "says where a thread is",
        _show,
        (THREAD, "A server that answers questions lists its steps, too; there show STEP says all of a step."),
        ("thread",),
    ),
    Command("items", "items", "lists the items, in the order of their keys", _items),
    Command("history", "history", "lists the steps that remain, in the order in which they were taken", _history),
    Command(
        "list",
        "list [failed | open | done | machine NAME]",
        "lists the executions, with their status",
        _list,
        (
            "The words behind it need a server that answers questions (rollback-serve --ask), or a journal's file and rollback_graph.",
            "At a server that answers none, and without words, an execution of which all steps are settled isn't listed: show it by its name.",
        ),
        ("", "machine"),
    ),
)

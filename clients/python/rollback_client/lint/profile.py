"""What `define` refuses of a definition that is JSON: the profile of the language that the program takes."""
from __future__ import annotations

from . import fields
from .choices import check_choices
from .fields_of import STATES, check_count, check_language, check_names, check_text, near
from .findings import BAD, BOTH, LEFT_OUT, NO_TARGET, TOO_DEEP, Path, Report, json_string, names_listed, refusal_of
from .handlers import check_handlers
from .machine import GOING_ON, HANDLING, MOST_LEVELS, Level, State
from .paths import check_path
from .resources import check_resource
from .scanner import Node
from .templates import check_template, check_whole

_MOST_BRANCHES = 4096
_LEVELS = {
    "TOP": (fields.TOP, "a definition"),
    "BRANCH": (fields.BRANCH, "a branch"),
    "PROCESSOR": (fields.PROCESSOR, "the processor of a Map"),
}
_PATHS = ("InputPath", "ResultPath", "OutputPath")


def check_level(report: Report, level: Level) -> None:
    """Adds the faults of a level, of its states and of the levels within them."""
    table, owner = _LEVELS[level.place]
    check_names(report, level.node, level.path, table, owner)
    check_language(report, level.node, level.path)
    if level.place == "PROCESSOR":
        _check_config(report, level.node, level.path)
    _check_start(report, level)
    states = level.node.get("States")
    if states is None:
        report.missing(level.node, level.path, "States", "write an object with the states by their names")
    elif states.kind != "object":
        report.bad(
            states, (*level.path, "States"), "States", "States has to be an object", "write each state under its name"
        )
    elif level.depth > MOST_LEVELS:
        message = f"States objects nest more than {MOST_LEVELS} deep"
        report.value(
            states, (*level.path, "States"), "STATES_TOO_DEEP", message, "nest them less deep", refusal_of(TOO_DEEP)
        )
    else:
        _check_states(report, level, states)


def _check_start(report: Report, level: Level) -> None:
    start = level.node.get("StartAt")
    if start is None:
        report.missing(level.node, level.path, "StartAt", "say with which state it begins")
    elif start.text() is None:
        report.bad(
            start,
            (*level.path, "StartAt"),
            "StartAt",
            "StartAt has to be the name of a state",
            "write it within quotes",
        )
    elif _has_states(level):
        _check_target(report, level, start, (*level.path, "StartAt"))


def _has_states(level: Level) -> bool:
    states = level.node.get("States")
    return states is not None and states.kind == "object"


def _check_target(report: Report, level: Level, value: Node, path: Path) -> None:
    """Adds a name that no state of the level has. A state that is no object has its name, too."""
    states, name = level.node.get("States"), value.text()
    if name is None or states is None or name in states.fields:
        return
    names = tuple(states.fields)
    meant = near(name, names)
    elsewhere = "a state goes only to states of its own level" if level.path else ""
    advice = f"write {meant}" if meant else elsewhere or "write the name of a state, or add this state"
    replacement = meant if meant and meant.lower() == name.lower() else None
    report.value(
        value,
        path,
        "NO_SUCH_STATE",
        f"no state {name} at this level",
        advice,
        refusal_of(NO_TARGET, name),
        json_string(replacement),
    )


def _check_states(report: Report, level: Level, states: Node) -> None:
    for name, member in states.fields.items():
        path = (*level.path, "States", name)
        if member.value.kind != "object":
            report.bad(
                member.value, path, "States", "States has a state that is no object", "write an object with a Type"
            )
            continue
        state = level.states[name]
        _check_state(report, state)
        for value, place in state.transitions():
            _check_target(report, level, value, place)
        for inner in state.inner:
            check_level(report, inner)


def _check_state(report: Report, state: State) -> None:
    kind = state.node.get("Type")
    if kind is None:
        report.missing(state.node, state.path, "Type", f"write one of {names_listed(tuple(STATES))}")
        return
    if not state.type:
        meant = near(kind.text() or "", tuple(STATES))
        advice = f"write {meant}" if meant else f"write one of {names_listed(tuple(STATES))}"
        replacement = meant if meant and meant.lower() == (kind.text() or "").lower() else None
        report.bad(
            kind,
            (*state.path, "Type"),
            "Type",
            f"Type {report.shown(kind)} isn't one of the eight",
            advice,
            replacement=json_string(replacement),
        )
        return
    article = "an" if state.type[0] in "AEIO" else "a"
    check_names(report, state.node, state.path, STATES[state.type], f"{article} {state.type}")
    check_language(report, state.node, state.path)
    if state.type in GOING_ON:
        _check_transition(report, state)
    _check_processing(report, state)
    if state.type in HANDLING:
        check_handlers(report, state.node, state.path)
    _CHECKS.get(state.type, _nothing)(report, state)


def _check_transition(report: Report, state: State) -> None:
    node, path = state.node, state.path
    end, following = node.get("End"), node.get("Next")
    if end and end.kind != "boolean":
        meant = end.text() if end.text() in ("true", "false") else None
        report.bad(
            end,
            (*path, "End"),
            "End",
            "End has to be true or false",
            f"write {meant or 'true'}, without quotes",
            replacement=meant,
        )
    elif end and end.scalar is True and following:
        message = f"{state.name} has both Next and End"
        report.value(
            end, (*path, "End"), "NEXT_AND_END", message, "keep the one that is meant", refusal_of(BOTH, state.name)
        )
    elif following is None and not (end and end.scalar is True):
        report.missing(node, path, "Next", 'write the next state\'s name, or "End": true')
    elif following and following.text() is None:
        report.bad(
            following,
            (*path, "Next"),
            "Next",
            "Next has to be the name of a state",
            "write a state's name within quotes",
        )


def _check_processing(report: Report, state: State) -> None:
    table = STATES[state.type]
    for name in _PATHS:
        value = state.node.get(name)
        if value and name in table:
            check_path(report, value, (*state.path, name), name, True)
    for name in ("Parameters", "ResultSelector", "ItemSelector"):
        value = state.node.get(name)
        if value and name in table:
            items = state.type == "Map" and name != "ResultSelector"
            check_template(report, value, (*state.path, name), name, items)


def _check_config(report: Report, node: Node, path: Path) -> None:
    config = node.get("ProcessorConfig")
    if config is None:
        return
    place = (*path, "ProcessorConfig")
    if config.kind != "object":
        report.bad(
            config,
            place,
            "ProcessorConfig",
            "ProcessorConfig has to be an object",
            'write {"Mode":"INLINE"}, or remove it',
        )
        return
    mode = config.get("Mode")
    if mode is None or mode.text() == "INLINE":
        return
    place = (*place, "Mode")
    if mode.text() == "DISTRIBUTED":
        message, advice = (
            "Mode is DISTRIBUTED, and distributed Maps are left out",
            "write INLINE, and give it at most 4096 elements",
        )
        report.value(mode, place, "DISTRIBUTED_MAP", message, advice, refusal_of(LEFT_OUT, "Mode"))
    else:
        report.bad(mode, place, "Mode", "Mode has to be INLINE", "write INLINE, or remove it")


def _check_pass(report: Report, state: State) -> None:
    result = state.node.get("Result")
    if result:
        check_whole(report, result, (*state.path, "Result"), "Result")


def _check_task(report: Report, state: State) -> None:
    check_resource(report, state.node, state.path)


def _check_choice(report: Report, state: State) -> None:
    check_choices(report, state.node, state.path)
    check_text(report, state.node, state.path, "Default")


def _check_fail(report: Report, state: State) -> None:
    check_text(report, state.node, state.path, "Error")
    check_text(report, state.node, state.path, "Cause")


def _check_parallel(report: Report, state: State) -> None:
    node, path = state.node, state.path
    branches = node.get("Branches")
    if branches is None:
        report.missing(node, path, "Branches", "write a list of branches, each with StartAt and States")
        return
    place = (*path, "Branches")
    if branches.kind != "array":
        report.bad(branches, place, "Branches", "Branches has to be a list", "write a list of branches")
    elif len(branches.items) > _MOST_BRANCHES:
        report.bad(
            branches, place, "Branches", f"Branches has more than {_MOST_BRANCHES} branches", "go over a list by a Map"
        )
    for at, branch in enumerate(branches.items):
        if branch.kind != "object":
            report.bad(
                branch, (*place, at), "Branches", "Branches has a branch that is no object", "write StartAt and States"
            )


def _check_map(report: Report, state: State) -> None:
    node, path = state.node, state.path
    check_count(report, node, path, "MaxConcurrency")
    if "ItemsPath" in node.fields:
        check_path(report, node.fields["ItemsPath"].value, (*path, "ItemsPath"), "ItemsPath", False)
    for newer, older in (("ItemSelector", "Parameters"), ("ItemProcessor", "Iterator")):
        if newer in node.fields and older in node.fields:
            message = f"{older} is the older name of {newer}, which is there, too"
            report.name(node, older, path, "BAD_VALUE", message, "keep one of the two", refusal_of(BAD, older))
    if "ItemProcessor" not in node.fields and "Iterator" not in node.fields:
        report.missing(node, path, "ItemProcessor", "write the states that each element goes through")
    for name in ("ItemProcessor", "Iterator"):
        processor = node.get(name)
        if processor and processor.kind != "object":
            report.bad(processor, (*path, name), name, f"{name} has to be an object", "write StartAt and States")


def _nothing(report: Report, state: State) -> None:
    """Of the types that have no fields of their own."""


_CHECKS = {
    "Pass": _check_pass,
    "Task": _check_task,
    "Choice": _check_choice,
    "Fail": _check_fail,
    "Parallel": _check_parallel,
    "Map": _check_map,
}

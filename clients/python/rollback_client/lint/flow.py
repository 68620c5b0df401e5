"""Where a machine's states lead: what can't be reached, what can't end, what goes round through a Wait."""
from __future__ import annotations

from .coverage import said, uncovered
from .findings import Report, place_of
from .graph import Edges, in_loops, reached_from, turned
from .machine import HANDLING, Level, State
from .scanner import Node

_KEEP_TIME = "run it by a runner, as rollback-serve --run"


def check_flow(report: Report, level: Level) -> None:
    """Adds the warnings of one level's transitions."""
    start, states = level.start, level.states
    edges = {name: {other for other in state.following() if other in states} for name, state in states.items()}
    reached = reached_from([start], edges) if start is not None and start in states else set(states)
    looping = in_loops(edges)
    for name, state in states.items():
        if name not in reached:
            message = f"{name} can't be reached from {start}"
            _at_name(report, level, name, "UNREACHABLE_STATE", message, "name it in a Next, or remove it")
        if state.type == "Wait" and name in looping:
            message = f"{name} is in a loop and needs a runner, since drive and work go round at once"
            _at_name(report, level, name, "NEEDS_RUNNER", message, _KEEP_TIME)
    _check_ends(report, level, edges, reached)


def _check_ends(report: Report, level: Level, edges: Edges, reached: set[str]) -> None:
    """Adds the states that never come to an end, once for all of a level."""
    ending = [name for name, state in level.states.items() if _may_end(state, edges[name])]
    going = reached_from(ending, turned(edges))
    stuck = [name for name in level.states if name in reached and name not in going]
    if stuck:
        message = f"no end can be reached from {', '.join(stuck)}"
        advice = 'give one of them "End": true, or a way to a Succeed or a Fail'
        _at_name(report, level, stuck[0], "NO_END", message, advice)


def _may_end(state: State, others: set[str]) -> bool:
    """Whether it ends, or leads to what isn't known: that has an error of its own, and is no endless loop."""
    return state.ends() or not others or others != state.following()


def _at_name(report: Report, level: Level, name: str, code: str, message: str, help: str) -> None:
    states = level.node.fields["States"].value
    report.name(states, name, (*level.path, "States"), code, message, help)


def check_same_names(report: Report, top: Level) -> None:
    """Adds each state that has the name of an earlier one at another level."""
    first: dict[str, State] = {}
    for level in top.all_levels():
        for name, state in level.states.items():
            if name in first:
                message = f"{place_of(first[name].path)} has the name {name}, too"
                _at_name(report, level, name, "SAME_NAME", message, "give each state of the machine a name of its own")
            first.setdefault(name, state)


def check_covers(report: Report, state: State) -> None:
    """Adds a Choice without Default for which there is an input that no rule takes."""
    choices = state.node.get("Choices")
    if "Default" in state.node.fields or choices is None or not choices.items:
        return
    given = uncovered(choices)
    if given is not None:
        example = f" if {said(given)}" if given else ""
        message = f"{state.name} has no Default, and no rule holds{example}"
        advice = "add a Default, else the execution fails with States.NoChoiceMatched"
        report.object(state.node, state.path, "NOT_COVERED", message, advice)


def check_intervals(report: Report, state: State) -> None:
    """Adds each retrier that is to wait before it tries again."""
    retry = state.node.get("Retry") if state.type in HANDLING else None
    for at, item in enumerate(retry.items if retry else ()):
        interval = item.get("IntervalSeconds")
        if interval and not _is_zero(interval):
            path = (*state.path, "Retry", at, "IntervalSeconds")
            message = "an interval needs a runner, since drive and work try again at once"
            report.value(interval, path, "NEEDS_RUNNER", message, f"{_KEEP_TIME}, or expect all tries at once")


def _is_zero(node: Node) -> bool:
    return node.kind == "number" and node.scalar == 0

"""What a state makes of a frame: the plain states, calls, forks, errors with their retriers and catchers."""
from __future__ import annotations

import json
from dataclasses import dataclass, replace
from typing import Any, Dict, List, Optional, Sequence, Tuple, Union

from .items import VALIDATION, Call, Malformed, call_of
from .values import MOST_LEVELS, NOTHING, PicksNothing, depth, fill, path_of, pick, place

MOST_BRANCHES = 4096
RUNTIME, PARAMETERS, PLACING = "States.Runtime", "States.ParameterPathFailure", "States.ResultPathMatchFailure"
Place = Tuple[Union[str, int], ...]
State = Dict[str, Any]


@dataclass(frozen=True)
class Frame:
    """Where a thread is. `level` leads to the `States` object within the definition."""

    machine: str
    level: Place
    state: str
    input: Any
    moves: int = 0
    counters: Tuple[int, ...] = ()
    phase: str = "ready"  # or parked, done, failed
    branches: int = 0
    bound: int = 0
    output: Any = None
    error: str = ""
    cause: str = ""
    retrier: Optional[int] = None  # that the last step used

    @property
    def at(self) -> Place:
        """The state's place in the definition."""
        return (*self.level, "States", self.state)


@dataclass(frozen=True)
class Why:
    """Why a turn fails: the kind, the place within the state, and of a path what picks nothing of what."""

    case: str
    place: Place = ()
    path: Optional[str] = None
    of: Any = None


class Failure(Exception):
    """An error of a turn. Its origin is `call`, `branch` of a Parallel, or `other`."""

    def __init__(self, error: str, why: Why, cause: str = "", origin: str = "other"):
        super().__init__(error)
        self.error, self.why, self.cause, self.origin = error, why, cause, origin


@dataclass
class Fork:
    """A parked frame, and the frames of its branches."""

    parked: Frame
    branches: List[Frame]


class Machine:
    """A definition that was accepted."""

    def __init__(self, name: str, text: str):
        self.name, self.text = name, text
        self.definition = json.loads(text)  # unread fields may have any numbers

    def at(self, place: Place) -> Any:
        """What is at a place of the definition."""
        found = self.definition
        for step in place:
            found = found[step]
        return found

    def state(self, frame: Frame) -> State:
        """The state of a frame."""
        found = self.at(frame.at)
        assert isinstance(found, dict)
        return found

    def first(self, level: Place, value: Any) -> Frame:
        """The frame with which a level begins."""
        return self._enters(level, self.at(level)["StartAt"], value, 0)

    def _enters(self, level: Place, state: str, value: Any, moves: int) -> Frame:
        retriers = self.at((*level, "States", state)).get("Retry", [])
        return Frame(self.name, level, state, value, moves, (0,) * len(retriers))

    # ---- turns

    def turn(self, frame: Frame) -> Union[Frame, Call, Fork]:
        """What the turn of a ready frame comes to: a frame, a call of the table, or a fork. An error is handled."""
        try:
            return self.tried(frame)
        except Failure as failure:
            return self.handled(frame, failure)

    def tried(self, frame: Frame) -> Union[Frame, Call, Fork]:
        """What the turn of a ready frame comes to, or its `Failure`."""
        state = self.state(frame)
        kind = state["Type"]
        if kind == "Fail":
            raise Failure(state.get("Error", ""), Why("fail"), state.get("Cause", ""))
        if kind == "Map":
            return self._map(frame, state)
        effective = effective_input(state, frame.input)
        if kind == "Task":
            action = state["Resource"].rpartition(":")[2]
            try:
                return call_of(action, effective)
            except Malformed as fault:
                place = ("Parameters", fault.field) if fault.field else ("Parameters",)
                raise Failure(VALIDATION, Why("call", place), origin="call") from None
        if kind == "Parallel":
            levels = [(*frame.at, "Branches", number) for number in range(len(state["Branches"]))]
            if levels and depth(effective) > MOST_LEVELS:
                raise Failure(RUNTIME, Why("deep"))
            return self._forks(frame, [self.first(level, effective) for level in levels], 0)
        if kind == "Choice":
            chosen = _chosen(state, effective)
            return self._enters(frame.level, chosen, _passed_on(state, frame.input, effective), frame.moves + 1)
        result = state["Result"] if kind == "Pass" and "Result" in state else effective
        return self.goes_on(frame, state, _passed_on(state, frame.input, result))

    def goes_on(self, frame: Frame, state: State, output: Any) -> Frame:
        """The frame after its state has passed a value on."""
        if "Next" in state:
            return self._enters(frame.level, state["Next"], output, frame.moves + 1)
        return replace(frame, phase="done", output=output, moves=frame.moves + 1, branches=0, bound=0, retrier=None)

    def after_result(self, frame: Frame, result: Any) -> Frame:
        """The frame after its state's work has given a result, an answer or the outputs of branches; or its `Failure`."""
        state = self.state(frame)
        return self.goes_on(frame, state, _passed_on(state, frame.input, result))

    def branch_failure(self, frame: Frame, failed: Frame) -> Failure:
        """The error that is taken from a branch."""
        origin = "branch" if self.state(frame)["Type"] == "Parallel" else "other"
        return Failure(failed.error, Why("branch"), failed.cause, origin)

    def _map(self, frame: Frame, state: State) -> Fork:
        selected = _picked(("InputPath",), state.get("InputPath", "$"), frame.input)
        found = _picked(("ItemsPath",), state.get("ItemsPath", "$"), selected)
        if not isinstance(found, list):
            raise Failure(RUNTIME, Why("list", ("ItemsPath",)))
        if len(found) > MOST_BRANCHES:
            raise Failure(RUNTIME, Why("many", ("ItemsPath",)))
        level = (*frame.at, "ItemProcessor" if "ItemProcessor" in state else "Iterator")
        field = next((name for name in ("ItemSelector", "Parameters") if name in state), None)
        branches = []
        for index, item in enumerate(found):
            value = item if field is None else _filled(state[field], (field,), selected, item, index)
            if depth(value) > MOST_LEVELS:
                raise Failure(RUNTIME, Why("deep"))
            branches.append(self.first(level, value))
        return self._forks(frame, branches, state.get("MaxConcurrency", 0))

    def _forks(self, frame: Frame, branches: List[Frame], bound: int) -> Fork:
        parked = replace(frame, phase="parked", branches=len(branches), bound=bound, moves=frame.moves + 1, retrier=None)
        return Fork(parked, branches)

    # ---- errors

    def handled(self, frame: Frame, failure: Failure) -> Frame:
        """The frame after an error: tried again, caught, or failed."""
        state = self.state(frame)
        moves = frame.moves + 1
        for number, retrier in enumerate(state.get("Retry", [])):
            if _stands_for(retrier["ErrorEquals"], failure):
                if frame.counters[number] < retrier.get("MaxAttempts", 3):
                    counters = [*frame.counters]
                    counters[number] += 1
                    return replace(frame, phase="ready", branches=0, bound=0, counters=tuple(counters), moves=moves, retrier=number)
                break
        failed = replace(frame, phase="failed", branches=0, bound=0, moves=moves, retrier=None)
        for catcher in state.get("Catch", []):
            if _stands_for(catcher["ErrorEquals"], failure):
                caught = {"Cause": failure.cause, "Error": failure.error}
                try:
                    placed = _held(_placed(catcher, frame.input, caught))
                except Failure as other:
                    failure.why = other.why
                    return replace(failed, error=other.error, cause=other.cause)
                return self._enters(frame.level, catcher["Next"], placed, moves)
        return replace(failed, error=failure.error, cause=failure.cause)


def _stands_for(names: Sequence[str], failure: Failure) -> bool:
    if failure.error == RUNTIME:
        return False
    for name in names:
        if name == "States.TaskFailed":
            found = failure.origin == "call"
        else:
            found = name == "States.ALL" or name == failure.error or name == "States.BranchFailed" and failure.origin == "branch"
        if found:
            return True
    return False


# ---- paths and templates of a state


def _picked(place: Place, path: Optional[str], value: Any) -> Any:
    if path is None:
        return {}
    steps = path_of(path)
    found = NOTHING if steps is None else pick(steps, value)
    if found is NOTHING:
        raise Failure(RUNTIME, Why("path", place, path, value))
    return found


def _filled(template: Any, place: Place, value: Any, item: Any = NOTHING, index: int = 0) -> Any:
    try:
        return fill(template, value, item, index)
    except PicksNothing as fault:
        raise Failure(PARAMETERS, Why("path", (*place, *fault.place), fault.path, fault.of)) from None


def effective_input(state: State, value: Any) -> Any:
    """What a state works on, of what its thread had before it."""
    selected = _picked(("InputPath",), state.get("InputPath", "$"), value)
    return _filled(state["Parameters"], ("Parameters",), selected) if "Parameters" in state else selected


def _placed(of: State, root: Any, value: Any) -> Any:
    path = of.get("ResultPath", "$")
    if path is None:
        return root
    found = place(path_of(path) or [], root, value)
    if found is NOTHING:
        raise Failure(PLACING, Why("placing", ("ResultPath",)))
    return found


def _held(value: Any) -> Any:
    if depth(value) > MOST_LEVELS:
        raise Failure(RUNTIME, Why("deep"))
    return value


def _passed_on(state: State, root: Any, result: Any) -> Any:
    if "ResultSelector" in state:
        result = _filled(state["ResultSelector"], ("ResultSelector",), result)
    return _held(_picked(("OutputPath",), state.get("OutputPath", "$"), _placed(state, root, result)))


# ---- choices


def _chosen(state: State, value: Any) -> str:
    for number, rule in enumerate(state["Choices"]):
        if _holds(rule, value, ("Choices", number)):
            return str(rule["Next"])
    if "Default" in state:
        return str(state["Default"])
    raise Failure("States.NoChoiceMatched", Why("choice", ("Choices",)))


def _holds(test: Dict[str, Any], value: Any, place: Place) -> bool:
    if "And" in test:
        return all(_holds(part, value, (*place, "And", number)) for number, part in enumerate(test["And"]))
    if "Or" in test:
        return any(_holds(part, value, (*place, "Or", number)) for number, part in enumerate(test["Or"]))
    if "Not" in test:
        return not _holds(test["Not"], value, (*place, "Not"))
    found = pick(path_of(test["Variable"]) or [], value)
    ((name, wanted),) = [pair for pair in test.items() if pair[0] not in ("Variable", "Next", "Comment")]
    if name == "IsPresent":
        return (found is not NOTHING) == wanted
    if found is NOTHING:
        raise Failure(RUNTIME, Why("path", (*place, "Variable"), test["Variable"], value))
    if name in _KINDS:
        return _KINDS[name](found) == wanted
    kind = "IsString" if name.startswith("String") else "IsNumeric" if name.startswith("Numeric") else "IsBoolean"
    if not _KINDS[kind](found):
        return False
    relation = name.removeprefix("String").removeprefix("Numeric").removeprefix("Boolean")
    return {
        "Equals": found == wanted,
        "LessThan": found < wanted,
        "GreaterThan": found > wanted,
        "LessThanEquals": found <= wanted,
        "GreaterThanEquals": found >= wanted,
    }[relation]


_KINDS = {
    "IsNull": lambda found: found is None,
    "IsString": lambda found: isinstance(found, str),
    "IsNumeric": lambda found: isinstance(found, int) and not isinstance(found, bool),
    "IsBoolean": lambda found: isinstance(found, bool),
}

"""The events of one execution, made of its remaining steps."""
from __future__ import annotations

from dataclasses import dataclass
from typing import Any, Callable, Dict, List, Mapping, Optional, Tuple

from .book import canonical
from .filling import PicksNothing, effective, input_of_branch

CONDITION = "DynamoDB.ConditionalCheckFailedException"
Answer = Dict[str, Any]


class Machine:
    """A definition, and at which of its levels each thread of an execution is."""

    def __init__(self, definition: Mapping[str, Any], threads: List[Answer]):
        self._top = definition
        self._states = {
            (row["thread"], int(row["step"].rpartition("#")[2])): row["state"]
            for thread in threads
            for row in thread["steps"]
        }

    @property
    def start_at(self) -> str:
        """The first state."""
        return str(self._top.get("StartAt", ""))

    def level(self, thread: str) -> Mapping[str, Any]:
        """The object that has the States of a thread; an empty one if its fork doesn't remain."""
        above, _, branch = thread.rpartition("/")
        if not above:
            return self._top
        number, _, index = branch.partition(".")
        state = self.state(above, self._states.get((above, int(number))))
        if state.get("Type") == "Map":
            return _object(state.get("ItemProcessor", state.get("Iterator")))
        branches = state.get("Branches")
        at = int(index)
        return _object(branches[at] if isinstance(branches, list) and at < len(branches) else None)

    def state(self, thread: str, name: Optional[str]) -> Mapping[str, Any]:
        """A state of a thread; an empty one if it isn't found."""
        return _object(_object(self.level(thread).get("States")).get(name or ""))


def _object(value: Any) -> Mapping[str, Any]:
    return value if isinstance(value, dict) else {}


@dataclass(frozen=True)
class Setting:
    """What a history has from elsewhere: the region, the table's name, and the moment of each line."""

    region: str
    table: Optional[str]
    moment: Callable[[int], float]


class Events:
    """Makes events one after another. `items` has what calls found before them, by their steps."""

    def __init__(self, shown: Answer, machine: Machine, setting: Setting, items: Mapping[str, Any]):
        self._shown, self._machine, self._setting, self._items = shown, machine, setting, items
        self._threads = {thread["thread"]: thread for thread in shown["threads"]}
        self._entered: Dict[str, str] = {}  # the state in which a thread is
        self._begun: Dict[str, Tuple[str, int]] = {}  # branches of Maps: their Map's name and their index
        self._last: Dict[str, int] = {}  # the last event of each thread
        self._ended: Dict[str, str] = {}
        self._time = 0.0
        self.events: List[Answer] = []

    def make(self, input: str, role: str, started: float) -> List[Answer]:
        """All of them."""
        name = self._shown["execution"]
        self._time = started
        details = {"input": input, "inputDetails": {"truncated": False}, "roleArn": role}
        self._add("ExecutionStarted", name, None, executionStartedEventDetails=details)
        # the first state has none before it, as at Amazon
        self._last[name] = 0
        steps = [step for thread in self._shown["threads"] for step in thread["steps"]]
        for step in sorted(steps, key=lambda step: int(step["entry"])):
            if step["kind"] == "start":
                self._enter(name, self._machine.start_at, self._shown["input"], step["entry"])
            else:
                self._step(step)
        self._rest(name)
        return self.events

    def _add(self, kind: str, thread: str, entry: Optional[int], **details: Any) -> None:
        if entry is not None:
            self._time = max(self._time, self._setting.moment(entry))
        number = len(self.events) + 1
        before = self._last.get(thread, self._last.get(thread.rpartition("/")[0], 0))
        self.events.append(
            {
                "timestamp": round(self._time, 3),
                "type": kind,
                "id": number,
                "previousEventId": before,
                **details,
            }
        )
        self._last[thread] = number

    def _enter(self, thread: str, state: str, input: Any, entry: Optional[int]) -> None:
        self._entered[thread] = state
        kind = self._machine.state(thread, state).get("Type")
        if kind is not None:
            details = {"name": state, "input": canonical(input), "inputDetails": {"truncated": False}}
            self._add(f"{kind}StateEntered", thread, entry, stateEnteredEventDetails=details)

    def _exit(self, step: Answer) -> None:
        details = {
            "name": step["state"],
            "output": canonical(step["output"]),
            "outputDetails": {"truncated": False},
        }
        self._entered.pop(step["thread"], None)
        self._add(f"{step['type']}StateExited", step["thread"], step["entry"], stateExitedEventDetails=details)

    # ---- a step

    def _step(self, step: Answer) -> None:
        thread, outcome = step["thread"], step["outcome"]
        if self._entered.get(thread) != step["state"]:
            # a branch that waited for others, or a thread whose earlier steps are settled
            self._begin_branch(thread, step["input"], step["entry"], step["state"])
        if step["kind"] == "fork":
            self._fork(step)
        elif step["kind"] in ("join", "terminate"):
            self._close(step)
        elif step["type"] == "Task":
            self._call(step)
        to = outcome["to"]
        if to in ("next", "caught"):
            self._exit(step)
            self._enter(thread, outcome["state"], step["output"], step["entry"])
        elif to == "done":
            self._exit(step)
            self._end(thread, step["entry"], step["output"])
        elif to == "failed":
            self._fail(thread, step["entry"], outcome["error"])

    def _end(self, thread: str, entry: Optional[int], output: Any) -> None:
        self._ended[thread] = "done"
        if "/" not in thread:
            details = {"output": canonical(output), "outputDetails": {"truncated": False}}
            self._add("ExecutionSucceeded", thread, entry, executionSucceededEventDetails=details)
        elif thread in self._begun:
            self._iteration("Succeeded", thread, entry)

    def _fail(self, thread: str, entry: Optional[int], error: str) -> None:
        self._ended[thread] = "failed"
        if "/" not in thread:
            details = {"error": error[:256], "cause": (self._shown["cause"] or "")[:32_768]}
            self._add("ExecutionFailed", thread, entry, executionFailedEventDetails=details)
        elif thread in self._begun:
            self._iteration("Failed", thread, entry)

    def _iteration(self, word: str, thread: str, entry: Optional[int]) -> None:
        name, index = self._begun[thread]
        member = f"mapIteration{word}EventDetails"
        self._add(f"MapIteration{word}", thread, entry, **{member: {"name": name, "index": index}})

    # ---- branches

    def _fork(self, step: Answer) -> None:
        thread, count = step["thread"], step["outcome"].get("branches", 0)
        state = self._machine.state(thread, step["state"])
        details = {"mapStateStartedEventDetails": {"length": count}} if step["type"] == "Map" else {}
        self._add(f"{step['type']}StateStarted", thread, step["entry"], **details)
        bound = state.get("MaxConcurrency") or count
        number = step["step"].rpartition("#")[2]
        for index in range(min(count, bound) if step["type"] == "Map" else count):
            branch = f"{thread}/{number}.{index}"
            input = self._input_of(branch, state, step["input"], index)
            self._last[branch] = self._last[thread]
            self._begin_branch(branch, input, step["entry"], str(self._machine.level(branch).get("StartAt", "")))

    def _input_of(self, branch: str, state: Mapping[str, Any], input: Any, index: int) -> Any:
        known = self._threads.get(branch)
        if known is not None and known["steps"]:
            return known["steps"][0]["input"]
        if known is not None and known["frame"] is not None:
            return known["frame"]["input"]
        try:
            return input_of_branch(state, input, index)
        except PicksNothing:
            return {}

    def _begin_branch(self, thread: str, input: Any, entry: int, state: str) -> None:
        above, _, branch = thread.rpartition("/")
        if above and thread not in self._begun:
            of = self._entered.get(above, "")
            if self._machine.state(above, of).get("Type") == "Map":
                self._begun[thread] = (of, int(branch.partition(".")[2]))
                self._iteration("Started", thread, entry)
        self._enter(thread, state, input, entry)

    def _close(self, step: Answer) -> None:
        """The end of a fork: its branches are done, or one has failed and the others are taken out."""
        thread = step["thread"]
        fork = f"{thread}/{int(step['step'].rpartition('#')[2]) - 1}."
        own = [branch for branch in self._last if branch.startswith(fork) and "/" not in branch[len(fork) :]]
        if step["kind"] == "terminate":
            for branch in own:
                if branch in self._begun and branch not in self._ended:
                    self._iteration("Aborted", branch, step["entry"])
        self._last[thread] = max([self._last.get(thread, 0), *(self._last[branch] for branch in own)])
        if step["outcome"]["to"] != "retry":
            word = "Succeeded" if step["kind"] == "join" else "Failed"
            self._add(f"{step['type']}State{word}", thread, step["entry"])

    # ---- calls

    def _call(self, step: Answer) -> None:
        """A Task's call of the table. If its input can't be made, there is none."""
        thread, entry = step["thread"], step["entry"]
        state = self._machine.state(thread, step["state"])
        try:
            parameters = effective(state, step["input"])
        except PicksNothing:
            return
        resource = {"resourceType": "dynamodb", "resource": str(state.get("Resource", "")).rpartition(":")[2] or "call"}
        scheduled = {**resource, "region": self._setting.region, "parameters": canonical(parameters)}
        self._add("TaskScheduled", thread, entry, taskScheduledEventDetails=scheduled)
        self._add("TaskStarted", thread, entry, taskStartedEventDetails=resource)
        if step["access"] in ("read", "write"):
            output = canonical(self._answer(step, resource["resource"], parameters))
            details = {**resource, "output": output, "outputDetails": {"truncated": False}}
            self._add("TaskSucceeded", thread, entry, taskSucceededEventDetails=details)
        else:
            details = {**resource, "error": self._error_of(step, parameters), "cause": ""}
            self._add("TaskFailed", thread, entry, taskFailedEventDetails=details)

    def _answer(self, step: Answer, call: str, parameters: Any) -> Any:
        before = self._items.get(step["step"])
        if before is None:
            return {}
        if call == "getItem":
            return {"Item": before}
        return {"Attributes": before} if _object(parameters).get("ReturnValues") == "ALL_OLD" else {}

    def _error_of(self, step: Answer, parameters: Any) -> str:
        if step["access"] == "refused":
            return CONDITION
        if step["outcome"]["to"] == "failed":
            return str(step["outcome"]["error"])
        named = _object(parameters).get("TableName")
        is_other = isinstance(named, str) and named != self._setting.table
        return f"DynamoDB.{'ResourceNotFoundException' if is_other else 'ValidationException'}"

    # ---- what no step tells

    def _rest(self, name: str) -> None:
        """Where threads are whose steps are settled."""
        for thread, known in self._threads.items():
            frame = known["frame"]
            if frame is not None and frame["phase"] in ("ready", "parked") and thread not in self._entered:
                self._enter(thread, frame["state"], frame["input"], None)
        if name not in self._ended and self._shown["status"] == "done":
            self._end(name, None, self._shown["output"])
        elif name not in self._ended and self._shown["status"] == "failed":
            self._fail(name, None, self._shown["error"])

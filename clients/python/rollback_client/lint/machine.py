"""A definition's levels and states, as far as they can be made out."""
from __future__ import annotations

from dataclasses import dataclass, field
from typing import Iterator, Optional

from .fields_of import STATES
from .findings import Path
from .scanner import Node

MOST_LEVELS = 32
# Which types of states go on by Next or end by End.
GOING_ON = ("Pass", "Task", "Wait", "Parallel", "Map")
HANDLING = ("Task", "Parallel", "Map")


@dataclass
class State:
    """A state. `type` is empty if it is none of the eight."""

    name: str
    node: Node
    path: Path
    type: str
    inner: list[Level] = field(default_factory=list)

    def transitions(self) -> Iterator[tuple[Node, Path]]:
        """Each value that names a next state, with its path. Faulty ones are among them."""
        if self.type in GOING_ON and "Next" in self.node.fields:
            yield self.node.fields["Next"].value, (*self.path, "Next")
        if self.type in HANDLING:
            yield from self._listed("Catch")
        if self.type == "Choice":
            yield from self._listed("Choices")
            if "Default" in self.node.fields:
                yield self.node.fields["Default"].value, (*self.path, "Default")

    def _listed(self, name: str) -> Iterator[tuple[Node, Path]]:
        listed = self.node.get(name)
        for at, item in enumerate(listed.items if listed else ()):
            if "Next" in item.fields:
                yield item.fields["Next"].value, (*self.path, name, at, "Next")

    def following(self) -> set[str]:
        """The names of the states that it may go to."""
        texts = (value.text() for value, _ in self.transitions())
        return {text for text in texts if text is not None}

    def ends(self) -> bool:
        """Whether an execution, or a branch, may end in it."""
        end = self.node.get("End")
        return self.type in ("Succeed", "Fail") or end is not None and end.scalar is True


@dataclass
class Level:
    """The top, a branch of a Parallel or the processor of a Map: an object with StartAt and States."""

    node: Node
    path: Path
    place: str
    depth: int
    states: dict[str, State] = field(default_factory=dict)

    @property
    def start(self) -> Optional[str]:
        return self.node.text_of("StartAt")

    def all_states(self) -> Iterator[State]:
        """Its states, and those of the levels within them."""
        for state in self.states.values():
            yield state
            for level in state.inner:
                yield from level.all_states()

    def all_levels(self) -> Iterator[Level]:
        """This level and those within it."""
        yield self
        for state in self.states.values():
            for level in state.inner:
                yield from level.all_levels()


def read_level(node: Node, path: Path = (), place: str = "TOP", depth: int = 1) -> Level:
    """The level of an object, with all within it. What isn't an object is left out."""
    level = Level(node, path, place, depth)
    states = node.get("States")
    for name, member in (states.fields if states else {}).items():
        if member.value.kind == "object":
            level.states[name] = _read_state(name, member.value, (*path, "States", name), depth)
    return level


def _read_state(name: str, node: Node, path: Path, depth: int) -> State:
    kind = node.text_of("Type") or ""
    state = State(name, node, path, kind if kind in STATES else "")
    if state.type == "Parallel":
        branches = node.get("Branches")
        for at, branch in enumerate(branches.items if branches else ()):
            if branch.kind == "object":
                state.inner.append(read_level(branch, (*path, "Branches", at), "BRANCH", depth + 1))
    if state.type == "Map":
        for field_name in ("ItemProcessor", "Iterator"):
            processor = node.get(field_name)
            if processor and processor.kind == "object":
                state.inner.append(read_level(processor, (*path, field_name), "PROCESSOR", depth + 1))
    return state

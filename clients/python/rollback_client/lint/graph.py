"""Ways through a directed graph, whose edges lead from each name to others."""
from __future__ import annotations

from typing import Iterable, Iterator

Edges = dict[str, set[str]]


def turned(edges: Edges) -> Edges:
    """The edges the other way round."""
    back: Edges = {name: set() for name in edges}
    for name, others in edges.items():
        for other in others:
            back[other].add(name)
    return back


def reached_from(names: Iterable[str], edges: Edges) -> set[str]:
    """The names to which there is a way from these, with themselves."""
    found: set[str] = set()
    todo = list(names)
    while todo:
        name = todo.pop()
        if name not in found:
            found.add(name)
            todo += edges[name]
    return found


class _Components:
    """Strongly connected components, by Tarjan's algorithm without recursion."""

    def __init__(self, edges: Edges):
        self.edges = edges
        self.number: dict[str, int] = {}
        self.least: dict[str, int] = {}
        self.stack: list[str] = []
        self.stacked: set[str] = set()
        self.found: list[set[str]] = []
        for name in edges:
            if name not in self.number:
                self._visit(name)

    def _enter(self, name: str) -> tuple[str, Iterator[str]]:
        self.number[name] = self.least[name] = len(self.number)
        self.stack.append(name)
        self.stacked.add(name)
        return name, iter(self.edges[name])

    def _visit(self, root: str) -> None:
        open_names = [self._enter(root)]
        while open_names:
            name, others = open_names[-1]
            for other in others:
                if other not in self.number:
                    open_names.append(self._enter(other))
                    break
                if other in self.stacked:
                    self.least[name] = min(self.least[name], self.number[other])
            else:
                open_names.pop()
                if open_names:
                    before = open_names[-1][0]
                    self.least[before] = min(self.least[before], self.least[name])
                self._leave(name)

    def _leave(self, name: str) -> None:
        if self.least[name] == self.number[name]:
            at = self.stack.index(name)
            component = set(self.stack[at:])
            del self.stack[at:]
            self.stacked -= component
            self.found.append(component)


def in_loops(edges: Edges) -> set[str]:
    """The names from which there is a way back to themselves."""
    looping: set[str] = set()
    for component in _Components(edges).found:
        if len(component) > 1 or component & edges[next(iter(component))]:
            looping |= component
    return looping

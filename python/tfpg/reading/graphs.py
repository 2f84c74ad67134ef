"""Reads what the lines of a graph declare. Whether a text spells a graph, the program says: lines that declare nothing are skipped here."""

from __future__ import annotations

from dataclasses import dataclass
from typing import Dict, FrozenSet, Iterable, List, Optional, Set, Tuple

from ..limits import LONGEST_LINE
from .texts import is_number, lines_of, number_of

HEADERS = {"tfpg 1": 1, "tfpg 2": 2}


@dataclass(frozen=True)
class Node:
    """A failure mode or a discrepancy. Lags are a least and a greatest one in milliseconds, or nothing where there is no monitor."""

    number: int
    name: str
    kind: str  # failure, or, and
    rarity: int
    lags: Optional[Tuple[int, int]]
    line: int


@dataclass(frozen=True)
class Edge:
    """An edge, with its delays in milliseconds. Without a greatest delay it may carry a failure, and never has to."""

    number: int
    source: int
    target: int
    least: int
    greatest: Optional[int]
    modes: FrozenSet[int]
    line: int


class DeclaredGraph:
    """The modes, nodes and edges that the lines of a text declare, by their numbers."""

    def __init__(self, lines: Iterable[str]) -> None:
        self.modes: List[str] = []
        self.mode_lines: List[int] = []
        self.nodes: List[Node] = []
        self.edges: List[Edge] = []
        self.number_of: Dict[str, int] = {}
        self.version = 1
        self.end_line: Optional[int] = None
        for number, line in enumerate(lines, 1):
            self._take(number, line)
        self.incoming: List[List[Edge]] = [[] for _ in self.nodes]
        self.outgoing: List[List[Edge]] = [[] for _ in self.nodes]
        for edge in self.edges:
            self.incoming[edge.target].append(edge)
            self.outgoing[edge.source].append(edge)
        self.failures = [node.number for node in self.nodes if node.kind == "failure"]
        self.monitored = [node.number for node in self.nodes if node.lags is not None]

    def _take(self, number: int, line: str) -> None:
        if number == 1:
            self.version = HEADERS.get(line, 1)
            return
        if len(line) > LONGEST_LINE or line.startswith("#") or self.end_line is not None:
            return
        words = line.split(" ")
        if words[0] == "mode" and len(words) == 2:
            self.modes.append(words[1])
            self.mode_lines.append(number)
        elif words[0] in ("failure", "or", "and"):
            self._take_node(number, words)
        elif words[0] == "edge" and len(words) == 6:
            self._take_edge(number, words)
        elif line == "end":
            self.end_line = number

    def _take_node(self, line: int, words: List[str]) -> None:
        numbers = [number_of(word) for word in words[2 if words[0] == "failure" else 3:] if is_number(word)]
        if len(words) < 3 or words[1] in self.number_of:
            return
        rarity = numbers[0] if words[0] == "failure" and numbers else 0
        lags = (numbers[0] if len(numbers) > 1 else 0, numbers[-1]) if words[2] == "watch" and numbers else None
        self.number_of[words[1]] = len(self.nodes)
        self.nodes.append(Node(len(self.nodes), words[1], words[0], rarity, lags, line))

    def _take_edge(self, line: int, words: List[str]) -> None:
        _, source, target, least, greatest, where = words
        known = source in self.number_of and target in self.number_of and is_number(least)
        if not known or not (greatest == "inf" or is_number(greatest)):
            return
        names = self.modes if where == "*" else where.split(",")
        modes = frozenset(self.modes.index(name) for name in names if name in self.modes)
        latest = None if greatest == "inf" else number_of(greatest)
        ends = self.number_of[source], self.number_of[target]
        self.edges.append(Edge(len(self.edges), ends[0], ends[1], number_of(least), latest, modes, line))

    def name(self, node: int) -> str:
        return self.nodes[node].name

    def node(self, name: str) -> Node:
        """The node of this name, or KeyError."""
        return self.nodes[self.number_of[name]]

    def edge_of(self, source: int, target: int) -> Optional[Edge]:
        return next((edge for edge in self.incoming[target] if edge.source == source), None)

    def reach_of(self, failures: Iterable[int]) -> Set[int]:
        """The nodes that these failure modes can activate at all."""
        reached = set(failures)
        left = list(reached)
        while left:
            for edge in self.outgoing[left.pop()]:
                is_and = self.nodes[edge.target].kind == "and"
                if edge.target in reached or (is_and and any(into.source not in reached for into in self.incoming[edge.target])):
                    continue
                reached.add(edge.target)
                left.append(edge.target)
        return reached


def graph_of(text: str) -> DeclaredGraph:
    return DeclaredGraph(lines_of(text))

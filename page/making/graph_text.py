"""Reads a graph by its text, and names the first fault of a text that spells none. docs/formats.md has the causes and their order."""

import re
from dataclasses import dataclass, field

from tfpg.limits import LONGEST_LINE, MOST_EDGES, MOST_FAILURES, MOST_INCOMING, MOST_MODES, MOST_NODES, MOST_RARITY, MOST_TIME

from .texts import NAME, Fault, lines_of


@dataclass
class Node:
    name: bytes
    kind: bytes  # failure, or, and
    rarity: int
    lags: tuple  # the least and the greatest, or nothing for a node without a monitor
    line: int


@dataclass
class Edge:
    source: bytes
    target: bytes
    least: int
    greatest: int  # or nothing
    modes: list  # of names, or nothing for all
    line: int


@dataclass
class Graph:
    modes: list = field(default_factory=list)
    nodes: list = field(default_factory=list)
    edges: list = field(default_factory=list)
    node_of: dict = field(default_factory=dict)


def is_name(word):
    return re.fullmatch(NAME, word) is not None


def is_number(word):
    return re.fullmatch(rb"0|[1-9][0-9]*", word) is not None


def number(word):
    """A number as it is, or one above all limits if it has more digits than they."""
    return int(word) if len(word) <= 18 else 10**18


def has_shape(words, version):
    """Whether the words of a line have one of the shapes of a graph."""
    kind, count = words[0], len(words)
    if b"" in words:
        return False
    if kind in (b"or", b"and"):
        return words[2:3] == [b"hidden"] and count == 3 or words[2:3] == [b"watch"] and count == 3 + version
    return count == {b"mode": 2, b"failure": 3, b"edge": 6, b"end": 1}.get(kind)


def first_cause(tests):
    """The first cause of those whose test holds. A test is asked only if none before it holds."""
    return next((cause for cause, holds in tests if holds()), None)


class Reader:
    """Takes the lines of a text one by one, and keeps what they declare."""

    def __init__(self):
        self.graph, self.version, self.ended, self.edge_lines = Graph(), None, False, {}
        self.incoming = {}

    def take(self, line_number, line):
        cause = self.cause_of(line_number, line)
        if cause:
            raise Fault(line_number, cause)

    def cause_of(self, line_number, line):
        if line_number == 1:
            self.version = {b"tfpg 1": 1, b"tfpg 2": 2}.get(line)
            return None if self.version else "BadHeader"
        skipped = (line == b"" or line.startswith(b"#")) and len(line) <= LONGEST_LINE
        if skipped:
            return None
        if self.ended:
            return "AfterEnd"
        words = line.split(b" ")
        if len(line) > LONGEST_LINE or not has_shape(words, self.version) or self.is_out_of_order(words[0]):
            return "BadLine"
        if words[0] == b"end":
            self.ended = True
            return None
        if words[0] == b"mode":
            return self.take_mode(words[1])
        if words[0] == b"edge":
            return self.take_edge(line_number, words)
        return self.take_node(line_number, words)

    def is_out_of_order(self, kind):
        graph = self.graph
        if kind == b"mode":
            return bool(graph.nodes or graph.edges)
        return not graph.modes or kind not in (b"edge", b"end") and bool(graph.edges)

    def take_mode(self, name):
        modes = self.graph.modes
        cause = first_cause([
            ("BadName", lambda: not is_name(name)),
            ("DuplicateName", lambda: name in modes),
            ("TooManyModes", lambda: len(modes) == MOST_MODES),
        ])
        if not cause:
            modes.append(name)
        return cause

    def take_node(self, line_number, words):
        graph, name, kind = self.graph, words[1], words[0]
        numbers = words[2:] if kind == b"failure" else words[3:]
        most = MOST_RARITY if kind == b"failure" else MOST_TIME
        failures = sum(node.kind == b"failure" for node in graph.nodes)
        cause = first_cause([
            ("BadName", lambda: not is_name(name)),
            ("DuplicateName", lambda: name in graph.node_of),
            ("BadNumber", lambda: not all(map(is_number, numbers))),
            ("NumberTooLarge", lambda: any(number(word) > most for word in numbers)),
            ("MinOverMax", lambda: len(numbers) == 2 and number(numbers[0]) > number(numbers[1])),
            ("TooManyNodes", lambda: len(graph.nodes) == MOST_NODES),
            ("TooManyFailures", lambda: kind == b"failure" and failures == MOST_FAILURES),
        ])
        if not cause:
            said = [number(word) for word in numbers]
            lags = None if kind == b"failure" or not said else (said[0] if said[1:] else 0, said[-1])
            graph.node_of[name] = Node(name, kind, said[0] if kind == b"failure" else 0, lags, line_number)
            graph.nodes.append(graph.node_of[name])
        return cause

    def take_edge(self, line_number, words):
        graph = self.graph
        _, source, target, least, greatest, where = words
        modes = [] if where in (b"*", b"-") else where.split(b",")
        numbers = [least] if greatest == b"inf" else [least, greatest]
        cause = first_cause([
            ("BadName", lambda: not all(map(is_name, [source, target, *modes]))),
            ("DuplicateName", lambda: len(set(modes)) < len(modes)),
            ("UnknownName", lambda: source not in graph.node_of or target not in graph.node_of or not set(modes) <= set(graph.modes)),
            ("BadNumber", lambda: not all(map(is_number, numbers))),
            ("NumberTooLarge", lambda: any(number(word) > MOST_TIME for word in numbers)),
            ("MinOverMax", lambda: numbers[1:] and number(least) > number(greatest)),
            ("EdgeIntoFailure", lambda: graph.node_of[target].kind == b"failure"),
            ("SelfEdge", lambda: source == target),
            ("DuplicateEdge", lambda: (source, target) in self.edge_lines),
            ("NoModes", lambda: where == b"-"),
            ("TooManyEdges", lambda: len(graph.edges) == MOST_EDGES),
            ("TooManyIncoming", lambda: self.incoming.get(target, 0) == MOST_INCOMING),
        ])
        if not cause:
            self.edge_lines[source, target] = line_number
            self.incoming[target] = self.incoming.get(target, 0) + 1
            latest = None if greatest == b"inf" else number(greatest)
            graph.edges.append(Edge(source, target, number(least), latest, None if where == b"*" else modes, line_number))
        return cause

    def end(self, line_count):
        """Tests for what only the whole text shows, and returns the graph."""
        for node in self.graph.nodes:
            if node.kind != b"failure" and node.name not in self.incoming:
                raise Fault(node.line, "NoIncoming")
        cycle = zero_cycle(self.graph)
        if cycle:
            raise Fault(cycle, "ZeroCycle")
        if not self.ended:
            raise Fault(line_count + 1, "MissingEnd")
        return self.graph


def zero_cycle(graph):
    """The line of the first edge that lies on a cycle of edges with no least delay, or nothing."""
    after = {node.name: [] for node in graph.nodes}
    for edge in graph.edges:
        if edge.least == 0:
            after[edge.source].append(edge.target)
    # What lies on a cycle or between cycles is left after nodes without a next one, and without one before, are taken away.
    left = keep_linked(keep_linked(after), reverse=True)
    for edge in graph.edges:
        if edge.least == 0 and edge.source in left and edge.target in left and leads_to(left, edge.target, edge.source):
            return edge.line
    return None


def keep_linked(after, reverse=False):
    """These nodes with their next ones, without those that have none, again and again."""
    if reverse:
        before = {name: [] for name in after}
        for name, targets in after.items():
            for target in targets:
                before[target].append(name)
        after = before
    while True:
        gone = {name for name, targets in after.items() if not targets}
        if not gone:
            return after
        after = {name: [target for target in targets if target not in gone] for name, targets in after.items() if name not in gone}


def leads_to(before, start, goal):
    """Whether edges lead from start to goal, by the nodes before each one."""
    seen, left = {goal}, [goal]
    while left:
        for name in before[left.pop()]:
            if name not in seen:
                seen.add(name)
                left.append(name)
    return start in seen


def read_graph_text(text):
    reader, lines = Reader(), lines_of(text)
    for line_number, line in enumerate(lines or [b""], 1):
        reader.take(line_number, line)
    return reader.end(len(lines))

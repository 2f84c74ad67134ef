"""What z3 says of a hypothesis of failure modes: whether it fits a log, and how long it takes to say so.

z3 gets the facts and the clauses of docs/evidence.md with the horizon now, over integers. Each call has a new solver. Graphs, logs, spans
and windows are those of the slow judge. Debian has z3 as `python3-z3`.
"""

from resource import RUSAGE_SELF

import z3
from slow_judge import MOST_TIME, Graph, Log, window

from lib.timing import measured


class Case:
    """A graph and a log of it, of which each line is accepted."""

    def __init__(self, graph, log):
        self.graph = Graph(graph)
        self.log = Log(self.graph)
        for line in log.splitlines():
            refused = self.log.offer(line)
            assert refused is None, (line, refused)
        self.spans = self.log.spans(self.log.now())
        self.bounds = [self.bounds_of(node) for node in range(len(self.graph.nodes))]

    def bounds_of(self, node):
        """The least and the greatest time of a node that alarms and silences leave."""
        low, high, lags = 0, MOST_TIME + 1, self.graph.nodes[node].lags
        for number, event in enumerate(self.log.events, 1):
            if event.what == b"alarm" and event.node == node:
                low, high = max(low, event.time - lags[1]), min(high, max(0, event.time - lags[0]))
            elif lags and self.log.silences(number, node) and event.time >= lags[0]:
                low = max(low, event.time - lags[0] + 1)
        return low, high

    def window(self, edges, number):
        """The window round a span in which all of these edges are active, as (number of its first span, lo, hi), or nothing."""
        return window(self.spans, number, lambda mode: all(mode in edge.modes for edge in edges))

    def arrival(self, x, edge, number):
        """That the failure arrives over an edge in a span, as a list of one or no way."""
        lo, hi, _ = self.spans[number]
        found = self.window([edge], number)
        if found is None or found[1] + edge.least > hi:
            return []
        begin = max(lo, found[1] + edge.least)
        return [z3.And(x[edge.target] - x[edge.source] >= edge.least, x[edge.target] >= begin, x[edge.target] <= hi)]

    def clauses(self, x):
        for number, (lo, hi, _) in enumerate(self.spans):
            for node, about in enumerate(self.graph.nodes):
                into = self.graph.incoming[node]
                outside = [x[node] < lo, x[node] > hi]
                if about.kind == b"or":
                    yield outside + [way for edge in into for way in self.arrival(x, edge, number)]
                    for edge in into:
                        yield from self.must(x, node, [edge], number)
                elif about.kind == b"and":
                    for edge in into:
                        yield outside + self.arrival(x, edge, number)
                    yield from self.must(x, node, into, number)

    def must(self, x, node, edges, number):
        """That a node is active in time if all of these edges carry, if the must rule says so at this span."""
        joint = self.window(edges, number)
        if joint is None or joint[0] != number or any(edge.greatest is None for edge in edges):
            return
        by = max(self.window([edge], number)[1] + edge.greatest for edge in edges)
        if by > joint[2]:
            return
        late = [x[edge.source] >= joint[2] - edge.greatest + 1 for edge in edges]
        follows = [x[node] - x[edge.source] <= edge.greatest for edge in edges]
        yield late + follows + [x[node] <= by]

    def ask(self, names, seconds):
        """What z3 says of the set of the failure modes of these names, and the processor seconds that it took."""
        reached = self.graph.reach([self.graph.number_of[name] for name in names])
        solver = z3.SolverFor("QF_IDL")
        solver.set("timeout", int(1000 * seconds))
        x = [z3.Int(f"x{node}") for node in range(len(self.graph.nodes))]
        for node, (low, high) in enumerate(self.bounds):
            low = low if node in reached else max(low, self.log.now() + 1)
            if low > high:
                return "unsat", 0.0
            solver.add(x[node] >= low, x[node] <= high)
        for alternatives in self.clauses(x):
            solver.add(z3.Or(alternatives))
        return measured(lambda: str(solver.check()), RUSAGE_SELF)

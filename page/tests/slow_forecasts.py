"""Predictions for small texts, by the slow diagnoser and the probed log of `docs/search.md`."""

from probed import probed
from slow_judge import Tree
from slow_search import search, set_words, step_lines, trace_lines


class Forecaster:
    """Forecasts of a node from the hypotheses that the last round of a diagnosis ranks."""

    def __init__(self, diagnosis, node, ahead):
        self.diagnosis, self.node = diagnosis, node
        self.end = diagnosis.log.now() + ahead

    def lines(self):
        found = [b"predict %s now %d to %d" % (self.node, self.diagnosis.log.now(), self.end)]
        for (_, _, number), _, tree in self.diagnosis.ranked:
            words, evidence = self.outlook(tree)
            found += [b"forecast %d set %s %s" % (number, set_words(self.diagnosis.graph, tree), words), *evidence]
        return found

    def tried(self, tree, bound):
        """Whether the node can be active by the bound: a trace or nothing, whether it is refuted, and the lines of the steps."""
        graph, log = probed(self.diagnosis.text, self.diagnosis.log, self.node, bound, self.end)
        tree = Tree(graph, tree.failures, tree.doubts)
        steps, trace = search(tree, log, self.diagnosis.budget)
        return trace, tree.closed, [line for step in steps for line in step_lines(graph, step)]

    def outlook(self, tree):
        """The outlook in words, and the lines of its evidence. The least time is found by halving."""
        graph = self.diagnosis.graph
        low, refutation, bound = 0, [], self.end
        while True:
            trace, is_refuted, steps = self.tried(tree, bound)
            if is_refuted and bound == self.end:
                return b"never", steps
            if is_refuted:
                low, refutation = bound + 1, steps
            elif trace is None:
                return b"unsettled %d" % bound, steps
            else:
                best = {node: time for node, time in trace.items() if node < len(graph.nodes)}
                high = best[graph.number_of[self.node]]
            if low == high:
                return b"earliest %d" % high, [*trace_lines(graph, best), *refutation]
            bound = (low + high - 1) // 2

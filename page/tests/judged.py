"""The slow judge of `bench/`, which keeps what each cycle states, and which status each set has after each round."""

import sys

from pages import TOP

sys.path.insert(0, str(TOP / "bench"))
from slow_judge import Graph, Judge, Tree, fact  # noqa: E402


class StatingTree(Tree):
    """A tree that keeps the constraints of its cycles, in their order."""

    def __post_init__(self):
        super().__post_init__()
        self.cycles = []

    def take(self, log, step):
        if step[0] == b"cycle":
            self.cycles.append([list(self.stated(log, reason)) for reason in step[1]])
        return super().take(log, step)

    def stated(self, log, reason):
        return self.picked(log, reason) if reason[0] == b"pick" else fact(self.graph, log, self.reach, self.doubts, reason)


class StatingJudge(Judge):
    """The constraints of each cycle by its line, and the statuses of each round."""

    def __init__(self, graph, lines):
        super().__init__(graph, lines)
        self.cycles, self.statuses = {}, []

    def begin(self, *terms):
        super().begin(*terms)
        self.trees = [StatingTree(tree.graph, tree.failures, tree.doubts) for tree in self.trees]

    def judge_round(self):
        super().judge_round()
        ranked, left_open = {line[1] for line in self.round.ranked}, {line[1] for line in self.round.open}
        self.statuses.append([
            "ranked" if number in ranked else "open" if number in left_open else "rejected" if tree.closed else "covered"
            for number, tree in enumerate(self.trees)
        ])  # fmt: skip

    def judge_parts(self, closed_before):
        splits = super().judge_parts(closed_before)
        for _, hypothesis, steps in self.round.parts:
            lines = [line for line, step in steps if step[0] == b"cycle"]
            self.cycles.update(zip(lines, self.trees[hypothesis].cycles[-len(lines) :] if lines else []))
        return splits


def lines_of(text):
    lines = text.split(b"\n")
    return lines if lines[-1] else lines[:-1]


def judged(graph, log, report):
    """The judge after it has accepted a report of these texts."""
    judge = StatingJudge(Graph(graph), lines_of(log))
    answer = judge.judge(report)
    assert answer.startswith("accepted "), answer
    return judge

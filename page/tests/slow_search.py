"""A slow diagnoser for small texts: it finds traces and refutations by `docs/search.md`, one hypothesis after the other.

It makes reports and predictions that the slow judge accepts, so that tests of the page have random ones without the program. What it finds
need not be what the program finds.
"""

from judged import StatingJudge, lines_of
from slow_judge import MOST_TIME, ZERO, Graph, Log, Tree, alternatives, fact, is_ranked_before

NEVER = MOST_TIME + 1


def facts(tree, log):
    """All facts of the log and the reach, each with its reason."""
    graph, reasons = tree.graph, []
    for node in range(len(graph.nodes)):
        reasons += [(b"zero", node), (b"top", node), (b"unreached", node, log.now())]
    for number, event in enumerate(log.events, 1):
        reasons += [(b"from", number), (b"upto", number)] if event.what == b"alarm" else []
        reasons += [(b"quiet", number, node) for node in graph.monitored if log.silences(number, node)]
    found = [(fact(graph, log, tree.reach, tree.doubts, reason), reason) for reason in reasons]
    return [entry for entry in found if entry[0]]


def picks(tree, log):
    found = []
    for number, split in enumerate(tree.path, 1):
        for place, constraint in enumerate(alternatives(tree.graph, log, split.clause)[split.taken - 1], 1):
            found.append((constraint, (b"pick", number, place)))
    return found


def solved(count, held):
    """The latest solution, or the reasons of a cycle that has none: shortest ways from the constant zero, by Bellman and Ford."""
    times, by = {ZERO: 0} | dict.fromkeys(range(count), NEVER), {}
    changed = None
    for _ in range(count + 2):
        changed = None
        for constraint, reason in held:
            left, right, bound = constraint
            if times[right] + bound < times[left]:
                times[left], by[left], changed = times[right] + bound, (constraint, reason), left
        if changed is None:
            return times, None
    return None, cycle_from(by, changed, count)


def cycle_from(by, node, count):
    """The reasons of a cycle, each of which begins where the one before ends."""
    for _ in range(count + 1):
        node = by[node][0][1]
    reasons, at = [], node
    while True:
        constraint, reason = by[at]
        reasons.append(reason)
        at = constraint[1]
        if at == node:
            return reasons


def clauses(graph, log):
    """The names of all clauses that may be allowed at now."""
    for place in range(len(log.spans(log.now()))):
        for number, node in enumerate(graph.nodes):
            edges = [index for index, edge in enumerate(graph.edges) if edge.target == number]
            if node.kind == b"or":
                kinds = [(b"ormay", number), *((b"ormust", edge) for edge in edges)]
            else:
                kinds = [*((b"andmay", edge) for edge in edges), (b"andmust", number)]
            yield from [(kind, about, place, log.now()) for kind, about in kinds if node.kind != b"failure"]


def violated(graph, log, times):
    """The first clause of which the times meet no alternative."""
    meets = lambda constraints: all(times[left] - times[right] <= bound for left, right, bound in constraints)
    for clause in clauses(graph, log):
        found = alternatives(graph, log, clause)
        if found and not any(map(meets, found)):
            return clause
    return None


def search(tree, log, budget):
    """Adds steps to the tree. Answers them, and a trace if there is one."""
    steps, splits = [], 0
    while not tree.closed:
        times, cycle = solved(len(tree.graph.nodes), facts(tree, log) + picks(tree, log))
        if cycle:
            take(tree, log, (b"cycle", cycle), steps)
            while tree.path and tree.path[-1].reusable:
                take(tree, log, (b"again",), steps)
            continue
        clause = violated(tree.graph, log, times)
        if clause is None:
            return steps, {node: time for node, time in times.items() if node != ZERO and time <= log.now()}
        if splits == budget:
            break
        splits += 1
        take(tree, log, (b"split", clause), steps)
    return steps, None


def take(tree, log, step, steps):
    broken = tree.take(log, step)
    assert broken is None, broken
    steps.append(step)


# ---- texts


def step_lines(graph, step):
    name = lambda node: graph.nodes[node].name
    if step[0] == b"again":
        return [b"again"]
    if step[0] == b"split":
        kind, about, place, horizon = step[1]
        edge = graph.edges[about] if kind in (b"andmay", b"ormust") else None
        return [b"split %s %s %d %d" % (kind, name(edge.source) + b" " + name(edge.target) if edge else name(about), place, horizon)]
    lines = [b"cycle %d" % len(step[1])]
    for kind, *said in step[1]:
        words = [name(said[0])] if kind in (b"zero", b"top", b"unreached") else [b"%d" % said[0]]
        words += [name(said[1])] if kind == b"quiet" else [b"%d" % number for number in said[1:]]
        lines.append(b" ".join([b"why", kind, *words]))
    return lines


def set_words(graph, tree):
    return b",".join([graph.nodes[node].name for node in tree.failures] + [b"!" + graph.nodes[node].name for node in tree.doubts]) or b"-"


def trace_lines(graph, trace):
    return [b"at %s %d" % (graph.nodes[node].name, time) for node, time in sorted(trace.items())]


class Diagnosis:
    """The report of a log, line by line, and what is ranked in the last round."""

    def __init__(self, graph_text, log_text, k, doubt, budget):
        self.text, self.graph, self.budget = graph_text, Graph(graph_text), budget
        judge = StatingJudge(self.graph, [])
        judge.begin(k, doubt, budget)
        self.trees, self.log, self.ranked = [Tree(it.graph, it.failures, it.doubts) for it in judge.trees], Log(self.graph), []
        self.lines = [b"report 2 k %d doubt %d budget %d" % (k, doubt, budget)]
        for number, line in enumerate(lines_of(log_text), 1):
            refused = self.log.offer(line)
            self.lines += [b"refused %d %s" % (number, refused)] if refused else self.round_lines(number)

    def round_lines(self, line):
        closed, opened, lines = [], [], [b"round %d %d %d" % (len(self.log.events), line, self.log.now())]
        self.ranked = []
        for number, tree in enumerate(self.trees):
            if tree.closed or any(is_part(part, tree) for *_, part in self.ranked):
                continue
            steps, trace = search(tree, self.log, self.budget)
            lines += [b"hyp %d" % number, *(line for step in steps for line in step_lines(self.graph, step))] if steps else []
            if trace is not None:
                self.ranked.append((self.key(number, tree), trace, tree))
            else:
                (closed if tree.closed else opened).append((number, tree))
        self.ranked.sort(key=lambda entry: Place(entry[0]))
        return [*lines, *self.ranking_lines(), *self.set_lines(b"open", opened), *self.set_lines(b"rejected", closed), self.counts(opened)]

    def key(self, number, tree):
        believed = [node for node in self.graph.monitored if node in tree.reach and node not in tree.doubts]
        alarmed = [node for node in believed if self.log.alarmed_before(len(self.log.events), node)]
        cost = sum(self.graph.nodes[node].rarity for node in tree.failures) + 1000 * len(tree.doubts)
        return cost, (len(alarmed), len(believed)) if believed else (1, 1), number

    def ranking_lines(self):
        lines = []
        for (cost, counts, number), trace, tree in self.ranked:
            lines.append(b"ranked %d cost %d robust %d/%d set %s" % (number, cost, *counts, set_words(self.graph, tree)))
            lines += trace_lines(self.graph, trace)
        return lines

    def set_lines(self, status, entries):
        return [b"%s %d set %s" % (status, number, set_words(self.graph, tree)) for number, tree in entries]

    def counts(self, opened):
        ranked, rejected, count = len(self.ranked), sum(tree.closed for tree in self.trees), len(self.trees)
        return b"counts ranked %d covered %d rejected %d open %d" % (ranked, count - ranked - rejected - len(opened), rejected, len(opened))

    def report(self):
        return b"".join(line + b"\n" for line in self.lines)


def is_part(part, tree):
    smaller = len(part.failures) + len(part.doubts) < len(tree.failures) + len(tree.doubts)
    return smaller and set(part.failures) <= set(tree.failures) and set(part.doubts) <= set(tree.doubts)


class Place:
    """A place in the ranking order."""

    def __init__(self, key):
        self.key = key

    def __lt__(self, other):
        return is_ranked_before(self.key, other.key)

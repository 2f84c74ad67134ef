"""A slow judge of reports, beside which `bench/forge.py` holds what `check` says.

It is written from `docs/formats.md`, `docs/model.md` and `docs/evidence.md` alone, and shares nothing with the program: which lines a report may
have, what each line of the log brings, clauses and reasons as constraints, trees of steps, what a trace must show, and the tests of a round in
their order. It is written for few words and not for speed, and it knows no limit on the number of events.
"""

import re
from dataclasses import dataclass, field
from itertools import combinations
from math import comb

MOST_TIME = 10**12
SMALL = 2**32 - 1  # the greatest number that is no time, line, panel, split or budget
LONG = 2**63 - 1  # the greatest number of a line, a panel, or a split of a path
LONGEST_LINE = 4096
MOST_HYPOTHESES = 4096
ZERO = -1  # the constant zero, beside the numbers of nodes
NUMBER = re.compile(rb"0|[1-9][0-9]*")
REFUSALS = [b"BadLine", b"BadNumber", b"TimeTooLarge", b"UnknownName", b"NotMonitored", b"NotAMode", b"LogFull", b"ModesFull", b"TooLong"]


class NotSo(Exception):
    """A line is none of a report."""


class Found(Exception):
    """The first cause, with its line."""

    def __init__(self, line, cause):
        super().__init__(line, cause)
        self.line, self.cause = line, cause


def need(condition, line, cause):
    if not condition:
        raise Found(line, cause)


# ---- graphs and logs


@dataclass
class Node:
    name: bytes
    kind: bytes
    rarity: int = 0
    lags: tuple = None  # the least and the greatest, if there is a monitor


@dataclass
class Edge:
    source: int
    target: int
    least: int
    greatest: int  # or None
    modes: set


class Graph:
    """A graph by its text, which is valid."""

    def __init__(self, text):
        self.modes, self.nodes, self.edges, self.number_of, self.edge_of = [], [], [], {}, {}
        for line in text.split(b"\n"):
            words = line.split(b" ")
            if words[0] == b"mode":
                self.modes.append(words[1])
            elif words[0] == b"failure":
                self.add(Node(words[1], words[0], rarity=int(words[2])))
            elif words[0] in (b"or", b"and"):
                lags = [int(word) for word in words[3:]]
                self.add(Node(words[1], words[0], lags=None if words[2] == b"hidden" else (lags[0] if lags[1:] else 0, lags[-1])))
            elif words[0] == b"edge":
                source, target = self.number_of[words[1]], self.number_of[words[2]]
                modes = range(len(self.modes)) if words[5] == b"*" else [self.modes.index(mode) for mode in words[5].split(b",")]
                self.edge_of[source, target] = len(self.edges)
                self.edges.append(Edge(source, target, int(words[3]), None if words[4] == b"inf" else int(words[4]), set(modes)))
        self.failures = [number for number, node in enumerate(self.nodes) if node.kind == b"failure"]
        self.monitored = [number for number, node in enumerate(self.nodes) if node.lags]
        self.incoming = [[edge for edge in self.edges if edge.target == number] for number in range(len(self.nodes))]

    def add(self, node):
        self.number_of[node.name] = len(self.nodes)
        self.nodes.append(node)

    def reach(self, failures):
        reached = set(failures)
        while True:
            more = {
                number
                for number, node in enumerate(self.nodes)
                if number not in reached
                and node.kind != b"failure"
                and (any if node.kind == b"or" else all)(edge.source in reached for edge in self.incoming[number])
            }
            if not more:
                return reached
            reached |= more


@dataclass
class Event:
    time: int
    what: bytes
    node: int = None
    mode: int = None


@dataclass
class Log:
    graph: Graph
    events: list = field(default_factory=list)

    def now(self):
        return self.events[-1].time if self.events else 0

    def offer(self, line):
        """Takes the line. Answers why it is refused, as the words after its number in a report, or nothing."""
        words = line.split(b" ")
        if len(line) > LONGEST_LINE:
            return b"TooLong"
        shapes = {b"alarm": 3, b"silent": 3, b"mode": 3, b"sweep": 2, b"tick": 2}
        if b"" in words or len(words) < 2 or shapes.get(words[1]) != len(words):
            return b"BadLine"
        if not NUMBER.fullmatch(words[0]):
            return b"BadNumber"
        event = Event(int(words[0]), words[1])
        if event.time > MOST_TIME:
            return b"TimeTooLarge"
        if event.time < self.now():
            return b"TimeBack %d" % self.now()
        if event.what in (b"alarm", b"silent"):
            event.node = self.graph.number_of.get(words[2])
            if event.node is None:
                return b"UnknownName"
            if self.graph.nodes[event.node].lags is None:
                return b"NotMonitored"
        if event.what == b"mode":
            if words[2] not in self.graph.modes:
                return b"NotAMode"
            event.mode = self.graph.modes.index(words[2])
        self.events.append(event)
        return None

    def spans(self, horizon):
        """The maximal runs of instants with one mode up to the horizon: first instant, last instant, mode."""
        starts = {0: 0}
        for event in self.events:
            if event.what == b"mode" and event.time + 1 <= horizon:
                starts[event.time + 1] = event.mode
        spans = []
        for start in sorted(starts):
            if spans and spans[-1][2] == starts[start]:
                continue
            if spans:
                spans[-1][1] = start - 1
            spans.append([start, horizon, starts[start]])
        return spans

    def alarmed_before(self, count, node):
        return any(event.what == b"alarm" and event.node == node for event in self.events[:count])

    def silences(self, number, node):
        """Whether event `number` is a silence of the node, its own or by a sweep."""
        event = self.events[number - 1]
        if event.what == b"sweep":
            return self.graph.nodes[node].lags is not None and not self.alarmed_before(number - 1, node)
        return event.what == b"silent" and event.node == node


def window(spans, place, is_active):
    """The first span, the first and the last instant of the maximal run of such spans round this one."""
    if not is_active(spans[place][2]):
        return None
    first = last = place
    while first > 0 and is_active(spans[first - 1][2]):
        first -= 1
    while last + 1 < len(spans) and is_active(spans[last + 1][2]):
        last += 1
    return first, spans[first][0], spans[last][1]


# ---- constraints `left - right <= bound`, as triples


def at_most(node, bound):
    return (node, ZERO, bound)


def at_least(node, bound):
    return (ZERO, node, -bound)


def at_most_after(node, source, bound):
    return (node, source, bound)


def at_least_after(node, source, bound):
    return (source, node, -bound)


def alternatives(graph, log, clause):
    """The alternatives of a clause, each a list of constraints, or nothing if it is not allowed."""
    kind, about, place, horizon = clause
    if horizon > log.now():
        return None
    spans = log.spans(horizon)
    if place >= len(spans):
        return None
    lo, hi, mode = spans[place]
    edge = graph.edges[about] if kind in (b"andmay", b"ormust") else None
    node = edge.target if edge else about
    round_span = lambda edge: window(spans, place, lambda mode: mode in edge.modes)
    if graph.nodes[node].kind != {b"ormay": b"or", b"ormust": b"or"}.get(kind, b"and"):
        return None
    if kind in (b"ormay", b"andmay"):
        found = [[at_most(node, lo - 1)], [at_least(node, hi + 1)]]
        for into in graph.incoming[node] if kind == b"ormay" else [edge]:
            if mode in into.modes and round_span(into)[1] + into.least <= hi:
                begin = max(lo, round_span(into)[1] + into.least)
                found.append([at_least_after(node, into.source, into.least), at_least(node, begin), at_most(node, hi)])
        return found
    if kind == b"ormust":
        if edge.greatest is None or mode not in edge.modes:
            return None
        first, a, b = round_span(edge)
        if first != place or a + edge.greatest > b:
            return None
        return [
            [at_least(edge.source, b - edge.greatest + 1)],
            [at_most_after(node, edge.source, edge.greatest)],
            [at_most(node, a + edge.greatest)],
        ]
    into = graph.incoming[node]
    joint = window(spans, place, lambda mode: all(mode in edge.modes for edge in into))
    if joint is None or joint[0] != place or any(edge.greatest is None for edge in into):
        return None
    latest = [round_span(edge)[1] + edge.greatest for edge in into]
    if max(latest) > joint[2]:
        return None
    return [
        *[[at_least(edge.source, joint[2] - edge.greatest + 1)] for edge in into],
        *[[at_most_after(node, edge.source, edge.greatest)] for edge in into],
        [at_most(node, max(latest))],
    ]


def fact(graph, log, reach, doubts, reason):
    """The constraint of a reason that is no pick, or nothing if it is not allowed."""
    kind, *said = reason
    if kind == b"zero":
        return at_least(said[0], 0)
    if kind == b"top":
        return at_most(said[0], MOST_TIME + 1)
    if kind == b"unreached":
        return at_least(said[0], said[1] + 1) if said[1] <= log.now() and said[0] not in reach else None
    number = said[0]
    if not 1 <= number <= len(log.events):
        return None
    event = log.events[number - 1]
    if kind == b"quiet":
        node = said[1]
        if node in doubts or not log.silences(number, node) or event.time < graph.nodes[node].lags[0]:
            return None
        return at_least(node, event.time - graph.nodes[node].lags[0] + 1)
    if event.what != b"alarm" or event.node in doubts:
        return None
    least, greatest = graph.nodes[event.node].lags
    if kind == b"from":
        return at_least(event.node, max(0, event.time - greatest))
    return at_most(event.node, max(0, event.time - least))


# ---- trees of steps


@dataclass
class Split:
    clause: tuple
    count: int
    taken: int = 1
    cited: bool = False
    reusable: bool = False


@dataclass
class Tree:
    """The path to the present leaf, and whether no leaf is left."""

    graph: Graph
    failures: list
    doubts: list
    path: list = field(default_factory=list)
    closed: bool = False

    def __post_init__(self):
        self.reach = self.graph.reach(self.failures)

    def take(self, log, step):
        """Takes a step, or answers which condition it breaks first."""
        if self.closed:
            return "AfterClosed"
        if step[0] == b"again":
            if not self.path or not self.path[-1].reusable:
                return "NotReusable"
            self.path.pop()
            self.next_leaf()
            return None
        if step[0] == b"split":
            found = alternatives(self.graph, log, step[1])
            if found is None:
                return "NotAClause"
            self.path.append(Split(step[1], len(found)))
            return None
        constraints = []
        for reason in step[1]:
            constraint = self.picked(log, reason) if reason[0] == b"pick" else fact(self.graph, log, self.reach, self.doubts, reason)
            if constraint is None:
                return "NotOnPath" if reason[0] == b"pick" else "NotAFact"
            constraints.append(constraint)
        if not constraints or any(here[1] != there[0] for here, there in zip(constraints, constraints[1:] + constraints[:1])):
            return "Unchained"
        if sum(constraint[2] for constraint in constraints) >= 0:
            return "NotNegative"
        for reason in step[1]:
            if reason[0] == b"pick":
                self.path[reason[1] - 1].cited = True
        self.next_leaf()
        return None

    def picked(self, log, reason):
        number, place = reason[1], reason[2]
        if not 1 <= number <= len(self.path):
            return None
        split = self.path[number - 1]
        taken = alternatives(self.graph, log, split.clause)[split.taken - 1]
        return taken[place - 1] if 1 <= place <= len(taken) else None

    def next_leaf(self):
        while self.path and self.path[-1].taken == self.path[-1].count:
            self.path.pop()
        if not self.path:
            self.closed = True
            return
        split = self.path[-1]
        split.taken, split.cited, split.reusable = split.taken + 1, False, not split.cited


def explains(graph, log, failures, doubts, times):
    """Whether the trace explains the log, where the doubted monitors are ignored, from this set of failure modes."""
    now = log.now()
    if any(time > now for time in times.values()):
        return False
    if any(node in times and node not in failures for node in graph.failures):
        return False
    spans = log.spans(now)
    begins = lambda edge, place: window(spans, place, lambda mode: mode in edge.modes)[1]
    for number, node in enumerate(graph.nodes):
        if node.kind == b"failure":
            continue
        some_or_all = any if node.kind == b"or" else all
        if number in times:
            at = times[number]
            place = max(place for place, span in enumerate(spans) if span[0] <= at)

            def arrived(edge):
                if spans[place][2] not in edge.modes or times.get(edge.source, at + 1) > at:
                    return False
                return at - max(times[edge.source], begins(edge, place)) >= edge.least

            if not some_or_all(arrived(edge) for edge in graph.incoming[number]):
                return False
        active_from = times.get(number, now + 1)
        for place, (lo, hi, mode) in enumerate(spans):
            # by when each edge is due that is active in the span
            due = [
                max(lo, max(times[edge.source], begins(edge, place)) + edge.greatest)
                if mode in edge.modes and edge.source in times and edge.greatest is not None
                else now + 1
                for edge in graph.incoming[number]
            ]
            first_due = min(due) if node.kind == b"or" else max(due)
            if first_due <= hi and active_from > first_due:
                return False
    for number, event in enumerate(log.events, 1):
        if event.what == b"alarm" and event.node not in doubts:
            least, greatest = graph.nodes[event.node].lags
            if not max(0, event.time - greatest) <= times.get(event.node, -1) <= max(0, event.time - least):
                return False
        for node in graph.monitored:
            if node not in doubts and log.silences(number, node):
                least = graph.nodes[node].lags[0]
                if event.time >= least and times.get(node, now + 1) <= event.time - least:
                    return False
    return True


# ---- report lines


def number(word, most):
    if not NUMBER.fullmatch(word) or int(word) > most:
        raise NotSo
    return int(word)


def budget_said(word):
    if word == b"0":
        raise NotSo
    return number(word, MOST_TIME)


def known(mapping, key):
    if key not in mapping:
        raise NotSo
    return mapping[key]


def set_said(graph, word):
    """The failure modes and the doubted monitors of a set, as nodes."""
    if word == b"-":
        return [], []
    failures, doubts = [], []
    for member in word.split(b","):
        if member.startswith(b"!"):
            doubts.append(known(graph.number_of, member[1:]))
        elif doubts:
            raise NotSo
        else:
            failures.append(known(graph.number_of, member))
    if any(graph.nodes[node].kind != b"failure" for node in failures) or any(graph.nodes[node].lags is None for node in doubts):
        raise NotSo
    if failures != sorted(set(failures)) or doubts != sorted(set(doubts)):
        raise NotSo
    return failures, doubts


def clause_said(graph, words):
    kind, *names, place, horizon = words
    if kind in (b"ormay", b"andmust") and len(names) == 1:
        about = known(graph.number_of, names[0])
    elif kind in (b"andmay", b"ormust") and len(names) == 2:
        about = known(graph.edge_of, tuple(known(graph.number_of, name) for name in names))
    else:
        raise NotSo
    return kind, about, number(place, SMALL), number(horizon, MOST_TIME)


def fits(words, shape):
    """Whether words have this shape, in which `_` is any word."""
    return len(words) == len(shape) and all(asked in (b"_", word) for asked, word in zip(shape, words))


def said_by(shapes, graph, words):
    """What words say by the first of the shapes that they fit: their first word, and the values."""
    for shape, values in shapes.get(words[0], []):
        if fits(words, shape):
            return (words[0], *values(graph, words))
    raise NotSo


def by_first_word(shapes):
    """Shapes with what they say, by their first words."""
    found = {}
    for shape, values in shapes.items():
        words = shape.split(b" ")
        found.setdefault(words[0], []).append((words, values))
    return found


def node_said(graph, word):
    return known(graph.number_of, word)


def counts_said(word):
    alarmed, slash, monitored = word.partition(b"/")
    if not slash:
        raise NotSo
    return number(alarmed, SMALL), number(monitored, SMALL)


def cause_said(word):
    if word not in REFUSALS:
        raise NotSo
    return word


REASONS = by_first_word({
    b"zero _": lambda graph, words: (node_said(graph, words[1]),),
    b"top _": lambda graph, words: (node_said(graph, words[1]),),
    b"unreached _ _": lambda graph, words: (node_said(graph, words[1]), number(words[2], MOST_TIME)),
    b"from _": lambda graph, words: (number(words[1], SMALL),),
    b"upto _": lambda graph, words: (number(words[1], SMALL),),
    b"quiet _ _": lambda graph, words: (number(words[1], SMALL), node_said(graph, words[2])),
    b"pick _ _": lambda graph, words: (number(words[1], LONG), number(words[2], SMALL)),
})
LINES = by_first_word({
    b"report 1 k _ budget _": lambda graph, words: (number(words[3], 64), 0, budget_said(words[5])),
    b"report 2 k _ doubt _ budget _": lambda graph, words: (number(words[3], 64), number(words[5], 4), budget_said(words[7])),
    b"refused _ TimeBack _": lambda graph, words: (number(words[1], LONG), b"TimeBack %d" % number(words[3], MOST_TIME)),
    b"refused _ _": lambda graph, words: (number(words[1], LONG), cause_said(words[2])),
    b"round _ _ _": lambda graph, words: (number(words[1], SMALL), number(words[2], LONG), number(words[3], MOST_TIME)),
    b"hyp _": lambda graph, words: (number(words[1], SMALL),),
    b"split _ _ _ _": lambda graph, words: (clause_said(graph, words[1:]),),
    b"split _ _ _ _ _": lambda graph, words: (clause_said(graph, words[1:]),),
    b"again": lambda graph, words: (),
    b"cycle _": lambda graph, words: (number(words[1], SMALL),),
    b"why _ _": lambda graph, words: (said_by(REASONS, graph, words[1:]),),
    b"why _ _ _": lambda graph, words: (said_by(REASONS, graph, words[1:]),),
    b"ranked _ cost _ robust _ set _": lambda graph, words: (
        number(words[1], SMALL), number(words[3], SMALL), counts_said(words[5]), set_said(graph, words[7])),
    b"at _ _": lambda graph, words: (node_said(graph, words[1]), number(words[2], MOST_TIME)),
    b"open _ set _": lambda graph, words: (number(words[1], SMALL), set_said(graph, words[3])),
    b"rejected _ set _": lambda graph, words: (number(words[1], SMALL), set_said(graph, words[3])),
    b"counts ranked _ covered _ rejected _ open _": lambda graph, words: tuple(number(word, SMALL) for word in words[2::2]),
    b"panel _ lost": lambda graph, words: (number(words[1], LONG),),
    b"panel _ memory": lambda graph, words: (number(words[1], LONG),),
})


def line_said(graph, line):
    """What a line of a report says: its first word, and its values."""
    if len(line) > LONGEST_LINE:
        raise NotSo
    return said_by(LINES, graph, line.split(b" "))


# ---- the judge


@dataclass
class Round:
    """The lines of a round: each part, ranked, open and rejected line with its own line."""

    first_line: int
    event: int
    line: int
    now: int
    parts: list = field(default_factory=list)  # line, hypothesis, [(line, step)]
    ranked: list = field(default_factory=list)  # line, hypothesis, cost, counts, set, times
    open: list = field(default_factory=list)  # line, hypothesis, set
    rejected: list = field(default_factory=list)
    counts: tuple = None
    counts_line: int = 0


PARTS, RANKED, OPEN, REJECTED, DONE = range(5)  # how far a round has come


class Judge:
    def __init__(self, graph, log_lines):
        self.graph, self.log_lines, self.log = graph, log_lines, Log(graph)
        self.trees, self.number_of, self.round = None, {}, None
        self.blocks = self.rounds = self.line = self.owed = self.last = 0
        self.stage, self.panel, self.budget = DONE, None, 0

    def begin(self, k, doubt, budget):
        """Lists the hypotheses. Answers how many there are, if they are too many."""
        failures, monitored = self.graph.failures, self.graph.monitored
        count = sum(
            comb(len(failures), size - doubts) * comb(len(monitored), doubts)
            for size in range(k + 1)
            for doubts in range(min(size, doubt) + 1)
        )
        if count > MOST_HYPOTHESES:
            return count
        members = [(node, False) for node in failures] + [(node, True) for node in monitored]
        self.budget, self.trees = budget, []
        for size in range(min(k, len(members)) + 1):
            for chosen in combinations(members, size):
                if sum(is_doubt for _, is_doubt in chosen) <= doubt:
                    split = [node for node, is_doubt in chosen if not is_doubt], [node for node, is_doubt in chosen if is_doubt]
                    self.trees.append(Tree(self.graph, *split))
        return None

    def judge(self, report):
        """The answer of `check` to these bytes."""
        lines = report.split(b"\n")
        if lines[-1] == b"":
            lines.pop()
        try:
            for self.line, line in enumerate(lines, 1):
                try:
                    count = self.take(line_said(self.graph, line))
                except NotSo:
                    raise Found(self.line, "BadReport") from None
                if count is not None:
                    return f"too many hypotheses {count}"
            need(self.trees is not None and self.round is None and self.blocks == len(self.log_lines), len(lines) + 1, "EndsEarly")
        except Found as found:
            return f"not accepted {found.line} {found.cause}"
        return f"accepted {self.rounds}"

    def take(self, said):
        kind, *values = said
        if kind == b"report":
            if self.trees is not None:
                raise NotSo
            return self.begin(*values)
        if self.trees is None or (self.owed and kind != b"why"):
            raise NotSo
        if self.round is None:
            self.between(kind, values)
        else:
            self.within(kind, values)
        return None

    def between(self, kind, values):
        """A line outside of a round."""
        if kind == b"panel":
            if self.panel is None or values[0] <= self.panel:
                raise NotSo
            self.panel = values[0]
        elif kind == b"refused":
            self.panel = None
            self.judge_refused(*values)
        elif kind == b"round":
            self.round, self.stage = Round(self.line, *values), PARTS
        else:
            raise NotSo

    def within(self, kind, values):
        """A line of a round."""
        stages = {b"hyp": PARTS, b"split": PARTS, b"cycle": PARTS, b"again": PARTS, b"why": PARTS}
        stages |= {b"ranked": RANKED, b"at": RANKED, b"open": OPEN, b"rejected": REJECTED, b"counts": DONE}
        stage = stages.get(kind, -1)
        round, parts = self.round, self.round.parts
        has_steps = not parts or parts[-1][2]
        if stage < self.stage or (stage > PARTS and not has_steps):
            raise NotSo
        if kind == b"hyp":
            if not has_steps:
                raise NotSo
            parts.append((self.line, values[0], []))
        elif kind in (b"split", b"again", b"cycle"):
            if not parts:
                raise NotSo
            self.owed = values[0] if kind == b"cycle" else 0
            step = (b"cycle", []) if kind == b"cycle" else (kind, *values)
            parts[-1][2].append((self.line, step))
        elif kind == b"why":
            if not self.owed:
                raise NotSo
            self.owed -= 1
            parts[-1][2][-1][1][1].append(values[0])
        elif kind == b"ranked":
            round.ranked.append((self.line, *values, {}))
            self.last = -1
        elif kind == b"at":
            if not round.ranked or values[0] <= self.last:
                raise NotSo
            self.last = values[0]
            round.ranked[-1][5][values[0]] = values[1]
        elif kind == b"open":
            round.open.append((self.line, *values))
        elif kind == b"rejected":
            round.rejected.append((self.line, *values))
        else:
            round.counts, round.counts_line = tuple(values), self.line
            self.judge_round()
            self.round, self.panel = None, -1
        self.stage = stage

    def next_reply(self, first_line):
        """Offers the next line of the log: why it is refused, or nothing."""
        need(self.blocks < len(self.log_lines), first_line, "Surplus")
        self.blocks += 1
        return self.log.offer(self.log_lines[self.blocks - 1])

    def judge_refused(self, at, cause):
        refused = self.next_reply(self.line)
        need(refused == cause and at == self.blocks, self.line, "WrongRound")

    def judge_round(self):
        round = self.round
        refused = self.next_reply(round.first_line)
        right = (len(self.log.events), self.blocks, self.log.now())
        need(refused is None and (round.event, round.line, round.now) == right, round.first_line, "WrongRound")
        closed_before = [tree.closed for tree in self.trees]
        splits = self.judge_parts(closed_before)
        self.judge_ranked()
        self.judge_open(splits)
        self.judge_rejected(closed_before)
        ranked, left_open = {it[1] for it in round.ranked}, {it[1] for it in round.open}
        closed = {number for number, tree in enumerate(self.trees) if tree.closed}
        for hypothesis, tree in enumerate(self.trees):
            covered = hypothesis not in splits and self.has_ranked_part(tree)
            need(hypothesis in closed | ranked | left_open or covered, round.counts_line, "WrongStatus")
        counts = len(round.ranked), len(self.trees) - len(round.ranked) - len(closed) - len(round.open), len(closed), len(round.open)
        need(round.counts == counts, round.counts_line, "WrongCounts")
        self.rounds += 1

    def judge_parts(self, closed_before):
        """How many splits each hypothesis with steps has in this round."""
        splits, last = {}, -1
        for line, hypothesis, steps in self.round.parts:
            in_table = last < hypothesis < len(self.trees)
            need(in_table and not closed_before[hypothesis], line, "WrongHypothesis")
            last = hypothesis
            splits[hypothesis] = sum(step[0] == b"split" for _, step in steps)
            for at, step in steps:
                broken = self.trees[hypothesis].take(self.log, step)
                need(broken is None, at, broken)
        return splits

    def has_ranked_part(self, tree):
        for _, hypothesis, *_ in self.round.ranked:
            if hypothesis < len(self.trees):
                part = self.trees[hypothesis]
                smaller = len(part.failures) + len(part.doubts) < len(tree.failures) + len(tree.doubts)
                if smaller and set(part.failures) <= set(tree.failures) and set(part.doubts) <= set(tree.doubts):
                    return True
        return False

    def judge_ranked(self):
        before = None
        for line, hypothesis, cost, counts, members, times in self.round.ranked:
            need(hypothesis < len(self.trees), line, "WrongRanked")
            tree = self.trees[hypothesis]
            need(members == (tree.failures, tree.doubts) and not tree.closed, line, "WrongRanked")
            need(cost == sum(self.graph.nodes[node].rarity for node in tree.failures) + 1000 * len(tree.doubts), line, "WrongRanked")
            believed = [node for node in self.graph.monitored if node in tree.reach and node not in tree.doubts]
            alarmed = [node for node in believed if self.log.alarmed_before(len(self.log.events), node)]
            need(counts == ((len(alarmed), len(believed)) if believed else (1, 1)), line, "WrongRanked")
            here = (cost, counts, hypothesis)
            need(before is None or is_ranked_before(before, here), line, "WrongRanked")
            need(not self.has_ranked_part(tree), line, "WrongRanked")
            before = here
            need(explains(self.graph, self.log, tree.failures, tree.doubts, times), line, "NotATrace")

    def judge_open(self, splits):
        ranked, last = {it[1] for it in self.round.ranked}, -1
        for line, hypothesis, members in self.round.open:
            need(last < hypothesis < len(self.trees), line, "WrongOpen")
            tree, last = self.trees[hypothesis], hypothesis
            need(members == (tree.failures, tree.doubts) and not tree.closed, line, "WrongOpen")
            need(hypothesis not in ranked and not self.has_ranked_part(tree), line, "WrongOpen")
            need(splits.get(hypothesis, 0) == self.budget, line, "WrongOpen")

    def judge_rejected(self, closed_before):
        right = [
            (hypothesis, (tree.failures, tree.doubts))
            for hypothesis, tree in enumerate(self.trees)
            if tree.closed and not closed_before[hypothesis]
        ]
        for place, (line, hypothesis, members) in enumerate(self.round.rejected):
            need(place < len(right) and right[place] == (hypothesis, members), line, "WrongRejected")
        need(len(right) == len(self.round.rejected), self.round.counts_line, "WrongRejected")


def is_ranked_before(one, other):
    """By rising cost, then by falling robustness as a fraction, then by number."""
    if one[0] != other[0]:
        return one[0] < other[0]
    left, right = one[1][0] * other[1][1], other[1][0] * one[1][1]
    return left > right if left != right else one[2] < other[2]

"""Whether a text is a report, or what `ask`, `predict` or `fleet` writes. Whether what it says is right is for `tfpg check` to say.

Reports are long, and most of their lines stand in them many times. So each different line is held against the shapes once.
"""

import re

from tfpg.limits import LONGEST_LINE
from tfpg.reading.shapes import AFTER, ASK, CAUSES, FLEET, LAST, NUMBERS, PREDICT, REPORT

from .fleet import reports_in
from .texts import NAME, Fault, lines_of


class Named:
    """What lines may name: nodes by their numbers, edges, failure modes and monitored nodes."""

    def __init__(self, number_of, edges, failures, monitored):
        self.number_of, self.edges, self.failures, self.monitored = number_of, edges, failures, monitored

    @classmethod
    def of(cls, graph):
        number_of = {node.name: number for number, node in enumerate(graph.nodes)}
        edges = {(edge.source, edge.target) for edge in graph.edges}
        failures = {node.name for node in graph.nodes if node.kind == b"failure"}
        return cls(number_of, edges, failures, {node.name for node in graph.nodes if node.lags})

    def with_probe(self, node):
        """With the node that the steps of forecasts add to the graph, after this node."""
        number = 0
        while b"probe.%d" % number in self.number_of:
            number += 1
        probe = b"probe.%d" % number
        return Named({**self.number_of, probe: len(self.number_of)}, self.edges | {(node, probe)}, self.failures, self.monitored | {probe})

    def is_set(self, word):
        """Whether the word is the text of a set: failure modes, and then monitors, each by rising numbers."""
        members = [] if word == b"-" else word.split(b",")
        names = [member for member in members if not member.startswith(b"!")]
        doubts = [member[1:] for member in members[len(names) :] if member.startswith(b"!")]
        if len(names) + len(doubts) != len(members) or not (set(names) <= self.failures and set(doubts) <= self.monitored):
            return False
        return all(self.is_rising(some) for some in (names, doubts))

    def is_rising(self, names):
        numbers = [self.number_of[name] for name in names]
        return all(here < there for here, there in zip(numbers, numbers[1:]))


def is_number(word, kind):
    least, greatest = NUMBERS[kind]
    return re.fullmatch(rb"0|[1-9][0-9]{0,18}", word) is not None and least <= int(word) <= greatest


def is_share(word):
    alarmed, _, monitored = word.partition(b"/")
    return is_number(alarmed, "<number>") and is_number(monitored, "<number>")


class Shapes:
    """The shapes of the lines of a text. A line has a kind, which is its first word, or it is none."""

    def __init__(self, shapes, named):
        self.named, self.kinds, self.shapes = named, {}, {}
        for shape in shapes:
            words = shape.split(" ")
            self.shapes.setdefault((words[0], len(words)), []).append(words)

    def kind(self, line):
        if line not in self.kinds:
            self.kinds[line] = self.find(line)
        return self.kinds[line]

    def find(self, line):
        words = line.split(b" ")
        first = words[0].decode("latin-1")
        shapes = self.shapes.get((first, len(words)), []) if len(line) <= LONGEST_LINE else []
        return first if any(self.has(words, shape) for shape in shapes) else None

    def has(self, words, shape):
        if not all(self.is_value(word, kind) if kind[0] == "<" else word == kind.encode() for word, kind in zip(words, shape)):
            return False
        said = dict(zip(shape, words))
        return "<source>" not in said or (said["<source>"], said["<target>"]) in self.named.edges

    def is_value(self, word, kind):
        if kind in NUMBERS:
            return is_number(word, kind)
        if kind == "<share>":
            return is_share(word)
        if kind == "<set>":
            return self.named.is_set(word)
        if kind == "<cause>":
            return word.decode("latin-1") in CAUSES
        return re.fullmatch(NAME, word) is not None if kind == "<name>" else word in self.named.number_of


class ReportLines:
    """Takes the lines of a report one by one, and refuses the first with which no report goes on."""

    def __init__(self, shapes):
        self.shapes, self.last, self.owed, self.number = shapes, "", 0, 0

    def take(self, line_number, line):
        kind = self.shapes.kind(line)
        if kind is None or not self.goes_on(kind):
            raise Fault(line_number, "BadReport")
        if kind in ("at", "panel"):
            self.need_rising(kind, line_number, line)
        self.owed = int(line[6:]) if kind == "cycle" else self.owed - (kind == "why")
        self.last = kind

    def goes_on(self, kind):
        return (kind == "why") == (self.owed > 0) and kind in AFTER[self.last]

    def need_rising(self, kind, line_number, line):
        """Refuses a node or a panel whose number is not greater than that of such a line directly before."""
        word = line.split(b" ")[1]
        number = self.shapes.named.number_of[word] if kind == "at" else int(word)
        if self.last == kind and number <= self.number:
            raise Fault(line_number, "BadReport")
        self.number = number

    def end(self, line_number):
        if self.owed or self.last not in LAST:
            raise Fault(line_number, "EndsEarly")


def need_report(numbered, shapes, end):
    """Refuses numbered lines that are no report of whole blocks. `end` is the number of the line after the last."""
    lines = ReportLines(shapes)
    for number, line in numbered:
        lines.take(number, line)
    lines.end(end)


def check_report(text, named):
    """Refuses a text that is no report of whole blocks, with the line and the cause of `tfpg check`."""
    lines = lines_of(text)
    need_report(enumerate(lines, 1), Shapes(REPORT, named), len(lines) + 1)


def need_answer(lines, shapes, named):
    """Refuses lines of which the first has not the first shape, or another one has none of the others. Answers the kinds."""
    if not lines or Shapes(shapes[:1], named).kind(lines[0]) is None:
        raise Fault(1, "BadAnswer")
    rest = Shapes(shapes[1:], named)
    kinds = [rest.kind(line) for line in lines[1:]]
    if None in kinds:
        raise Fault(kinds.index(None) + 2, "BadAnswer")
    return kinds


def check_ask(text, named):
    need_answer(lines_of(text), ASK, named)


def check_predict(text, named):
    """Refuses a text that is no prediction. Its steps may name the probe."""
    lines = lines_of(text)
    words = lines[0].split(b" ") if lines else []
    need_answer(lines[:1], PREDICT[:1], named)
    kinds = need_answer(lines, PREDICT, named.with_probe(words[1]))
    owed, before = 0, None
    for number, (kind, line) in enumerate(zip(kinds, lines[1:]), 2):
        if before is None and kind != "forecast" or (kind == "why") != (owed > 0):
            raise Fault(number, "BadAnswer")
        owed = int(line[6:]) if kind == "cycle" else owed - (kind == "why")
        before = kind
    if owed:
        raise Fault(len(lines) + 1, "BadAnswer")


def check_fleet(text, named):
    """Refuses a text that is no output of a fleet: some line is none, or what it says of a vehicle is no report."""
    lines, shapes = lines_of(text), Shapes([*FLEET, *REPORT], named)
    if not lines or Shapes(FLEET[:1], named).kind(lines[0]) is None:
        raise Fault(1, "BadAnswer")
    for number, line in enumerate(lines, 1):
        if shapes.kind(line) is None:
            raise Fault(number, "BadAnswer")
    for report in reports_in(lines).values():
        need_report(report, shapes, report[-1][0] if report else 1)


CHECKS = {"report": check_report, "compare": check_report, "ask": check_ask, "predict": check_predict, "fleet": check_fleet}

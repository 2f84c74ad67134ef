"""Reads a report of `diagnose`: its terms, and its blocks in their order. It reads what stands there, and judges nothing: which lines a
report may have, and in which order, is all that it asks for."""

from __future__ import annotations

from dataclasses import dataclass, field
from typing import Any, Callable, Dict, List, Optional, Set, Tuple, Union

from ..limits import LONGEST_LINE
from .graphs import DeclaredGraph
from .sets import members_of, spelled
from .shapes import AFTER, CAUSES, LAST, NUMBERS, REPORT
from .texts import BadText, is_number, lines_of

OTHER_GRAPH = "it names what the graph does not declare, so it is of another graph"


@dataclass(frozen=True)
class Terms:
    """What a diagnosis was asked with."""

    k: int
    doubt: int
    budget: int


@dataclass(frozen=True)
class Refused:
    """A refused line of the log, with its cause, and the time that the cause carries."""

    line: int
    cause: str
    time: Optional[int]


@dataclass(frozen=True)
class Ranked:
    """A ranked hypothesis, with a trace: the names of the nodes that become active, and when."""

    hypothesis: int
    cost: int
    alarmed: int
    monitored: int
    set: str
    trace: List[Tuple[str, int]] = field(default_factory=list)


@dataclass(frozen=True)
class Part:
    """The lines of the steps that one hypothesis was given in a round, and the line of the report in which the first one stands."""

    hypothesis: int
    at: int
    lines: List[str] = field(default_factory=list)


@dataclass
class Round:
    """What an accepted line brought. `counts` are ranked, covered, rejected and open."""

    number: int
    line: int
    now: int
    parts: List[Part] = field(default_factory=list)
    ranked: List[Ranked] = field(default_factory=list)
    open: Dict[int, str] = field(default_factory=dict)
    rejected: Dict[int, str] = field(default_factory=dict)
    counts: Tuple[int, int, int, int] = (0, 0, 0, 0)
    panels: List[Tuple[int, str]] = field(default_factory=list)


Block = Union[Refused, Round]


@dataclass
class Report:
    """The terms and the blocks of a report."""

    terms: Terms
    blocks: List[Block] = field(default_factory=list)

    @property
    def rounds(self) -> List[Round]:
        return [block for block in self.blocks if isinstance(block, Round)]

    @property
    def refused(self) -> List[Refused]:
        return [block for block in self.blocks if isinstance(block, Refused)]

    def sets(self) -> Dict[str, int]:
        """The sets that lines of the report name, each with the number of its hypothesis."""
        found: Dict[str, int] = {}
        for here in self.rounds:
            found.update({one.set: one.hypothesis for one in here.ranked})
            found.update({text: number for listed in (here.open, here.rejected) for number, text in listed.items()})
        return found

    def rejections(self) -> Dict[int, Round]:
        """The rejected hypotheses, each with the round that rejected it."""
        return {number: here for here in self.rounds for number in here.rejected}


class NoLine(Exception):
    """No report goes on with a line, with what more is to be said of that, or nothing."""


@dataclass(frozen=True)
class Line:
    """A line of a report: its number, its text, and the values of its words by its shape: numbers, names, and sets and causes as they are
    spelled."""

    at: int
    text: str
    values: List[Any]

    @property
    def last_word(self) -> str:
        return self.text.split(" ")[-1]


def read_report(text: str, graph: DeclaredGraph) -> Report:
    """What a text says, if it is a report of whole blocks about this graph. Else BadText: BadReport at the first line with which no report
    goes on, or EndsEarly."""
    lines, reader = lines_of(text), Reader(graph)
    for at, line in enumerate(lines, 1):
        try:
            reader.take(at, line)
        except NoLine as fault:
            raise BadText(at, ": ".join(["BadReport", *fault.args])) from None
    if reader.before not in LAST:
        raise BadText(len(lines) + 1, "EndsEarly")
    return Report(reader.terms, reader.blocks)


class Reader:
    """Takes the lines of a report one by one, and keeps what they say."""

    def __init__(self, graph: DeclaredGraph) -> None:
        self.shapes = Shapes(graph)
        self.terms, self.here = Terms(0, 0, 0), Round(0, 0, 0)  # the last round
        self.blocks: List[Block] = []
        self.before = ""  # the first word of the line before
        self.owed = 0  # so many reasons of the last cycle are to come
        self.last = -1  # the last node of a trace, or the last panel that was lost

    def take(self, at: int, text: str) -> None:
        """Keeps what a line says, or raises NoLine if no report goes on with it."""
        kind = text.split(" ")[0]
        if kind not in AFTER[self.before] or (kind == "why") != (self.owed > 0):
            raise NoLine
        KEEPERS[kind](self, Line(at, text, self.shapes.values(text)))
        self.before = kind

    def head(self, line: Line) -> None:
        k, *doubt, budget = line.values
        self.terms = Terms(k, sum(doubt), budget)

    def refuse(self, line: Line) -> None:
        number, said = line.values
        self.blocks.append(Refused(number, said, None) if isinstance(said, str) else Refused(number, "TimeBack", said))

    def begin_round(self, line: Line) -> None:
        self.here = Round(*line.values)
        self.blocks.append(self.here)

    def begin_part(self, line: Line) -> None:
        self.here.parts.append(Part(line.values[0], line.at + 1))

    def keep_step(self, line: Line) -> None:
        self.here.parts[-1].lines.append(line.text)

    def begin_cycle(self, line: Line) -> None:
        self.keep_step(line)
        self.owed = line.values[0]

    def keep_reason(self, line: Line) -> None:
        self.keep_step(line)
        self.owed -= 1

    def rank(self, line: Line) -> None:
        self.here.ranked.append(Ranked(*line.values))
        self.last = -1

    def activate(self, line: Line) -> None:
        name, time = line.values
        self.rise(self.shapes.graph.number_of[name])
        self.here.ranked[-1].trace.append((name, time))

    def leave_open(self, line: Line) -> None:
        number, text = line.values
        self.here.open[number] = text

    def reject(self, line: Line) -> None:
        number, text = line.values
        self.here.rejected[number] = text

    def count(self, line: Line) -> None:
        ranked, covered, rejected, left = line.values
        self.here.counts = ranked, covered, rejected, left
        self.last = -1

    def lose(self, line: Line) -> None:
        self.rise(line.values[0])
        self.here.panels.append((line.values[0], line.last_word))

    def rise(self, number: int) -> None:
        """Refuses a number that is not above the last one."""
        if number <= self.last:
            raise NoLine
        self.last = number


KEEPERS: Dict[str, Callable[[Reader, Line], None]] = {
    "report": Reader.head,
    "refused": Reader.refuse,
    "round": Reader.begin_round,
    "hyp": Reader.begin_part,
    "split": Reader.keep_step,
    "again": Reader.keep_step,
    "cycle": Reader.begin_cycle,
    "why": Reader.keep_reason,
    "ranked": Reader.rank,
    "at": Reader.activate,
    "open": Reader.leave_open,
    "rejected": Reader.reject,
    "counts": Reader.count,
    "panel": Reader.lose,
}


class Shapes:
    """What the lines of reports about a graph may be."""

    def __init__(self, graph: DeclaredGraph) -> None:
        self.graph = graph
        self.known: Set[str] = set()  # the sets that were right
        self.forms: Dict[Tuple[str, int], List[List[str]]] = {}
        for shape in REPORT:
            words = shape.split(" ")
            self.forms.setdefault((words[0], len(words)), []).append(words)

    def values(self, text: str) -> List[Any]:
        """The values of a line, or NoLine if it has no shape."""
        words = text.split(" ")
        for form in self.forms.get((words[0], len(words)), []) if len(text) <= LONGEST_LINE else []:
            pairs = list(zip(form, words))
            if all(asked.startswith("<") or asked == word for asked, word in pairs):
                found = [value for asked, word in pairs if asked.startswith("<") for value in self.word_values(asked, word)]
                self.need_edge(dict(pairs))
                return found
        raise NoLine

    def word_values(self, asked: str, word: str) -> List[Any]:
        """The values of a word in the place of one in angle brackets. A share has two."""
        if asked == "<share>":
            part, _, whole = word.partition("/")
            return [number_within(one, *NUMBERS["<number>"]) for one in (part, whole)]
        if asked in NUMBERS:
            return [number_within(word, *NUMBERS[asked])]
        if asked == "<set>":
            self.need_set(word)
        elif asked == "<cause>" and word not in CAUSES:
            raise NoLine
        elif asked != "<cause>" and word not in self.graph.number_of:
            raise NoLine(OTHER_GRAPH)
        return [word]

    def need_edge(self, words: Dict[str, str]) -> None:
        """Refuses a source and a target between which there is no edge."""
        if "<source>" in words:
            source, target = self.graph.number_of[words["<source>"]], self.graph.number_of[words["<target>"]]
            if self.graph.edge_of(source, target) is None:
                raise NoLine(OTHER_GRAPH)

    def need_set(self, text: str) -> None:
        """Refuses a set of others than failure modes and monitors, or whose members are not in order."""
        if text in self.known:
            return
        failures, doubts = members_of(text)
        if not self.graph.number_of.keys() >= {*failures, *doubts}:
            raise NoLine(OTHER_GRAPH)
        kinds = [self.graph.node(name).kind for name in failures], [self.graph.node(name).lags for name in doubts]
        is_twice = len({*failures}) < len(failures) or len({*doubts}) < len(doubts)
        if {*kinds[0]} - {"failure"} or None in kinds[1] or is_twice or spelled(self.graph, text) != text:
            raise NoLine
        self.known.add(text)


def number_within(word: str, least: int, greatest: int) -> int:
    """A number from a least to a greatest one."""
    if not is_number(word) or len(word) > len(str(greatest)) or not least <= int(word) <= greatest:
        raise NoLine
    return int(word)

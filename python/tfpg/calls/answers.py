"""What a line brings to a session: a round with its ranked hypotheses, or why the line is refused."""

from __future__ import annotations

from dataclasses import dataclass, field
from struct import Struct
from typing import Any, Dict, List, NamedTuple, Optional, Tuple, Union

from ..explaining.explanations import Explanation, line_dict
from ..explaining.refusals import line_explanation
from ..faults import LineRefused, LogFull
from ..limits import MOST_TIME, NEVER, spoken
from ..reading.graphs import DeclaredGraph
from ..reading.texts import Word, bytes_in, is_number, shown, text_of, words_of
from .notebook import round_table


@dataclass(frozen=True)
class Names:
    """The names of a graph by their numbers, as the library has them, and the origin of the times of a session."""

    nodes: Tuple[str, ...]
    failures: Tuple[str, ...]
    origin: int


@dataclass(frozen=True)
class Ranked:
    """A ranked hypothesis: its number, the names of its failure modes and of the nodes whose monitors it doubts, its cost, and how many of
    the monitored nodes in its reach whose monitors it believes have an alarm, of how many."""

    hypothesis: int
    failures: Tuple[str, ...]
    doubts: Tuple[str, ...]
    cost: int
    alarmed: int
    monitored: int
    times: bytes = field(repr=False)  # of each node, as the library writes them
    names: Names = field(repr=False, compare=False)

    @property
    def set(self) -> str:
        """Its set, as reports spell it."""
        return ",".join(self.failures + tuple("!" + name for name in self.doubts)) or "-"

    @property
    def trace(self) -> Dict[str, int]:
        """When each node of its trace became active, in the order of the nodes."""
        names, origin = self.names.nodes, self.names.origin
        times = Struct(f"={len(names)}Q").unpack(self.times)
        return {name: time + origin for name, time in zip(names, times) if time != NEVER}

    @property
    def map(self) -> str:
        """Its set and its trace as a text that `explain` reads. Its times are less the origin."""
        origin = self.names.origin
        return f"set {self.set}\n" + "".join(f"at {name} {time - origin}\n" for name, time in self.trace.items())

    def to_dict(self) -> Dict[str, Any]:
        """It as JSON has it, by the names of its attributes."""
        return {"hypothesis": self.hypothesis, "set": self.set, "failures": list(self.failures), "doubts": list(self.doubts),
                "cost": self.cost, "alarmed": self.alarmed, "monitored": self.monitored, "trace": self.trace}


class Round(NamedTuple):
    """What an accepted line brought: the number of the round, that of the line, the time, whether other hypotheses are ranked than in the
    round before or in another order, the ranked ones, best first, and how many are covered, rejected so far, and open."""

    number: int
    line: int
    now: int
    changed: bool
    ranked: Tuple[Ranked, ...]
    covered: int
    rejected: int
    open: int

    @property
    def best(self) -> Optional[Ranked]:
        """The first of the ranked hypotheses."""
        return self.ranked[0] if self.ranked else None

    def to_dict(self) -> Dict[str, Any]:
        """It as JSON has it, by the names of its fields."""
        return {**self._asdict(), "ranked": [one.to_dict() for one in self.ranked]}

    def _repr_html_(self) -> str:
        """It as a notebook shows it."""
        return round_table(self)


class Why(NamedTuple):
    """Why a line was refused: its number, the cause, and with TimeBack the time of the last event."""

    line: int
    cause: str
    last: Optional[int]


@dataclass(frozen=True)
class Refused:
    """A line that the log refused, which changed nothing: its number, the cause, its text, and with TimeBack the time of the last event."""

    line: int
    cause: str
    text: str
    last: Optional[int]
    graph: Optional[DeclaredGraph] = field(repr=False, compare=False)
    origin: int = field(repr=False, compare=False)
    known: Optional[Explanation] = field(default=None, repr=False, compare=False)  # in place of the graph, once it was pickled

    def __getstate__(self) -> Dict[str, Any]:
        """What `pickle` keeps: the explanation, and not the graph that it needs."""
        return {**vars(self), "graph": None, "known": self.explanation}

    @property
    def sentence(self) -> str:
        """Why it is refused, in a sentence."""
        return self.explanation.sentence

    @property
    def hints(self) -> List[str]:
        """What is wrong with its form, and what would be right."""
        return self.explanation.hints

    @property
    def explanation(self) -> Explanation:
        """What `lint` says of the line."""
        if self.graph is None:
            return self.known or Explanation("")
        line = text_of(bytes_in(self.text))
        known = by_origin(words_of(line)[0], self.cause, self.origin)
        return known or with_hint(line_explanation(self.graph, [line], 1, self.cause, self.last), self.cause)

    def to_dict(self) -> Dict[str, Any]:
        """It as JSON has it: `line`, `cause`, `sentence`, `text` as a reader sees it, and `hints`."""
        return line_dict(self.line, self.cause, shown(text_of(bytes_in(self.text))), self.explanation)

    def fault(self) -> Union[LineRefused, LogFull]:
        """The error of a strict call."""
        if self.cause in ("LogFull", "ModesFull"):
            return LogFull(f"line {self.line}: {self.cause}: {self.text}\n{self.sentence}", self)
        return LineRefused(self)


Answered = Union[Round, Refused]


def refused_dicts(refused: Tuple[Refused, ...]) -> List[Dict[str, Any]]:
    """Refused lines as JSON has them."""
    return [one.to_dict() for one in refused]


def by_origin(word: Word, cause: str, origin: int) -> Optional[Explanation]:
    """An explanation of a line with this first word, if it is refused since its time is taken less an origin."""
    if not is_number(word.text) or cause not in ("BadNumber", "TimeTooLarge"):
        return None
    if cause == "BadNumber":
        return Explanation(f"The time {word.text} is before the origin {origin}.", word)
    if origin:
        limit = f"{spoken(MOST_TIME)} milliseconds after the origin {origin}"
        return Explanation(f"A time is at most {limit}, and {word.text} is above it.", word)
    return None


def with_hint(said: Explanation, cause: str) -> Explanation:
    """An explanation with what a session can do about it."""
    if cause != "TimeTooLarge":
        return said
    return Explanation(said.sentence, said.word, [*said.hints, "A session subtracts its `origin` from each time."])

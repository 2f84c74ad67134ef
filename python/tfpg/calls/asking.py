"""Which observation would tell most after a log."""

from __future__ import annotations

from dataclasses import dataclass
from typing import Any, Dict, SupportsIndex, Tuple

from ..faults import LogFull
from ..reading.texts import lines_of
from .answers import Refused, refused_dicts
from .endings import About, Terms
from .graph import Graph
from .library import library
from .rooms import text_written_apart
from .texts import Log, counted
from .whole_logs import WholeLog


@dataclass(frozen=True)
class Question:
    """A monitored node without an alarm: how many hypotheses are out after a silence of it, and after an alarm, and how many outcomes are
    unknown since the budget was spent."""

    node: str
    silent: int
    alarm: int
    unknown: int

    def to_dict(self) -> Dict[str, Any]:
        """It as JSON has it, by the names of its attributes."""
        return {"node": self.node, "silent": self.silent, "alarm": self.alarm, "unknown": self.unknown}


@dataclass(frozen=True)
class Questions:
    """The time of the last event, how many hypotheses are ranked and open, the questions, the most useful one first, and the lines that the
    log refused."""

    now: int
    ranked: int
    open: int
    questions: Tuple[Question, ...]
    refused: Tuple[Refused, ...] = ()

    def to_dict(self) -> Dict[str, Any]:
        """It as JSON has it, by the names of its attributes."""
        return {"now": self.now, "ranked": self.ranked, "open": self.open, "questions": [one.to_dict() for one in self.questions],
                "refused": refused_dicts(self.refused)}


def ask(graph: Graph, log: Log, k: SupportsIndex = 2, doubt: SupportsIndex = 0, budget: SupportsIndex = 1000, origin: SupportsIndex = 0,
        strict: bool = False) -> Questions:
    """Which observation would tell most after a log, as the program's `ask` says it.

    graph, log: what is diagnosed. The log is a text, the path of a file, or lines one after the other.
    k: how many members a hypothesis may have, failure modes and monitors that it doubts: 0 to 64.
    doubt: how many of these may be monitors: 0 to 4.
    budget: how many splits a hypothesis may have at a line, and at each question: 1 to 10^12.
    origin: milliseconds that are subtracted from the time of each line, and added to the times of the answer.
    strict: a refused line raises LineRefused or LogFull. Else there is a RefusedLines warning if any is.

    LogFull, if the log takes no further event, so that there is nothing to ask; the other errors are those of `tfpg_ask` in tfpg.h, by
    their names. An interrupt acts at once: the library then goes on by itself to its end, and its answer is dropped.

    >>> questions = tfpg.ask(tfpg.Graph.load("examples/pump.tfpg"), ["2715000 alarm LowFlow"], k=1)
    >>> questions.ranked, [question.node for question in questions.questions][:1]
    (3, ['HighPressure'])
    """
    given, terms = WholeLog(graph, log, origin, strict), Terms.of(k, doubt, budget)
    words = *counted(graph.text), *counted(given.content), *terms.numbers()
    head, *asked = [line.split(" ") for line in lines_of(text_written_apart(library().ask, words, About(graph, terms)))]
    if asked and asked[0][0] == "refused":
        raise LogFull("the log has as many events as a log can have, so no further one can be asked for")
    given.warn()
    questions = tuple(Question(words[1], int(words[3]), int(words[5]), int(words[7])) for words in asked)
    return Questions(int(head[2]) + given.origin, int(head[4]), int(head[6]), questions, given.refused)

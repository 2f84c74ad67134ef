"""The error of a call that is not done."""

from __future__ import annotations

from dataclasses import asdict, dataclass
from operator import index as whole
from typing import SupportsIndex, Tuple

from ..explaining.refusals import NO_ROOM
from ..faults import Error, FullGraph, NoMemory, NotAccepted, OutOfRange, SessionClosed, TooManyHypotheses, TooMuchInput, UnknownNode
from ..limits import FILE_BYTES, INPUT_BYTES, OPTIONS, spoken
from .graph import Graph
from .layouts import GRAPH_CAUSES, REPORT_CAUSES, Answer, Status

TOO_LONG = (f"a log has at most {spoken(FILE_BYTES)} bytes, and {spoken(INPUT_BYTES)} where a report is made of it; "
            f"a report or a map that is judged has at most {spoken(INPUT_BYTES)}")


@dataclass(frozen=True)
class Terms:
    """What a diagnosis is asked with."""

    k: int = 2
    doubt: int = 0
    budget: int = 1000

    @classmethod
    def of(cls, *numbers: SupportsIndex) -> "Terms":
        """The terms of these numbers, which are whole ones of any kind, or TypeError."""
        return cls(*map(whole, numbers))

    def numbers(self) -> Tuple[int, ...]:
        """The same as C has them. A number that C cannot have becomes the greatest that it can, which is outside the limits too."""
        return fitting(self.k, 32), fitting(self.doubt, 32), fitting(self.budget, 64)

    def fault(self) -> OutOfRange:
        """Which of them are outside their limits, and what these are."""
        wrong = [f"{name} is from {limits.least} to {limits.greatest}, and {value!r} is not" for name, value in asdict(self).items()
                 for limits in [OPTIONS["--" + name]] if not limits.least <= value <= limits.greatest]
        return OutOfRange("; ".join(wrong))


@dataclass(frozen=True)
class PredictionTerms(Terms):
    """What a prediction is asked with."""

    ahead: int = 1000

    def numbers(self) -> Tuple[int, ...]:
        """The same as C has them."""
        return (*super().numbers(), fitting(self.ahead, 64))


def fitting(number: int, bits: int) -> int:
    """A number as one of so many bits."""
    return number if 0 <= number < 1 << bits else (1 << bits) - 1


@dataclass(frozen=True)
class About:
    """What a call is about, as its errors say it: a graph, the terms, the report or the map that is judged, and the name of a node."""

    graph: Graph
    terms: Terms = Terms()
    judged: bytes = b""
    node: str = ""


def fault_of(answer: Answer, about: About) -> Error:
    """The error of an answer that is not done."""
    status = answer.status
    if status == Status.OUT_OF_RANGE:
        return about.terms.fault()
    if status == Status.BAD_GRAPH:
        return about.graph.fault(answer.line, GRAPH_CAUSES[answer.cause])
    if status == Status.FULL_GRAPH:
        return FullGraph(0, GRAPH_CAUSES[answer.cause], "", NO_ROOM)
    if status == Status.NO_SUCH:
        return UnknownNode(about.node)
    if status == Status.TOO_MANY_HYPOTHESES:
        return TooManyHypotheses(answer.count_high << 64 | answer.count)
    if status == Status.NOT_ACCEPTED:
        return not_accepted(answer.line, REPORT_CAUSES[answer.cause], about.judged)
    if status == Status.BAD_MAP:
        return not_accepted(answer.line, "BadMap", about.judged)
    if status == Status.TOO_MUCH_INPUT:
        return TooMuchInput(TOO_LONG)
    if status == Status.NO_MEMORY:
        return NoMemory("memory ran out")
    return SessionClosed("the session is closed") if status == Status.ENDED else Error(f"the library answers {status}")


def not_accepted(line: int, cause: str, text: bytes) -> NotAccepted:
    """Why a text is not accepted, with its line of this number, or nothing if it has none."""
    lines = text.split(b"\n", line)
    return NotAccepted(line, cause, lines[line - 1].decode("utf-8", "replace") if line <= len(lines) else "")

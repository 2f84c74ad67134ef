"""When at the earliest a node can become active, by each ranked hypothesis."""

from __future__ import annotations

import ctypes
from dataclasses import dataclass
from typing import Any, Dict, List, Optional, SupportsIndex, Tuple

from ..faults import UnknownNode
from ..reading.texts import is_name, lines_of
from .answers import Refused, refused_dicts
from .endings import About, PredictionTerms, Terms
from .graph import Graph
from .layouts import PredictionNumbers
from .library import library
from .rooms import text_written_apart
from .texts import Log, counted
from .whole_logs import WholeLog


@dataclass(frozen=True)
class Forecast:
    """What a ranked hypothesis says of the node. The outcome is `earliest` with the least time, `never` without one, or `unsettled` with
    the bound of the search that spent the budget. The trace attains the time, and the steps are the lines of the evidence."""

    hypothesis: int
    set: str
    outcome: str
    time: Optional[int]
    trace: Dict[str, int]
    steps: Tuple[str, ...]

    def to_dict(self) -> Dict[str, Any]:
        """It as JSON has it, by the names of its attributes."""
        return {"hypothesis": self.hypothesis, "set": self.set, "outcome": self.outcome, "time": self.time, "trace": dict(self.trace),
                "steps": list(self.steps)}


@dataclass(frozen=True)
class Prediction:
    """The node, the time of the last event, up to when is looked, the forecasts in ranking order, and the lines that the log refused."""

    node: str
    now: int
    until: int
    forecasts: Tuple[Forecast, ...]
    refused: Tuple[Refused, ...] = ()

    def to_dict(self) -> Dict[str, Any]:
        """It as JSON has it, by the names of its attributes."""
        return {"node": self.node, "now": self.now, "until": self.until, "forecasts": [one.to_dict() for one in self.forecasts],
                "refused": refused_dicts(self.refused)}


def predict(graph: Graph, log: Log, node: str, ahead: SupportsIndex = 1000, k: SupportsIndex = 2, doubt: SupportsIndex = 0,
            budget: SupportsIndex = 1000, origin: SupportsIndex = 0, strict: bool = False) -> Prediction:
    """When a node becomes active at the earliest, by each ranked hypothesis, as the program's `predict` says it.

    graph, log: what is diagnosed. The log is a text, the path of a file, or lines one after the other.
    node: the name of the node.
    ahead: up to how many milliseconds after the last event is looked: 0 to 10^12.
    k: how many members a hypothesis may have, failure modes and monitors that it doubts: 0 to 64.
    doubt: how many of these may be monitors: 0 to 4.
    budget: how many splits a hypothesis may have at a line, and each search for a time: 1 to 10^12.
    origin: milliseconds that are subtracted from the time of each line, and added to the times of the answer.
    strict: a refused line raises LineRefused or LogFull. Else there is a RefusedLines warning if any is.

    UnknownNode, if the graph has no such node; FullGraph, if it has no room for what is added; the other errors are those of
    `tfpg_predict` in tfpg.h, by their names. An interrupt acts at once, as with `ask`.

    >>> log = ["600000 tick", "1800000 tick", "2715000 alarm LowFlow"]
    >>> prediction = tfpg.predict(tfpg.Graph.load("examples/pump.tfpg"), log, "MotorHot", ahead=3600000)
    >>> [(forecast.set, forecast.outcome, forecast.time) for forecast in prediction.forecasts][:1]
    [('FilterClogged', 'earliest', 2840000)]
    """
    if not isinstance(node, str):
        raise TypeError(f"the name of a node is str, and {node!r} is not")
    if not is_name(node):
        raise UnknownNode(node)
    given = WholeLog(graph, log, origin, strict)
    head, *lines = lines_of(forecasts_text(graph, given.content, node, PredictionTerms.of(k, doubt, budget, ahead)))
    given.warn()
    begins = [place for place, line in enumerate(lines) if line.startswith("forecast ")] + [len(lines)]
    words = head.split(" ")
    forecasts = tuple(forecast(lines[a:b], given.origin) for a, b in zip(begins, begins[1:]))
    return Prediction(node, int(words[3]) + given.origin, int(words[5]) + given.origin, forecasts, given.refused)


def forecasts_text(graph: Graph, lines: bytes, node: str, terms: Terms) -> str:
    """The forecasts of a node as a text."""
    numbers = PredictionNumbers(*terms.numbers())
    words = *counted(graph.text), *counted(lines), *counted(node.encode("ascii")), ctypes.byref(numbers)
    return text_written_apart(library().predict, words, About(graph, terms, node=node))


def forecast(lines: List[str], origin: int) -> Forecast:
    """A forecast of its lines, whose times are less the origin."""
    words = lines[0].split(" ")
    trace = [line.split(" ") for line in lines[1:] if line.startswith("at ")]
    steps = tuple(line for line in lines[1:] if not line.startswith("at "))
    time = int(words[5]) + origin if len(words) > 5 else None
    return Forecast(int(words[1]), words[3], words[4], time, {name: int(when) + origin for _, name, when in trace}, steps)

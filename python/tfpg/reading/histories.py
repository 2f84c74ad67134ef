"""A trace as a history: what became active when, over which edges the failure had arrived, and which alarms it explains."""

from __future__ import annotations

from dataclasses import dataclass
from typing import Dict, List, Sequence

from .graphs import DeclaredGraph, Edge
from .logs import Event, EventLog
from .reports import Ranked
from .spans import Span, edge_window, modes_between, number_at, spans_at


@dataclass(frozen=True)
class Arrival:
    """An edge over which the failure had arrived, its age in milliseconds, and the modes in which it was on its way."""

    edge: Edge
    age: int
    modes: List[int]


@dataclass(frozen=True)
class Activation:
    """An activation of a history. Alarms of a monitor that is doubted stand there too: whoever says them knows the set."""

    node: int
    time: int
    arrivals: List[Arrival]
    alarms: List[Event]


def history_of(graph: DeclaredGraph, log: EventLog, ranked: Ranked, horizon: int) -> List[Activation]:
    """The history of a ranked hypothesis, by time, with the modes up to a horizon."""
    trace = {graph.number_of[name]: time for name, time in ranked.trace}
    spans = spans_at(log.changes, horizon)
    return [
        Activation(node, time, _arrivals(graph, spans, trace, node), [one for one in log.alarms.get(node, []) if one.time <= horizon])
        for node, time in sorted(trace.items(), key=lambda entry: (entry[1], entry[0]))
    ]


def _arrivals(graph: DeclaredGraph, spans: Sequence[Span], trace: Dict[int, int], node: int) -> List[Arrival]:
    """The age of an edge counts from when its source and the edge are both active."""
    time, found = trace[node], []
    for edge in graph.incoming[node]:
        since = trace.get(edge.source)
        window = None if since is None or since > time else edge_window(spans, number_at(spans, time), edge)
        if since is not None and window is not None and time - max(since, window.lo) >= edge.least:
            begin = max(since, window.lo)
            found.append(Arrival(edge, time - begin, modes_between(spans, begin, time)))
    return found

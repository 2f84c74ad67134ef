"""Reads the lines of a log that a report accepted. Which lines these are, the report says."""

from __future__ import annotations

from dataclasses import dataclass
from typing import Dict, Iterable, List, Optional, Sequence, Tuple

from .graphs import DeclaredGraph
from .texts import BadText, is_number, number_of


@dataclass(frozen=True)
class Event:
    """An accepted line. Its number counts events from 1, its line counts lines from 1, its time is in milliseconds."""

    number: int
    line: int
    time: int
    kind: str  # alarm, silent, sweep, tick, mode
    node: Optional[int]
    mode: Optional[int]


class EventLog:
    """The events of a log, and what they say of each monitor."""

    def __init__(self, graph: DeclaredGraph, lines: Sequence[str], accepted: Iterable[int]) -> None:
        self.graph = graph
        self.events = [_event(graph, lines, number, line) for number, line in enumerate(accepted, 1)]
        self.changes: List[Tuple[int, int]] = [(one.time, one.mode) for one in self.events if one.mode is not None]
        self.alarms: Dict[int, List[Event]] = {}
        for event in self.events:
            if event.kind == "alarm" and event.node is not None:
                self.alarms.setdefault(event.node, []).append(event)

    @property
    def now(self) -> int:
        """The time of the last event."""
        return self.events[-1].time if self.events else 0

    def silences(self, event: Event, node: int) -> bool:
        """Whether an event is a silence of a monitored node: its own, or a sweep before the first alarm of the node."""
        if event.kind == "silent":
            return event.node == node
        alarms = self.alarms.get(node)
        return event.kind == "sweep" and self.graph.nodes[node].lags is not None and not (alarms and alarms[0].number < event.number)


def _event(graph: DeclaredGraph, lines: Sequence[str], number: int, line: int) -> Event:
    """The event of a line, or BadText if the line is none of this graph."""
    if line > len(lines):
        raise BadText(line, "the report has a round for this line, and the log has no such line")
    words = lines[line - 1].split(" ")
    if len(words) not in (2, 3) or not is_number(words[0]):
        raise BadText(line, "the report has a round for this line, which is no event")
    named = words[2] if len(words) == 3 else ""
    node = graph.number_of.get(named) if words[1] in ("alarm", "silent") else None
    mode = graph.modes.index(named) if words[1] == "mode" and named in graph.modes else None
    if (words[1] in ("alarm", "silent") and node is None) or (words[1] == "mode" and mode is None):
        raise BadText(line, "the report has a round for this line, which names nothing of the graph")
    return Event(number, line, number_of(words[0]), words[1], node, mode)

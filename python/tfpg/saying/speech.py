"""What is spoken of: a graph, a log of it, a set, and the start of the times."""

from __future__ import annotations

from dataclasses import dataclass

from ..reading.graphs import DeclaredGraph, Edge
from ..reading.logs import EventLog
from ..reading.subjects import Subject
from .times import time_words


@dataclass(frozen=True)
class Speech:
    """What sentences need to name nodes, edges, lines and times."""

    graph: DeclaredGraph
    log: EventLog
    set: str
    start: int = 0

    def node(self, node: int) -> str:
        return self.graph.name(node)

    def edge(self, edge: Edge) -> str:
        return f"{self.node(edge.source)} to {self.node(edge.target)}"

    def time(self, time: int) -> str:
        return time_words(time, self.start)

    def begin(self) -> str:
        """The instant 0, as a time of day if there is a start."""
        return time_words(0, self.start) if self.start else "0"

    def line(self, event: int) -> str:
        """The line of the log of an event."""
        return f"line {self.log.events[event - 1].line}"


def speech_of(subject: Subject, set_text: str) -> Speech:
    """What sentences on a set of a subject need."""
    return Speech(subject.graph, subject.log, set_text, subject.start)

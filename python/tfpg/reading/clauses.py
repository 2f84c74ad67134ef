"""What clauses and reasons state, by the two tables of docs/evidence.md."""

from __future__ import annotations

from dataclasses import dataclass, field
from typing import List, Optional, Sequence, Set

from ..limits import NEVER
from .constraints import Constraint, at_least, at_least_after, at_most, at_most_after
from .graphs import DeclaredGraph, Edge
from .logs import Event, EventLog
from .spans import Span, Window, edge_window, spans_at, window_of
from .steps import Clause, Reason

KIND_OF_TARGET = {"ormay": "or", "ormust": "or", "andmay": "and", "andmust": "and"}


@dataclass(frozen=True)
class Alternative:
    """An alternative of a clause: what it says by its label, over which edge, and its constraints in order."""

    label: str  # before, after, over, late, follows, due
    edge: Optional[Edge]
    constraints: List[Constraint]


@dataclass(frozen=True)
class Excluded:
    """An edge over which nothing comes in a span: it is off, or nothing arrives before an instant."""

    edge: Edge
    arrival: Optional[int]


@dataclass
class Alternatives:
    """The alternatives of a clause, with its span, its window, and the edges that bring nothing."""

    span: Span
    window: Optional[Window] = None
    some: List[Alternative] = field(default_factory=list)
    excluded: List[Excluded] = field(default_factory=list)


def alternatives_of(graph: DeclaredGraph, log: EventLog, clause: Clause) -> Optional[Alternatives]:
    """The alternatives of a clause, or nothing if the clause is not allowed."""
    needs_edge = clause.kind in ("andmay", "ormust")
    if needs_edge and clause.edge is None or KIND_OF_TARGET.get(clause.kind) != graph.nodes[clause.node].kind:
        return None
    spans = spans_at(log.changes, clause.horizon)
    if clause.horizon > log.now or clause.span >= len(spans):
        return None
    incoming = [clause.edge] if clause.edge is not None else graph.incoming[clause.node]
    if clause.kind.endswith("may"):
        return _may(spans, clause, incoming)
    return _or_must(spans, clause, incoming[0]) if clause.kind == "ormust" else _and_must(spans, clause, incoming)


def _may(spans: Sequence[Span], clause: Clause, edges: Sequence[Edge]) -> Alternatives:
    node, span = clause.node, spans[clause.span]
    found = Alternatives(span)
    found.some.append(Alternative("before", None, [at_most(node, span.lo - 1)]))
    found.some.append(Alternative("after", None, [at_least(node, span.hi + 1)]))
    for edge in edges:
        window = edge_window(spans, clause.span, edge)
        if window is not None and window.lo + edge.least <= span.hi:
            begin = max(span.lo, window.lo + edge.least)
            constraints = [at_least_after(edge, edge.least), at_least(node, begin), at_most(node, span.hi)]
            found.some.append(Alternative("over", edge, constraints))
        else:
            found.excluded.append(Excluded(edge, None if window is None else window.lo + edge.least))
    return found


def _or_must(spans: Sequence[Span], clause: Clause, edge: Edge) -> Optional[Alternatives]:
    window = edge_window(spans, clause.span, edge)
    if edge.greatest is None or window is None or window.first != clause.span or window.lo + edge.greatest > window.hi:
        return None
    due = window.lo + edge.greatest
    last = Alternative("due", edge, [at_most(edge.target, due)])
    return Alternatives(spans[clause.span], window, [_late(edge, window), _follows(edge), last])


def _and_must(spans: Sequence[Span], clause: Clause, edges: Sequence[Edge]) -> Optional[Alternatives]:
    window = window_of(spans, clause.span, lambda mode: all(mode in edge.modes for edge in edges))
    if window is None or window.first != clause.span or any(edge.greatest is None for edge in edges):
        return None
    begins = [edge_window(spans, clause.span, edge) for edge in edges]
    due = max(begin.lo + (edge.greatest or 0) for begin, edge in zip(begins, edges) if begin is not None)
    if due > window.hi:
        return None
    last = Alternative("due", None, [at_most(clause.node, due)])
    return Alternatives(spans[clause.span], window, [_late(edge, window) for edge in edges] + [_follows(edge) for edge in edges] + [last])


def _late(edge: Edge, window: Window) -> Alternative:
    return Alternative("late", edge, [at_least(edge.source, window.hi - (edge.greatest or 0) + 1)])


def _follows(edge: Edge) -> Alternative:
    return Alternative("follows", edge, [at_most_after(edge, edge.greatest or 0)])


def fact_of(graph: DeclaredGraph, log: EventLog, reach: Set[int], doubts: Set[int], reason: Reason) -> Optional[Constraint]:
    """The constraint of a reason that is no pick, or nothing if the reason states none for this reach and these doubts."""
    if reason.event is not None:
        return _said(graph, log, doubts, reason, log.events[reason.event - 1]) if 0 < reason.event <= len(log.events) else None
    if reason.node is None:
        return None
    if reason.kind == "zero":
        return at_least(reason.node, 0)
    if reason.kind == "top":
        return at_most(reason.node, NEVER)
    return at_least(reason.node, reason.horizon + 1) if reason.horizon <= log.now and reason.node not in reach else None


def _said(graph: DeclaredGraph, log: EventLog, doubts: Set[int], reason: Reason, event: Event) -> Optional[Constraint]:
    """What an alarm or a silence states."""
    node = reason.node if reason.kind == "quiet" else event.node
    lags = None if node is None else graph.nodes[node].lags
    if node is None or lags is None or node in doubts:
        return None
    if reason.kind == "quiet":
        is_said = log.silences(event, node) and event.time >= lags[0]
        return at_least(node, event.time - lags[0] + 1) if is_said else None
    if event.kind != "alarm":
        return None
    return at_least(node, max(0, event.time - lags[1])) if reason.kind == "from" else at_most(node, max(0, event.time - lags[0]))

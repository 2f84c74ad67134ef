"""The steps of a hypothesis as data: splits, cycles with their reasons, and `again`."""

from __future__ import annotations

from dataclasses import dataclass, field
from typing import List, Optional

from .graphs import DeclaredGraph, Edge
from .reports import Report, Round


@dataclass(frozen=True)
class Clause:
    """The clause of a split: of a node, and for some kinds of an edge into it, at a span and a horizon."""

    kind: str  # ormay, andmay, ormust, andmust
    node: int
    edge: Optional[Edge]
    span: int
    horizon: int


@dataclass(frozen=True)
class Reason:
    """A reason of a cycle. What it does not name is nothing."""

    kind: str  # zero, top, unreached, from, upto, quiet, pick
    node: Optional[int] = None
    event: Optional[int] = None
    horizon: int = 0
    split: int = 0
    place: int = 0


@dataclass(frozen=True)
class Step:
    """A step, the line of the report in which it begins, and the round that has it."""

    kind: str  # split, cycle, again
    at: int
    round: Round
    clause: Optional[Clause] = None
    reasons: List[Reason] = field(default_factory=list)


def steps_of(graph: DeclaredGraph, report: Report, hypothesis: int) -> List[Step]:
    """The steps that were found for a hypothesis in all rounds."""
    steps: List[Step] = []
    for here in report.rounds:
        for part in here.parts:
            if part.hypothesis == hypothesis:
                for at, line in enumerate(part.lines, part.at):
                    _take(graph, steps, here, at, line)
    return steps


def _take(graph: DeclaredGraph, steps: List[Step], here: Round, at: int, line: str) -> None:
    """Adds the step that a line begins, or the reason that it says to the last step."""
    words = line.split(" ")
    if words[0] == "split":
        steps.append(Step("split", at, here, clause=_clause(graph, words)))
    elif words[0] == "why":
        steps[-1].reasons.append(_reason(graph, words))
    else:
        steps.append(Step(words[0], at, here))


def _clause(graph: DeclaredGraph, words: List[str]) -> Clause:
    kind, names = words[1], [graph.number_of[name] for name in words[2:-2]]
    edge = graph.edge_of(names[0], names[1]) if kind in ("andmay", "ormust") else None
    return Clause(kind, names[-1], edge, int(words[-2]), int(words[-1]))


def _reason(graph: DeclaredGraph, words: List[str]) -> Reason:
    kind = words[1]
    if kind == "unreached":
        return Reason(kind, node=graph.number_of[words[2]], horizon=int(words[3]))
    if kind in ("from", "upto"):
        return Reason(kind, event=int(words[2]))
    if kind == "quiet":
        return Reason(kind, node=graph.number_of[words[3]], event=int(words[2]))
    if kind == "pick":
        return Reason(kind, split=int(words[2]), place=int(words[3]))
    return Reason(kind, node=graph.number_of[words[2]])

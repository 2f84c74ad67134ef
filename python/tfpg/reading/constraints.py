"""Constraints `left - right <= bound` on the times of nodes, each with the form in which it is said."""

from __future__ import annotations

from dataclasses import dataclass
from typing import Optional

from .graphs import Edge

ZERO = -1  # the constant zero, beside the numbers of nodes


@dataclass(frozen=True)
class Constraint:
    """A bound on the time of a node, or on the difference of the two times at an edge."""

    left: int
    right: int
    bound: int
    form: str  # at most, at least, at most after, at least after
    value: int
    edge: Optional[Edge] = None

    @property
    def node(self) -> int:
        """The node that the constraint is about."""
        if self.edge is not None:
            return self.edge.target
        return self.left if self.right == ZERO else self.right


def at_most(node: int, value: int) -> Constraint:
    return Constraint(node, ZERO, value, "at most", value)


def at_least(node: int, value: int) -> Constraint:
    return Constraint(ZERO, node, -value, "at least", value)


def at_most_after(edge: Edge, value: int) -> Constraint:
    return Constraint(edge.target, edge.source, value, "at most after", value, edge)


def at_least_after(edge: Edge, value: int) -> Constraint:
    return Constraint(edge.source, edge.target, -value, "at least after", value, edge)

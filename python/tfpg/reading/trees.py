"""The tree of a refutation: choices with their cases, and contradictions. A step that does not fit is said, and ends the tree."""

from __future__ import annotations

from collections import Counter
from dataclasses import dataclass, field
from typing import Iterable, List, Optional, Tuple, Union

from .clauses import Alternative, Alternatives, alternatives_of, fact_of
from .constraints import ZERO, Constraint
from .graphs import DeclaredGraph
from .logs import EventLog
from .sets import members_of
from .steps import Reason, Step


@dataclass(eq=False)
class Case:
    """A case of a choice, with what stands in it, or the number of the earlier case whose subtree closes it too."""

    number: int
    alternative: Alternative
    child: Optional["TreeNode"] = None
    reused: Optional[int] = None
    reused_at: int = 0  # the line of the report that says so


@dataclass(eq=False)
class Choice:
    """A split. Its number is that on its path, from 1."""

    step: Step
    number: int
    found: Alternatives
    cases: List[Case]


@dataclass(eq=False)
class Contradiction:
    """A cycle: its constraints, and of each that is a pick the choice and the case that it is of."""

    step: Step
    constraints: List[Constraint]
    picks: List[Optional[Tuple[Choice, Case]]]


TreeNode = Union[Choice, Contradiction]


@dataclass
class Tree:
    """The state is closed, partial if some case is left, or broken by a step that does not fit, which the complaint says."""

    root: Optional[TreeNode] = None
    state: str = "partial"
    complaint: str = ""
    step_count: int = 0


@dataclass
class Place:
    """A choice on the path to the present leaf, with the case in which that lies."""

    choice: Choice
    taken: int = 0
    cited: bool = False
    reusable: bool = False


class Misfit(Exception):
    """A step does not fit."""


@dataclass
class Walk:
    """Takes steps one by one, as the path to the present leaf has them."""

    graph: DeclaredGraph
    log: EventLog
    set: str
    path: List[Place] = field(default_factory=list)
    root: Optional[TreeNode] = None
    closed: bool = False

    def __post_init__(self) -> None:
        failures, doubts = members_of(self.set)
        self.reach = self.graph.reach_of(self.graph.number_of[name] for name in failures)
        self.doubts = {self.graph.number_of[name] for name in doubts}

    def take(self, step: Step) -> None:
        if self.closed:
            raise Misfit("it comes after the tree is closed")
        if step.kind == "split":
            self.split(step)
        elif step.kind == "again":
            self.reuse(step)
        else:
            self.close(step)

    def put(self, node: TreeNode) -> None:
        if self.path:
            self.path[-1].choice.cases[self.path[-1].taken].child = node
        else:
            self.root = node

    def split(self, step: Step) -> None:
        is_due = step.clause is not None and step.clause.horizon <= step.round.now
        found = alternatives_of(self.graph, self.log, step.clause) if step.clause is not None and is_due else None
        if found is None:
            raise Misfit("no such choice is allowed")
        cases = [Case(number, alternative) for number, alternative in enumerate(found.some, 1)]
        choice = Choice(step, len(self.path) + 1, found, cases)
        self.put(choice)
        self.path.append(Place(choice))

    def reuse(self, step: Step) -> None:
        """The case before closed without a pick of its split, so what closed it closes this case and all later ones."""
        if not self.path or not self.path[-1].reusable:
            raise Misfit("the case before cannot be used again")
        top = self.path.pop()
        for later in top.choice.cases[top.taken:]:
            later.reused, later.reused_at = top.taken, step.at
        self.next()

    def close(self, step: Step) -> None:
        stated = [self.stated(step, reason) for reason in step.reasons]
        constraints = [constraint for constraint, _ in stated]
        following = constraints[1:] + constraints[:1]
        if not constraints or any(one.right != after.left for one, after in zip(constraints, following)):
            raise Misfit("its reasons do not chain")
        if sum(constraint.bound for constraint in constraints) >= 0:
            raise Misfit("it is no contradiction")
        for reason in step.reasons:
            if reason.kind == "pick":
                self.path[reason.split - 1].cited = True
        self.put(Contradiction(step, constraints, [pick for _, pick in stated]))
        self.next()

    def stated(self, step: Step, reason: Reason) -> Tuple[Constraint, Optional[Tuple[Choice, Case]]]:
        """The constraint that a reason states, and where it was picked."""
        if reason.kind == "pick" and 0 < reason.split <= len(self.path):
            place = self.path[reason.split - 1]
            case = place.choice.cases[place.taken]
            if 0 < reason.place <= len(case.alternative.constraints):
                return case.alternative.constraints[reason.place - 1], (place.choice, case)
        is_later = reason.event is not None and reason.event > step.round.number
        fact = None if reason.kind == "pick" or is_later else fact_of(self.graph, self.log, self.reach, self.doubts, reason)
        if fact is None:
            raise Misfit("a reason of it states nothing")
        return fact, None

    def next(self) -> None:
        while self.path and self.path[-1].taken + 1 == len(self.path[-1].choice.cases):
            self.path.pop()
        if self.path:
            top = self.path[-1]
            top.taken, top.reusable, top.cited = top.taken + 1, not top.cited, False
        self.closed = not self.path


def tree_of(graph: DeclaredGraph, log: EventLog, set_text: str, steps: List[Step]) -> Tree:
    """The tree that these steps of a set make."""
    walk, complaint = Walk(graph, log, set_text), ""
    for step in steps:
        try:
            walk.take(step)
        except Misfit as wrong:
            complaint = f"Of the step in line {step.at} of the report: {wrong}."
            break
    return Tree(walk.root, "broken" if complaint else "closed" if walk.closed else "partial", complaint, len(steps))


@dataclass(frozen=True)
class Link:
    """A constraint of a contradiction in the order of reading, and the bound that it gives the node at its right side."""

    place: int
    node: int
    least: int


def chain_of(contradiction: Contradiction) -> Tuple[List[Link], bool]:
    """The constraints in the order of reading, from zero on, and whether they go through zero."""
    lefts = [constraint.left for constraint in contradiction.constraints]
    begin, least, links = (lefts.index(ZERO) if ZERO in lefts else 0), 0, []
    for step in range(len(lefts)):
        place = (begin + step) % len(lefts)
        constraint = contradiction.constraints[place]
        least = (0 if constraint.left == ZERO else least) - constraint.bound
        links.append(Link(place, constraint.right, least))
    return links, ZERO in lefts


def contradictions_in(node: Optional[TreeNode]) -> Iterable[Contradiction]:
    if isinstance(node, Contradiction):
        yield node
    elif node is not None:
        for case in node.cases:
            yield from contradictions_in(case.child)


def rests_on(contradictions: Iterable[Contradiction]) -> List[Tuple[int, int]]:
    """The numbers of the events on which contradictions rest, each with how many, most first."""
    counts = Counter(event for one in contradictions for event in {reason.event for reason in one.step.reasons if reason.event})
    return sorted(counts.items(), key=lambda entry: (-entry[1], entry[0]))

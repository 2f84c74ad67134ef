"""Sets: the members of a hypothesis by their text, and in words."""

from __future__ import annotations

from typing import List, Set, Tuple

from .graphs import DeclaredGraph


def members_of(text: str) -> Tuple[List[str], List[str]]:
    """The names of the failure modes of a set, and of the nodes whose monitors it does not believe."""
    words = [] if text == "-" else text.split(",")
    return [word for word in words if not word.startswith("!")], [word[1:] for word in words if word.startswith("!")]


def reach_of(graph: DeclaredGraph, text: str) -> List[int]:
    """The monitored nodes in the reach of a set whose monitors it believes."""
    failures, doubts = members_of(text)
    reached = graph.reach_of(graph.number_of[name] for name in failures)
    return [node for node in graph.monitored if node in reached and graph.name(node) not in doubts]


def set_words(text: str) -> str:
    failures, doubts = members_of(text)
    return " + ".join(failures + ["wrong monitor of " + name for name in doubts]) or "no failure"


def is_proper_part(one: str, other: str) -> bool:
    """Whether the members of one set are a proper part of those of the other."""
    return _words(one) < _words(other)


def _words(text: str) -> Set[str]:
    return set() if text == "-" else set(text.split(","))


def spelled(graph: DeclaredGraph, text: str) -> str:
    """A set as reports spell it: its failure modes in the order of the graph, and then the monitors in that of their nodes."""
    failures, doubts = members_of(text)
    order = graph.number_of.get
    some = sorted(failures, key=lambda name: order(name, -1)) + ["!" + name for name in sorted(doubts, key=lambda name: order(name, -1))]
    return ",".join(some) or "-"

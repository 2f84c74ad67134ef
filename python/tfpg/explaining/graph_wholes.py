"""Why the program refuses a graph as a whole: a discrepancy without a cause, a cycle without a delay, or no `end`."""

from __future__ import annotations

from typing import List, Optional, Sequence

from ..reading.graphs import DeclaredGraph, Edge
from ..reading.texts import words_of
from .explanations import Explanation, join_and
from .forms import quoted

CAUSES = ("NoIncoming", "ZeroCycle", "MissingEnd")


def explain_whole(lines: Sequence[str], number: int, cause: str) -> Explanation:
    """Why a graph of which each line is right is refused with this cause."""
    graph = DeclaredGraph(lines)
    if cause == "MissingEnd":
        return Explanation("There is no line `end`, which is the last one of a graph.", None, _end_hints(lines))
    word = words_of(lines[number - 1])[1]
    if cause == "NoIncoming":
        leaving = [edge.line for edge in graph.edges if graph.name(edge.source) == word.text]
        hints = [f"Edges leave it in {_lines_words(leaving)}. An edge is written with its source first."] if leaving else []
        return Explanation(f"No edge enters the discrepancy {quoted(word.text)}, so nothing can cause it.", word,
                           hints + ["If it fails by itself, it is a failure mode: `failure NAME RARITY`"])
    cycle = _cycle(graph, number)
    names = [graph.name(edge.source) for edge in cycle] + [graph.name(edge.target) for edge in cycle[-1:]]
    return Explanation(f"Edges with the least delay 0 make a cycle: {' to '.join(names)}.", word,
                       [f"They stand in {_lines_words([edge.line for edge in cycle])}.",
                        "At least one edge of each cycle has a least delay above 0, whatever their modes."])


def _lines_words(numbers: List[int]) -> str:
    return f"line{'s' if len(numbers) > 1 else ''} {join_and(str(number) for number in sorted(numbers))}"


def _end_hints(lines: Sequence[str]) -> List[str]:
    near = [number for number, line in enumerate(lines, 1) if line.strip().lower() == "end"]
    return [f"Line {near[-1]} is not `end` byte for byte."] if near else ["Is the text cut off?"]


def _cycle(graph: DeclaredGraph, line: int) -> List[Edge]:
    """The edges of a shortest cycle without a least delay through the edge of this line, from that edge on."""
    first = next(edge for edge in graph.edges if edge.line == line)
    came: List[Optional[Edge]] = [None] * len(graph.nodes)
    seen, left = {first.target}, [first.target]
    while left and first.source not in seen:
        for edge in graph.outgoing[left.pop(0)]:
            if edge.least == 0 and edge.target not in seen:
                seen.add(edge.target)
                came[edge.target] = edge
                left.append(edge.target)
    cycle: List[Edge] = []
    last = came[first.source]
    while last is not None:
        cycle.append(last)
        last = came[last.source]
    return [first] + cycle[::-1]

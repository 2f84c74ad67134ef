"""Explanations of refusals by their causes, wherever these come from."""

from __future__ import annotations

from typing import Callable, Optional, Sequence

from ..reading.graphs import DeclaredGraph
from .explanations import Explanation
from .graph_lines import explain_graph_line
from .graph_wholes import CAUSES, explain_whole
from .log_lines import explain_log_line

UNKNOWN = "The program refuses this, and no sentence for it is known here."
NO_ROOM = "There is no room for one node and one edge more, which predict needs."


def explained(explain: Callable[[], Explanation], otherwise: str = UNKNOWN) -> Explanation:
    """An explanation; or only another sentence, if the cause is not known here or does not fit what is there."""
    try:
        return explain()
    except (KeyError, IndexError, StopIteration):
        return Explanation(otherwise)


def graph_explanation(lines: Sequence[str], number: int, cause: str) -> Explanation:
    """Why a graph of these lines is refused in the line of this number, which is 0 if it is in none."""
    if number == 0:
        return Explanation(NO_ROOM)
    explain = explain_whole if cause in CAUSES else explain_graph_line
    return explained(lambda: explain(lines, number, cause))


def line_explanation(graph: DeclaredGraph, lines: Sequence[str], number: int, cause: str, time: Optional[int],
                     otherwise: str = UNKNOWN) -> Explanation:
    """Why the line of this number is refused, with the time that the cause carries. Else the other sentence is said."""
    return explained(lambda: explain_log_line(graph, lines, number, cause, time), otherwise)

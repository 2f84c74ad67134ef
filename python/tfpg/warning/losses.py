"""What was lost because the log refused it: how many lines, the first of them, and that answers are without them."""

from __future__ import annotations

from typing import Sequence

from ..explaining.refusals import line_explanation
from ..reading.graphs import DeclaredGraph
from ..reading.reports import Refused
from ..reading.texts import shown

MOST_SHOWN = 64  # bytes of a line


def loss_sentence(graph: DeclaredGraph, lines: Sequence[str], refused: Sequence[Refused]) -> str:
    """How many lines of a log were refused, why the first one was, and that answers are without them; or nothing if none was."""
    if not refused:
        return ""
    first = refused[0]
    text = lines[first.line - 1]
    cut = shown(text[:MOST_SHOWN]) + ("…" if len(text) > MOST_SHOWN else "")
    why = line_explanation(graph, lines, first.line, first.cause, first.time)
    return (f"{_lost(len(refused), len(lines))} The first is line {first.line}, {first.cause}: `{cut}`. "
            f"{' '.join([why.sentence, *why.hints[:1]])} `lint` tells each.")


def _lost(refused: int, lines: int) -> str:
    if refused == 1:
        return f"1 of {lines:,} line{'' if lines == 1 else 's'} of the log is refused, and the answer is without it."
    if refused == lines:
        return f"All {lines:,} lines of the log are refused, and the answer is without them."
    return f"{refused:,} of {lines:,} lines of the log are refused, and the answer is without them."

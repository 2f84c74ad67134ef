"""Spans, the maximal runs of instants of one mode, and windows, the maximal runs of spans in which an edge is active."""

from __future__ import annotations

from bisect import bisect_right
from dataclasses import dataclass
from typing import Callable, List, Optional, Sequence, Tuple

from .graphs import Edge


@dataclass(frozen=True)
class Span:
    """The instants from `lo` to `hi`, all of one mode."""

    lo: int
    hi: int
    mode: int


@dataclass(frozen=True)
class Window:
    """A run of spans: the number of its first span, its first and its last instant."""

    first: int
    lo: int
    hi: int


def spans_at(changes: Sequence[Tuple[int, int]], horizon: int) -> List[Span]:
    """The spans up to a horizon, by the changes of mode: of each its time, and the mode that holds from the next instant."""
    starts = {0: 0}
    starts.update({time + 1: mode for time, mode in changes})
    begins: List[Tuple[int, int]] = []
    for lo, mode in sorted(starts.items()):
        if lo <= horizon and not (begins and begins[-1][1] == mode):
            begins.append((lo, mode))
    ends = [lo - 1 for lo, _ in begins[1:]] + [horizon]
    return [Span(lo, hi, mode) for (lo, mode), hi in zip(begins, ends)]


def number_at(spans: Sequence[Span], instant: int) -> int:
    """The number of the span in which an instant lies."""
    return max(0, bisect_right([span.lo for span in spans], instant) - 1)


def window_of(spans: Sequence[Span], number: int, is_active: Callable[[int], bool]) -> Optional[Window]:
    """The maximal run of such spans round the span of this number, if it is one."""
    if not 0 <= number < len(spans) or not is_active(spans[number].mode):
        return None
    first = last = number
    while first > 0 and is_active(spans[first - 1].mode):
        first -= 1
    while last + 1 < len(spans) and is_active(spans[last + 1].mode):
        last += 1
    return Window(first, spans[first].lo, spans[last].hi)


def edge_window(spans: Sequence[Span], number: int, edge: Edge) -> Optional[Window]:
    return window_of(spans, number, lambda mode: mode in edge.modes)


def modes_between(spans: Sequence[Span], begin: int, end: int) -> List[int]:
    """The modes of the instants from one to another, each once, in their order."""
    return list(dict.fromkeys(span.mode for span in spans[number_at(spans, begin):number_at(spans, end) + 1]))

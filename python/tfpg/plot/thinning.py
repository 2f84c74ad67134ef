"""What of a long log is drawn: no more than a reader can tell apart, so that a picture stays small."""

from __future__ import annotations

from typing import Dict, List, Sequence

COLUMNS = 300  # that a reader can tell apart on the axis of time
MOST_MARKS = 3000  # of one kind, in all rows


def thinned(times: Sequence[int], gap: int) -> List[int]:
    """The places of those times, in their order, that are the gap or more after the one that is kept before."""
    kept: List[int] = []
    for place, time in enumerate(times):
        if not kept or time - times[kept[-1]] >= gap:
            kept.append(place)
    return kept


def drawn_rounds(times: Sequence[int]) -> List[int]:
    """The numbers, from 0, of the rounds that are drawn: all, or of each column the last."""
    if len(times) <= COLUMNS:
        return list(range(len(times)))
    gap = max(1, -(-(times[-1] - times[0]) // COLUMNS))
    last: Dict[int, int] = {(time - times[0]) // gap: number for number, time in enumerate(times)}
    return sorted(last.values())


def thinned_rows(rows: Dict[int, List[int]], span: int) -> Dict[int, List[int]]:
    """The times of the marks in each row, with gaps that are as wide as the number of all marks needs."""
    columns = COLUMNS
    kept = {row: _kept(times, span // columns) for row, times in rows.items()}
    while sum(map(len, kept.values())) > MOST_MARKS and columns > 1:
        columns //= 2
        kept = {row: _kept(times, span // columns) for row, times in rows.items()}
    return kept


def _kept(times: List[int], gap: int) -> List[int]:
    return [times[place] for place in thinned(times, max(1, gap))]

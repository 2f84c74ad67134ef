"""What the command says of a fleet in the end: its vehicles, the worst first, and the sets that explain their logs."""

from __future__ import annotations

import json
from typing import Any, Iterator, List, Sequence

from ..saying.times import time_words
from .summary import Summary

COUNTS = """select count(*), sum(fault != ''), sum(lost > 0), sum(lost), sum(open > 0), sum(accepted > 0 and ranked = 0 and open = 0),
    sum(checked is not null) from vehicles"""


def table_lines(summary: Summary, most: int) -> Iterator[str]:
    """The lines of the table, with so many vehicles and sets."""
    vehicles, faults, losing, lost, are_open, unexplained, checked = (number or 0 for number in summary.rows(COUNTS)[0])
    accepted = f"; {counted(checked, 'report')} accepted by check" if checked else ""
    yield (f"{counted(vehicles, 'vehicle')}: {faults:,} with a fault, {losing:,} lost {counted(lost, 'line')}, "
           f"{unexplained:,} that nothing explains, {are_open:,} open{accepted}")
    worst = summary.rows(f"select vehicle, lines, lost, open, sets, best, cost, since, fault from worst limit {most}")
    yield ""
    yield from columns(["vehicle", "lines", "lost", "open", "sets", "best set", "cost", "since"], [row_of(*row) for row in worst])
    yield from left_out(vehicles - len(worst), "vehicle")
    sets = summary.rows(f'select "set", vehicles, best_of, cost, since from sets limit {most}')
    if sets:
        yield ""
        yield from columns(["set", "vehicles", "best of", "cost", "since"], [[*map(str, row[:4]), time_words(row[4])] for row in sets])
        yield from left_out(summary.rows("select count(*) from sets")[0][0] - len(sets), "set")


def row_of(vehicle: str, lines: int, lost: int, is_open: int, sets: int, best: Any, cost: Any, since: Any, fault: str) -> List[str]:
    """The words of a vehicle in the table."""
    if fault:
        return [vehicle, "", "", "", "", fault, "", ""]
    said = best if best is not None else "no line is accepted" if lost == lines else "open" if is_open else "nothing explains it"
    return [vehicle, f"{lines:,}", f"{lost:,}", f"{is_open:,}", f"{sets:,}", said, str("" if cost is None else cost),
            "" if since is None else time_words(since)]


def columns(names: Sequence[str], rows: Sequence[Sequence[str]]) -> Iterator[str]:
    """Rows below their names, in columns. Numbers stand to the right."""
    widths = [max(map(len, column)) for column in zip(names, *rows)]
    right = [name not in ("vehicle", "best set", "set") for name in names]
    for row in (names, *rows):
        yield "  ".join(word.rjust(width) if one else word.ljust(width) for word, width, one in zip(row, widths, right)).rstrip()


def left_out(count: int, what: str) -> Iterator[str]:
    """How many rows are not shown."""
    if count:
        yield f"… and {counted(count, what)} more; --all shows them"


def counted(number: int, what: str) -> str:
    return f"{number:,} {what}{'' if number == 1 else 's'}"


def json_lines(summary: Summary) -> Iterator[str]:
    """The same as JSON: a line for each vehicle, the worst first, and one with the sets."""
    for (line,) in summary.rows("select line from worst"):
        yield line
    sets = summary.rows('select "set", vehicles, best_of, cost, since from sets')
    yield json.dumps({"sets": [dict(zip(("set", "vehicles", "best_of", "cost", "since"), row)) for row in sets]})

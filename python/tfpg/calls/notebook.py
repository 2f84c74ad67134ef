"""A round as a notebook shows it, in HTML."""

from __future__ import annotations

from html import escape
from typing import TYPE_CHECKING, List

if TYPE_CHECKING:
    from .answers import Ranked, Round

MOST_ROWS = 20
HEADS = ("place", "set", "cost", "alarms", "first active")


def round_table(here: "Round") -> str:
    """The ranking of a round as a small table, with its first sets if they are many."""
    rows = [row_of(place, ranked) for place, ranked in enumerate(here.ranked[:MOST_ROWS], 1)]
    left = len(here.ranked) - len(rows)
    said = f"round {here.number:,} at {here.now:,}: {len(here.ranked):,} ranked, {here.covered:,} covered, {here.rejected:,} rejected, "
    said += f"{here.open:,} open" + (f"; {left:,} more are ranked" if left > 0 else "")
    return table_of(said, rows)


def row_of(place: int, ranked: "Ranked") -> List[str]:
    """A ranked set as the cells of a row."""
    trace = ranked.trace
    first = min(trace, key=lambda name: trace[name]) if trace else ""
    alarms = f"{ranked.alarmed} of {ranked.monitored}"
    return [str(place), ranked.set, str(ranked.cost), alarms, f"{first} {trace[first]:,}" if trace else ""]


def table_of(caption: str, rows: List[List[str]]) -> str:
    """A table with this caption. What stands in its cells is text."""
    head = "".join(f"<th>{escape(word)}</th>" for word in HEADS)
    body = "".join("<tr>" + "".join(f"<td>{escape(word)}</td>" for word in row) + "</tr>" for row in rows)
    return f"<table><caption>{escape(caption)}</caption><thead><tr>{head}</tr></thead><tbody>{body}</tbody></table>"

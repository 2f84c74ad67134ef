"""Draws a ranking over time with matplotlib. The same report gives the same bytes."""

from __future__ import annotations

import io
from typing import Any, Dict, List, Tuple

import matplotlib

matplotlib.use("svg")
from matplotlib import pyplot  # noqa: E402
from matplotlib.ticker import MaxNLocator, MultipleLocator  # noqa: E402

from ..reading.reports import Round  # noqa: E402
from ..reading.sets import set_words  # noqa: E402
from ..reading.spans import spans_at  # noqa: E402
from ..reading.subjects import Subject  # noqa: E402
from ..saying.times import time_words  # noqa: E402
from .thinning import COLUMNS, drawn_rounds, thinned_rows  # noqa: E402

MOST_SETS = 12
SECOND, MINUTE, HOUR, DAY = 1000, 60_000, 3_600_000, 86_400_000
TICKS = [number * unit for unit, numbers in ((1, (1, 10, 100)), (SECOND, (1, 5, 10, 30)), (MINUTE, (1, 5, 10, 30)), (HOUR, (1, 2, 6, 12)),
                                             (DAY, (1, 7, 30, 365))) for number in numbers]
MODE_COLOURS = ("#f2f2f2", "#dbe5f1", "#e8f1db", "#f6e7d8", "#ecdff0", "#fbf3cf")
HEIGHT, ROW = 2.5, 0.17  # inches, of an axis and of a monitor
MOST_DOTS = 100  # rounds that have a dot each
CHARACTERS = 130  # that have room side by side on the axis of time
Points = List[Tuple[int, int, int]]  # of a set: the number of a drawn round, its place and its cost


def picture(subject: Subject) -> bytes:
    """The picture as SVG. There is at least one round."""
    heights = [HEIGHT, HEIGHT, max(HEIGHT, ROW * (len(subject.graph.monitored) + 2))]
    with matplotlib.rc_context({"svg.hashsalt": "tfpg", "svg.fonttype": "none", "font.size": 9, "font.family": "sans-serif"}):
        figure, axes = pyplot.subplots(3, 1, sharex=True, figsize=(11, sum(heights)), layout="constrained",
                                       gridspec_kw={"height_ratios": heights})
        _draw(subject, list(axes))
        content = io.BytesIO()
        figure.savefig(content, format="svg", metadata={"Date": None, "Title": "ranking over time"})
        pyplot.close(figure)
    return content.getvalue()


def _draw(subject: Subject, axes: List[Any]) -> None:
    places, costs, alarms = axes
    rounds = [subject.rounds[number] for number in drawn_rounds([one.now for one in subject.rounds])]
    points = _points(rounds)
    for number, (text, some) in enumerate(list(points.items())[:MOST_SETS]):
        colour = f"C{number % 10}"
        _draw_set(rounds, places, [(at, place) for at, place, _ in some], colour, set_words(text))
        _draw_set(rounds, costs, [(at, cost) for at, _, cost in some], colour, "")
    places.set_ylabel("place in the ranking")
    lowest = min(max((place for some in points.values() for _, place, _ in some), default=1), MOST_SETS)
    places.set_yticks(range(1, lowest + 1))
    places.set_ylim(lowest + 0.5, 0.5)
    costs.set_ylabel("cost")
    costs.yaxis.set_major_locator(MaxNLocator(integer=True, min_n_ticks=1))
    _draw_monitors(subject, alarms)
    for here in axes:
        _draw_modes(subject, here, here is places)
    if places.lines:
        places.legend(loc="center left", bbox_to_anchor=(1.0, 0.5), frameon=False)
    alarms.xaxis.set_major_locator(MultipleLocator(_tick(subject.log.now)))
    alarms.xaxis.set_major_formatter(lambda time, _: time_words(int(time)) if time >= 0 else "")
    left = len(subject.rounds) - len(rounds)
    alarms.set_xlabel("time" if not left else f"time ({len(rounds):,} of {len(subject.rounds):,} rounds are drawn)")


def _draw_set(rounds: List[Round], axis: Any, points: List[Tuple[int, int]], colour: str, label: str) -> None:
    """A line for each time that a set has a value, up to the round in which it has another, and a dot for each round, or where they are
    many for the first with this value."""
    times: List[int] = []
    values: List[float] = []
    dots: List[Tuple[int, int]] = []
    ends, before = -1, 0  # the round up to which the last line goes, and its value
    for number, value in points:
        following = rounds[min(number + 1, len(rounds) - 1)].now
        if number == ends and value == before:
            times[-2] = times[-1] = following
        else:
            times += [rounds[number].now, following, following]
            values += [value, value, float("nan")]
            dots.append((number, value))
        ends, before = number + 1, value
    axis.plot(times, values, "-", color=colour, label=label or None)
    shown = points if len(rounds) <= MOST_DOTS else dots
    axis.plot([rounds[number].now for number, _ in shown], [value for _, value in shown], ".", color=colour)


def _tick(now: int) -> int:
    """The time between two marks on the axis, so that there are at most ten."""
    return next((tick for tick in TICKS if now <= 10 * tick), max(1, now // 10))


def _points(rounds: List[Round]) -> Dict[str, Points]:
    """The places and costs of each set that is ranked at some time, those that are ranked longest first."""
    found: Dict[str, Points] = {}
    for number, here in enumerate(rounds):
        for place, ranked in enumerate(here.ranked, 1):
            found.setdefault(ranked.set, []).append((number, place, ranked.cost))
    return dict(sorted(found.items(), key=lambda entry: (-len(entry[1]), entry[1][-1][1], entry[0])))


def _draw_monitors(subject: Subject, axis: Any) -> None:
    """A row for each monitored node, with its alarms and silences."""
    graph, now = subject.graph, subject.log.now
    alarms = {row: [event.time for event in subject.log.alarms.get(node, [])] for row, node in enumerate(graph.monitored)}
    silences = {row: [event.time for event in subject.log.events if subject.log.silences(event, node)]
                for row, node in enumerate(graph.monitored)}
    for row, times in thinned_rows(alarms, now).items():
        axis.plot(times, [row] * len(times), "v", color="#b2182b", label="alarm" if row == 0 else None)
    for row, times in thinned_rows(silences, now).items():
        axis.plot(times, [row] * len(times), "o", color="#4d4d4d", fillstyle="none", label="silent" if row == 0 else None)
    axis.set_yticks(range(len(graph.monitored)), [graph.name(node) for node in graph.monitored])
    axis.set_ylim(len(graph.monitored) - 0.5, -0.5)
    axis.set_ylabel("▼ alarm   ○ silent")


def _draw_modes(subject: Subject, axis: Any, is_first: bool) -> None:
    """The spans of the modes behind everything, with their names above the first axis."""
    modes = subject.graph.modes
    if not subject.rounds or len(modes) == 1:
        return
    now, free = subject.log.now, 0
    for span in spans_at(subject.log.changes, now):
        if span.hi - span.lo < now // COLUMNS:
            continue
        axis.axvspan(span.lo, span.hi, color=MODE_COLOURS[span.mode % len(MODE_COLOURS)], zorder=0, linewidth=0)
        if is_first and span.lo >= free:
            free = span.lo + now * (len(modes[span.mode]) + 1) // CHARACTERS
            axis.annotate(modes[span.mode], (span.lo, 1), xycoords=("data", "axes fraction"), xytext=(2, 3),
                          textcoords="offset points", color="#505050", fontsize=8)

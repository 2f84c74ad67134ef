"""What is told of: a graph, the lines of a log, and a report of them."""

from __future__ import annotations

from math import comb
from typing import List, Optional, Sequence

from .graphs import DeclaredGraph
from .logs import EventLog
from .reports import Report, Round
from .texts import BadText, shown

MOST_SHOWN = 64  # bytes of a line of the log


class Subject:
    """The texts, read. `start` is the time of day of the time 0, in milliseconds."""

    def __init__(self, graph: DeclaredGraph, lines: Sequence[str], report: Report, start: int = 0) -> None:
        self.graph, self.lines, self.report, self.start = graph, list(lines), report, start
        if not graph.modes:
            raise BadText(0, "the graph declares no mode, so it is none: `lint` says more")
        if [block.line for block in report.blocks] != list(range(1, len(lines) + 1)):
            raise BadText(1, f"the report has {len(report.blocks)} blocks, and the log {len(lines)} lines: it is of another log")
        self.rounds: List[Round] = report.rounds
        self.log = EventLog(graph, lines, [one.line for one in self.rounds])
        self._need_fit()

    def _need_fit(self) -> None:
        """Refuses a report that is not of these lines, as far as its times show that."""
        for here, event in zip(self.rounds, self.log.events):
            if here.now != event.time:
                raise BadText(here.line, "the report has another time for this line: it is of another log")

    @property
    def last(self) -> Optional[Round]:
        return self.rounds[-1] if self.rounds else None

    def line(self, number: int) -> str:
        """What a reader sees of a line of the log."""
        said = self.lines[number - 1]
        return shown(said[:MOST_SHOWN]) + ("…" if len(said) > MOST_SHOWN else "")

    def set_count(self, k: int, doubt: int) -> int:
        """How many sets of at most k members there are, of which at most so many are monitors."""
        failures, monitors = len(self.graph.failures), len(self.graph.monitored)
        return sum(comb(monitors, wrong) * comb(failures, size - wrong) for size in range(k + 1) for wrong in range(min(size, doubt) + 1))

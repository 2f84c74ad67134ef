"""The diagnosis of one vehicle: its whole log through a session."""

from __future__ import annotations

import hashlib
import zlib
from collections import Counter
from typing import Dict, List, Optional, Tuple

from ..calls.answers import Ranked, Refused, Round
from ..calls.endings import Terms
from ..calls.graph import Graph
from ..calls.session import Session
from ..calls.whole_logs import lines_in
from .results import RankedSet, Result

GZIP = 31  # the form of what zlib makes: the largest window, in a file of gzip


class ReportBytes:
    """A report that is made block by block: its sum, and if it is kept its bytes, compressed."""

    def __init__(self, is_kept: bool) -> None:
        self.sum, self.parts = hashlib.sha256(), [b""]
        self.packer = zlib.compressobj(wbits=GZIP) if is_kept else None

    def add(self, text: str) -> None:
        """Appends a block."""
        content = text.encode("ascii")
        self.sum.update(content)
        if self.packer is not None:
            self.parts.append(self.packer.compress(content))

    def compressed(self) -> bytes:
        """The bytes of the report as gzip packs them, or none."""
        return b"".join(self.parts) + (self.packer.flush() if self.packer is not None else b"")


class Ranking:
    """The sets that are ranked, with the times of the rounds since which they are."""

    def __init__(self) -> None:
        self.first: Dict[int, int] = {}  # by the numbers of hypotheses, as the others
        self.since: Dict[int, int] = {}
        self.order: List[int] = []
        self.changed: Optional[int] = None
        self.last: Optional[Round] = None

    def take(self, answer: Round) -> None:
        """Takes the next round."""
        if self.last is None or answer.changed:
            self.order = [one.hypothesis for one in answer.ranked]
            self.changed = answer.now
            self.since = {one: self.since.get(one, answer.now) for one in self.order}
            for one in self.order:
                self.first.setdefault(one, answer.now)
        self.last = answer

    def sets(self) -> Tuple[RankedSet, ...]:
        """The sets of the last round."""
        return tuple(self._set(one) for one in self.last.ranked) if self.last is not None else ()

    def _set(self, one: Ranked) -> RankedSet:
        times = one.trace.values()
        return RankedSet(one.set, one.cost, one.alarmed, one.monitored, self.first[one.hypothesis], self.since[one.hypothesis],
                         min(times) if times else None)


def result_of(graph: Graph, vehicle: str, log: bytes, terms: Terms, keeps_report: bool) -> Result:
    """The result of a vehicle with this log."""
    report, ranking, refused = ReportBytes(keeps_report), Ranking(), Counter[str]()
    first_refused, lines = None, 0
    with Session(graph, terms.k, terms.doubt, terms.budget) as session:
        report.add(session.head)
        for answer in session.rounds(lines_in(log)):
            lines += 1
            report.add(session.block)
            if isinstance(answer, Refused):
                refused[answer.cause] += 1
                first_refused = first_refused or answer.line
            else:
                ranking.take(answer)
    last = ranking.last
    counts = (last.covered, last.rejected, last.open) if last is not None else (0, 0, 0)
    return Result(vehicle, lines, lines - sum(refused.values()), dict(refused), first_refused, last.now if last is not None else None,
                  ranking.changed, ranking.sets(), *counts, hashlib.sha256(log).hexdigest(), report.sum.hexdigest(), report.compressed())

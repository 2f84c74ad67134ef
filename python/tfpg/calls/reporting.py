"""Reports of whole logs, and whether a report is accepted."""

from __future__ import annotations

import itertools
import threading
from typing import Any, Dict, Iterable, SupportsIndex, Tuple

from ..faults import TooMuchInput
from ..limits import INPUT_BYTES
from .answers import Refused, refused_dicts
from .apart import apart
from .endings import TOO_LONG, About, fault_of
from .graph import Graph
from .layouts import Status
from .library import library
from .session import Session
from .texts import Log, Text, counted, log_bytes, text_bytes
from .whole_logs import WholeLog, lines_in, warn_of


class Report(str):
    """A report, which is a text, and the lines that its log refused."""

    refused: Tuple[Refused, ...] = ()

    def to_dict(self) -> Dict[str, Any]:
        """It as JSON has it: `report`, the text, and `refused`, the lines."""
        return {"report": str(self), "refused": refused_dicts(self.refused)}


class Accepted(int):
    """The number of the rounds of a report that is accepted, and the lines that its log refused."""

    refused: Tuple[Refused, ...] = ()

    def to_dict(self) -> Dict[str, Any]:
        """It as JSON has it: `rounds`, the number, and `refused`, the lines."""
        return {"rounds": int(self), "refused": refused_dicts(self.refused)}


def report(graph: Graph, log: Log, k: SupportsIndex = 2, doubt: SupportsIndex = 0, budget: SupportsIndex = 1000, origin: SupportsIndex = 0,
           strict: bool = False) -> Report:
    """The report of a log, byte for byte as `diagnose` writes it, with the lines that were refused as `refused`.

    graph, log: what is diagnosed. The log is a text, the path of a file, or lines one after the other.
    k: how many members a hypothesis may have, failure modes and monitors that it doubts: 0 to 64.
    doubt: how many of these may be monitors: 0 to 4.
    budget: how many splits a hypothesis may have at a line: 1 to 10^12.
    origin: milliseconds that are subtracted from the time of each line, and left out of the report.
    strict: a refused line raises LineRefused or LogFull. Else there is a RefusedLines warning if any is.

    The errors are those of `Session`, and TooMuchInput for a log of more than 2^32 bytes. An interrupt acts at once, and
    the session then ends after the line that it takes.

    >>> report = tfpg.report(tfpg.Graph.load("examples/pump.tfpg"), ["600000 tick"], k=0)
    >>> print(report, end="")
    report 2 k 0 doubt 0 budget 1000
    round 1 1 600000
    ranked 0 cost 0 robust 1/1 set -
    counts ranked 1 covered 0 rejected 0 open 0
    >>> report.refused
    ()
    """
    said, lines = written(graph, log, k, doubt, budget, origin, strict)
    warn_of(said.refused, lines, 3)
    return said


def written(graph: Graph, log: Log, k: SupportsIndex = 2, doubt: SupportsIndex = 0, budget: SupportsIndex = 1000,
            origin: SupportsIndex = 0, strict: bool = False) -> Tuple[Report, int]:
    """The report of a log, and the number of its lines. An interrupt ends it at once, and the session after the line that it takes."""
    content, stopped = log_bytes(log), threading.Event()
    lines = lines_in(content)

    def blocks() -> Report:
        with Session(graph, k, doubt, budget, origin, strict) as session:
            if len(content) > INPUT_BYTES:
                raise TooMuchInput(TOO_LONG)
            return report_of(session, itertools.takewhile(lambda _: not stopped.is_set(), lines))

    try:
        return apart(blocks), len(lines)
    finally:
        stopped.set()


def report_of(session: Session, lines: Iterable[bytes]) -> Report:
    """The report of lines, block by block as a session has them."""
    blocks, refused = [session.head], []
    for answer in session.rounds(lines):
        blocks.append(session.block)
        if isinstance(answer, Refused):
            refused.append(answer)
    said = Report("".join(blocks))
    said.refused = tuple(refused)
    return said


def check(graph: Graph, log: Log, report: Text, origin: SupportsIndex = 0, strict: bool = False) -> Accepted:
    """Judges a report by the graph and the log, whoever wrote it, and returns the number of its rounds, with the lines that were refused
    as `refused`.

    graph, log: what the report is of. The log is a text, the path of a file, or lines one after the other.
    report: a text, or the path of a file.
    origin: milliseconds that are subtracted from the time of each line of the log, as where the report was made.
    strict: a refused line raises LineRefused or LogFull. Else there is a RefusedLines warning if any is.

    NotAccepted says which line of the report is wrong first, and why; BadGraph, TooManyHypotheses, TooMuchInput and NoMemory are as of
    `tfpg_check` in tfpg.h.

    >>> graph, log = tfpg.Graph.load("examples/pump.tfpg"), ["600000 tick"]
    >>> tfpg.check(graph, log, tfpg.report(graph, log))
    1
    >>> tfpg.check(graph, log, "report 2 k 2 doubt 0 budget 1000\\n")
    Traceback (most recent call last):
    tfpg.faults.NotAccepted: line 2: EndsEarly
    """
    given, text = WholeLog(graph, log, origin, strict), text_bytes(report)
    answer = apart(library().check, *counted(graph.text), *counted(given.content), *counted(text))
    if answer.status != Status.DONE:
        raise fault_of(answer, About(graph, judged=text))
    accepted = Accepted(answer.count)
    accepted.refused = given.refused
    given.warn()
    return accepted

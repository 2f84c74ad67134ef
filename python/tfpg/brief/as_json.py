"""A brief as JSON. Times are milliseconds from the log's 0."""

from __future__ import annotations

from typing import Any, Dict, Optional

from ..explaining.explanations import Explanation, line_dict
from ..reading.reports import Ranked, Round
from ..reading.sets import members_of
from ..reading.spans import spans_at
from ..reading.subjects import Subject
from ..reading.texts import shown
from .losses import refused_explanation, warnings_of
from .ranking import empty_since


def brief_dict(subject: Subject) -> Dict[str, Any]:
    """What a brief says of a report."""
    terms, here = subject.report.terms, subject.last
    said = {"k": terms.k, "doubt": terms.doubt, "budget": terms.budget, "lines": len(subject.lines),
            "refused": [_line_dict(subject, one.line, one.cause, refused_explanation(subject, one)) for one in subject.report.refused],
            "warnings": [_line_dict(subject, one.line, one.cause, one.explanation) for one in warnings_of(subject)]}
    return {**said, **(_round_dict(subject, here) if here is not None else {"round": None})}


def _line_dict(subject: Subject, line: Optional[int], cause: str, explanation: Explanation) -> Dict[str, Any]:
    """A line as `lint` has it, with its whole text."""
    return line_dict(line, cause, None if line is None else shown(subject.lines[line - 1]), explanation)


def _round_dict(subject: Subject, here: Round) -> Dict[str, Any]:
    """The last round: its ranking, and since which line nothing is ranked."""
    since = empty_since(subject, here)
    mode = subject.graph.modes[spans_at(subject.log.changes, here.now)[-1].mode]
    return {"round": here.number, "line": here.line, "text": subject.line(here.line), "now": here.now, "mode": mode,
            "ranked": [_ranked_dict(one) for one in here.ranked], "open": list(here.open.values()),
            "rejected": list(here.rejected.values()), "counts": dict(zip(("ranked", "covered", "rejected", "open"), here.counts)),
            "nothing_since": None if here.ranked else {"line": since.line, "time": since.now}}


def _ranked_dict(one: Ranked) -> Dict[str, Any]:
    """A ranked set, with the keys that those of a session have."""
    failures, doubts = members_of(one.set)
    return {"hypothesis": one.hypothesis, "set": one.set, "failures": failures, "doubts": doubts, "cost": one.cost, "alarmed": one.alarmed,
            "monitored": one.monitored, "trace": dict(one.trace)}

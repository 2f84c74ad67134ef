"""What is said before the ranking: which lines were refused, and what is accepted and surely not meant."""

from __future__ import annotations

from typing import List

from ..explaining.explanations import Explanation
from ..explaining.refusals import line_explanation
from ..reading.reports import Refused
from ..reading.subjects import Subject
from ..warning.log_warnings import LoggedGraph, Warned, log_warnings
from .paper import Paper

MOST_TOLD = 10
NOT_BORNE = "The line does not bear out this cause, so the report is wrong or of another log. `tfpg check` says more."


def put_refused(paper: Paper, subject: Subject) -> None:
    """How many lines were refused, and which."""
    refused = subject.report.refused
    without = f": what follows is without {'it' if len(refused) == 1 else 'them'}" if refused else ""
    paper.title(f"{count_words(len(subject.lines), 'line')}, {len(refused):,} refused{without}")
    for one in refused[:MOST_TOLD]:
        paper.warn(f"line {one.line}, {one.cause}: {subject.line(one.line)}")
        paper.put(refused_explanation(subject, one).sentence, 4, 0)
    if len(refused) > MOST_TOLD:
        paper.put(f"… and {len(refused) - MOST_TOLD:,} more; lint tells them")


def refused_explanation(subject: Subject, one: Refused) -> Explanation:
    """Why a line was refused, or that it does not bear out the cause that the report has."""
    return line_explanation(subject.graph, subject.lines, one.line, one.cause, one.time, NOT_BORNE)


def warnings_of(subject: Subject) -> List[Warned]:
    """What is surely not meant in lines of the log. That a monitor is never named is left to `lint`: it rejects no set."""
    logged = LoggedGraph(subject.graph, subject.lines, subject.log, subject.report.refused)
    return [one for one in log_warnings(logged) if one.line is not None]


def put_warnings(paper: Paper, subject: Subject) -> None:
    """The warnings, each with its line, its sentence and its remedy."""
    warnings = warnings_of(subject)
    if warnings:
        paper.title(f"{count_words(len(warnings), 'line')} accepted and surely not meant")
    for one in warnings[:MOST_TOLD]:
        paper.warn(f"line {one.line}, {one.cause}: {subject.line(one.line or 0)}")
        paper.put(" ".join([one.explanation.sentence, *one.explanation.hints]), 4, 0)
    if len(warnings) > MOST_TOLD:
        paper.put(f"… and {len(warnings) - MOST_TOLD:,} more; lint tells them")


def count_words(number: int, word: str) -> str:
    return f"{number:,} {word}{'' if number == 1 else 's'}"

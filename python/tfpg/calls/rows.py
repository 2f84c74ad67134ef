"""Answers as rows of a table, as `pandas.DataFrame` takes them."""

from __future__ import annotations

from typing import Any, Dict, Iterable, Iterator, List

from .answers import Answered, Refused

COLUMNS = ("line", "now", "number", "changed", "place", "set", "cost", "alarmed", "monitored", "covered", "rejected", "open", "cause",
           "sentence")


def rows(answers: Iterable[Answered]) -> List[Dict[str, Any]]:
    """The rows of these answers, each with the same columns, as `pandas.DataFrame(tfpg.rows(answers))` takes them.

    `answers` are those of a session. A round has a row for each ranked set, with its `place` from 1, and one row if it ranks nothing. A
    refused line has a row with its `cause`. Times are in milliseconds. What a row does not say is None.

    >>> with tfpg.Session(tfpg.Graph.load("examples/pump.tfpg"), k=1) as session:
    ...     table = tfpg.rows(session.rounds(["2715000 alarm LowFlow", "5 tick"]))
    >>> [(row["line"], row["place"], row["set"], row["cause"]) for row in table]
    [(1, 1, 'FilterClogged', None), (1, 2, 'ValveStuck', None), (1, 3, 'MotorBearing', None), (2, None, None, 'TimeBack')]
    """
    nothing: Dict[str, Any] = dict.fromkeys(COLUMNS)
    return [{**nothing, **row} for answer in answers for row in rows_of(answer)]


def rows_of(answer: Answered) -> Iterator[Dict[str, Any]]:
    """What the rows of an answer say."""
    if isinstance(answer, Refused):
        yield {"line": answer.line, "cause": answer.cause, "sentence": answer.sentence}
        return
    here = {"line": answer.line, "now": answer.now, "number": answer.number, "changed": answer.changed, "covered": answer.covered,
            "rejected": answer.rejected, "open": answer.open}
    if not answer.ranked:
        yield here
    for place, ranked in enumerate(answer.ranked, 1):
        yield {**here, "place": place, "set": ranked.set, "cost": ranked.cost, "alarmed": ranked.alarmed, "monitored": ranked.monitored}

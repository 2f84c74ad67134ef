"""What is ranked now, each set with its history; or that nothing is, since when, and what may be so."""

from __future__ import annotations

from typing import List

from ..limits import MOST_HYPOTHESES, OPTIONS, spoken
from ..reading.histories import history_of
from ..reading.reports import Ranked, Round
from ..reading.sets import members_of, reach_of, set_words
from ..reading.subjects import Subject
from ..saying.activations import activation_sentence
from ..saying.speech import speech_of
from .paper import Paper

MOST_K, MOST_DOUBT, MOST_BUDGET = (OPTIONS[name].greatest for name in ("--k", "--doubt", "--budget"))


def put_ranking(paper: Paper, subject: Subject, here: Round, told: int, is_warned: bool = False) -> None:
    """The ranking of a round, with the histories of the first sets of it. If it is empty, warnings above are named before doubts."""
    if not here.ranked:
        return _put_nothing(paper, subject, here, is_warned)
    paper.title("What explains all that was seen")
    for place, ranked in enumerate(here.ranked, 1):
        paper.put(f"{place}. {set_words(ranked.set)}: cost {ranked.cost}, {alarms_words(subject, ranked)}")
        if place <= told:
            put_history(paper, subject, here, ranked)
    if here.open:
        paper.put(f"Open, since the budget was spent: {sets_words(list(here.open.values()))}")
    return None


def put_history(paper: Paper, subject: Subject, here: Round, ranked: Ranked) -> None:
    speech = speech_of(subject, ranked.set)
    for activation in history_of(subject.graph, subject.log, ranked, here.now):
        time = speech.time(activation.time)
        paper.put(f"{time} {activation_sentence(speech, activation)}", 5, len(time) + 1)
    if not ranked.trace:
        paper.put("Nothing became active.", 5)
    _put_waiting(paper, subject, ranked)
    doubted = members_of(ranked.set)[1]
    if doubted:
        paper.put(f"Not believed: the monitor of {', '.join(doubted)}. What it said counts for nothing here.", 5)


def _put_waiting(paper: Paper, subject: Subject, ranked: Ranked) -> None:
    believed = reach_of(subject.graph, ranked.set)
    waiting = [subject.graph.name(node) for node in believed if node not in subject.log.alarms]
    if not believed:
        if ranked.set != "-":
            paper.put("This set can make no monitor alarm that it believes.", 5)
    elif waiting:
        paper.put(f"Could alarm by this set, and have not: {', '.join(waiting)}.", 5)
    else:
        paper.put("All monitors that this set can make alarm have alarmed.", 5)


def alarms_words(subject: Subject, ranked: Ranked) -> str:
    can_alarm = ranked.monitored > 1 or bool(reach_of(subject.graph, ranked.set))
    return f"{ranked.alarmed} of {ranked.monitored} alarms" if can_alarm else "no alarm to raise"


def sets_words(sets: List[str], most: int = 12) -> str:
    more = f"; and {len(sets) - most} more" if len(sets) > most else ""
    return "; ".join(set_words(text) for text in sets[:most]) + more


def _put_nothing(paper: Paper, subject: Subject, here: Round, is_warned: bool) -> None:
    """That nothing is ranked, since which line, and what may be so, in the order of docs/modelling.md."""
    since = empty_since(subject, here)
    at = f"since line {since.line}, at {speech_of(subject, '-').time(since.now)}: {subject.line(since.line)}"
    if here.open:
        paper.title(f"Nothing is ranked, {at}")
        _put_open(paper, subject, here)
    else:
        paper.title(f"Nothing explains the log, {at}")
        paper.put(f"All {here.counts[2]:,} sets are rejected.")
        if is_warned:
            paper.put("See first to the lines above that are surely not meant: a doubt would only hide them.")
        _put_wider(paper, subject)


def empty_since(subject: Subject, here: Round) -> Round:
    """The first of the rounds up to the last one that rank nothing."""
    since = here
    for earlier in reversed(subject.rounds):
        if earlier.ranked:
            break
        since = earlier
    return since


def _put_open(paper: Paper, subject: Subject, here: Round) -> None:
    paper.put(f"Open, since the budget was spent: {sets_words(list(here.open.values()))}. So nobody knows whether they explain the log.")
    budget = subject.report.terms.budget * 10
    if budget <= MOST_BUDGET:
        paper.put(f"Search them harder: --budget {budget}")


def _put_wider(paper: Paper, subject: Subject) -> None:
    terms = subject.report.terms
    if terms.doubt < MOST_DOUBT and terms.k > 0:
        paper.put(f"A monitor may lie: --doubt {terms.doubt + 1}{_too_many(subject, terms.k, terms.doubt + 1)}")
    if terms.k < MOST_K:
        paper.put(f"More may have failed than {terms.k}: --k {terms.k + 1}{_too_many(subject, terms.k + 1, terms.doubt)}")
    paper.put("Or the graph is wrong. A delay that is too narrow rejects the truth.")


def _too_many(subject: Subject, k: int, doubt: int) -> str:
    count = subject.set_count(k, doubt)
    return f", if that did not make {count:,} sets, of which {spoken(MOST_HYPOTHESES)} are the limit" if count > MOST_HYPOTHESES else ""

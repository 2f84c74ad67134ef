"""What the constraints, reasons and contradictions of a refutation say, in words."""

from __future__ import annotations

from typing import List, Optional, Tuple

from ..limits import NEVER
from ..reading.constraints import Constraint
from ..reading.sets import set_words
from ..reading.steps import Reason
from ..reading.trees import Case, Choice, Contradiction, chain_of
from .speech import Speech
from .times import duration_words

Pick = Optional[Tuple[Choice, Case]]


def constraint_sentence(speech: Speech, constraint: Constraint) -> str:
    value, node = constraint.value, speech.node(constraint.node)
    if constraint.form == "at most":
        return f"{node} {by_words(speech, value)}"
    if constraint.form == "at least":
        return f"{node} never active" if value >= NEVER else f"{node} not active before {speech.time(value)}"
    source = speech.node(constraint.edge.source) if constraint.edge is not None else ""
    is_most = constraint.form == "at most after"
    if value == 0:
        return f"{node} not {'after' if is_most else 'before'} {source}"
    return f"{node} at {'most' if is_most else 'least'} {duration_words(value)} after {source}"


def by_words(speech: Speech, time: int) -> str:
    if time < 0:
        return f"active before time begins, at {speech.begin()}"
    return "active at some time or never" if time >= NEVER else f"active by {speech.time(time)}"


def reason_sentence(speech: Speech, reason: Reason, constraint: Constraint, pick: Pick) -> str:
    """A reason of a contradiction, with why it holds."""
    said = constraint_sentence(speech, constraint)
    if reason.kind == "zero":
        return f"{said}: time begins there"
    if pick is not None:
        return f"{said} (by case {pick[1].number} of choice {pick[0].number})"
    if reason.kind in ("from", "upto"):
        return f"{said}: the alarm of {_alarm_words(speech, reason, constraint.node)}"
    if reason.kind not in ("unreached", "quiet"):
        return said
    inactive = f"{speech.node(constraint.node)} not active by {speech.time(constraint.value - 1)}: "
    return inactive + (_unreached_words(speech) if reason.kind == "unreached" else _silence_words(speech, reason, constraint.node))


def _unreached_words(speech: Speech) -> str:
    if speech.set == "-":
        return "nothing reaches it without a failure"
    return f"nothing that {set_words(speech.set)} causes reaches it"


def _lags(speech: Speech, node: int) -> Tuple[int, int]:
    return speech.graph.nodes[node].lags or (0, 0)


def _alarm_words(speech: Speech, reason: Reason, node: int) -> str:
    line, (least, greatest) = speech.line(reason.event or 0), _lags(speech, node)
    if reason.kind == "upto":
        return f"{line} comes at least {duration_words(least)} after it" if least else line
    return f"{line} comes at most {duration_words(greatest)} after it" if greatest else f"{line} comes at once"


def _silence_words(speech: Speech, reason: Reason, node: int) -> str:
    event, least = reason.event or 0, _lags(speech, node)[0]
    how = "in the sweep of" if speech.log.events[event - 1].kind == "sweep" else "by"
    late = f", and an alarm may come {duration_words(least)} late" if least else ""
    return f"silent {how} {speech.line(event)}{late}"


def contradiction_sentences(speech: Speech, contradiction: Contradiction) -> Tuple[List[str], str]:
    """The reasons of a contradiction, after each difference what follows from it, and why both ends cannot hold."""
    links, through_zero = chain_of(contradiction)
    sentences = []
    for index, link in enumerate(links):
        constraint, reason = contradiction.constraints[link.place], contradiction.step.reasons[link.place]
        said = reason_sentence(speech, reason, constraint, contradiction.picks[link.place])
        follows = through_zero and constraint.edge is not None and index < len(links) - 1
        sentences.append(said + (f": so {speech.node(link.node)} not active before {speech.time(link.least)}" if follows else ""))
    return sentences, _end_sentence(speech, contradiction)


def _end_sentence(speech: Speech, contradiction: Contradiction) -> str:
    links, through_zero = chain_of(contradiction)
    gap = f"(gap {duration_words(-sum(constraint.bound for constraint in contradiction.constraints))})"
    before = links[-2] if len(links) > 1 else links[-1]
    if not through_zero or len(links) < 2:
        return f"Together they cannot hold: {speech.node(before.node)} would be active before itself {gap}"
    bound = contradiction.constraints[links[-1].place].bound
    early = "never" if before.least >= NEVER else f"not before {speech.time(before.least)}"
    late = f"before {speech.begin()}" if bound < 0 else f"by {speech.time(bound)}"
    return f"Both cannot hold: {speech.node(before.node)} {early}, and {late} {gap}"

"""What the choices and cases of a refutation say, in words."""

from __future__ import annotations

from ..reading.clauses import Excluded
from ..reading.spans import Span
from ..reading.trees import Case, Choice
from .contradictions import by_words, constraint_sentence
from .speech import Speech
from .times import duration_words


def _span_words(speech: Speech, span: Span) -> str:
    times = f"from {speech.time(span.lo)} to {speech.time(span.hi)}"
    return f"in mode {speech.graph.modes[span.mode]} {times}" if len(speech.graph.modes) > 1 else times


def split_sentence(speech: Speech, choice: Choice) -> str:
    clause, window = choice.step.clause, choice.found.window
    if clause is None:
        return ""
    node = speech.node(clause.node)
    if window is None:
        parts = f"becomes active before the time {_span_words(speech, choice.found.span)}, after it, or within it "
        if clause.kind == "ormay" or clause.edge is None:
            return f"{node} {parts}over one of its edges:"
        return f"{node} needs all its causes at one instant. It {parts}over {speech.edge(clause.edge)}:"
    times = f"from {speech.time(window.lo)} to {speech.time(window.hi)}"
    if clause.edge is not None:
        return f"{speech.edge(clause.edge)} is active {times}, and carries within {duration_words(clause.edge.greatest or 0)}. So:"
    return f"All edges into {node} are active {times}, and carry in time if all their sources are active. So:"


def case_sentence(speech: Speech, choice: Choice, case: Case) -> str:
    alternative, clause = case.alternative, choice.step.clause
    edge, value = alternative.edge, alternative.constraints[0].value
    node = speech.node(clause.node) if clause is not None else ""
    if alternative.label == "before":
        return f"{node} {by_words(speech, value)}"
    if alternative.label == "after":
        return f"{node} not active by {speech.time(value - 1)}"
    if alternative.label in ("follows", "due") or edge is None:
        return constraint_sentence(speech, alternative.constraints[0])
    source = speech.node(edge.source)
    if alternative.label == "late":
        return f"{source} not active before {speech.time(value)}: too late for {speech.edge(edge)} to be due"
    after = f"at least {duration_words(edge.least)} after {source}" if edge.least else f"not before {source}"
    begin, end = (speech.time(constraint.value) for constraint in alternative.constraints[1:3])
    return f"{node} over {speech.edge(edge)}, {after}, from {begin} to {end}"


def excluded_sentence(speech: Speech, choice: Choice, other: Excluded) -> str:
    if other.arrival is None:
        return f"{speech.edge(other.edge)} is not active in mode {speech.graph.modes[choice.found.span.mode]}"
    return f"{speech.edge(other.edge)} brings nothing before {speech.time(other.arrival)}"


def reused_sentence(case: Case) -> str:
    return f"closed as case {case.reused} is: no contradiction there rests on what case {case.reused} says"

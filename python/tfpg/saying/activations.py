"""What the activations of a history say, in words."""

from __future__ import annotations

from ..reading.histories import Activation, Arrival
from ..reading.sets import members_of
from .speech import Speech
from .times import duration_words, range_words

MOST_ALARMS = 5  # of an activation


def history_title(text: str) -> str:
    """What failed, and which monitors are wrong."""
    failures, wrong = members_of(text)
    title = "A history of " + " + ".join(failures) if failures else "A history without a failure"
    if not wrong:
        return title
    return f"{title}, if the monitor{'s' if len(wrong) > 1 else ''} of {' and '.join(wrong)} {'are' if len(wrong) > 1 else 'is'} wrong"


def activation_sentence(speech: Speech, activation: Activation) -> str:
    """What one activation says, after its time."""
    kind = speech.graph.nodes[activation.node].kind
    between = " and " if kind == "and" else " or "
    over = between.join(_arrival_words(speech, arrival) for arrival in activation.arrivals)
    raised = [f"{speech.line(alarm.number)}{_later_words(alarm.time - activation.time)}" for alarm in activation.alarms]
    more = f" and {len(raised) - MOST_ALARMS} more" if len(raised) > MOST_ALARMS else ""
    alarms = f"; alarm by {', '.join(raised[:MOST_ALARMS])}{more}" if raised else ""
    return f"{speech.node(activation.node)} {'fails' if kind == 'failure' else 'active'}{', over ' + over if over else ''}{alarms}"


def _arrival_words(speech: Speech, arrival: Arrival) -> str:
    edge, modes = arrival.edge, speech.graph.modes
    ran = "" if len(edge.modes) == len(modes) else " in mode " + " and ".join(modes[mode] for mode in arrival.modes)
    return f"{speech.edge(edge)} (after {duration_words(arrival.age)}{ran}, of {range_words(edge)})"


def _later_words(milliseconds: int) -> str:
    if milliseconds == 0:
        return " at once"
    return f" after {duration_words(milliseconds)}" if milliseconds > 0 else " before it"

"""The rules by which records become lines. docs/modelling.md has each with its reason in the model, under "From your records to a log"."""

from __future__ import annotations

from itertools import groupby
from typing import Dict, Iterable, List, NamedTuple, Optional, Sequence

from ..reading.graphs import DeclaredGraph
from .words import CLEARED, MODE, OFF, ON, RAISED

ALARM, SILENCE, CHANGE = "alarm", "silence", "mode"  # the rules by which a record is a line
REPEAT, CLEAR, CLEAR_BEFORE = "repeat", "clear", "clear-before-alarm"
EARLIER_OFF, OFF_AT_ALARM, OFF_AFTER_ALARM = "earlier-off", "off-at-alarm", "off-after-alarm"
SAME_MODE, OVERRULED_MODE = "same-mode", "overruled-mode"
UNKNOWN_NAME, NO_MONITOR = "unknown-name", "no-monitor"

RULES: Dict[str, str] = {
    ALARM: "the first alarm of a monitor is a line",
    SILENCE: "the last off before the first alarm of its monitor is a line",
    CHANGE: "a change of mode is a line",
    REPEAT: "a further alarm is none, since a node once active stays so",
    CLEAR: "the end of an alarm is none, since a node once active stays so",
    CLEAR_BEFORE: "the end of an alarm that no record has",
    EARLIER_OFF: "an off before the last one follows from that one",
    OFF_AT_ALARM: "an off at the instant of the first alarm is none, since the monitor is not silent there",
    OFF_AFTER_ALARM: "an off after the first alarm is none, since a node once active stays so",
    SAME_MODE: "the mode that holds already is no change",
    OVERRULED_MODE: "of the modes at one instant the last one holds",
    UNKNOWN_NAME: "the graph has no node of this name (--leave-out)",
    NO_MONITOR: "the node has no monitor (--leave-out)",
}


class Said(NamedTuple):
    """What a record says: its number, its time from the origin in milliseconds, `mode` or one of the four words of a monitor, and the
    number of the mode or of the node."""

    number: int
    time: int
    word: str
    what: int


class Applied(NamedTuple):
    """What the rules make of records: the lines, the rule of each record by its number, and the number of the line that it became."""

    lines: List[str]
    rules: Dict[int, str]
    line_of: Dict[int, int]


def applied(graph: DeclaredGraph, said: Iterable[Said], begin: int = 0) -> Applied:
    """The lines of records, by time: at one instant modes before silences, silences before alarms, and both in the order of the nodes.
    `begin` is the number of the mode in the beginning."""
    ordered = sorted(said, key=lambda one: (one.time, one.number))
    modes: List[Said] = []
    monitors: Dict[int, List[Said]] = {}
    for one in ordered:
        (modes if one.word == MODE else monitors.setdefault(one.what, [])).append(one)
    rules = _mode_rules(modes, begin)
    for records in monitors.values():
        rules.update(_monitor_rules(records))
    return _lined(graph, ordered, rules, begin)


def _mode_rules(said: Sequence[Said], begin: int) -> Dict[int, str]:
    """The rules of records that say modes, in their order."""
    rules, holds = {}, begin
    for _, group in groupby(said, key=lambda one: one.time):
        *overruled, last = group
        rules.update({one.number: OVERRULED_MODE for one in overruled})
        rules[last.number] = SAME_MODE if last.what == holds else CHANGE
        holds = last.what
    return rules


def _monitor_rules(said: Sequence[Said]) -> Dict[int, str]:
    """The rules of the records of one monitor, in their order."""
    first = next((one for one in said if one.word in (RAISED, ON)), None)
    offs = [one for one in said if one.word == OFF and (first is None or one.time < first.time)]
    rules: Dict[int, str] = {one.number: _later_rule(one, first) for one in said}
    rules.update({one.number: EARLIER_OFF for one in offs[:-1]})
    rules.update({one.number: SILENCE for one in offs[-1:]})
    return rules


def _later_rule(one: Said, first: Optional[Said]) -> str:
    """The rule of a record of a monitor that is no off before the first alarm."""
    if one is first:
        return ALARM
    if one.word == CLEARED:
        return CLEAR_BEFORE if first is None or one.time < first.time else CLEAR
    if one.word == OFF:
        return OFF_AT_ALARM if first is not None and one.time == first.time else OFF_AFTER_ALARM
    return REPEAT


def _lined(graph: DeclaredGraph, ordered: Sequence[Said], rules: Dict[int, str], begin: int) -> Applied:
    """The lines of the records that are lines."""
    places = {CHANGE: 0, SILENCE: 1, ALARM: 2}
    lined = [one for one in ordered if rules[one.number] in places]
    lined.sort(key=lambda one: (one.time, places[rules[one.number]], one.what))
    front = _begin_lines(graph, begin, any(one.time == 0 and rules[one.number] == CHANGE for one in lined))
    line_of = {one.number: line for line, one in enumerate(lined, len(front) + 1)}
    return Applied(front + [_line(graph, one, rules[one.number]) for one in lined], rules, line_of)


def _begin_lines(graph: DeclaredGraph, begin: int, is_changed: bool) -> List[str]:
    """The line that says the mode in the beginning. There is none for the first mode of the graph, or if a record changes it at 0."""
    return [] if begin == 0 or is_changed else [f"0 mode {graph.modes[begin]}"]


def _line(graph: DeclaredGraph, one: Said, rule: str) -> str:
    if rule == CHANGE:
        return f"{one.time} mode {graph.modes[one.what]}"
    return f"{one.time} {'silent' if rule == SILENCE else 'alarm'} {graph.name(one.what)}"

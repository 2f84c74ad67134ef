"""What is accepted in a log and surely not meant, each with its line, a sentence and a remedy."""

from __future__ import annotations

from dataclasses import dataclass
from itertools import groupby
from typing import Dict, Iterator, List, NamedTuple, Optional, Sequence, Tuple

from ..explaining.explanations import Explanation, listed
from ..explaining.forms import quoted
from ..reading.graphs import DeclaredGraph
from ..reading.logs import Event, EventLog
from ..reading.reports import Refused
from ..reading.texts import is_number, number_of, words_of
from ..reading.ways import least_ways
from ..saying.times import DAY, duration_words

SECOND_ALARM, SILENCE_AFTER_ALARM, ALARM_AND_SILENCE = "SecondAlarm", "SilenceAfterAlarm", "AlarmAndSilence"
FAR_TIME, EARLY_ALARM, NEVER_NAMED = "FarTime", "EarlyAlarm", "NeverNamed"
RECORDS = "`python3 -m tfpg records`"
NO_SET = "So no set that believes this monitor explains the log."
FAR, FAR_TIMES = 30 * DAY, 100  # a time is far so long after all others, and so many times as long as they lie apart
MOST_LOST = 2  # so many lines in order are not refused for the time of one right line before them
MOST_CAUSES = 3  # failure modes that a sentence names


@dataclass(frozen=True)
class Warned:
    """A warning: the number of a line of the log, or nothing if it is of none, its cause, and what is said of it."""

    line: Optional[int]
    cause: str
    explanation: Explanation


class LoggedGraph(NamedTuple):
    """A graph, the lines of a log of it, the events of those that were accepted, and what was refused."""

    graph: DeclaredGraph
    lines: Sequence[str]
    log: EventLog
    refused: Sequence[Refused]

    def name(self, node: int) -> str:
        return quoted(self.graph.name(node))

    def lags(self, node: int) -> Tuple[int, int]:
        return self.graph.nodes[node].lags or (0, 0)

    def warned(self, event: Event, cause: str, place: int, sentence: str, remedy: str) -> Warned:
        """A warning of an event, with the word at this place of its line."""
        return Warned(event.line, cause, Explanation(sentence, words_of(self.lines[event.line - 1])[place], [remedy]))


def log_warnings(logged: LoggedGraph) -> List[Warned]:
    """All warnings, by their lines, and those of no line last."""
    said = [*_contradictions(logged), *_far_times(logged), *_early_alarm(logged), *_never_named(logged)]
    return sorted(said, key=lambda one: len(logged.lines) + 1 if one.line is None else one.line)


def _contradictions(logged: LoggedGraph) -> Iterator[Warned]:
    """What a monitor says and no instant of activation holds together."""
    for time, group in groupby(logged.log.events, key=lambda event: event.time):
        silent: Dict[int, Event] = {}
        sweep: Optional[Event] = None
        for event in group:
            node = event.node
            if event.kind == "sweep":
                sweep = event
            elif node is not None and time >= logged.lags(node)[0] and event.kind == "silent":
                silent[node] = event
                yield from _silence_after(logged, event, node)
            elif node is not None and event.kind == "alarm":
                asked = silent.get(node) or sweep
                if asked is not None and time >= logged.lags(node)[0] and logged.log.silences(asked, node):
                    yield _at_silence(logged, event, node, asked)
                yield from _second_alarm(logged, event, node)


def _silence_after(logged: LoggedGraph, event: Event, node: int) -> Iterator[Warned]:
    """A silence after an alarm of its node."""
    first = next(iter(logged.log.alarms.get(node, [])), None)
    if first is None or first.number > event.number:
        return
    if first.time == event.time:
        sentence = f"Line {first.line} says that {logged.name(node)} alarms at the same time. {NO_SET}"
        yield logged.warned(event, ALARM_AND_SILENCE, 2, sentence, f"Leave the silence out, as {RECORDS} does.")
    else:
        sentence = f"{logged.name(node)} raised its alarm in line {first.line}, and a node once active stays so. {NO_SET}"
        yield logged.warned(event, SILENCE_AFTER_ALARM, 2, sentence, f"The end of an alarm is no line: {RECORDS} leaves it out.")


def _at_silence(logged: LoggedGraph, event: Event, node: int, asked: Event) -> Warned:
    """An alarm after a silence of its node at the same time."""
    what = "The sweep of line" if asked.kind == "sweep" else "Line"
    sentence = f"{what} {asked.line} says that {logged.name(node)} is silent at the same time. {NO_SET}"
    remedy = "Write the sweep after the alarms of its time." if asked.kind == "sweep" else f"Leave the silence out, as {RECORDS} does."
    return logged.warned(event, ALARM_AND_SILENCE, 2, sentence, remedy)


def _second_alarm(logged: LoggedGraph, event: Event, node: int) -> Iterator[Warned]:
    """A further alarm of a node, if it says a later activation than the first one allows."""
    first, (least, greatest) = logged.log.alarms[node][0], logged.lags(node)
    if max(0, event.time - greatest) > max(0, first.time - least):
        late = duration_words(event.time - first.time)
        lag = f"at most {duration_words(greatest)}" + (f" and at least {duration_words(least)}" if least else "")
        sentence = (f"{logged.name(node)} has its first alarm in line {first.line}, {late} before. An alarm comes {lag} after its node "
                    f"became active, so no activation is shown by both. {NO_SET}")
        remedy = f"A node once active stays so, and a repeated alarm is no line: {RECORDS} leaves it out."
        yield logged.warned(event, SECOND_ALARM, 2, sentence, remedy)


def _far_times(logged: LoggedGraph) -> Iterator[Warned]:
    """A time far from all others, or for which lines are refused that else come in order."""
    events, far = logged.log.events, set()
    times = sorted({event.time for event in events})
    for time, gap, span in _ends(times):
        if gap > FAR and gap > FAR_TIMES * span:
            event = next(event for event in events if event.time == time)
            far.add(event.line)
            sentence = f"Its time is {duration_words(gap)} from all others, which lie within {duration_words(span)}."
            yield logged.warned(event, FAR_TIME, 0, sentence, "All times count milliseconds from one start. Does this one?")
    if events and events[-1].line not in far:
        yield from _lost_lines(logged, events[-1])


def _ends(times: Sequence[int]) -> List[Tuple[int, int, int]]:
    """The last and the first of at least three times: each with how far it is from the others, and how far these lie apart."""
    if len(times) < 3:
        return []
    return [(times[-1], times[-1] - times[-2], times[-2] - times[0]), (times[0], times[1] - times[0], times[-1] - times[1])]


def _lost_lines(logged: LoggedGraph, last: Event) -> Iterator[Warned]:
    """The last event, if all lines after it are refused since its time is later, and come in order without it."""
    after = [one for one in logged.refused if one.line > last.line]
    words = [logged.lines[one.line - 1].split(" ")[0] for one in after if one.cause == "TimeBack"]
    times = [number_of(word) for word in words if is_number(word)]
    before = next((event.time for event in reversed(logged.log.events) if event.time < last.time), 0)
    if len(times) > MOST_LOST and len(times) == len(after) and times == sorted(times) and times[0] >= before:
        sentence = f"The {len(times):,} lines after it are refused for its time, and come in order without it."
        yield logged.warned(last, FAR_TIME, 0, sentence, "All times count milliseconds from one start. Does this one?")


def _early_alarm(logged: LoggedGraph) -> Iterator[Warned]:
    """The first alarm that comes too early for some failure mode, since nothing is active before 0."""
    found: Optional[Warned] = None
    missing = 0
    for node, (first, *_) in sorted(logged.log.alarms.items(), key=lambda entry: entry[1][0].number):
        ways, least = least_ways(logged.graph, node), logged.lags(node)[0]
        causes = sorted((-ways[failure], failure) for failure in logged.graph.failures if ways.get(failure, -1) + least > first.time)
        if causes:
            missing = max(missing, least - causes[0][0] - first.time)
            found = found or _excluded(logged, first, node, [(-way, failure) for way, failure in causes])
    if found is not None:
        said = found.explanation
        remedy = (f"If the system ran before, begin the log at least {duration_words(missing)} earlier: {RECORDS} with --before takes its "
                  "0 so long before the first record.")
        yield Warned(found.line, found.cause, Explanation(said.sentence, said.word, [remedy]))


def _excluded(logged: LoggedGraph, first: Event, node: int, causes: Sequence[Tuple[int, int]]) -> Warned:
    """An alarm, and the failure modes that cannot be its cause, each with the least time that it takes."""
    named = [f"{logged.name(failure)}, which takes at least {duration_words(way)}" for way, failure in causes[:MOST_CAUSES]]
    more = [f"{len(causes) - MOST_CAUSES} others"] if len(causes) > MOST_CAUSES else []
    sentence = (f"This alarm comes {duration_words(first.time)} after 0, and nothing is active before. So these are ruled out as causes of "
                f"{logged.name(node)}: {'; '.join([*named, *more])}.")
    return logged.warned(first, EARLY_ALARM, 0, sentence, "")


def _never_named(logged: LoggedGraph) -> Iterator[Warned]:
    """Monitored nodes of which the log says nothing."""
    events, named = logged.log.events, {event.node for event in logged.log.events}
    silent = [logged.graph.name(node) for node in logged.graph.monitored if node not in named]
    if silent and events and all(event.kind != "sweep" for event in events):
        sentence = "That an alarm is not in the log says nothing. " + listed("No line names these nodes with a monitor", silent)
        yield Warned(None, NEVER_NAMED, Explanation(sentence, None, ["Log `T silent NODE` for each that was asked, or `T sweep` for all."]))

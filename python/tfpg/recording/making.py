"""Makes a log of records: their words by the graph, their times by the clocks and the origin, and their lines by the rules."""

from __future__ import annotations

from collections import Counter
from dataclasses import dataclass, field
from typing import Any, Dict, Mapping, NamedTuple, Optional, Sequence, Tuple

from ..explaining.explanations import join_and
from ..faults import BadRecord
from ..limits import MOST_CHANGES, MOST_TIME, spoken
from ..reading.graphs import DeclaredGraph
from ..reading.texts import bytes_in, shown, text_of
from .notes import notes_of
from .rows import boxes_of
from .rules import NO_MONITOR, UNKNOWN_NAME, Applied, Said, applied
from .sources import Record, Source
from .times import WITH_ZONE, WITHOUT_ZONE, Clock, date_words, moment_of
from .words import MODE, VALUES, Words

MOST_NAMED = 10  # unknown names that an error names


class Entry(NamedTuple):
    """What became of a record: the rule that decided, its time in the log, and the line of the log that it became, if it became one. What
    was left out by its name has no time."""

    record: Record
    rule: str
    time: Optional[int]
    line: Optional[int]


@dataclass(frozen=True)
class RecordedLog:
    """A log that was made of records: its lines, the origin that was subtracted from their times, in milliseconds, what became of each
    record, what is doubtful, and whether the records have dates."""

    lines: Tuple[str, ...]
    origin: int
    entries: Tuple[Entry, ...] = field(repr=False)
    notes: Tuple[str, ...]
    has_dates: bool

    @property
    def text(self) -> str:
        """The log as a text."""
        return "".join(line + "\n" for line in self.lines)

    @property
    def counts(self) -> Dict[str, int]:
        """How many records each rule decided, in the order of `rules`."""
        return dict(Counter(entry.rule for entry in self.entries))

    def to_dict(self) -> Dict[str, Any]:
        """The same as `json.dumps` takes it, without the account."""
        return {"records": len(self.entries), "boxes": list(boxes_of(entry.record for entry in self.entries)), "origin": self.origin,
                "date": date_words(self.origin) if self.has_dates else None, "rules": self.counts, "notes": list(self.notes),
                "lines": list(self.lines)}


@dataclass(frozen=True)
class Choices:
    """What a caller chooses. Offsets are milliseconds that are added to the times of a box. The origin is a time as records write it, and
    `before` takes it so many milliseconds before the first record; at most one of both is there. Whole numbers count seconds if told so.
    `mode` is the one in the beginning. What has no name that the graph knows is left out only if told so."""

    offsets: Mapping[str, int] = field(default_factory=dict)
    origin: Optional[str] = None
    before: Optional[int] = None
    in_seconds: bool = False
    mode: str = ""
    leave_out: bool = False


class Meant(NamedTuple):
    """A record that says something of the graph: its number, and `mode` or one of the four words, with the number of a mode or node."""

    number: int
    record: Record
    word: str
    what: int


def log_of_records(graph: DeclaredGraph, words: Words, source: Source, choices: Choices) -> RecordedLog:
    """The log of records, or BadRecord for the first one that cannot be taken."""
    if not graph.monitored:
        raise BadRecord("", 0, "The graph declares no node with a monitor. `lint` says what is wrong with it.")
    begin = _begin(words, choices.mode)
    rules = _left_out(words, source.records)
    if rules and not choices.leave_out:
        raise _unknown_names(words, source.records, rules)
    meant = [_meant(words, number, record) for number, record in enumerate(source.records) if number not in rules]
    clocks = _clocks([one.record for one in meant], source.records, choices)
    moments = [_moment(clocks[one.record.box], one.record) for one in meant]
    origin = _origin([time for time, _ in moments], choices)
    said = [Said(one.number, _since(origin, time, one.record), one.word, one.what) for one, (time, _) in zip(meant, moments)]
    done = applied(graph, said, begin)
    _need_room(source.records, done)
    rules.update(done.rules)
    times = {one.number: one.time for one in said}
    entries = tuple(Entry(record, rules[number], times.get(number), done.line_of.get(number))
                    for number, record in enumerate(source.records))
    notes = notes_of(graph, said, done, clocks, sum(is_cut for _, is_cut in moments), source.unread)
    has_dates = any(clock.form in (WITH_ZONE, WITHOUT_ZONE) for clock in clocks.values())
    return RecordedLog(tuple(done.lines), origin, entries, tuple(notes), has_dates)


def quoted(text: str) -> str:
    """A word of a record as its reader sees it."""
    return f"`{shown(text_of(bytes_in(text)))}`"


def _begin(words: Words, mode: str) -> int:
    """The number of the mode in the beginning."""
    if not mode:
        return 0
    number = words.mode(mode)
    if number is None:
        raise BadRecord("", 0, f"The graph declares no mode {quoted(mode)}. {_modes(words)}")
    return number


def _modes(words: Words) -> str:
    return f"Its modes: {', '.join(words.graph.modes)}."


def _left_out(words: Words, records: Sequence[Record]) -> Dict[int, str]:
    """The rule of each record whose name is neither `mode` nor that of a node with a monitor."""
    rules: Dict[int, str] = {}
    for number, record in enumerate(records):
        name = words.name(record.name)
        node = words.graph.number_of.get(name)
        if name != MODE and (node is None or words.graph.nodes[node].lags is None):
            rules[number] = UNKNOWN_NAME if node is None else NO_MONITOR
    return rules


def _meant(words: Words, number: int, record: Record) -> Meant:
    """What a record says, whose name is known."""
    name = words.name(record.name)
    if name == MODE:
        return _meant_mode(words, number, record)
    return Meant(number, record, _value(words, record), words.graph.number_of[name])


def _meant_mode(words: Words, number: int, record: Record) -> Meant:
    mode = words.mode(record.value)
    if mode is None:
        raise record.bad(f"The graph declares no mode {quoted(record.value)}. {_modes(words)} A change of mode is never left out, since "
                         "the log would go on in the mode before. Give it a row in the table of --names.")
    return Meant(number, record, MODE, mode)


def _value(words: Words, record: Record) -> str:
    value = words.value(record.value)
    if value not in VALUES:
        raise record.bad(f"{quoted(record.value)} is no value of a monitor. An alarm is `raised` or `cleared`, a sample is `on` or `off`. "
                         "Say by rows in the table of --names which of them your words stand for.")
    return value


def _unknown_names(words: Words, records: Sequence[Record], rules: Dict[int, str]) -> BadRecord:
    """All names that the graph does not know, with the line of the first record of each."""
    first: Dict[str, int] = {}
    for number in rules:
        first.setdefault(records[number].name, number)
    named = [f"{quoted(name)} in line {records[number].line}" + (f" of {records[number].file}" if records[number].file else "") +
             (", which has no monitor" if rules[number] == NO_MONITOR else "") for name, number in list(first.items())[:MOST_NAMED]]
    more = f" and {len(first) - MOST_NAMED} more" if len(first) > MOST_NAMED else ""
    return records[min(rules)].bad(
        f"The graph declares no node with a monitor of the name {'; '.join(named)}{more}. {words.monitored()} Say by rows in the table of "
        "--names which of them your names stand for, or leave such records out by --leave-out. The name of a record of the mode is `mode`.")


def _clocks(taken: Sequence[Record], records: Sequence[Record], choices: Choices) -> Dict[str, Clock]:
    """The clock of each box."""
    unknown = sorted(set(choices.offsets) - set(boxes_of(records)))
    if unknown:
        raise BadRecord("", 0, f"There is an offset for the box {quoted(unknown[0])}, and no record of it. The boxes: "
                               f"{join_and(boxes_of(records)) or 'none'}.")
    return {box: Clock(choices.offsets.get(box, 0), choices.in_seconds) for box in boxes_of(taken)}


def _moment(clock: Clock, record: Record) -> Tuple[int, bool]:
    """The time of a record in milliseconds, and whether digits were cut off."""
    try:
        said = clock.moment(record.time)
    except ValueError as fault:
        raise record.bad(str(fault)) from None
    return said.time, said.is_cut


def _origin(times: Sequence[int], choices: Choices) -> int:
    """The time that becomes 0."""
    if choices.before is not None:
        return min(times, default=choices.before) - choices.before
    if choices.origin is None:
        return 0
    try:
        return moment_of(choices.origin, choices.in_seconds).time
    except ValueError as fault:
        raise BadRecord("", 0, f"The origin is wrong: {fault}") from None


def _since(origin: int, time: int, record: Record) -> int:
    """A time from the origin, if a log can have it."""
    if time < origin:
        raise record.bad(f"Its time {record.time} is {origin - time:,} ms before the origin {origin}. Nothing is active before the origin, "
                         "so take an earlier one: --before 8h takes it 8 hours before the first record.")
    if time - origin > MOST_TIME:
        raise record.bad(f"Its time {record.time} is more than {spoken(MOST_TIME)} ms, some 31 years, after the origin {origin}. Say where "
                         "the log begins: --before 8h begins it 8 hours before the first record, --origin TIME at a time.")
    return time - origin


def _need_room(records: Sequence[Record], done: Applied) -> None:
    """Refuses more changes of mode than a log can have. Alarms and silences fill none: each monitor has one line of both at most."""
    changes = [number for number, line in enumerate(done.lines, 1) if line.split(" ")[1] == MODE]
    if len(changes) > MOST_CHANGES:
        number = next(number for number, line in done.line_of.items() if line == changes[MOST_CHANGES])
        raise records[number].bad(
            f"It is one change of mode too many: they are {len(changes):,}, and a log has at most {spoken(MOST_CHANGES)}. Make one mode of "
            "those in which the same edges are active, by rows in the table of --names, or begin a new log where nothing is active.")

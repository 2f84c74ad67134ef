"""What is doubtful in records that are taken all the same, in sentences."""

from __future__ import annotations

from typing import Dict, Iterable, List, Mapping, Sequence

from ..reading.graphs import DeclaredGraph
from ..saying.times import duration_words
from .rules import ALARM, SILENCE, Applied, Said
from .times import MILLISECONDS, WITHOUT_ZONE, Clock
from .words import ON

MOST_NAMED = 10


def notes_of(graph: DeclaredGraph, said: Sequence[Said], done: Applied, clocks: Mapping[str, Clock], cut: int,
             unread: Iterable[str]) -> List[str]:
    """Sentences on samples from which nobody knows when an alarm was raised, on times that are doubtful or were cut, and on columns that
    are not read."""
    notes = [*_sample_notes(graph, said, done), *_clock_notes(clocks)]
    if cut:
        notes.append(f"{cut:,} {'time has' if cut == 1 else 'times have'} digits below a millisecond, which are cut off.")
    names = list(unread)
    if names:
        notes.append(f"Not read: {'column' if len(names) == 1 else 'columns'} {', '.join(names)}.")
    return notes


def _clock_notes(clocks: Mapping[str, Clock]) -> List[str]:
    """On times that may mean something else than they are taken for."""
    notes = [f"{_times_of(box)} have 10 digits, as Unix time in seconds has. If they count seconds, say --seconds."
             for box, clock in clocks.items() if clock.form == MILLISECONDS and clock.is_like_unix_seconds]
    return notes + [f"{_times_of(box)} have no zone, and are taken as UTC. If clocks were put forward or back between them, some are wrong "
                    "by an hour." for box, clock in clocks.items() if clock.form == WITHOUT_ZONE]


def _times_of(box: str) -> str:
    return f"The times of the box {box}" if box else "The times"


def _sample_notes(graph: DeclaredGraph, said: Sequence[Said], done: Applied) -> List[str]:
    """On each first alarm that is a sample: when it was raised is known only from the sample before, as far as its lag reaches."""
    silent: Dict[int, int] = {one.what: one.time for one in said if done.rules[one.number] == SILENCE}
    notes: List[str] = []
    for one in said:
        if one.word != ON or done.rules[one.number] != ALARM:
            continue
        name, line, (_, greatest) = graph.name(one.what), done.line_of[one.number], graph.nodes[one.what].lags or (0, 0)
        if one.what not in silent:
            notes.append(f"Line {line}: {name} is on in its first sample, so nobody knows since when. The line says that it became active "
                         f"at most {duration_words(greatest)} before. Begin the records earlier, or take its records out.")
        elif one.time - silent[one.what] > greatest:
            gap = duration_words(one.time - silent[one.what])
            notes.append(f"Line {line}: {name} is on {gap} after the sample before, which is longer than its greatest lag, "
                         f"{duration_words(greatest)}. The lag of a sampled monitor has the time between two samples in it.")
    return notes if len(notes) <= MOST_NAMED else [*notes[:MOST_NAMED], f"… and {len(notes) - MOST_NAMED} more samples of this kind."]

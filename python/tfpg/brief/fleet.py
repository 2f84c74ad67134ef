"""A brief of a fleet: a line for each vehicle, the worst first."""

from __future__ import annotations

from typing import Any, Dict, List, NamedTuple, Sequence, Tuple

from ..reading.fleets import FleetAnswers, Vehicle
from ..reading.graphs import DeclaredGraph
from ..reading.reports import Round, read_report
from ..reading.sets import members_of, set_words
from ..reading.subjects import Subject
from ..reading.texts import BadText
from ..saying.speech import speech_of
from .as_json import brief_dict
from .losses import count_words
from .paper import Paper
from .ranking import alarms_words, empty_since

MOST_STRAY = 10


class Known(NamedTuple):
    """A vehicle, and what is told of it."""

    vehicle: Vehicle
    subject: Subject


def known_vehicle(graph: DeclaredGraph, vehicle: Vehicle, start: int) -> Known:
    """A vehicle with its report, or BadText if that is none of its own lines."""
    try:
        return Known(vehicle, Subject(graph, vehicle.lines, read_report(vehicle.text, graph), start))
    except BadText as fault:
        raise BadText(0, f"vehicle {vehicle.name}, of its own lines and report {fault}") from None


def worst_first(known: Sequence[Known]) -> List[Known]:
    """First those that nothing explains, those of which nothing is known, then by how many have failed and at which cost."""
    return sorted(known, key=lambda one: (*_order(one.subject), one.vehicle.name))


def _order(subject: Subject) -> Tuple[int, int, int, int]:
    here, lost = subject.last, -len(subject.report.refused)
    if here is None:
        return (2, 0, 0, lost) if subject.lines else (5, 0, 0, 0)
    if not here.ranked:
        return (1 if here.open else 0, 0, 0, lost)
    best = here.ranked[0]
    failures, doubts = members_of(best.set)
    return (3 if best.set != "-" else 4, -len(failures) - len(doubts), -best.cost, lost)


def put_fleet(paper: Paper, answers: FleetAnswers, known: Sequence[Known], stream: Sequence[str]) -> None:
    """How many lines belong to no vehicle, a line for each vehicle, and which failure modes are ranked where."""
    lost = sum(len(one.subject.report.refused) for one in known)
    without = ": what follows is without them" if lost or answers.stray else ""
    sizes = count_words(len(stream), "line"), count_words(len(known), "vehicle")
    paper.title("{} of {}, {:,} refused, {:,} stray{}".format(*sizes, lost, len(answers.stray), without))
    if answers.stray:
        numbers = ", ".join(str(number) for number in answers.stray[:MOST_STRAY])
        more = f" and {len(answers.stray) - MOST_STRAY:,} more" if len(answers.stray) > MOST_STRAY else ""
        paper.warn(f"Stray, since they begin with the name of no vehicle and a space: line {numbers}{more}")
    paper.title("The vehicles, the worst first")
    for one in worst_first(known):
        paper.line(f"  {one.vehicle.name}: {vehicle_words(one.subject)}")
    ranked = {name: count for name, count in answers.modes.items() if count}
    paper.title("Failure modes that are ranked now, and in how many vehicles" if ranked else "No failure mode is ranked now")
    for name, count in sorted(ranked.items(), key=lambda entry: -entry[1]):
        paper.put(f"{name}: {count:,}")
    paper.title("--vehicle NAME tells one vehicle whole.")


def vehicle_words(subject: Subject) -> str:
    """What is said of a vehicle in a line."""
    here = subject.last
    if here is None:
        return f"no accepted line{_lost_words(subject)}" if subject.lines else "no line"
    if not here.ranked:
        what = f"{count_words(len(here.open), 'set')} open, and none ranked" if here.open else "nothing explains its lines"
        return f"{what}, {_since_words(subject, empty_since(subject, here))}{_lost_words(subject)}"
    best = here.ranked[0]
    more = f"; {len(here.ranked) - 1:,} more ranked" if len(here.ranked) > 1 else ""
    left = f"; {len(here.open):,} open" if here.open else ""
    said = set_words(best.set) if best.set == "-" else f"{set_words(best.set)}, cost {best.cost}, {alarms_words(subject, best)}"
    return f"{said}, first {_since_words(subject, _first_since(subject, here))}{more}{left}{_lost_words(subject)}"


def _first_since(subject: Subject, here: Round) -> Round:
    """The first of the rounds up to the last one in which the same set is ranked first."""
    since = here
    for earlier in reversed(subject.rounds):
        if not earlier.ranked or earlier.ranked[0].set != here.ranked[0].set:
            break
        since = earlier
    return since


def _since_words(subject: Subject, since: Round) -> str:
    return f"since {speech_of(subject, '-').time(since.now)}"


def _lost_words(subject: Subject) -> str:
    lost = len(subject.report.refused)
    return f"; {lost:,} of {count_words(len(subject.lines), 'line')} refused" if lost else ""


def vehicle_dict(one: Known) -> Dict[str, Any]:
    """A vehicle as JSON has it: its name, the numbers that its own lines have in the stream, and its brief."""
    return {"vehicle": one.vehicle.name, "stream_lines": one.vehicle.numbers, **brief_dict(one.subject)}

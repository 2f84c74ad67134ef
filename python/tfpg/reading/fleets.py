"""Reads what `fleet` wrote of a stream: of each vehicle its own lines and its report, the stray lines, and how many vehicles rank what."""

from __future__ import annotations

import re
from dataclasses import dataclass, field
from typing import Dict, Iterator, List, Sequence, Tuple

from ..limits import LONGEST_LINE
from .texts import BadText, is_name, lines_of

BEGINS = ("vehicle ", "stray ", "mode ")
COUNTED = re.compile(r"mode ([^ ]+) vehicles (0|[1-9][0-9]{0,9})")


@dataclass
class Vehicle:
    """A vehicle: its name, its own lines, the numbers that they have in the stream, and its report."""

    name: str
    lines: List[str] = field(default_factory=list)
    numbers: List[int] = field(default_factory=list)
    report: List[str] = field(default_factory=list)

    @property
    def text(self) -> str:
        """Its report as a text."""
        return "".join(line + "\n" for line in self.report)


@dataclass
class FleetAnswers:
    """The vehicles in their order, the numbers of the stray lines, and of each failure mode how many vehicles rank a set with it."""

    vehicles: Dict[str, Vehicle] = field(default_factory=dict)
    stray: List[int] = field(default_factory=list)
    modes: Dict[str, int] = field(default_factory=dict)


def is_fleet(text: str) -> bool:
    """Whether a text begins as the answers of a fleet do."""
    return text.startswith("vehicle ")


def read_fleet(text: str, stream: Sequence[str]) -> FleetAnswers:
    """The answers, if they are those of this stream as far as its names show that. Else BadText, with the line at which that shows."""
    answers, count = FleetAnswers(), 0
    for at, part in _parts(lines_of(text)):
        counted = COUNTED.fullmatch(part[0])
        if len(part) > 1 and part[1].startswith("report "):
            _take_head(answers, at, part)
        elif counted:
            answers.modes[counted[1]] = int(counted[2])
        else:
            count += 1
            _take_answer(answers, at, part, count, stream)
    if count < len(stream):
        raise BadText(0, f"the fleet has {count:,} answers, and the stream {len(stream):,} lines: it is of another stream, or not whole")
    return answers


def _parts(lines: Sequence[str]) -> Iterator[Tuple[int, List[str]]]:
    """The lines from each that names a vehicle, a stray line or a failure mode up to the next, with the number of the first one."""
    begins = [place for place, line in enumerate(lines) if line.startswith(BEGINS)]
    for begin, end in zip(begins, [*begins[1:], len(lines)]):
        yield begin + 1, list(lines[begin:end])


def _take_head(answers: FleetAnswers, at: int, part: List[str]) -> None:
    """Takes a vehicle with the first line of its report."""
    name = part[0].partition(" ")[2]
    if not is_name(name) or name in answers.vehicles or len(part) != 2:
        raise BadText(at, "BadFleet")
    answers.vehicles[name] = Vehicle(name, report=[part[1]])


def _take_answer(answers: FleetAnswers, at: int, part: List[str], number: int, stream: Sequence[str]) -> None:
    """Takes the answer to the line of the stream of this number."""
    if number > len(stream):
        raise BadText(at, f"the fleet has more answers than the stream has lines, {len(stream):,}: it is of another stream")
    kind, _, said = part[0].partition(" ")
    name, space, own = stream[number - 1].partition(" ")
    belongs = bool(space) and name in answers.vehicles and len(stream[number - 1]) <= LONGEST_LINE
    if (kind, said) != (("vehicle", name) if belongs else ("stray", str(number))):
        raise BadText(at, f"this is not the answer to line {number} of the stream: the fleet is of another stream")
    if not belongs:
        answers.stray.append(number)
        return
    vehicle = answers.vehicles[name]
    vehicle.lines.append(own)
    vehicle.numbers.append(number)
    vehicle.report += part[1:]

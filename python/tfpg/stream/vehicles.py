"""The vehicles of a part: each has a session while its lines come, and rests between."""

from __future__ import annotations

import json
from collections import OrderedDict
from dataclasses import dataclass, field
from typing import Any, Dict, List, NamedTuple, Optional, Tuple

from ..calls.answers import Answered, Refused, Round
from ..calls.graph import Graph
from ..calls.kept_lines import KeptLines
from ..calls.session import Session
from ..calls.texts import line_bytes
from .entries import FIRST, Entry, Id, Place, id_of, id_text
from .faults import StreamFault
from .terms import StreamTerms

Told = Optional[Tuple[List[int], bool]]  # the hypotheses of a ranking in its order, and whether some are open
Fields = Dict[str, Any]


class Mark(NamedTuple):
    """Where a vehicle rests: the id of the last entry before that, the lines that say all of its log, what was told of it last, and whether
    no session can take what it says further."""

    id: Id
    lines: List[bytes]
    told: Told
    is_over: bool

    def text(self) -> bytes:
        """The mark as it is stored."""
        lines = [line.decode("ascii") for line in self.lines]
        said = {"id": id_text(self.id), "lines": lines, "told": self.told, "over": self.is_over}
        return json.dumps(said, separators=(",", ":")).encode("ascii")


MODES_FULL = "ModesFull"
NO_MARK = Mark(FIRST, [], None, False)


def mark_of(text: bytes) -> Mark:
    """A mark, of what is stored."""
    said = json.loads(text)
    told = said["told"]
    return Mark(id_of(said["id"].encode("ascii")), [line.encode("ascii") for line in said["lines"]],
                None if told is None else (told[0], told[1]), said["over"])


class Said(NamedTuple):
    """What a line brings to the streams of a part, under the id of its entry. A stream gets nothing where there are no fields."""

    id: Id
    change: Optional[Fields]
    block: Optional[Fields]


@dataclass
class Vehicle:
    """A vehicle whose lines come: its session, what was told of it last, and the place of the part before the first of its entries that its
    mark does not have. It is new until its session has taken the first of them, and over once more changes of the mode matter than a
    session takes: it would judge what comes after by a mode that is over."""

    session: Session
    told: Told
    begins: Place
    text: str = ""  # of its report, as far as it was not written
    events: int = 0  # of its session
    kept: KeptLines = field(default_factory=KeptLines)  # that say all that they say
    is_new: bool = True
    is_over: bool = False

    def accept(self, line: bytes) -> None:
        """Notes a line that the session has accepted."""
        self.events += 1
        self.kept.keep(self.events, line)


class Vehicles:
    """The vehicles of a part by their names. What comes of an entry depends on the entries up to it alone, and on the terms."""

    def __init__(self, graph: Graph, terms: StreamTerms, marks: Dict[bytes, Mark], blocks: bool = False) -> None:
        self.graph, self.terms, self.blocks = graph, terms, blocks
        self.resting = marks
        self.awake: "OrderedDict[bytes, Vehicle]" = OrderedDict()  # the one whose mark is the oldest first
        self.laid: Dict[bytes, Mark] = {}  # marks that were made since they were last asked for

    def take(self, entry: Entry, before: Place) -> Optional[Said]:
        """Takes an entry, with the place of the part before it. There is nothing to say of one that a mark has."""
        name, line = entry.fields.get(b"vehicle"), entry.fields.get(b"line")
        if name is None or line is None:
            return Said(entry.id, {"stray": "there is no field " + ("vehicle" if name is None else "line")}, None)
        vehicle = self.awake.get(name)
        if vehicle is None:
            mark = self.resting.get(name, NO_MARK)
            if entry.id <= mark.id:
                return None
            vehicle = self.awake[name] = self._woken(mark, before)
            self.resting.pop(name, None)
        said = self._said(entry.id, name, line_bytes(line), before)
        self._rest(Place(entry.id, before.entries + 1), name)
        return said

    def base(self, at: Place) -> Place:
        """The place from which a restart reads, of a part that has been read up to a place: all that is before it is in marks."""
        oldest = next(iter(self.awake.values()), None)
        return at if oldest is None else oldest.begins

    def new_marks(self) -> Dict[bytes, bytes]:
        """The marks that were made since this was last asked, as they are stored."""
        laid, self.laid = self.laid, {}
        return {name: mark.text() for name, mark in laid.items()}

    def close(self) -> None:
        """Closes all sessions."""
        for vehicle in self.awake.values():
            vehicle.session.close()
        self.awake.clear()

    def _said(self, one: Id, name: bytes, line: bytes, before: Place) -> Said:
        """What a line of a vehicle that is awake brings."""
        vehicle = self.awake[name]
        if vehicle.is_over:
            return Said(one, {"vehicle": name, "refused": MODES_FULL}, None)
        answer = vehicle.session._line(line)
        if has_full_modes(answer) and len(vehicle.kept) < vehicle.events:
            self._lay(before, name)
            vehicle = self.awake[name] = self._woken(self.resting.pop(name), before)
            answer = vehicle.session._line(line)
        vehicle.is_over = has_full_modes(answer)
        said = Said(one, self._change(name, vehicle, answer), self._block(name, vehicle))
        if isinstance(answer, Round):
            vehicle.accept(line)
        return said

    def _woken(self, mark: Mark, before: Place) -> Vehicle:
        """A vehicle with a new session, which takes the lines of its mark."""
        terms = self.terms
        session = Session(self.graph, terms.k, terms.doubt, terms.budget, terms.origin)
        vehicle = Vehicle(session, mark.told, before, session.head if self.blocks else "", is_over=mark.is_over)
        for line in mark.lines:
            if isinstance(session._line(line), Refused):
                raise StreamFault(f"a line that was accepted is refused by a new session: {line!r}")
            vehicle.accept(line)
            vehicle.text += session.block if self.blocks else ""
        return vehicle

    def _rest(self, at: Place, name: bytes) -> None:
        """Lays the vehicle to rest if its session is full, and the one with the oldest mark if that is too long ago."""
        if self.awake[name].events >= self.terms.events:
            self._lay(at, name)
        oldest = next(iter(self.awake), None)
        if oldest is not None and at.entries - self.awake[oldest].begins.entries >= self.terms.span:
            self._lay(at, oldest)

    def _lay(self, at: Place, name: bytes) -> None:
        """Closes the session of a vehicle, and keeps a mark in its place."""
        vehicle = self.awake.pop(name)
        vehicle.session.close()
        self.resting[name] = self.laid[name] = Mark(at.id, vehicle.kept.lines(), vehicle.told, vehicle.is_over)

    def _block(self, name: bytes, vehicle: Vehicle) -> Optional[Fields]:
        if not self.blocks:
            return None
        text, vehicle.text = vehicle.text + vehicle.session.block, ""
        return {"vehicle": name, "block": text}

    def _change(self, name: bytes, vehicle: Vehicle, answer: Answered) -> Optional[Fields]:
        """What a line changes for its vehicle, if it changes what is ranked, in which order, or whether anything is open."""
        if isinstance(answer, Refused):
            return {"vehicle": name, "refused": answer.cause}
        is_open = answer.open > 0
        if vehicle.told is not None and not (vehicle.is_new or answer.changed or vehicle.told[1] != is_open):
            return None
        vehicle.is_new = False
        told = [one.hypothesis for one in answer.ranked], is_open
        if vehicle.told == told:
            return None
        vehicle.told = told
        return {"vehicle": name, "ranking": ranking_text(answer)}


def has_full_modes(answer: Answered) -> bool:
    """Whether a line was refused since a session takes no more changes of the mode."""
    return isinstance(answer, Refused) and answer.cause == MODES_FULL


def ranking_text(answer: Round) -> str:
    """What a round ranks, as JSON with the keys of a round of the program but for its numbers."""
    ranked = [{"alarmed": one.alarmed, "cost": one.cost, "monitored": one.monitored,
               "set": [*one.failures, *("!" + name for name in one.doubts)]} for one in answer.ranked]
    counts = {"covered": answer.covered, "open": answer.open, "ranked": len(ranked), "rejected": answer.rejected}
    return json.dumps({"counts": counts, "now": answer.now, "ranked": ranked}, separators=(",", ":"))

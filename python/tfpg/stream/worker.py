"""A worker of one part: it takes lines, feeds sessions, writes what changed under the id of the line that changed it, and acknowledges.

When it starts it feeds again what its part has, from the marks of the vehicles on. It writes then only what comes of entries that were
taken and not acknowledged. What is there already Redis refuses, since the ids of a stream rise."""

from __future__ import annotations

import json
from typing import Any, Callable, Dict, Iterable, List, Optional, Tuple

from ..calls.graph import Graph
from .entries import FIRST, Entry, Id, Lines, Place, id_of, id_text
from .faults import NoStore, OtherChange, OtherTerms
from .parts import Part
from .terms import StreamTerms
from .vehicles import Fields, Said, Vehicles, mark_of

BATCH = 500  # entries that are taken at once
IDLE = 1000  # milliseconds of a wait for the next line
START = Place(FIRST, 0)
NOT_ABOVE = "equal or smaller"  # of an id, in the words of Redis


class Worker:
    """The worker of a part. The client is one of the module redis, for the machine that has the part."""

    def __init__(self, client: Any, part: Part, graph: Graph, terms: StreamTerms, blocks: bool = False, trim: bool = False) -> None:
        self.client, self.part, self.graph, self.terms, self.blocks, self.trims = client, part, graph, terms, blocks, trim
        self.lines = Lines(client, part, START)
        self.vehicles = Vehicles(graph, terms, {}, blocks)

    def begin(self, is_stopped: Callable[[], bool] = lambda: False) -> int:
        """Comes to where the part stands, unless it is stopped before, and returns how many entries it has fed again for that."""
        self.hold_terms()
        self.lines.make_group()
        self.vehicles.close()
        base = self.base()
        marks = {name: mark_of(text) for name, text in self.client.hgetall(self.part.marks).items()}
        self.lines, self.vehicles = Lines(self.client, self.part, base), Vehicles(self.graph, self.terms, marks, self.blocks)
        end, waiting = self.lines.taken()
        self.lines.acknowledge(one for one in waiting if one <= base.id)  # a mark has what came of them
        while not is_stopped():
            before, entries = self.lines.at, self.lines.again(end)
            if not entries:
                break
            said = [one for one in self.feed(entries, before) if one.id in waiting]
            self.finish(said, [one.id for one in entries if one.id in waiting])
        return self.lines.at.entries - base.entries

    def turn(self, idle: int = IDLE) -> int:
        """Takes the next lines, and does all that they ask for. Returns how many there were. If there is none it waits so many
        milliseconds for one."""
        before, entries = self.lines.at, self.lines.take(BATCH)
        if entries:
            self.finish(self.feed(entries, before), [one.id for one in entries])
        elif idle:
            self.lines.wait(idle)
        return len(entries)

    def feed(self, entries: List[Entry], before: Place) -> List[Said]:
        """Feeds entries to the sessions of their vehicles, and returns what is to be written."""
        said = []
        for entry in entries:
            one = self.vehicles.take(entry, before)
            before = Place(entry.id, before.entries + 1)
            if one is not None and (one.change or one.block):
                said.append(one)
        return said

    def finish(self, said: List[Said], done: Iterable[Id]) -> None:
        """Writes what is said, then the marks, and then acknowledges. After each step all before it is stored."""
        self.write(said)
        self.keep()
        self.lines.acknowledge(done)

    def write(self, said: List[Said]) -> None:
        """Writes each change and each block under the id of its line. What is there already has to be the same."""
        asked = [(self.part.blocks, one.id, one.block) for one in said if one.block]
        asked += [(self.part.changes, one.id, one.change) for one in said if one.change]
        if not asked:
            return
        with self.client.pipeline(transaction=False) as writes:
            for key, one, fields in asked:
                writes.xadd(key, fields, id=id_text(one))
            answers = writes.execute(raise_on_error=False)
        for (key, one, fields), answer in zip(asked, answers):
            if isinstance(answer, Exception):
                self.hold_written(key, one, fields, answer)

    def hold_written(self, key: str, one: Id, fields: Fields, fault: Exception) -> None:
        """Returns if a write was refused since the same stands there already, or stood there before its reader trimmed the stream."""
        if NOT_ABOVE not in str(fault):
            raise NoStore(f"Redis did not take the change {id_text(one)} of {key}: {fault}") from None
        found: List[Tuple[bytes, Dict[bytes, bytes]]] = self.client.xrange(key, id_text(one), id_text(one))
        wanted = {name.encode(): value if isinstance(value, bytes) else value.encode() for name, value in fields.items()}
        if found and found[0][1] != wanted:
            raise OtherChange(f"{key} has under {id_text(one)} something else than what this line changes: {found[0][1]!r}")
        first = self.client.xrange(key, count=1)
        if not found and first and id_of(first[0][0]) < one:
            raise OtherChange(f"{key} has nothing under {id_text(one)}, where this line changes something, and goes on after it")

    def keep(self) -> None:
        """Stores the marks that were made, and the place from which a restart reads, and then trims the lines if that is wanted."""
        marks = self.vehicles.new_marks()
        if not marks:
            return
        base = self.vehicles.base(self.lines.at)
        with self.client.pipeline(transaction=True) as writes:
            writes.hset(self.part.marks, mapping=marks)
            writes.hset(self.part.state, "base", json.dumps([id_text(base.id), base.entries]))
            writes.execute()
        if self.trims:
            self.client.xtrim(self.part.lines, minid=id_text((base.id[0], base.id[1] + 1)), approximate=True)

    def hold_terms(self) -> None:
        """Stores the terms of the part, or holds these against those that are stored."""
        terms = self.terms.text(self.graph)
        self.client.hsetnx(self.part.state, "terms", terms)
        stored = self.client.hget(self.part.state, "terms").decode("utf-8", "replace")
        if stored != terms:
            raise OtherTerms(f"{self.part.lines} was begun on other terms: {differences(json.loads(stored), json.loads(terms))}")

    def base(self) -> Place:
        """The place from which a restart reads."""
        stored: Optional[bytes] = self.client.hget(self.part.state, "base")
        if stored is None:
            return START
        one, count = json.loads(stored)
        return Place(id_of(one.encode("ascii")), count)


def differences(stored: Dict[str, Any], given: Dict[str, Any]) -> str:
    """In which terms two differ."""
    names = [name for name in sorted({*stored, *given}) if stored.get(name) != given.get(name)]
    return "; ".join(f"{name} was {stored.get(name)}, and is {given.get(name)}" for name in names)

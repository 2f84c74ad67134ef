"""What the last line of a session brought, by the numbers of the library and without any text."""

from __future__ import annotations

import ctypes
from typing import List, Optional, Tuple, Union

from ..faults import Error, SessionClosed
from ..limits import LONGEST_NAME
from ..reading.texts import bytes_in
from .answers import Names, Ranked, Round, Why
from .layouts import LOG_CAUSES, Answer, Handle, NameKind, RankedNumbers, ResultNumbers, Status, numbers_in
from .library import Library

unpack_result = numbers_in(ResultNumbers).unpack_from
unpack_ranked = numbers_in(RankedNumbers).unpack_from
RANKED_SIZE = ctypes.sizeof(RankedNumbers)


class Numbers:
    """Reads the numbers of an open session. The rooms for them are made once, and of what is ranked as before nothing is made again."""

    def __init__(self, calls: Library, handle: Handle, origin: int) -> None:
        self.calls, self.session, self.origin = calls, ctypes.byref(handle), origin
        self.result_of, self.ranked_at = calls.result_of, calls.ranked_at
        self.names = Names(self.names_of(NameKind.NODE_NAME), self.names_of(NameKind.FAILURE_NAME), origin)
        self.result, self.room = ResultNumbers(), ctypes.create_string_buffer(RANKED_SIZE + 8 * len(self.names.nodes))
        self.result_room = ctypes.byref(self.result)
        self.rooms = ctypes.byref(self.room), ctypes.byref(self.room, RANKED_SIZE), ctypes.c_size_t(len(self.names.nodes))
        self.known: Tuple[List[bytes], Tuple[Ranked, ...]] = ([], ())

    def names_of(self, kind: NameKind) -> Tuple[str, ...]:
        """All names of a kind, by their numbers."""
        room, names = ctypes.create_string_buffer(LONGEST_NAME), []
        answer = self.calls.name(self.session, kind, 0, room, LONGEST_NAME)
        while answer.status == Status.DONE:
            names.append(ctypes.string_at(room, answer.count).decode("ascii"))
            answer = self.calls.name(self.session, kind, len(names), room, LONGEST_NAME)
        return tuple(names)

    def index_of(self, kind: NameKind, name: str) -> Optional[int]:
        """The number of what has this name, or nothing if nothing has it."""
        index, text = ctypes.c_uint32(), bytes_in(name)
        answer = self.calls.index(self.session, kind, text, len(text), ctypes.byref(index))
        return index.value if answer.status == Status.DONE else None

    def brought(self) -> Union[Round, Why]:
        """What the last line brought. Before the first line that is a round of line 0."""
        answer = self.result_of(self.session, self.result_room)
        if answer.status:
            raise unread(answer)
        refusal, changed, line, last, number, now, ranked, covered, rejected, left = unpack_result(self.result)
        if refusal:
            cause = LOG_CAUSES[refusal]
            return Why(line, cause, last + self.origin if cause == "TimeBack" else None)
        numbers = number, line, now + self.origin, changed == 1, self.ranked(ranked), covered, rejected, left
        return tuple.__new__(Round, numbers)  # in half the time of Round(..)

    def ranked(self, count: int) -> Tuple[Ranked, ...]:
        """The ranking of the last round."""
        ranked_at, session, room, rooms = self.ranked_at, self.session, self.room, self.rooms
        contents = []
        for rank in range(count):
            answer = ranked_at(session, rank, *rooms)
            if answer.status:
                raise unread(answer)
            contents.append(room.raw)
        known_contents, ranking = self.known
        if contents != known_contents:
            known = dict(zip(known_contents, ranking))
            ranking = tuple(known.get(content) or self.one(content) for content in contents)
            self.known = contents, ranking
        return ranking

    def one(self, content: bytes) -> Ranked:
        """A ranked hypothesis of its numbers and times."""
        failures, *masks, cost, hypothesis, alarmed, monitored, _ = unpack_ranked(content)
        doubts = sum(mask << 64 * place for place, mask in enumerate(masks))
        return Ranked(hypothesis, named(failures, self.names.failures), named(doubts, self.names.nodes), cost, alarmed, monitored,
                      content[RANKED_SIZE:], self.names)


def unread(answer: Answer) -> Error:
    """Why the numbers of a session are not read."""
    return SessionClosed("the session is closed") if answer.status == Status.ENDED else Error(f"the library answers {answer.status}")


def named(mask: int, names: Tuple[str, ...]) -> Tuple[str, ...]:
    """The names whose bits are set."""
    found = []
    while mask:
        bit = mask & -mask
        found.append(names[bit.bit_length() - 1])
        mask ^= bit
    return tuple(found)

"""A session: a diagnosis that takes the lines of a log one by one."""

from __future__ import annotations

import ctypes
import os
import weakref
from ctypes import c_uint32
from operator import index as whole
from typing import Dict, Optional, SupportsIndex, Tuple, Union

from ..faults import SessionClosed
from ..reading.texts import bytes_in
from .answers import Answered, Refused, Round
from .endings import About, Terms, fault_of
from .graph import Graph
from .layouts import Answer, EventKind, Handle, NameKind, Status
from .library import Library, library
from .numbers import Numbers
from .rooms import text_written
from .taking import Kind, Taking, event_text
from .texts import counted, line_text, shifted
from .turns import Turns

MOST_OF_C = 2**64 - 1
ROOM_OF_BLOCK = 4096  # of the first try
KINDS = {"alarm": (EventKind.ALARM, NameKind.NODE_NAME), "silent": (EventKind.SILENT, NameKind.NODE_NAME),
         "mode": (EventKind.MODE, NameKind.MODE_NAME)}
Said = Union[bytes, Tuple[int, str, str]]  # a line, or an event


class Session(Taking):
    """A diagnosis of a graph that takes one line of a log after the other, on terms as `diagnose` has them.

    Each line has an answer: a `Round`, or a `Refused` if the log refuses it, which changes nothing.

    graph: what is diagnosed.
    k: how many members a hypothesis may have, failure modes and monitors that it doubts: 0 to 64.
    doubt: how many of these may be monitors: 0 to 4.
    budget: how many splits a hypothesis may have at a line: 1 to 10^12.
    origin: milliseconds that are subtracted from the time of each line, and added to the times of the answer.
    strict: a refused line raises LineRefused, or LogFull once the log takes no more.

    OutOfRange, BadGraph, TooManyHypotheses and NoMemory say why a session is not opened, and NoLibrary that there is no library.

    Threads may share a session: a line and its answer go together. What an interrupt ends, as Ctrl-C, is either taken or not, and `count`
    and `last` say which. A signal handler that comes between a call gets SessionBusy, and a fork of the process OtherProcess. The memory is
    given back at the end of `with`, by `close`, or with the object.

    >>> graph = tfpg.Graph.load("examples/pump.tfpg")
    >>> with tfpg.Session(graph, k=1) as session:
    ...     answer = session.line("2715000 alarm LowFlow")
    >>> [(ranked.set, ranked.cost) for ranked in answer.ranked]
    [('FilterClogged', 2), ('ValveStuck', 3), ('MotorBearing', 4)]
    """

    def __init__(self, graph: Graph, k: SupportsIndex = 2, doubt: SupportsIndex = 0, budget: SupportsIndex = 1000,
                 origin: SupportsIndex = 0, strict: bool = False) -> None:
        self.graph, self.origin, self.strict = graph, whole(origin), strict
        self._about, self._calls, self._handle, self._turns = About(graph, Terms.of(k, doubt, budget)), library(), Handle(), Turns()
        self._session, self._time, self._count = ctypes.byref(self._handle), ctypes.c_uint64(), ctypes.c_size_t()
        self._end = weakref.finalize(self, close, self._calls, self._handle, self._turns.process)
        self._end.atexit = False
        self._done(self._calls.open(self._session, *counted(graph.text), *self._about.terms.numbers()))
        self._head, self._numbers = self._text(), Numbers(self._calls, self._handle, self.origin)
        self._given: Optional[Said] = None  # the line that is being taken, until its answer stands in `_last`
        self._last: Optional[Answered] = None
        self._events: Dict[Tuple[str, str], Tuple[c_uint32, c_uint32]] = {
            ("sweep", ""): (c_uint32(EventKind.SWEEP), c_uint32()), ("tick", ""): (c_uint32(EventKind.TICK), c_uint32())}

    def close(self) -> None:
        """Closes the session, and gives its memory back. A closed one stays closed. In a fork of the process that opened it this does
        nothing. SessionBusy, if it is called in a signal handler while a call of the session goes on below.

        >>> session = tfpg.Session(tfpg.Graph.load("examples/pump.tfpg"))
        >>> session.close()
        >>> session.line("600000 tick")
        Traceback (most recent call last):
        tfpg.faults.SessionClosed: the session is closed
        """
        if os.getpid() == self._turns.process:
            self._turns.take(self._close)

    @property
    def head(self) -> str:
        """The first line of the session's report, with its line end."""
        return self._head

    @property
    def block(self) -> str:
        """What the report says of the last line, and before any line its first line. Times in it are less the origin, in milliseconds. The
        errors are those of `line`.

        >>> with tfpg.Session(tfpg.Graph.load("examples/pump.tfpg")) as session:
        ...     answer = session.line("600000 tock")
        ...     session.block
        'refused 1 BadLine\\n'
        """
        return self._turns.take(self._text)

    @property
    def last(self) -> Optional[Answered]:
        """The answer of the last line that was taken, or None before the first. It is there also if an interrupt came before the call that
        took the line could return it, and once the session is closed.

        >>> with tfpg.Session(tfpg.Graph.load("examples/pump.tfpg")) as session:
        ...     answers = list(session.rounds(["600000 tick", "600001 tick"]))
        >>> session.last == answers[-1], session.count
        (True, 2)
        """
        return self._turns.take(self._settled)

    @property
    def count(self) -> int:
        """How many lines were taken, refused ones too. After an interrupt it says whether the line that was given was taken.

        >>> with tfpg.Session(tfpg.Graph.load("examples/pump.tfpg")) as session:
        ...     session.count
        0
        """
        last = self.last
        return last.line if last is not None else 0

    def event(self, time: SupportsIndex, kind: Kind, name: str = "") -> Answered:
        """Takes an event, as if it were the line `TIME KIND NAME`, or `TIME KIND` without a name, and returns its answer.

        `time` is in milliseconds, `kind` as the log has it, and `name` that of a node for an alarm or a silence, and that of a mode for a
        change of the mode. It takes half the time of a line, since no text is made. TypeError, if the time is no whole number, or the
        others are no str; the other errors are those of `line`.

        >>> with tfpg.Session(tfpg.Graph.load("examples/pump.tfpg"), origin=1764468000000) as session:
        ...     session.event(1764470715000, "alarm", "LowFlow").now
        1764470715000
        """
        at = whole(time)
        since, event = at - self.origin, self._events.get((kind, name)) or self._found(kind, name)
        if event is None or not 0 <= since <= MOST_OF_C:
            return self._line(bytes_in(event_text(at, kind, name)))
        return self._turns.take(self._take_event, since, event, (at, kind, name))

    def _line(self, content: bytes) -> Answered:
        """Takes these bytes as a line."""
        return self._turns.take(self._take_line, shifted(content, self.origin), content)

    def _take_line(self, given: bytes, content: bytes) -> Answered:
        """Has the session take a line."""
        self._begin(content)
        self._count.value = len(given)
        return self._brought(self._calls.line(self._session, given, self._count))

    def _take_event(self, since: int, event: Tuple[c_uint32, c_uint32], said: Tuple[int, str, str]) -> Answered:
        """Has the session take an event."""
        self._begin(said)
        self._time.value = since
        return self._brought(self._calls.event(self._session, self._time, *event))

    def _begin(self, said: Said) -> None:
        """Notes what is taken now. If an interrupt left the one before without an answer, it has it first."""
        if self._given is not None:
            self._settled()
        self._given = said

    def _brought(self, answer: Answer) -> Answered:
        """The answer of the line that was taken."""
        if answer.status:
            self._given = None
            self._done(answer)
        last = self._settled()
        assert last is not None
        if self.strict and isinstance(last, Refused):
            raise last.fault()
        return last

    def _settled(self) -> Optional[Answered]:
        """The answer of the last line that was taken. It is read here, also where an interrupt came before that."""
        given = self._given
        if given is not None:
            if self._handle.is_open:
                self._read(given)
            self._given = None
        return self._last

    def _read(self, given: Said) -> None:
        """Reads what the last line brought. The library's number of that line says whether it is the given one."""
        found = self._numbers.brought()
        if found.line != (self._last.line if self._last is not None else 0):
            self._last = found if isinstance(found, Round) else self._refused(found.line, found.cause, found.last, given)

    def _refused(self, line: int, cause: str, last: Optional[int], given: Said) -> Refused:
        """Why a line was refused."""
        text = line_text(given) if isinstance(given, bytes) else event_text(*given)
        return Refused(line, cause, text, last, self.graph.declared, self.origin)

    def _need_open(self) -> None:
        """Raises SessionClosed if the session is closed."""
        if not self._handle.is_open:
            raise SessionClosed("the session is closed")

    def _done(self, answer: Answer) -> None:
        if answer.status != Status.DONE:
            raise fault_of(answer, self._about)

    def _close(self) -> None:
        """Closes the session, which may be closed already."""
        self._settled()
        self._calls.close(self._session)
        self._end.detach()

    def _found(self, kind: str, name: str) -> Optional[Tuple[c_uint32, c_uint32]]:
        """The numbers of an event. There are none for one that only a line can say, and that the log then refuses."""
        if kind not in KINDS or not isinstance(name, str):
            return None
        event, names = KINDS[kind]
        found = self._turns.take(self._numbers.index_of, names, name)
        if found is None:
            return None
        self._events[kind, name] = c_uint32(event), c_uint32(found)
        return self._events[kind, name]

    def _text(self) -> str:
        """The text of the session."""
        return text_written(self._calls.block, (self._session,), self._about, ROOM_OF_BLOCK)


def close(calls: Library, handle: Handle, process: int) -> None:
    """Gives the memory of a session back, but in no fork of the process that opened it, where the header allows no call."""
    if os.getpid() == process:
        calls.close(ctypes.byref(handle))

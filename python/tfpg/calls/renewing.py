"""A session whose log does not get full: it is opened anew, and is first given the lines that still matter."""

from __future__ import annotations

import os
from operator import index as whole
from typing import List, NamedTuple, Optional, SupportsIndex, Tuple

from ..faults import LogFull
from ..limits import MOST_CHANGES
from ..reading.texts import bytes_in
from .answers import Answered, Refused, Round
from .graph import Graph
from .kept_lines import KeptLines
from .session import Session
from .taking import Kind, Taking, event_text
from .turns import Turns


class State(NamedTuple):
    """What changes at a line, all at once: the session, how many of its lines are noted, and of its events; how many lines were taken in
    all, and the answer of the last of them; how often the session was renewed."""

    session: Session
    noted: int
    accepted: int
    taken: int = 0
    last: Optional[Answered] = None
    renewals: int = 0


class RenewingSession(Taking):
    """A session for a log of any length, which takes lines and events as a `Session` does.

    Where the log is full, or has as many `events`, a new session takes its place, and is first given the lines that still matter: at most
    3,074, which say all that the lines so far said (docs/c.md, "A full log"). The answers have the numbers of lines and rounds in that
    session. If more than 1,024 changes of the mode matter, no session can take them: this line and each after it raises LogFull.

    graph: what is diagnosed.
    k: how many members a hypothesis may have, failure modes and monitors that it doubts: 0 to 64.
    doubt: how many of these may be monitors: 0 to 4.
    budget: how many splits a hypothesis may have at a line: 1 to 10^12.
    origin: milliseconds that are subtracted from the time of each line, and added to the times of the answer.
    strict: a refused line raises LineRefused.
    events: how many events a session takes, 65,536 without it. If more lines matter than that, they are taken too.

    The errors are those of `Session`.

    >>> with tfpg.RenewingSession(tfpg.Graph.load("examples/pump.tfpg"), k=1, events=100) as session:
    ...     for time in range(0, 2715000, 5000):
    ...         answer = session.event(time, "tick")
    ...     answer = session.event(2715000, "alarm", "LowFlow")
    ...     session.count, session.renewals, answer.best.set, session.kept
    (544, 5, 'FilterClogged', (b'2715000 alarm LowFlow',))
    """

    def __init__(self, graph: Graph, k: SupportsIndex = 2, doubt: SupportsIndex = 0, budget: SupportsIndex = 1000,
                 origin: SupportsIndex = 0, strict: bool = False, events: Optional[SupportsIndex] = None) -> None:
        self.graph, self.origin, self.strict = graph, whole(origin), strict
        self._terms, self._events = (whole(k), whole(doubt), whole(budget)), None if events is None else whole(events)
        self._turns, self._kept = Turns(), KeptLines()
        self._given: Optional[bytes] = None  # the line that is being taken, until it is noted
        self._full: Optional[Refused] = None  # what no session can take
        self._state = State(self._opened([]), 0, 0)

    def close(self) -> None:
        """Closes the session as `Session.close`: no new one takes its place."""
        if os.getpid() == self._turns.process:
            self._turns.take(self._close)

    @property
    def head(self) -> str:
        """The first line of the present session's report, with its line end."""
        return self._state.session.head

    @property
    def block(self) -> str:
        """What the present session's report says of its last line."""
        return self._state.session.block

    @property
    def last(self) -> Optional[Answered]:
        """The answer of the last line that was taken, as `Session.last`."""
        return self._turns.take(self._settled).last

    @property
    def count(self) -> int:
        """How many lines were taken, in all sessions, each once."""
        return self._turns.take(self._settled).taken

    @property
    def renewals(self) -> int:
        """How often a new session has taken the place of the old one."""
        return self._state.renewals

    @property
    def kept(self) -> Tuple[bytes, ...]:
        """The lines that a new session would be given now, as they were given."""
        return self._turns.take(self._kept_now)

    def event(self, time: SupportsIndex, kind: Kind, name: str = "") -> Answered:
        """Takes an event as `Session.event` does, with `time` in milliseconds, `kind` and `name`, but as a line."""
        return self._line(bytes_in(event_text(time, kind, name)))

    def _line(self, content: bytes) -> Answered:
        return self._turns.take(self._take, content)

    def _take(self, content: bytes) -> Answered:
        """Takes a line, and where the log is full a new session does."""
        self._settled()
        self._state.session._need_open()
        if self._full is not None:
            raise fault_of_modes(self._full)
        self._given, state = content, self._state
        if self._events is not None and state.accepted >= self._events and len(self._kept) < state.accepted:
            self._renew()
        if is_full(self._state.session._line(content)):
            self._renew()
            answer = self._state.session._line(content)
            if isinstance(answer, Refused) and is_full(answer):
                self._full = answer
                raise fault_of_modes(answer)
        last = self._settled().last
        assert last is not None
        if self.strict and isinstance(last, Refused):
            raise last.fault()
        return last

    def _settled(self) -> State:
        """The state after the last line that was taken. It is noted here, also where an interrupt came before that."""
        given, state = self._given, self._state
        if given is not None:
            if state.session.count > state.noted:
                self._state = state = self._after(state, given)
            self._given = None
        return state

    def _after(self, state: State, given: bytes) -> State:
        """The state once the session has taken a line. One that finds the log full is not taken."""
        answer, noted = state.session.last, state.session.count
        if answer is None or is_full(answer):
            return state._replace(noted=noted)
        accepted = state.accepted
        if isinstance(answer, Round):
            self._kept.keep(state.taken + 1, given)
            accepted = answer.number
        return state._replace(noted=noted, accepted=accepted, taken=state.taken + 1, last=answer)

    def _renew(self) -> None:
        """Has a new session take the place of the old one, which is closed only then."""
        lines, state = self._kept.lines(), self._state
        session = self._opened(lines)
        self._state = state._replace(session=session, noted=len(lines), accepted=len(lines), renewals=state.renewals + 1)
        state.session.close()

    def _close(self) -> None:
        """Closes the present session, which may be closed already."""
        self._settled()
        self._state.session.close()

    def _opened(self, lines: List[bytes]) -> Session:
        """A session that has taken these lines."""
        session = Session(self.graph, *self._terms, origin=self.origin)
        for line in lines:
            session._line(line)
        return session

    def _kept_now(self) -> Tuple[bytes, ...]:
        self._settled()
        return tuple(self._kept.lines())


def is_full(answer: Answered) -> bool:
    """Whether a line is refused since the log is full."""
    return isinstance(answer, Refused) and answer.cause in ("LogFull", "ModesFull")


def fault_of_modes(refused: Refused) -> LogFull:
    """That no session can take what matters."""
    return LogFull(f"more than {MOST_CHANGES:,} changes of the mode matter, and no session takes them: docs/c.md says what to do", refused)

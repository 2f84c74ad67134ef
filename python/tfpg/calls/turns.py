"""Whose turn it is in a session: one call after the other, whatever interrupts them, and in the process that opened it alone."""

from __future__ import annotations

import os
import sys
import threading
from contextvars import Context, ContextVar
from operator import methodcaller
from typing import Any, Callable, TypeVar

from ..faults import OtherProcess, SessionBusy

INSIDE: ContextVar[object] = ContextVar("tfpg_inside", default=None)
MAY_STAY_HELD = sys.version_info < (3, 11)  # an interrupt may come there between the end of a `with` and what that calls
is_owned = methodcaller("_is_owned")
Said = TypeVar("Said")


class Turns:
    """Gives a session to one call at a time.

    Threads wait for each other. A call that comes between another one of its own thread, as a signal handler does, waits for nothing and
    has SessionBusy: the call below it goes on only after it. In a fork of the process that opened the session each call has OtherProcess,
    and waits for nothing either: who held the lock there may not be here.

    A turn is taken and given back by C code, the lock's and the context's, which no interrupt divides. So whatever an interrupt ends, the
    next call has its turn. That a turn is this thread's, its context says, which exactly what runs within the turn has."""

    def __init__(self) -> None:
        self.process = os.getpid()
        self._mark, self._lock, self._context = object(), threading.RLock(), Context()
        self._context.run(INSIDE.set, self._mark)

    def take(self, call: Callable[..., Said], *words: Any) -> Said:
        """What a call returns that has the session for itself."""
        if os.getpid() != self.process:
            raise OtherProcess(self.process, os.getpid())
        if INSIDE.get() is self._mark:
            raise SessionBusy("the session is in another call, below this one in the same thread: it is not called from a signal handler")
        if MAY_STAY_HELD:
            return self._take_carefully(call, *words)
        with self._lock:
            return self._context.run(call, *words)

    def _take_carefully(self, call: Callable[..., Said], *words: Any) -> Said:
        """The same, where `with` alone could leave the lock to this thread."""
        was_owned = is_owned(self._lock)
        try:
            with self._lock:
                return self._context.run(call, *words)
        except BaseException:
            if not was_owned and is_owned(self._lock):
                self._lock.release()
            raise

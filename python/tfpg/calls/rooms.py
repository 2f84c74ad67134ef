"""Texts that a call writes into a room, which is made large enough for them."""

from __future__ import annotations

import ctypes
from functools import partial
from typing import Any, Sequence

from .apart import apart
from .endings import About, fault_of
from .layouts import Answer, Status
from .library import Call

FIRST_ROOM = 1 << 16  # mostly suffices for a whole text


def text_written(call: Call, words: Sequence[Any], about: About, size: int = FIRST_ROOM) -> str:
    """The text that a call on these words writes into a room: first into one of this size, and then of the size that the answer says."""
    answer = Answer(Status.ROOM_TOO_SMALL, count=size)
    while answer.status == Status.ROOM_TOO_SMALL:
        size = answer.count
        room = ctypes.create_string_buffer(size)
        answer = call(*words, room, size)
    if answer.status != Status.DONE:
        raise fault_of(answer, about)
    return ctypes.string_at(room, answer.count).decode("ascii")


def text_written_apart(call: Call, words: Sequence[Any], about: About) -> str:
    """The same of a call that may take long: an interrupt does not wait for its end."""
    return text_written(partial(apart, call), words, about)

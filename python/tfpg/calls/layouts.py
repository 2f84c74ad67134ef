"""The numbers and layouts of `include/tfpg.h`. They stand here once, and a test compares them with the header."""

from __future__ import annotations

import ctypes
from ctypes import c_bool, c_uint32, c_uint64, c_void_p
from enum import IntEnum
from struct import Struct
from typing import Dict, Type

from ..reading import causes

HEADER_VERSION = 4  # of the header that has these layouts and numbers


class Status(IntEnum):
    """How a call ended."""

    DONE = 0
    NOT_ACCEPTED = 1
    OUT_OF_RANGE = 2
    BAD_GRAPH = 3
    TOO_MANY_HYPOTHESES = 4
    TOO_MUCH_INPUT = 7
    NO_MEMORY = 8
    ROOM_TOO_SMALL = 9
    ENDED = 10
    NO_SUCH = 11
    BAD_MAP = 12
    FULL_GRAPH = 13


# The names of causes by their numbers, which count from 1.
GRAPH_CAUSES = dict(enumerate(causes.GRAPH_CAUSES, 1))
REPORT_CAUSES = dict(enumerate(causes.REPORT_CAUSES, 1))
LOG_CAUSES = dict(enumerate(causes.LOG_CAUSES, 1))


class EventKind(IntEnum):
    """The kinds of event."""

    ALARM = 1
    SILENT = 2
    SWEEP = 3
    TICK = 4
    MODE = 5


class NameKind(IntEnum):
    """What has names: nodes by their numbers, failure modes by their positions, and modes."""

    NODE_NAME = 1
    FAILURE_NAME = 2
    MODE_NAME = 3


class Answer(ctypes.Structure):
    """`tfpg_answer`: what a call answers."""

    _fields_ = [("status", c_uint32), ("cause", c_uint32), ("line", c_uint64), ("count", c_uint64), ("count_high", c_uint64)]


class PredictionNumbers(ctypes.Structure):
    """`tfpg_prediction_terms`: the terms of a prediction."""

    _fields_ = [("k", c_uint32), ("doubt", c_uint32), ("budget", c_uint64), ("ahead", c_uint64)]


class Handle(ctypes.Structure):
    """`tfpg_session`: a session, which only the library reads and writes."""

    _fields_ = [("is_open", c_bool), ("held", c_void_p)]


class ResultNumbers(ctypes.Structure):
    """`tfpg_result`: what the last line brought."""

    _fields_ = [("refusal", c_uint32), ("changed", c_uint32), ("line", c_uint64), ("last", c_uint64), ("round", c_uint64),
                ("now", c_uint64), ("ranked", c_uint32), ("covered", c_uint32), ("rejected", c_uint32), ("open", c_uint32)]


class RankedNumbers(ctypes.Structure):
    """`tfpg_ranked`: a ranked hypothesis."""

    _fields_ = [("failures", c_uint64), ("doubts", c_uint64 * 8), ("cost", c_uint64), ("hypothesis", c_uint32), ("alarmed", c_uint32),
                ("monitored", c_uint32), ("active", c_uint32)]


CODES = {c_uint32: "I", c_uint64: "Q", c_uint64 * 8: "8Q"}
LAYOUTS: Dict[str, Type[ctypes.Structure]] = {
    "tfpg_answer": Answer, "tfpg_prediction_terms": PredictionNumbers, "tfpg_session": Handle, "tfpg_result": ResultNumbers,
    "tfpg_ranked": RankedNumbers}


def numbers_in(layout: Type[ctypes.Structure]) -> Struct:
    """The numbers of a layout that has no hole, as they are read all at once."""
    return Struct("=" + "".join(CODES[field[1]] for field in layout._fields_))

"""tfpg for test benches and crews: sessions and reports, what the program refuses, what a report says in words, and a picture of a
ranking.

This package is no part of the proved program. It calls the library, or runs the program, and judges nothing itself.
"""

from pathlib import Path

from .calls.answers import Answered, Ranked, Refused, Round
from .calls.asking import Question, Questions, ask
from .calls.explaining import Verdict, explain
from .calls.graph import Graph
from .calls.predicting import Forecast, Prediction, predict
from .calls.renewing import RenewingSession
from .calls.reporting import Accepted, Report, check, report
from .calls.rows import rows
from .calls.session import Session
from .calls.taking import Kind
from .faults import (BadGraph, BadRecord, Error, FullGraph, LineRefused, LogFull, NoLibrary, NoMemory, NoProgram, NotAccepted,
                     OtherProcess, OutOfRange, RefusedLines, SessionBusy, SessionClosed, TooManyHypotheses, TooMuchInput, UnknownNode)
from .reading.graphs import Edge, Node
from .recording.calling import records
from .recording.making import RecordedLog

__version__ = (Path(__file__).parent / "VERSION").read_text(encoding="ascii").strip()

__all__ = [
    "Accepted", "Answered", "BadGraph", "BadRecord", "Edge", "Error", "Forecast", "FullGraph", "Graph", "Kind", "LineRefused", "LogFull",
    "NoLibrary", "NoMemory", "NoProgram", "Node", "NotAccepted", "OtherProcess", "OutOfRange", "Prediction", "Question", "Questions",
    "Ranked", "RecordedLog", "Refused", "RefusedLines", "RenewingSession", "Report", "Round", "Session", "SessionBusy", "SessionClosed",
    "TooManyHypotheses", "TooMuchInput", "UnknownNode", "Verdict", "ask", "check", "explain", "predict", "records", "report", "rows",
]

"""Whole logs of many vehicles, spread over the processes of any executor. Each answer is the library's."""

from .faults import WorkersLost
from .results import RankedSet, Result
from .spreading import diagnose

__all__ = ["RankedSet", "Result", "WorkersLost", "diagnose"]

"""Why a fleet is not diagnosed to its end."""

from __future__ import annotations

from ..faults import Error


class WorkersLost(Error):
    """Processes that were to do the work are gone: a worker ended by itself, or the scheduler did."""

"""What is known of a vehicle once its log is diagnosed."""

from __future__ import annotations

from dataclasses import asdict, dataclass, field
from typing import Any, Dict, Optional, Tuple


@dataclass(frozen=True)
class RankedSet:
    """A set that the last round ranks, as reports spell it, with its cost, and how many of the monitored nodes in its reach have an alarm,
    of how many. Times, in milliseconds: that of the round that ranked it first, that of the round since which each round ranks it, and
    the earliest activation of its history, or None for a history without one."""

    set: str
    cost: int
    alarmed: int
    monitored: int
    first: int
    since: int
    began: Optional[int]


@dataclass(frozen=True)
class Result:
    """The diagnosis of a vehicle.

    `lines` are those of its log, of which `accepted` brought a round; `refused` says how many were refused, by cause, and `first_refused`
    the number of the first. `now` is the time of the last event, and `since` that of the round since which the same sets are ranked in the
    same order; both are None without a round. `ranked` are the sets of the last round, best first, and `covered`, `rejected` and `open`
    its other counts. `log` and `report` are the SHA-256 sums of the bytes of the log and of its report; `compressed` is the report itself
    as gzip makes it, if it was asked for. `checked` is the number of rounds that `check` accepted, if it was asked for. `fault` says why
    there is no diagnosis, or none that holds, and is empty otherwise."""

    vehicle: str
    lines: int = 0
    accepted: int = 0
    refused: Dict[str, int] = field(default_factory=dict)
    first_refused: Optional[int] = None
    now: Optional[int] = None
    since: Optional[int] = None
    ranked: Tuple[RankedSet, ...] = ()
    covered: int = 0
    rejected: int = 0
    open: int = 0
    log: str = ""
    report: str = ""
    compressed: bytes = field(default=b"", repr=False)
    checked: Optional[int] = None
    fault: str = ""

    @property
    def lost(self) -> int:
        """How many lines were refused."""
        return sum(self.refused.values())

    @property
    def is_unexplained(self) -> bool:
        """Whether no set explains the log, and none is open."""
        return self.accepted > 0 and not self.ranked and not self.open

    def to_dict(self) -> Dict[str, Any]:
        """The result without the report, as `json.dumps` takes it."""
        said = asdict(self)
        del said["compressed"]
        return said

"""All limits of docs/formats.md, and the numbers of options. A test holds them against that page and the header."""

from __future__ import annotations

from typing import Dict, NamedTuple

LONGEST_LINE, LONGEST_NAME = 4096, 32  # bytes
FILE_BYTES, INPUT_BYTES = 2**24, 2**32

MOST_NODES, MOST_FAILURES, MOST_EDGES, MOST_MODES, MOST_INCOMING = 512, 64, 2048, 64, 32
MOST_RARITY = 10**6
MOST_TIME = 10**12  # milliseconds, of a time, a lag or a delay
NEVER = MOST_TIME + 1  # the time of a node that never becomes active

MOST_EVENTS, MOST_CHANGES = 65536, 1024  # accepted lines of a log, and those that change the mode
MOST_SCRIPT_LINES = 8192
MOST_HYPOTHESES, MOST_HYPOTHESES_OF_FLEET = 4096, 8192
MOST_VEHICLES = 64


class Limits(NamedTuple):
    """The least and the greatest value of an option, and the value without it."""

    least: int
    greatest: int
    default: int


OPTIONS: Dict[str, Limits] = {
    "--k": Limits(0, 64, 2),
    "--doubt": Limits(0, 4, 0),
    "--budget": Limits(1, MOST_TIME, 1000),
    "--ahead": Limits(0, MOST_TIME, 1000),
    "--draw": Limits(0, MOST_TIME, 1),
    "--size": Limits(1, 100, 10),
}


def spoken(number: int) -> str:
    """A limit as a reader sees it."""
    powers = {10**12: "10^12", 2**24: "2^24", 2**32: "2^32"}
    return powers.get(number, f"{number:,}")

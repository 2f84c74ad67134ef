"""Times and durations in words. The start is the time of day of the time 0, in milliseconds, or 0 if there is none."""

from __future__ import annotations

import re
from typing import Optional

from ..limits import NEVER
from ..reading.graphs import Edge

SECOND = 1000
MINUTE = 60 * SECOND
HOUR = 60 * MINUTE
DAY = 24 * HOUR


def _clock(milliseconds: int) -> str:
    seconds, rest = divmod(milliseconds, SECOND)
    clock = f"{seconds // 3600}:{seconds // 60 % 60:02}:{seconds % 60:02}"
    return f"{clock}.{rest:03}" if rest else clock


def time_words(time: int, start: int = 0) -> str:
    """A time as hours, minutes and seconds: from 0, or of the day if there is a start."""
    if time >= NEVER:
        return "never"
    if time < 0:
        return "before 0"
    if not start:
        return _clock(time)
    days, rest = divmod(time + start, DAY)
    return _clock(rest) + (f" (day {days + 1})" if days else "")


def _seconds(milliseconds: int) -> str:
    return f"{milliseconds / SECOND:.3f}".rstrip("0").rstrip(".") + " s"


def duration_words(milliseconds: int) -> str:
    if milliseconds < SECOND:
        return f"{milliseconds} ms"
    if milliseconds < MINUTE:
        return _seconds(milliseconds)
    hours, rest = divmod(milliseconds, HOUR)
    minutes, seconds = divmod(rest, MINUTE)
    parts = [f"{hours} h" if hours else "", f"{minutes} min" if minutes else "", _seconds(seconds) if seconds else ""]
    return " ".join(part for part in parts if part)


def range_words(edge: Edge) -> str:
    """The delays of an edge."""
    least = duration_words(edge.least)
    if edge.greatest is None:
        return f"at least {least}"
    return least if edge.least == edge.greatest else f"{least} to {duration_words(edge.greatest)}"


def start_of(text: str) -> Optional[int]:
    """The milliseconds of a time of day such as 6:00 or 18:30:15, or nothing if it is none."""
    said = re.fullmatch(r"(\d{1,2}):(\d\d)(?::(\d\d))?", text.strip())
    if said is None or int(said[1]) > 23 or int(said[2]) > 59 or int(said[3] or 0) > 59:
        return None
    return int(said[1]) * HOUR + int(said[2]) * MINUTE + int(said[3] or 0) * SECOND

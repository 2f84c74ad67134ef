"""The times of records, exact in whole milliseconds. No float is made on the way."""

from __future__ import annotations

import re
from datetime import date, datetime, timedelta, timezone
from typing import NamedTuple, Optional, Tuple

LONGEST_TIME = 64  # characters
TOO_LATE = 10**14  # Unix milliseconds of the year 5138: a greater number counts microseconds, or seconds with a point that are none
UNIX_SECONDS = range(10**9, 4 * 10**9)  # of the years 2001 to 2096
DECIMAL = re.compile(r"(-?[0-9]+)(?:\.([0-9]+))?")
ISO = re.compile(r"([0-9]{4})-([0-9]{2})-([0-9]{2})[T ]([0-9]{2}):([0-9]{2})(?::([0-9]{2})(?:[.,]([0-9]+))?)?(Z|[+-][0-9]{2}:[0-9]{2})?")
DURATION = re.compile(r"([0-9]{1,15})(ms|s|min|h|d)")
UNITS = {"ms": 1, "s": 1000, "min": 60 * 1000, "h": 3600 * 1000, "d": 24 * 3600 * 1000}
EPOCH = date(1970, 1, 1).toordinal()
MILLISECONDS, SECONDS, WITH_ZONE, WITHOUT_ZONE = "milliseconds", "seconds", "ISO 8601 with a zone", "ISO 8601 without a zone"
SHAPES = ("A time is a whole number of milliseconds, seconds with a point and digits after it, or ISO 8601, such as "
          "2025-11-30T06:45:15.250Z.")


class Moment(NamedTuple):
    """A time in milliseconds, the form in which it was written, and whether digits below a millisecond were cut off."""

    time: int
    form: str
    is_cut: bool


def moment_of(text: str, in_seconds: bool = False) -> Moment:
    """What a text says of the time. A whole number counts milliseconds, or seconds if told so. ValueError says why a text is no time."""
    decimal = DECIMAL.fullmatch(text) if len(text) <= LONGEST_TIME else None
    if decimal is not None:
        return _credible(text, _counted(decimal[1], decimal[2], in_seconds))
    dated = ISO.fullmatch(text) if len(text) <= LONGEST_TIME else None
    if dated is None:
        raise ValueError(f"`{text[:LONGEST_TIME]}` is no time. {SHAPES}")
    return _dated(dated)


def _counted(whole: str, digits: Optional[str], in_seconds: bool) -> Moment:
    """A whole number, or one of seconds with digits after the point. A time within a millisecond is at that millisecond."""
    if digits is None:
        return Moment(int(whole) * 1000, SECONDS, False) if in_seconds else Moment(int(whole), MILLISECONDS, False)
    time, rest = divmod(int(whole + digits) * 1000, 10 ** len(digits))
    return Moment(time, SECONDS, rest != 0)


def _credible(text: str, said: Moment) -> Moment:
    """The same moment, if it is no number that counts something smaller than its form says."""
    if abs(said.time) < TOO_LATE:
        return said
    unit = "seconds, since it has a point," if "." in text else said.form
    raise ValueError(f"`{text}` counts {unit} and is after the year 5000. Unix time has 10 digits before the point in seconds, and in "
                     "milliseconds 13 digits without a point. Bring it to one of these.")


def _dated(said: "re.Match[str]") -> Moment:
    """A date and a time of day. Without a zone it is taken as UTC."""
    year, month, day, hour, minute, second = (int(said[place] or 0) for place in range(1, 7))
    sign, hours, minutes = _zone(said[8] or "Z")
    try:
        days = date(year, month, day).toordinal() - EPOCH
    except ValueError:
        raise ValueError(f"`{said[0]}` is a date that no calendar has.") from None
    if hour > 23 or minute > 59 or second > 59 or hours > 23 or minutes > 59:
        raise ValueError(f"`{said[0]}` is no time of day: hours go to 23, minutes and seconds to 59.")
    digits = said[7] or ""
    since_midnight = ((hour - sign * hours) * 60 + minute - sign * minutes) * 60 + second
    time = (days * 86400 + since_midnight) * 1000 + int((digits + "000")[:3])
    return Moment(time, WITH_ZONE if said[8] else WITHOUT_ZONE, digits[3:].strip("0") != "")


def _zone(text: str) -> Tuple[int, int, int]:
    """The sign, the hours and the minutes by which a zone is before UTC."""
    return (0, 0, 0) if text == "Z" else (-1 if text[0] == "-" else 1, int(text[1:3]), int(text[4:6]))


def duration_of(text: str) -> int:
    """The milliseconds of a duration such as 8h, 90min or 500ms, or ValueError."""
    said = DURATION.fullmatch(text)
    if said is None:
        raise ValueError(f"`{text}` is no duration: it is a whole number with ms, s, min, h or d after it, such as 8h")
    return int(said[1]) * UNITS[said[2]]


def date_words(time: int) -> str:
    """Unix milliseconds as a date, or nothing if they are outside the calendar of Python."""
    try:
        there = datetime(1970, 1, 1, tzinfo=timezone.utc) + timedelta(milliseconds=time)
    except OverflowError:
        return ""
    return there.isoformat(timespec="milliseconds").replace("+00:00", "Z")


class Clock:
    """The clock of a box: what is added to its times in milliseconds, and the form of its first time, which all others have too."""

    def __init__(self, offset: int = 0, in_seconds: bool = False) -> None:
        self.offset, self.in_seconds = offset, in_seconds
        self.form: Optional[str] = None
        self.is_like_unix_seconds = True

    def moment(self, text: str) -> Moment:
        """The time of a record with the offset, or ValueError if it is none or has another form than those before."""
        said = moment_of(text, self.in_seconds)
        if self.form is None:
            self.form = said.form
        if said.form != self.form:
            remedy = _mixed_remedy(said.form, self.form)
            raise ValueError(f"`{text}` is a time in {said.form}, and this box wrote {self.form} before. {remedy}")
        self.is_like_unix_seconds &= said.form == MILLISECONDS and said.time in UNIX_SECONDS
        return said._replace(time=said.time + self.offset)


def _mixed_remedy(one: str, other: str) -> str:
    if {one, other} == {MILLISECONDS, SECONDS}:
        return "If its whole numbers count seconds too, say --seconds."
    if {one, other} == {WITH_ZONE, WITHOUT_ZONE}:
        return "Write the zone at all times, or at none: then all are taken as UTC."
    return "The times of a box all have one form."

"""What is wrong with the form of a line, a name or a number."""

from __future__ import annotations

import re
from datetime import datetime, timezone
from typing import List, Sequence

from ..limits import LONGEST_NAME
from ..reading.texts import Word, shown, words_of

SPACES = {"\t": "a tab", "\xa0": "a space that does not break", "\r": "a carriage return"}


def quoted(text: str) -> str:
    return f"`{shown(text)}`"


def line_hints(line: str, lines: Sequence[str]) -> List[str]:
    """What is wrong with the form of a line, whatever it says."""
    return _end_hints(line, lines) + _space_hints(line) + _comment_hints(line)


def _end_hints(line: str, lines: Sequence[str]) -> List[str]:
    if not line.endswith("\r"):
        return []
    count = sum(one.endswith("\r") for one in lines)
    some = "This line ends" if count == 1 else f"{'All' if count == len(lines) else f'{count} of the'} {len(lines)} lines end"
    return [f"{some} with a carriage return before the line feed, as files of Windows do. "
            "It belongs to the last word. Take it away: `tr -d '\\r' < OLD > NEW`"]


def _space_hints(line: str) -> List[str]:
    hints, words = [], words_of(line.rstrip("\r"))
    if "\t" in line:
        hints.append("There is a tab in it. Words have one space between them.")
    if "\xc2\xa0" in line or "\xe2\x80" in line:
        hints.append("There is a space in it that is no plain one. Words have one plain space between them.")
    if line.strip(" \r") and words[0].text == "":
        hints.append("It begins with a space. The first word begins the line.")
    if line.strip(" \r") and words[-1].text == "":
        hints.append("There is a space at its end.")
    if any(word.text == "" for word in words[1:-1]):
        hints.append("There are two spaces in a row. Words have one space between them.")
    return hints


def _comment_hints(line: str) -> List[str]:
    if any(word.text.startswith(("#", "//")) for word in words_of(line)[1:]):
        return ["A comment at the end of a line is not possible: all words of the line count."]
    return []


def empty_word(line: str) -> Word:
    """The place of the first empty word, as a word of one byte."""
    return next((Word(" ", max(0, word.start - 1)) for word in words_of(line) if word.text == ""), Word(line, 0))


def name_hints(word: str) -> List[str]:
    """Why a word is no name."""
    plain = word.rstrip("\r")
    hints = ["A name has 1 to 32 bytes: a letter from A to Z or a to z, then letters, digits, `_`, `.` and `-`."]
    if plain == "":
        hints.append("Here it is empty: two commas in a row, or a comma at an end.")
    elif len(plain) > LONGEST_NAME:
        hints.append(f"This one has {len(plain)} bytes.")
    elif not re.match(r"[A-Za-z]", plain):
        hints.append(f"This one begins with {quoted(plain[0] if ord(plain[0]) < 128 else plain)}.")
    elif any(ord(one) > 127 for one in plain):
        hints.append("This one has a letter that is none from A to Z or a to z.")
    else:
        wrong = re.search(r"[^A-Za-z0-9_.-]", plain)
        hints += [f"This one has {SPACES.get(wrong[0], quoted(wrong[0]))} in it."] if wrong else []
    return hints


def number_hints(word: str, unit: str = "milliseconds") -> List[str]:
    """Why a word is no number."""
    plain = word.rstrip("\r")
    hints = [f"A number is `0`, or a digit from 1 to 9 and then digits: no sign, no point, no unit. It counts {unit}."
             if unit else "A number is `0`, or a digit from 1 to 9 and then digits: no sign, no point, no unit."]
    decimal = re.fullmatch(r"([0-9]+)[.,]([0-9]+)", plain)
    with_unit = re.fullmatch(r"([0-9.]+)(ms|s|sec|m|min|h)", plain)
    if decimal and unit == "milliseconds":
        hints.append(f"This one has decimals. If it counts seconds, write {_milliseconds(decimal[1], decimal[2])}.")
    elif decimal:
        hints.append("This one has decimals.")
    elif re.fullmatch(r"-[0-9]+", plain):
        hints.append("This one is below 0.")
    elif re.fullmatch(r"\+[0-9]+", plain):
        hints.append("This one has a plus sign.")
    elif re.fullmatch(r"0[0-9]+", plain):
        hints.append(f"This one has a 0 before it: write {plain.lstrip('0') or '0'}.")
    elif re.fullmatch(r"[0-9]+(?:[_,'][0-9]{3})+", plain):
        hints.append("This one has signs between its digits.")
    elif with_unit:
        hints.append(f"This one has the unit {quoted(with_unit[2])} after it.")
    elif re.fullmatch(r"[0-9.]+[eE][+-]?[0-9]+", plain):
        hints.append("This one has an exponent.")
    elif re.match(r"[0-9]+[-:T][0-9]", plain) and unit == "milliseconds":
        hints.append("This one is a date or a time of day. Count milliseconds from a start of your own.")
    elif plain == "inf":
        hints.append("Only the greatest delay of an edge may be `inf`.")
    return hints


def _milliseconds(whole: str, rest: str) -> int:
    return int(whole) * 1000 + int((rest + "000")[:3])


def size_hints(word: str) -> List[str]:
    """What a time above the largest one may be."""
    if not re.fullmatch(r"[1-9][0-9]{12}|[1-9][0-9]{15}|[1-9][0-9]{18}", word):
        return []
    seconds = int(word[:10])
    date = datetime.fromtimestamp(seconds, timezone.utc).strftime("%Y-%m-%d") if seconds < 4 * 10**9 else None
    unit = {13: "milliseconds", 16: "microseconds", 19: "nanoseconds"}[len(word)]
    if date is None:
        return []
    return [f"It has {len(word)} digits, as Unix time in {unit} has: it would be {date}. "
            "Take a start of your own, and count milliseconds from it."]


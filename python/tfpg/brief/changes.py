"""What changed in the ranking: at the last line of the log, or at each line at which it changed."""

from __future__ import annotations

from dataclasses import dataclass
from typing import Any, Dict, Iterator, List, Optional, Tuple

from ..reading.reports import Ranked, Refused, Round
from ..reading.sets import is_proper_part, set_words
from ..reading.subjects import Subject
from ..saying.speech import speech_of
from .paper import Paper
from .ranking import alarms_words, sets_words

Places = Dict[str, Tuple[int, Ranked]]


def put_changes(paper: Paper, subject: Subject) -> None:
    """What the last line of the log changed."""
    blocks = subject.report.blocks
    if not blocks:
        return
    paper.title(f"What changed at the last line, line {blocks[-1].line}")
    last, rounds = blocks[-1], subject.rounds
    if isinstance(last, Refused):
        paper.put("Nothing: it is refused.")
        return
    changes = _changes(subject, rounds[-2] if len(rounds) > 1 else None, last)
    for sentence in changes or ["Nothing: the same sets are ranked, in the same order."]:
        paper.put(sentence)


def _changes(subject: Subject, before: Optional[Round], now: Round) -> List[str]:
    said: List[str] = []
    if now.rejected:
        said.append(f"Rejected: {sets_words(list(now.rejected.values()))}.")
    if before is None:
        return [*said, "It is the first line that was accepted."]
    old, new = _places(before), _places(now)
    for text, (place, _) in new.items():
        if text not in old:
            said.append(f"{set_words(text)} is ranked now, at place {place}; before it was {_status(before, text)}.")
    for text in old:
        if text not in new and text not in now.rejected.values():
            said.append(f"{set_words(text)} is {_status(now, text)} now, and no longer ranked.")
    said += [_moved(subject, text, old[text], new[text]) for text in new if text in old]
    opened = [text for number, text in now.open.items() if number not in before.open]
    if opened:
        said.append(f"Open now, since the budget was spent: {sets_words(opened)}.")
    said += [f"Panel {number} {'was lost' if how == 'lost' else 'ran out of memory'}." for number, how in now.panels]
    return [sentence for sentence in said if sentence]


def _places(here: Round) -> Places:
    return {ranked.set: (place, ranked) for place, ranked in enumerate(here.ranked, 1)}


def _status(here: Round, text: str) -> str:
    """What a round says of a set that it does not rank and did not reject."""
    covering = [ranked.set for ranked in here.ranked if is_proper_part(ranked.set, text)]
    if text in here.open.values():
        return "open"
    return f"covered by {sets_words(covering, 3)}" if covering else "rejected"


def _moved(subject: Subject, text: str, old: Tuple[int, Ranked], new: Tuple[int, Ranked]) -> str:
    """How the place and the alarms of a ranked set changed, or nothing."""
    (place, ranked), (new_place, new_ranked) = old, new
    parts = [f"moved from place {place} to place {new_place}"] if place != new_place else []
    if ranked.alarmed != new_ranked.alarmed:
        parts.append(f"{alarms_words(subject, new_ranked)}, before {ranked.alarmed}")
    return f"{set_words(text)}: {'; '.join(parts)}." if parts else ""


@dataclass(frozen=True)
class Change:
    """A round that ranks other sets than the one before, or in another order: which came, each with what it was before, which went, each
    with what it is now, and whether those that stayed have another order."""

    here: Round
    came: Dict[str, str]
    went: Dict[str, str]
    is_reordered: bool

    def to_dict(self, subject: Subject) -> Dict[str, Any]:
        """It as JSON has it."""
        return {"time": self.here.now, "line": self.here.line, "round": self.here.number, "text": subject.line(self.here.line),
                "came": self.came, "went": self.went, "ranked": [one.set for one in self.here.ranked], "open": len(self.here.open)}

    def line(self, subject: Subject) -> str:
        """It in one line: when, by which line, what came and went, and why."""
        parts = [f"{how} {_grouped(sets)}" for how, sets in (("came", self.came), ("went", self.went)) if sets]
        if self.is_reordered:
            parts.append(f"the order is {sets_words([one.set for one in self.here.ranked])}")
        if not self.here.ranked:
            parts.append("nothing is ranked" if self.here.open else "nothing explains the log")
        return f"{speech_of(subject, '-').time(self.here.now)} line {self.here.line}, {subject.line(self.here.line)}: {'; '.join(parts)}"


def _grouped(sets: Dict[str, str]) -> str:
    """Sets with what they were or are, once for all of which it is the same."""
    groups: Dict[str, List[str]] = {}
    for text, status in sets.items():
        groups.setdefault(status, []).append(text)
    return ", ".join(f"{sets_words(texts).replace('; ', ', ')} ({status})" for status, texts in groups.items())


def changes_of(subject: Subject) -> Iterator[Change]:
    """The rounds at which the ranking changed, the first one too."""
    before: Optional[Round] = None
    for here in subject.rounds:
        old = [] if before is None else [one.set for one in before.ranked]
        new = [one.set for one in here.ranked]
        if before is None or old != new:
            rejected = set(here.rejected.values())
            came = {text: "at the first line" if before is None else f"{_status(before, text)} before" for text in new if text not in old}
            went = {text: "rejected" if text in rejected else _status(here, text) for text in old if text not in new}
            stayed = [text for text in old if text in new]
            yield Change(here, came, went, stayed != [text for text in new if text in old])
        before = here

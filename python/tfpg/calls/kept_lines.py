"""The lines of a log that say all that the log said, as docs/c.md has them under "A full log"."""

from __future__ import annotations

from typing import Dict, List, Optional, Tuple

Entry = Tuple[int, bytes]  # a line and its number
Change = Tuple[int, bytes, bytes, bytes]  # with its time and its mode


class KeptLines:
    """Keeps of accepted lines those that matter. They are at most 3,074.

    To keep the same line twice is as to keep it once: so an interrupt may come between, and the line is kept once more."""

    def __init__(self) -> None:
        self.first_alarms: Dict[bytes, Entry] = {}
        self.last_alarms: Dict[bytes, Entry] = {}
        self.silences: Dict[bytes, Entry] = {}
        self.sweeps: List[Entry] = []
        self.changes: List[Change] = []
        self.tick: Optional[Entry] = None

    def keep(self, number: int, line: bytes) -> None:
        """Keeps an accepted line, whose number is above those before. What it makes needless goes."""
        time, kind, *names = line.split(b" ")
        name = names[0] if names else b""
        tick: Optional[Entry] = (number, line) if kind == b"tick" else None
        if kind == b"alarm":
            first = self.first_alarms.setdefault(name, (number, line))
            if first[0] != number:
                self.last_alarms[name] = number, line
        elif kind == b"silent":
            self.silences[name] = number, line
        elif kind == b"sweep":
            self._keep_sweep(number, line)
        elif kind == b"mode":
            tick = self._keep_change(number, line, time, name)
        self.tick = tick

    def __len__(self) -> int:
        """How many they are."""
        return (len(self.first_alarms) + len(self.last_alarms) + len(self.silences) + len(self.sweeps) + len(self.changes)
                + (self.tick is not None))

    def lines(self) -> List[bytes]:
        """They, in their order."""
        entries = [*self.first_alarms.values(), *self.last_alarms.values(), *self.silences.values(), *self.sweeps,
                   *((number, line) for number, line, _, _ in self.changes), *([self.tick] if self.tick is not None else [])]
        return [line for _, line in sorted(entries)]

    def _keep_sweep(self, number: int, line: bytes) -> None:
        """A sweep says what the one before said, but of nodes whose first alarm came between them."""
        newest = max((alarm for alarm, _ in self.first_alarms.values()), default=0)
        last = self.sweeps[-1][0] if self.sweeps else 0
        needless = 1 if last > newest or last == number else 0
        self.sweeps[len(self.sweeps) - needless:] = [(number, line)]

    def _keep_change(self, number: int, line: bytes, time: bytes, name: bytes) -> Optional[Entry]:
        """Of changes at one time the last decides, and one to the mode that is there already says what a tick says: that is returned."""
        before = self.changes[:-1] if self.changes and self.changes[-1][2] == time else self.changes
        if before and before[-1][3] == name:
            self.changes = before
            return number, time + b" tick"
        self.changes = [*before, (number, line, time, name)]
        return None

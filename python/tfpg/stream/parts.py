"""The parts of a fleet: which one a vehicle belongs to, and the names of what a part has in Redis."""

from __future__ import annotations

import zlib
from typing import Any, NamedTuple, Union

from ..reading.texts import bytes_in

NAME = "tfpg"
Text = Union[str, bytes]


class Part(NamedTuple):
    """One of the parts of a fleet: its number from 0, how many there are, and the name of the fleet. On a Redis Cluster all keys of a part
    lie on one machine, since they share what stands in braces."""

    number: int
    parts: int
    name: str = NAME

    @property
    def lines(self) -> str:
        """The stream of the lines of its vehicles."""
        return self._key("lines")

    @property
    def changes(self) -> str:
        """The stream of what changed in their rankings."""
        return self._key("changes")

    @property
    def blocks(self) -> str:
        """The stream of the blocks of their reports."""
        return self._key("blocks")

    @property
    def marks(self) -> str:
        """The hash of the marks of its vehicles."""
        return self._key("marks")

    @property
    def state(self) -> str:
        """The hash of its terms, and of the place from which a restart reads."""
        return self._key("state")

    def _key(self, what: str) -> str:
        return f"{{{self.name}:{self.number}/{self.parts}}}:{what}"


def part_of(vehicle: Text, parts: int) -> int:
    """The number of the part of a vehicle, by the CRC-32 of its name, which is the same in each process and each language."""
    return zlib.crc32(as_bytes(vehicle)) % parts


def send(client: Any, vehicle: Text, line: Text, parts: int, name: str = NAME) -> Any:
    """Appends a line of a vehicle to the stream of its part, and returns the id of the entry. The client is one of the module redis. The
    line is stored once this returns, as far as the server stores anything for good."""
    return client.xadd(Part(part_of(vehicle, parts), parts, name).lines, {"vehicle": as_bytes(vehicle), "line": as_bytes(line)})


def as_bytes(text: Text) -> bytes:
    return text if isinstance(text, bytes) else bytes_in(text)

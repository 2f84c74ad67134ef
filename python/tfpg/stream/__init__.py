"""Growing logs of a fleet, on Redis Streams: which part a vehicle belongs to, and how its lines are sent there."""

from .parts import Part, part_of, send

__all__ = ["Part", "part_of", "send"]

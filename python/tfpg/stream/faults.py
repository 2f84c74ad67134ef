"""Why a worker of a stream does not go on. Each is a `tfpg.Error`."""

from __future__ import annotations

from ..faults import Error


class StreamFault(Error):
    """What all of them are."""


class MissingLines(StreamFault):
    """Lines that a worker has to read are gone from the stream. The message names them."""


class OtherTerms(StreamFault):
    """The part was begun with another graph or with other terms."""


class OtherWorker(StreamFault):
    """Another worker took lines of the same part."""


class OtherChange(StreamFault):
    """Something else is written under the id of a line than what that line changes."""


class NoStore(StreamFault):
    """Redis does not answer, or does not take what is written."""

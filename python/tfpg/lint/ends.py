"""What an end of the program says that is no fault of a line or a word."""

from __future__ import annotations

from ..limits import FILE_BYTES, INPUT_BYTES, spoken
from ..program import Ended

SENTENCES = {
    4: "There are more sets than the program takes: {count}. Use a smaller --k, or a smaller --doubt.",
    5: "A file is absent or could not be read.",
    6: "Writing the output failed.",
    7: f"The file has more bytes than the program takes: {spoken(FILE_BYTES)} of a graph, {spoken(INPUT_BYTES)} of a log.",
    8: "Memory ran out.",
}


def end_sentence(ended: Ended) -> str:
    """A sentence on how a run ended."""
    return SENTENCES.get(ended.status, "The program says: {count}").format(count=ended.line.replace("too many hypotheses ", ""))

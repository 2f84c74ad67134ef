"""The command `plot`: a picture of ranks and costs over time, with modes and alarms, as SVG. It needs matplotlib."""

from __future__ import annotations

import argparse
import sys
from typing import Sequence

from ..inputs import add_files, add_terms, subject_of, terms_words

NOTHING, NO_MATPLOTLIB = 1, 4

DESCRIPTION = """\
Writes a picture of the ranking over time as SVG: the places and the costs of the ranked
sets, the modes, and the alarms. Without REPORT one is made."""


def plot(words: Sequence[str]) -> int:
    """Runs the command on these words, and returns its status."""
    parser = argparse.ArgumentParser(prog="tfpg plot", description=DESCRIPTION, formatter_class=argparse.RawDescriptionHelpFormatter)
    add_files(parser)
    add_terms(parser)
    said = parser.parse_args(words)
    terms = terms_words(parser, said)
    try:
        from .picture import picture
    except ImportError:
        print("tfpg plot: matplotlib is missing; on Debian it is the package python3-matplotlib, for /usr/bin/python3", file=sys.stderr)
        return NO_MATPLOTLIB
    subject = subject_of(said.graph, said.log, said.report, terms)
    if not subject.rounds:
        print(f"tfpg plot: {said.log} has no line that is accepted, so there is nothing to draw", file=sys.stderr)
        return NOTHING
    sys.stdout.buffer.write(picture(subject))
    return 0

"""The lines of reports and of answers as data, by docs/formats.md: their shapes, which numbers they may have, and what may come after what.

This is the one table of them. The readers of this package go by it, and so do the maker of pages and the page itself, into whose script the
maker writes it. In a shape a word in angle brackets is a value, and every other word stands as it is.
"""

from __future__ import annotations

from typing import Dict, List

from ..limits import MOST_TIME, OPTIONS
from .causes import LOG_CAUSES

NUMBERS = {  # the values that are numbers, each from a least to a greatest one
    "<k>": (0, OPTIONS["--k"].greatest),
    "<doubt>": (0, OPTIONS["--doubt"].greatest),
    "<budget>": (OPTIONS["--budget"].least, OPTIONS["--budget"].greatest),
    "<time>": (0, MOST_TIME),  # also of a horizon
    "<number>": (0, 2**32 - 1),
    "<line>": (0, 2**63 - 1),  # also of a panel, and of a split on a path
}
# The other values: <node>, <source> and <target>, names of nodes, the last two of an edge; <share>, two numbers with a slash between;
# <set>, as docs/formats.md spells it; <name>, of a vehicle; <cause>, one of these:
CAUSES = tuple(cause for cause in LOG_CAUSES if cause != "TimeBack")

TRACE = ("at <node> <time>",)
STEPS = (
    "split ormay <node> <number> <time>",
    "split andmay <source> <target> <number> <time>",
    "split ormust <source> <target> <number> <time>",
    "split andmust <node> <number> <time>",
    "again",
    "cycle <number>",
    "why zero <node>",
    "why top <node>",
    "why unreached <node> <time>",
    "why from <number>",
    "why upto <number>",
    "why quiet <number> <node>",
    "why pick <line> <number>",
)
REPORT = (
    "report 1 k <k> budget <budget>",
    "report 2 k <k> doubt <doubt> budget <budget>",
    "refused <line> <cause>",
    "refused <line> TimeBack <time>",
    "round <number> <line> <time>",
    "hyp <number>",
    *STEPS,
    "ranked <number> cost <number> robust <share> set <set>",
    *TRACE,
    "open <number> set <set>",
    "rejected <number> set <set>",
    "counts ranked <number> covered <number> rejected <number> open <number>",
    "panel <line> lost",
    "panel <line> memory",
)
# Of answers the first line has the first shape. The lines of a fleet stand beside those of reports.
ASK = (
    "questions now <time> ranked <number> open <number>",
    "ask <node> silent <number> alarm <number> unknown <number>",
    "refused LogFull",
)
PREDICT = (
    "predict <node> now <time> to <time>",
    "forecast <number> set <set> earliest <time>",
    "forecast <number> set <set> never",
    "forecast <number> set <set> unsettled <time>",
    *TRACE,
    *STEPS,
)
FLEET = ("vehicle <name>", "stray <line>", "mode <node> vehicles <number>")

A_STEP, A_BLOCK, A_STATUS = ["split", "again", "cycle"], ["refused", "round"], ["ranked", "open", "rejected", "counts"]
# The first words that a line of a report may have, by that of the line before. Beside this, a cycle has as many reasons after it as it
# says, the nodes of a trace rise, and so do the panels that were lost at a round.
AFTER: Dict[str, List[str]] = {
    "": ["report"],
    "report": A_BLOCK,
    "refused": A_BLOCK,
    "round": ["hyp", *A_STATUS],
    "hyp": A_STEP,
    "split": [*A_STEP, "hyp", *A_STATUS],
    "again": [*A_STEP, "hyp", *A_STATUS],
    "cycle": ["why", *A_STEP, "hyp", *A_STATUS],
    "why": ["why", *A_STEP, "hyp", *A_STATUS],
    "ranked": ["at", *A_STATUS],
    "at": ["at", *A_STATUS],
    "open": ["open", "rejected", "counts"],
    "rejected": ["rejected", "counts"],
    "counts": ["panel", *A_BLOCK],
    "panel": ["panel", *A_BLOCK],
}
LAST = ["report", "refused", "counts", "panel"]  # the first words of a line with which a report may end

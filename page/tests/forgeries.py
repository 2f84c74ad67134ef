"""Random changes of right reports, by the rules of `bench/forge.py`, with what the slow judge says of each."""

import functools
import random
import sys

from cases import MORE_SEEDS, SEEDS, case_of
from judged import lines_of
from pages import TOP
from slow_judge import Graph, Judge

sys.path.insert(0, str(TOP / "bench"))
from forge import Source, forge  # noqa: E402

EACH = 12  # changed reports of each case


@functools.cache
def forged_of(seed):
    """The graph of a case, and of each changed report the log, the report and the answer of the judge, as `12 NotNegative` or `accepted`."""
    texts, found = case_of(seed), []
    for index in range(EACH):
        log, report, _ = forge(f"page {seed}", index, Source(texts["tfpg"], texts["log"], texts["report"]))
        answer = Judge(Graph(texts["tfpg"]), lines_of(log)).judge(report)
        words = answer.split(" ")
        found.append((log, report, " ".join(words[2:]) if answer.startswith("not accepted ") else words[0]))
    return texts["tfpg"], found


def many_forged():
    """The seed of each case, and its changed reports."""
    for seed in [*SEEDS, *random.Random("some of them").sample(MORE_SEEDS, 40)]:
        if case_of(seed):
            yield seed, *forged_of(seed)

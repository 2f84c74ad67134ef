"""Random graphs, each with a log, a report and a prediction, which the slow diagnoser makes anew in each run."""

import functools
import random
import re
import sys

from pages import TOP
from slow_forecasts import Forecaster
from slow_judge import Graph
from slow_search import Diagnosis

sys.path.insert(0, str(TOP / "bench"))
from forge import random_log, small_graph  # noqa: E402

# Of 690 cases these have each kind of split and reason, reused subtrees, open sets, doubts, refusals and outlooks at least four times.
SEEDS = [1, 2, 4, 48, 94, 95, 126, 249, 258, 282, 295, 327, 399, 444, 505, 537, 548, 554, 622, 631, 639, 656, 689]
MORE_SEEDS = range(1000, 1080)


def is_valid(graph):
    """Whether each discrepancy has an incoming edge, and no cycle takes no time. All else holds of the graphs that are drawn."""
    if any(not graph.incoming[number] and node.kind != b"failure" for number, node in enumerate(graph.nodes)):
        return False
    left = {(edge.source, edge.target) for edge in graph.edges if edge.least == 0}
    while left:
        ends = {edge for edge in left if edge[1] not in {source for source, _ in left}}
        if not ends:
            return False
        left -= ends
    return True


@functools.cache
def case_of(seed):
    """The graph, the log, the report and the prediction of a seed, or nothing if the graph that is drawn is not valid."""
    draws = random.Random(f"page {seed}")
    text = small_graph(draws).encode()
    graph = Graph(text)
    if not is_valid(graph):
        return None
    log = random_log(draws, graph).encode()
    k, doubt, budget = draws.choice([1, 2, 2, 3]), draws.choice([0, 0, 1, 2]), draws.choice([1, 2, 3, 1000, 1000])
    diagnosis = Diagnosis(text, log, k, doubt, budget)
    node = draws.choice(re.findall(rb"^(?:or|and) (\S+)", text, re.MULTILINE))
    prediction = b"".join(line + b"\n" for line in Forecaster(diagnosis, node, 12).lines())
    return {"tfpg": text, "log": log, "report": diagnosis.report(), "predict": prediction}


def many_cases():
    """The name of each case, and its texts: graph, log, report, prediction. Beside the chosen seeds these are some more as they come."""
    for seed in [*SEEDS, *MORE_SEEDS]:
        if case_of(seed):
            yield f"case {seed}", list(case_of(seed).values())


def written_cases(maker):
    """The files of graph, log and report of each case."""
    for seed in SEEDS:
        texts = case_of(seed)
        yield [maker.write(f"case-{seed}.{kind}", texts[kind]) for kind in ("tfpg", "log", "report")]

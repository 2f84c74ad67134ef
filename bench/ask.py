#!/usr/bin/env python3
"""Times `ask`: ten hypotheses over 512 nodes, some 300 monitors without an alarm, a log of 300 events.

    bench/ask.py [--program FILE]

Ten failure modes lead to one root alike, so each of the ten that explains the log alone is ranked. From the root on the graph is
random, each edge to a later node. The log is that of a script: one failure mode starts, and ticks and sweeps follow; of its lines the
first 300 are taken.

- "far": delays are so long that few monitors have an alarm by the end. Nearly each silence is shown by a trace that is at hand.
- "near": delays are short, and each alarm that is due has come. What is asked lies at the edge of what became active.
- "and": as "near", with AND nodes and edges that are active in one of two modes.

It prints the questions, how many outcomes there are, and the seconds: the shortest of three runs of `ask --k 1`, less that of `diagnose` on
the same log.
"""

import random

from lib.graphs import discrepancies, later_edges, monitor, steady_script
from lib.program import built_program, folder_for, simulated, word_reader
from lib.timing import shortest
from tfpg.limits import MOST_EDGES, MOST_NODES

FAILURES, NODES, EDGES, EVENTS = 10, MOST_NODES, MOST_EDGES, 300


def graph_text(draws, least, spread, and_share, in_both):
    """The graph: failure modes, the root D0, and nodes with edges from up to 40 nodes before."""
    count = NODES - FAILURES
    lines = ["tfpg 1", "mode N", "mode D", *[f"failure F{number} 1" for number in range(FAILURES)]]
    lines.append(f"or D0 {monitor(draws, 0.75)}")
    lines += discrepancies(draws, [f"D{node}" for node in range(1, count)], and_share, 0.75)
    lines += [f"edge F{number} D0 1 60 *" for number in range(FAILURES)]
    for source, target in later_edges(draws, 1, count, EDGES - FAILURES, EDGES):
        delay = draws.randint(least, 2 * least)
        modes = "*" if draws.random() < in_both else "N"
        lines.append(f"edge D{source} D{target} {delay} {delay + draws.randint(0, spread)} {modes}")
    return "\n".join([*lines, "end"]) + "\n"


def main():
    program = built_program(word_reader(__doc__).parse_args().program)
    shapes = {"far": (400, 100, 0.0, 1.0), "near": (10, 60, 0.0, 1.0), "and": (10, 60, 0.2, 0.9)}
    with folder_for() as folder:
        graph, script, log = (folder / name for name in ("graph", "script", "log"))
        for name, shape in shapes.items():
            draws = random.Random(7)
            graph.write_text(graph_text(draws, *shape))
            script.write_text(steady_script(draws, "F0", EVENTS, 0.1))
            lines = simulated(program, 1, graph, script).splitlines(keepends=True)[:EVENTS]
            log.write_bytes(b"".join(lines))
            diagnosed = shortest([program, "diagnose", "--k", "1", graph], log).seconds
            asked = shortest([program, "ask", "--k", "1", graph, log])
            head, *questions = asked.output.decode().splitlines()
            hypotheses = sum(int(head.split()[place]) for place in (4, 6))
            print(f"{name}: {head}; {len(questions)} questions, {2 * len(questions) * hypotheses} outcomes; "
                  f"{asked.seconds - diagnosed:.2f} s and {diagnosed:.2f} s for the diagnosis")


if __name__ == "__main__":
    main()

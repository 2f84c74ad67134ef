#!/usr/bin/env python3
"""Times the simulator on a graph of 512 nodes and 2,048 edges: seconds, the shortest of three runs each.

    bench/simulate.py [--program FILE]

- "no change": one failure mode starts, and the mode stays as it is.
- "1,024 changes": the same with a change of mode at every 4th millisecond, which cuts the edges of half of the graph and lets
  their propagations start anew.
- "64 starts": the same with 64 failure modes, which start one after the other, and 6,000 sweeps and ticks.

Seconds count the start of the program and the reading of the graph.
"""

import random
import sys

from lib.graphs import discrepancies, later_edges, node_names, script_text
from lib.program import built_program, folder_for, word_reader
from lib.timing import shortest
from tfpg.limits import MOST_CHANGES, MOST_EDGES, MOST_FAILURES, MOST_NODES


def large_graph(draws, failures, nodes=MOST_NODES, edges=MOST_EDGES):
    """A graph of so many nodes and edges, in which each edge leads to a later node; half of the edges are active in one mode alone."""
    names = node_names(failures, nodes)
    lines = ["tfpg 1", "mode N", "mode D", *[f"failure F{node} 1" for node in range(failures)]]
    lines += discrepancies(draws, names[failures:], 0.2)
    count = len(lines) + edges
    for source, target in later_edges(draws, failures, nodes, edges):
        least = draws.randint(1, 6)
        modes = "*" if draws.random() < 0.5 else draws.choice("ND")
        lines.append(f"edge {names[source]} {names[target]} {least} {least + draws.randint(0, 20)} {modes}")
    assert len(lines) == count
    return "\n".join([*lines, "end"]) + "\n"


def script(failures, changes, events):
    """A script with so many starts, changes of mode, and sweeps and ticks, over 4,096 milliseconds."""
    timed = [(64 * node, f"start F{node}") for node in range(failures)]
    timed += [(4 * change, f"mode {'DN'[change % 2]}") for change in range(changes)]
    timed += [(4096 * event // events, "sweep" if event % 10 == 0 else "tick") for event in range(events)]
    return script_text(timed, 4200)


def show(name, program, folder, failures, changes, events):
    """Simulates the script, and says what it cost."""
    (folder / "graph").write_text(large_graph(random.Random(7), failures))
    (folder / "script").write_text(script(failures, changes, events))
    ran = shortest([program, "simulate", folder / "graph", folder / "script"])
    lines, alarms = ran.output.count(b"\n"), ran.output.count(b" alarm ")
    print(f"{name:14} {lines:5} lines, {alarms:3} alarms {ran.seconds:8.3f} s")


def main():
    program = built_program(word_reader(__doc__).parse_args().program)
    with folder_for() as folder:
        show("no change", program, folder, 1, 0, 100)
        show(f"{MOST_CHANGES:,} changes", program, folder, 1, MOST_CHANGES, 100)
        show(f"{MOST_FAILURES} starts", program, folder, MOST_FAILURES, MOST_CHANGES, 6000)


if __name__ == "__main__":
    sys.exit(main())

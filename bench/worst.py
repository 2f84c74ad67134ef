#!/usr/bin/env python3
"""Says what the worst line of hard logs takes: the greatest memory of a session and of a line, its requests, and the greatest time.

    bench/worst.py [--budgets NUMBERS] [--draws N] [--only WORD] [--megabytes N] [--library FILE]

The logs are those of banded draws (`bench/banded.py`) of 150 nodes, the first N (24 if nothing is said; at most 6 with 64 failure modes):

- "4 failure modes": the log of a run, with `k` 2.
- "doubts": the same, and one monitor may be doubted.
- "turned": the same without doubts, where a quarter of the alarms are silences and of the silences alarms, so that lines contradict.
- "64 failure modes, turned": as that, with 64 failure modes and so 2,081 hypotheses.
- "pump, 65,536 ticks": no hard log, but a long one. Its worst line is one where the log's room doubles.

Prints a row for each family and budget (10, 100 and 1,000 if nothing is said), for `docs/c.md`: the greatest of each number over the
draws, where the session takes lines, and where it takes events. `>` stands where the library would have had more than so many megabytes (1,500 if
nothing is said), and the session ended. It needs the library and a C compiler. Times are of the processor, in a thread by itself; other work
on the machine makes them up to twice as long.
"""

import argparse
import random
import subprocess
import sys
from pathlib import Path

import banded
from lib import TOP
from lib.graphs import ticks
from lib.program import ARCHIVE, folder_for
from tfpg.limits import MOST_EVENTS, MOST_FAILURES

NO_MEMORY = 8
TURNED = {"alarm": "silent", "silent": "alarm"}


def turned(log, draw):
    """A log, a quarter of whose alarms are silences, and of whose silences alarms."""
    draws = random.Random(draw)
    lines = [line.split() for line in log.splitlines()]
    for words in lines:
        if words[1] in TURNED and draws.random() < 0.25:
            words[1] = TURNED[words[1]]
    return "".join(" ".join(words) + "\n" for words in lines)


def of_runs(draw):
    return banded.drawn(150, draw)[:2]


def of_turned(draw, failures=banded.FAILURES):
    graph, log, _ = banded.drawn(150, draw, failures)
    return graph, turned(log, draw)


def of_many(draw):
    return of_turned(draw, MOST_FAILURES)


def of_pump(_draw):
    return (TOP / "examples" / "pump.tfpg").read_text(), ticks(1, MOST_EVENTS + 1)


# The name, the graph and the log of a draw, the doubt, and how many draws at most.
FAMILIES = [
    ("4 failure modes", of_runs, 0, 24),
    ("4 failure modes, doubts", of_runs, 1, 24),
    ("4 failure modes, turned", of_turned, 0, 24),
    (f"{MOST_FAILURES} failure modes, turned", of_many, 0, 6),
    (f"pump, {MOST_EVENTS:,} ticks", of_pump, 0, 1),
]


def built(library, folder):
    """The program that says what the worst line takes."""
    words = ["cc", "-std=c99", "-O2", "-I", TOP / "include", "-o", folder / "worst", TOP / "bench" / "worst.c", library]
    subprocess.run(words, check=True)
    return folder / "worst"


def numbers_of(program, folder, graph, log, doubt, budget, megabytes):
    """The numbers of a log, and whether memory ran out."""
    (folder / "graph").write_text(graph)
    (folder / "log").write_text(log)
    words = [program, folder / "graph", folder / "log", "2", str(doubt), str(budget), str(megabytes)]
    done = subprocess.run(words, stdout=subprocess.PIPE, text=True)
    if done.returncode not in (0, NO_MEMORY):
        sys.exit(f"worst: status {done.returncode}")
    return [float(word) for word in done.stdout.split()], done.returncode == NO_MEMORY


def size(count):
    """A number of bytes as a table has it."""
    return f"{count / 1e6:,.1f} MB" if count >= 1e5 else f"{count / 1e3:,.0f} KB"


def row(name, budget, greatest, is_cut):
    """A row of the table."""
    _, opened, most, added, _, requests, slowest, _, event_most, event_added, _, _, event_slowest, _ = greatest
    more = "> " if is_cut else ""
    cells = [name, f"{budget:,}", size(opened), more + size(most), more + size(added), f"{requests:,.0f}", f"{slowest / 1e3:,.1f}",
             more + size(event_most), more + size(event_added), f"{event_slowest / 1e3:,.1f}"]
    return "| " + " | ".join(cells) + " |"


def main():
    reader = argparse.ArgumentParser(description=__doc__, formatter_class=argparse.RawDescriptionHelpFormatter)
    reader.add_argument("--budgets", default="10,100,1000", metavar="NUMBERS", help="with commas between")
    reader.add_argument("--draws", type=int, default=24, metavar="N")
    reader.add_argument("--only", default="", metavar="WORD", help="only the families that have this word")
    reader.add_argument("--megabytes", type=int, default=1500, metavar="N")
    reader.add_argument("--library", type=Path, default=ARCHIVE, metavar="FILE")
    given = reader.parse_args()
    print("| Log | Budget | Open | A session at most | A line at most | Requests | Slowest, ms | Events: a session | A line | Slowest, ms |")
    print("|---|---|---|---|---|---|---|---|---|---|")
    with folder_for() as folder:
        program = built(given.library, folder)
        for family, case, doubt, draws in FAMILIES:
            for budget in map(int, given.budgets.split(",") if given.only in family else []):
                runs = [numbers_of(program, folder, *case(draw), doubt, budget, given.megabytes) for draw in range(min(draws, given.draws))]
                greatest = [max(column) for column in zip(*(numbers for numbers, _ in runs))]
                print(row(family, budget, greatest, any(is_cut for _, is_cut in runs)), flush=True)


if __name__ == "__main__":
    main()

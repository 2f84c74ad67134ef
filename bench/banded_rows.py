#!/usr/bin/env python3
"""Diagnoses banded draws, and asks z3 the same where it is installed.

    bench/banded_rows.py [--draws N] [--sizes N..] [--chain] [--backwards] [--k N..] [--budgets N..] [--z3 SECONDS] PROGRAM

PROGRAM is a built program, as crates/tfpg/out/tfpg. The draws are those of `banded.py`. A line for each number of nodes, each `k` and
each budget has sums over the draws: splits, open findings of all rounds and of the last one, and processor seconds of the program. With
--z3 it goes on with what z3 says of each hypothesis that the last round does not cover, in at most so many seconds each: how many fit, do
not fit, or are not known, z3's seconds, and how often z3 and the program contradict each other, which must be 0.
"""

import argparse
import subprocess
import sys
from collections import Counter
from pathlib import Path

from lib.program import folder_for
from lib.reading import report_read
from lib.timing import shortest

HERE = Path(__file__).resolve().parent
CONTRADICTIONS = {("ranked", "unsat"), ("rejected", "sat")}


def diagnosed(program, graph, log, k, budget):
    """The bytes of a report, and the processor seconds of the run."""
    ran = shortest([program, "diagnose", "--k", str(k), "--budget", str(budget), graph], log, runs=1)
    return ran.output, ran.seconds


def last_statuses(report):
    """The status of each set that the last round does not cover. A rejected one is listed in the round that rejects it, and stays so."""
    here = report.rounds[-1]
    statuses = {text: "rejected" for earlier in report.rounds for text in earlier.rejected.values()}
    return {**statuses, **dict.fromkeys(here.open.values(), "open"), **{one.set: "ranked" for one in here.ranked}}


def said_by_z3(graph, log, statuses, seconds):
    """How often z3 says what of which status, and how long it took."""
    from lib.z3_answers import Case

    case = Case(graph.read_bytes(), log.read_bytes())
    said, total = Counter(), 0.0
    for text, status in statuses.items():
        answer, took = case.ask([] if text == "-" else text.encode().split(b","), seconds)
        said[status, answer] += 1
        total += took
    return said, total


def show_row(words, folder, size, k, budget):
    """Prints the sums over the draws. Answers how many contradictions there are."""
    splits = open_findings = open_at_end = 0
    seconds = of_z3 = 0.0
    said = Counter()
    for draw in range(words.draws):
        graph, log = folder / f"{size}-{draw}.tfpg", folder / f"{size}-{draw}.log"
        text, took = diagnosed(words.program, graph, log, k, budget)
        report = report_read(text, graph.read_bytes())
        splits, seconds = splits + text.count(b"\nsplit "), seconds + took
        open_findings += sum(len(here.open) for here in report.rounds)
        open_at_end += len(report.rounds[-1].open)
        if words.z3:
            more, took = said_by_z3(graph, log, last_statuses(report), words.z3)
            said, of_z3 = said + more, of_z3 + took
    row = f"{size} nodes, k {k}, budget {budget}: {splits} splits, {open_findings} open, {open_at_end} at the end, {seconds:.2f} s"
    wrong = sum(said[pair] for pair in CONTRADICTIONS)
    if words.z3:
        answers = Counter()
        for (_, answer), count in said.items():
            answers[answer] += count
        row += f"; z3: {answers['sat']} fit, {answers['unsat']} do not, {answers['unknown']} unknown, {of_z3:.2f} s, {wrong} contradictions"
    print(row, flush=True)
    return wrong


def main():
    parser = argparse.ArgumentParser(description=__doc__, formatter_class=argparse.RawDescriptionHelpFormatter)
    parser.add_argument("--draws", type=int, default=24)
    parser.add_argument("--sizes", type=int, nargs="+", default=[40, 60, 150])
    parser.add_argument("--chain", action="store_true")
    parser.add_argument("--backwards", action="store_true")
    parser.add_argument("--k", type=int, nargs="+", default=[1, 2])
    parser.add_argument("--budgets", type=int, nargs="+", default=[1000])
    parser.add_argument("--z3", type=float, metavar="SECONDS")
    parser.add_argument("program", metavar="PROGRAM")
    words = parser.parse_args()
    with folder_for() as folder:
        shape = [word for word in ("--chain", "--backwards") if getattr(words, word[2:])]
        sizes = map(str, words.sizes)
        subprocess.run([sys.executable, HERE / "banded.py", *shape, "--sizes", *sizes, "--", folder, str(words.draws)], check=True)
        rows = [(size, k, budget) for size in words.sizes for k in words.k for budget in words.budgets]
        return 1 if sum(show_row(words, folder, *row) for row in rows) else 0


if __name__ == "__main__":
    sys.exit(main())

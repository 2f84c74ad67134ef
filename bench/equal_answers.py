#!/usr/bin/env python3
"""Compares what two built programs say of the same logs: the statuses of all hypotheses in each round.

    bench/equal_answers.py [--cases N] [--seed N] [--splits N] [--only SEED] [--no-examples] [--keep FOLDER] BEFORE AFTER

BEFORE and AFTER are programs, as `crates/tfpg/out/tfpg` of two checkouts; one of them may be a trial. First come the logs of the examples
and six hard graphs, each with several terms. Then N graphs and logs are drawn (2,000 if nothing is said), of 3 to 14 nodes of all kinds,
with lags, AND nodes, modes, delays without an end, random or simulated logs, and refused lines. `k` is 0 to 3, up to two monitors are
doubted, and the budget is 1 to 1,000. Few of these take many splits; `--splits 30` draws only such.

For each line both must refuse it for the same cause, or have a round with the same numbers. In each round each hypothesis must have the
same status, and if it is ranked the same cost, robustness and place among those that both rank. Traces and steps may differ. Two
differences are counted by themselves, since a budget is no promise:

- one of the two leaves a hypothesis open;
- one ranks what the other covers, and each part by which it is covered is open in the first.

All else is a contradiction. Each program must also accept the report of the other (`check`). The last lines count all this, also if the
run is interrupted. Ends with status 1 if there is a contradiction or a report is not accepted; then the texts of the case are kept.
"""

import argparse
import random
import re
import sys
import tempfile
from collections import Counter
from dataclasses import dataclass
from math import comb
from pathlib import Path

from banded import draw_graph, draw_log, graph_text
from compare import HARD, hard_graph, hard_row, hard_script, with_silences
from forge import Program, drawn_graph, random_log, random_script, small_graph
from lib import TOP
from lib.program import folder_for
from lib.reading import Refused, report_read
from slow_judge import Graph
from tfpg.limits import LONGEST_LINE

MOST_HYPOTHESES = 250
MOST_BYTES, LONGER = 20_000, 80_000  # of a report; one case of five may have a longer one
BUDGETS = [1, 2, 3, 5, 10, 30, 50, 100, 300, 1000, 1000]
NEVER_ACCEPTED = [b"x", b"", b" 1 tick", b"07 tick", b"-1 tick", b"1e3 tick", b"0 mode NoMode", b"0 alarm NoNode"]
NEVER_ACCEPTED += [b"9999999999999 tick", b"0 tick\r"]


# ---- cases


@dataclass
class Case:
    """A graph, a log, and the words of the terms."""

    name: str
    graph: bytes
    log: bytes
    terms: list


def example_cases():
    """The logs of the examples, by several terms."""
    for log in sorted((TOP / "examples").glob("*.log")):
        graph = TOP / "examples" / f"{log.stem.split('-')[0]}.tfpg"
        if graph.exists():
            for k, doubt, budget in [(0, 0, 1000), (1, 0, 1), (1, 1, 1000), (2, 0, 10), (2, 0, 1000), (2, 1, 1000), (3, 0, 1000)]:
                terms = ["--k", str(k), "--doubt", str(doubt), "--budget", str(budget)]
                yield Case(f"{log.stem} {' '.join(terms)}", graph.read_bytes(), log.read_bytes(), terms)


def hard_cases(program):
    """The hard graphs of `bench/compare.py`, where a hypothesis takes more splits than these budgets allow."""
    for draw in HARD:
        row = hard_row(program.program, program.folder, draw)
        graph = Path(row.words[-1]).read_bytes()
        for k, doubt, budget in [(1, 0, 40), (1, 0, 100), (1, 0, 300), (1, 1, 60), (2, 0, 35), (2, 1, 33)]:
            terms = ["--k", str(k), "--doubt", str(doubt), "--budget", str(budget)]
            yield Case(f"hard {draw} {' '.join(terms)}", graph, row.log.read_bytes(), terms)


def simulated(draws, program, script):
    """The log of this script on the graph that is there."""
    program.write("script", script)
    return program.run("simulate", "--draw", str(draws.randint(0, 999)), "graph", "script")[1]


def some_log(draws, program, graph):
    """A log of random lines, or of a simulated run, or the one after the other."""
    log = b""
    if draws.random() < 0.6:
        log = simulated(draws, program, random_script(draws, graph))
    if not log or draws.random() < 0.3:
        log += random_log(draws, graph).encode()
    return log


def spoiled(draws, log):
    """The log with up to two lines that no log accepts."""
    lines = log.split(b"\n")
    for _ in range(draws.choice([0, 0, 1, 2])):
        bad = b"1 tick" + b" " * LONGEST_LINE if draws.random() < 0.05 else draws.choice(NEVER_ACCEPTED)
        lines.insert(draws.randrange(len(lines)), bad)
    return b"\n".join(lines)


def drawn_texts(draws, program):
    """A graph and a log of it, or nothing if the graph is refused."""
    kind = draws.choices(["small", "wide", "banded", "hard"], [2, 3, 4, 3])[0]
    if kind == "banded":
        nodes, edges = draw_graph(draws, count := draws.randint(6, 14))
        return graph_text(nodes, edges).encode(), spoiled(draws, draw_log(draws, nodes, edges, count)[0].encode())
    if kind == "hard":
        graph = hard_graph(draws)
        program.write("graph", graph)
        log = simulated(draws, program, hard_script(draws, draws.randint(2, 12)))
        return graph.encode(), spoiled(draws, with_silences(draws, graph, log))
    graph = small_graph(draws) if kind == "small" else drawn_graph(draws, draws.choice([1, 2, 3]), draws.randint(1, 5), draws.randint(2, 9))
    program.write("graph", graph)
    if program.run("diagnose", "graph")[0] != 0:
        return None  # a node that nothing enters, or a cycle that takes no time
    return graph.encode(), spoiled(draws, some_log(draws, program, Graph(graph.encode())))


def count_of(failures, monitors, k, doubt):
    """How many hypotheses these terms have."""
    return sum(comb(failures, size - doubted) * comb(monitors, doubted) for size in range(k + 1) for doubted in range(min(doubt, size) + 1))


def drawn_case(seed, program, splits):
    """The case of a seed. By this program its report is not too long, and some hypothesis has so many splits in a round."""
    draws = random.Random(f"answers {seed}")
    longest = LONGER if draws.random() < 0.2 else MOST_BYTES
    while True:
        texts = drawn_texts(draws, program)
        if texts is None:
            continue
        k, doubt, budget = draws.randint(0, 3), draws.randint(0, 2), draws.choice([one for one in BUDGETS if one >= splits])
        graph = Graph(texts[0])
        if count_of(len(graph.failures), len(graph.monitored), k, doubt) > MOST_HYPOTHESES:
            continue
        case = Case(str(seed), *texts, ["--k", str(k), "--doubt", str(doubt), "--budget", str(budget)])
        report = diagnosed(program, case)
        if len(report) <= longest and most_splits(report) >= splits:
            return case


def most_splits(report):
    """The most splits that a hypothesis has in a round."""
    parts = re.split(rb"^hyp .*$", report, flags=re.MULTILINE)
    return max(part.count(b"\nsplit ") for part in parts)


def diagnosed(program, case):
    """The report of a case, or how the run ended."""
    program.write("graph", case.graph)
    status, report, said = program.run("diagnose", *case.terms, "graph", text=case.log)
    return report if status == 0 else b"status %d %s" % (status, said[:200])


# ---- what reports say


class Told:
    """What a report says in one round: of hypotheses by their numbers the status, what is said of the ranked ones, and the sets. Those that
    are covered are missing."""

    def __init__(self, here, rejected):
        self.line, self.count = (here.number, here.line, here.now), sum(here.counts)
        self.ranked = {one.hypothesis: (one.cost, one.alarmed, one.monitored, one.set) for one in here.ranked}
        sets = {**{one.hypothesis: one.set for one in here.ranked}, **here.open, **here.rejected}
        self.members = {number: frozenset(text.split(",")) - {"-"} for number, text in sets.items()}
        self.statuses = dict.fromkeys([*rejected, *here.rejected], "rejected")
        self.statuses |= {**dict.fromkeys(here.open, "open"), **dict.fromkeys(self.ranked, "ranked")}

    def status(self, hypothesis):
        return self.statuses.get(hypothesis, "covered")


def blocks_of(report, graph):
    """The terms of a report and its blocks, or how a run without one ended."""
    if not report.startswith(b"report "):
        return [report]
    read, rejected = report_read(report, graph), set()
    blocks = [read.terms]
    for block in read.blocks:
        if isinstance(block, Refused):
            blocks.append(block)
        else:
            blocks.append(Told(block, rejected))
            rejected |= block.rejected.keys()
    return blocks


# ---- comparing


class Comparison:
    """What was counted so far, and the contradictions of the case at hand."""

    def __init__(self):
        self.counts, self.wrong = Counter(), []

    def compare(self, before, after, graph):
        """Compares two reports about a graph."""
        self.counts["reports"] += 1
        self.counts["the same bytes"] += before == after
        self.counts["splits before"] += before.count(b"\nsplit ")
        self.counts["splits after"] += after.count(b"\nsplit ")
        one, other = blocks_of(before, graph), blocks_of(after, graph)
        if len(one) != len(other):
            self.wrong.append(f"{len(one)} blocks and {len(other)}")
        for left, right in zip(one, other):
            if isinstance(left, Told) and isinstance(right, Told):
                self.compare_rounds(left, right)
            else:
                self.counts["refused lines"] += isinstance(left, Refused)
                self.need(left == right, f"{left} and {right}")

    def need(self, holds, what):
        if not holds:
            self.wrong.append(what)

    def compare_rounds(self, left, right):
        self.counts["rounds"] += 1
        self.need(left.line == right.line, f"{left.line} and {right.line}")
        self.need(left.count == right.count, f"{left.line}: {left.count} hypotheses and {right.count}")
        for hypothesis in range(left.count):
            self.compare_statuses(left, right, hypothesis)
        both = left.ranked.keys() & right.ranked.keys()
        one, other = ([number for number in told.ranked if number in both] for told in (left, right))
        self.need(one == other, f"{left.line}: ranked in the order {one} and {other}")
        for number in both:
            self.need(left.ranked[number] == right.ranked[number], f"{left.line}: {left.ranked[number]} and {right.ranked[number]}")
        for number in left.members.keys() & right.members.keys():
            self.need(left.members[number] == right.members[number], f"{left.line}: the set of {number}")
        if "open" not in {*left.statuses.values(), *right.statuses.values()}:
            self.counts["rounds in which none is open"] += 1
            self.need(list(left.ranked) == list(right.ranked), f"{left.line}: none is open, and the ranked ones differ")

    def compare_statuses(self, left, right, hypothesis):
        one, other = left.status(hypothesis), right.status(hypothesis)
        self.counts["statuses"] += 1
        if one == other:
            self.counts[f"both {one}"] += 1
        elif one == "open":
            self.counts[f"open before and {other} after"] += 1
        elif other == "open":
            self.counts[f"{one} before and open after"] += 1
        elif one == "ranked" and other == "covered" and follows(left, right, hypothesis):
            self.counts["ranked before and covered after, by what was open before"] += 1
        elif one == "covered" and other == "ranked" and follows(right, left, hypothesis):
            self.counts["covered before and ranked after, by what is open after"] += 1
        else:
            self.wrong.append(f"{left.line}: hypothesis {hypothesis} is {one} before and {other} after")


def follows(ranking, covering, hypothesis):
    """Whether each part by which the one round covers what the other ranks is open in that one."""
    members = ranking.members[hypothesis]
    parts = [number for number in covering.ranked if covering.members[number] < members]
    return bool(parts) and all(ranking.status(part) == "open" for part in parts)


def judged(program, case, report):
    """Whether `check` accepts this report, or else what it says."""
    program.write("graph", case.graph)
    program.write("log", case.log)
    status, out, said = program.run("check", "graph", "log", text=report)
    return None if status == 0 and out.startswith(b"accepted ") else f"check ends with {status}: {(out + said)[:200]}"


def try_case(comparison, before, after, case, keep):
    """Compares what both say of one case. Answers whether all is right."""
    reports = [diagnosed(program, case) for program in (before, after)]
    comparison.wrong = []
    comparison.compare(*reports, case.graph)
    if reports[0].startswith(b"report "):
        for who, program, report in (("before", before, reports[1]), ("after", after, reports[0])):
            refusal = judged(program, case, report)
            comparison.counts[f"reports that the program {who} accepts"] += refusal is None
            if refusal:
                comparison.wrong.append(f"the program {who}: {refusal}")
    if comparison.wrong:
        print(f"case {case.name}, {' '.join(case.terms)}:", *comparison.wrong[:5], sep="\n    ", flush=True)
        name = case.name.replace(" ", "")
        for kind, text in (("tfpg", case.graph), ("log", case.log), ("before", reports[0]), ("after", reports[1])):
            (keep / f"{name}.{kind}").write_bytes(text)
    return not comparison.wrong


def read_words():
    """The words of the command line."""
    reader = argparse.ArgumentParser(description=__doc__, formatter_class=argparse.RawDescriptionHelpFormatter)
    reader.add_argument("--cases", type=int, default=2000)
    reader.add_argument("--seed", type=int, default=1, help="the seed of the first drawn case")
    reader.add_argument("--splits", type=int, default=0, help="draw cases in which AFTER makes so many for a hypothesis in a round")
    reader.add_argument("--only", type=int, metavar="SEED", help="only the drawn case of this seed")
    reader.add_argument("--no-examples", action="store_true", help="leave the logs of the examples out")
    reader.add_argument("--keep", type=Path, metavar="FOLDER", help="where cases that differ are kept")
    reader.add_argument("before", type=Path, metavar="BEFORE")
    reader.add_argument("after", type=Path, metavar="AFTER")
    return reader.parse_args()


def main():
    words = read_words()
    words.keep = words.keep or Path(tempfile.gettempdir()) / "unequal"
    words.keep.mkdir(parents=True, exist_ok=True)
    comparison, tried, wrong = Comparison(), 0, 0
    with folder_for() as folder:
        before, after = (Program(program.resolve(), folder) for program in (words.before, words.after))
        seeds = range(words.seed, words.seed + words.cases) if words.only is None else [words.only]
        cases = [] if words.no_examples or words.only is not None else [*example_cases(), *hard_cases(after)]
        try:
            for case in (*cases, *seeds):
                case = case if isinstance(case, Case) else drawn_case(case, after, words.splits)
                tried, wrong = tried + 1, wrong + (not try_case(comparison, before, after, case, words.keep))
        except KeyboardInterrupt:
            print(f"stopped in the case after these {tried}")
    print(f"{tried} cases, of which {min(tried, len(cases))} were not drawn: {wrong} are wrong")
    for what, times in sorted(comparison.counts.items()):
        print(f"{times:9} {what}")
    return int(wrong > 0)


if __name__ == "__main__":
    sys.exit(main())

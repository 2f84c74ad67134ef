#!/usr/bin/env python3
"""Refuses each request for memory in turn, one at a time and all from one on, and says how the runs of the program end.

    bench/refuse.py [--program FILE] [--only WORD]..

`bench/refuse.c` is compiled with gcc and loaded before the built program, which has to be no script. Each of these runs is made once for
each of its requests, with that request refused, and once more with all requests from that one on refused:

- "two suspects": `diagnose` of one alarm that either of two failure modes explains.
- "several rounds": `diagnose` with a refused line, a split that a later round goes on from, and rejections.
- "panels": "several rounds" with one file panel of each kind, with two, and with six of all kinds; and three ticks with two panels.
- "check": the judge on the reports of the first two, and of "a cut"; on the last one cut after its first round, and with a cycle that
  does not chain.
- "explain", "simulate", "simulate --trace", both also with a cut, and "generate".
- "convert", and "convert --json" of the JSON that the first one writes, of two graphs.
- "ask", "predict" and "fleet" on the example of the pump.

A run has to end with `no memory` and its status, or with the right answer; where there is no memory for the line on standard error,
with the status alone. What it wrote has to be a front of the right output that ends with a block, but that a line `panel P memory`
stands after a round for each panel that ran out of memory at it. Such a panel has to have written its lines of the earlier rounds, and
every other panel those of the rounds whose texts were written whole. Two lines for each run say how many requests there are, how often
each end came, how many panels were lost, and how many bytes were written. The last line has the sums of the runs with one request
refused. Ends with status 1 where anything else came.
"""

import re
import struct
import subprocess
import sys
from collections import Counter
from dataclasses import dataclass

from diagnose import TWO_MODES
from lib import TOP
from lib.program import built_program, folder_for, is_wanted, word_reader

EXAMPLES = TOP / "examples"
PUMP = str(EXAMPLES / "pump.tfpg")
ONE_CAUSE = """tfpg 1
mode N
failure F 1
or A watch 0
or E watch 0
edge F A 1 3 *
edge F E 9 9 *
end
"""
NEVER_FORCED = """tfpg 1
mode N
failure F 1
or A watch 0
edge F A 1 inf *
end
"""
SUSPECTS = b"30 alarm A\n"
ROUNDS = b"10 silent A\n10 alarm E\n9 tick\n11 tick\n12 alarm A\n"
CUT = b"20 mode D\n30 alarm A\n"
TICKS = b"1 tick\n2 tick\n3 tick\n"
SCRIPT = "25 start F2\n40 stop\n"
CUT_SCRIPT = "2 start F2\n3 mode D\n9 mode N\n20 sweep\n40 stop\n"
KINDS = ["top", "count", "json"]
NO_MEMORY = 8
LOST_PANEL = re.compile(rb"panel ([1-9][0-9]*) (lost|memory)\n")


@dataclass
class Run:
    """The words of a run, its input, the kinds of its panels in their order, and the status of its right end."""

    name: str
    words: list
    text: bytes = b""
    panels: tuple = ()
    status: int = 0

    def panel_files(self):
        return [f"panel-{number}" for number in range(1, len(self.panels) + 1)]

    def all_words(self):
        return self.words + [f"{kind}:{file}" for kind, file in zip(self.panels, self.panel_files())]


@dataclass
class Came:
    """What came of a run: how it ended, what it wrote, how many requests it made, and what its panels wrote, or None without a file."""

    status: int
    out: bytes
    err: bytes
    requests: int
    files: list


class Refusing:
    """The program with some requests for memory refused."""

    def __init__(self, program, top):
        self.program, self.top, self.count, self.library = str(program), top, top / "count", top / "refuse.so"
        subprocess.run(["gcc", "-O2", "-shared", "-fPIC", "-o", self.library, TOP / "bench" / "refuse.c"], check=True)

    def run(self, run, first=0, last=0):
        self.count.write_bytes(bytes(8))
        (self.top / "input").write_bytes(run.text)
        files = [self.top / file for file in run.panel_files()]
        for file in files:
            file.unlink(missing_ok=True)
        setting = {"LD_PRELOAD": str(self.library), "REFUSE_COUNT": str(self.count)}
        setting |= {"REFUSE_FIRST": str(first), "REFUSE_LAST": str(last)}
        words = [self.program, *run.all_words()]
        with open(self.top / "input", "rb") as text:
            done = subprocess.run(words, stdin=text, capture_output=True, cwd=self.top, env=setting, timeout=60)
        requests = struct.unpack("<Q", self.count.read_bytes())[0]
        wrote = [file.read_bytes() if file.exists() else None for file in files]
        return Came(done.returncode, done.stdout, done.stderr, requests, wrote)


def runs(refusing, top):
    """The runs. Those of the judge need the reports of others."""

    def file(name, content):
        (top / name).write_bytes(content if isinstance(content, bytes) else content.encode())
        return name

    file("two-modes", TWO_MODES)
    file("one-cause", ONE_CAUSE)
    suspects = Run("two suspects", ["diagnose", "--k", "1", "two-modes"], SUSPECTS)
    rounds = Run("several rounds", ["diagnose", "--k", "1", "--budget", "1", "one-cause"], ROUNDS)
    yield suspects
    yield rounds
    yield from runs_with_panels(rounds)
    cut = refusing.run(Run("a cut", ["diagnose", "--k", "1", "two-modes"], CUT)).out
    yield Run("check, two suspects", ["check", "two-modes", file("suspects", SUSPECTS)], refusing.run(suspects).out)
    yield Run("check, several rounds", ["check", "one-cause", file("rounds", ROUNDS)], refusing.run(rounds).out)
    judge = ["check", "two-modes", file("cut", CUT)]
    yield Run("check, a cut", judge, cut)
    yield Run("check, an early end", judge, cut[: cut.index(b"round 2 ")], status=1)
    yield Run("check, a cycle that does not chain", judge, unchained(cut), status=1)
    yield Run("explain", ["explain", "two-modes", "suspects"], b"set F2\nat F2 25\nat A 30\n")
    for name, script in (("simulate", file("script", SCRIPT)), ("simulate, a cut", file("cut-script", CUT_SCRIPT))):
        yield Run(name, ["simulate", "two-modes", script])
        yield Run(f"{name}, --trace", ["simulate", "--trace", "two-modes", script])
    yield Run("generate", ["generate", "--size", "1"])
    for graph in ("two-modes", file("never-forced", NEVER_FORCED)):
        to_json = Run(f"convert, {graph}", ["convert", graph])
        yield to_json
        yield Run(f"convert --json, {graph}", ["convert", "--json", file(f"{graph}.json", refusing.run(to_json).out)])
    yield from runs_of_the_pump(file)


def runs_with_panels(rounds):
    """Runs that panels are told."""
    for count, word in ((1, "one"), (2, "two")):
        for kind in KINDS:
            yield Run(f"panels, {word} {kind}", rounds.words, rounds.text, (kind,) * count)
    yield Run("panels, six of all kinds", rounds.words, rounds.text, (*KINDS, *KINDS))
    yield Run("panels, three ticks", ["diagnose", "--k", "0", "two-modes"], TICKS, ("json", "count"))


def runs_of_the_pump(file):
    """Runs on the example of the pump, as the README has them."""
    first = b"".join((EXAMPLES / "pump.log").read_bytes().splitlines(keepends=True)[:3])
    yield Run("ask", ["ask", PUMP, file("early", first + b"3200000 tick\n")])
    yield Run("predict", ["predict", "--ahead", "3600000", PUMP, file("first", first), "MotorHot"])
    yield Run("fleet", ["fleet", "--k", "1", PUMP, "north,south,east"], (EXAMPLES / "pumps.log").read_bytes())


def unchained(report):
    """The report without the last reason of its last cycle, which then does not chain."""
    lines = report.split(b"\n")
    cycle = max(number for number, line in enumerate(lines) if line.startswith(b"cycle "))
    reasons = int(lines[cycle].split()[1])
    lines[cycle] = b"cycle %d" % (reasons - 1)
    del lines[cycle + reasons]
    return b"\n".join(lines)


def ends_of_blocks(run, whole):
    """How many bytes those fronts of the output have that end with a block. The other commands write one text at their end."""
    lines = whole.splitlines(keepends=True)
    if run.words[0] not in ("diagnose", "fleet"):
        return {0, len(whole)}
    heads = sum(line.startswith(b"report ") for line in lines)
    ends, size = {0, len(whole)}, 0
    for line in lines:
        size += len(line)
        word = line.split()[0]
        heads -= word == b"report"
        if word in (b"refused", b"counts", b"stray") or word == b"report" and heads == 0:
            ends.add(size)
    return ends


def without_losses(out):
    """The output without the lines of lost panels, these by their numbers, each with its round and why, and how many rounds there are.

    A line of a lost panel that may not stand where it does is left in the output, which then is no front of the right one."""
    kept, losses, rounds, after = [], {}, 0, None
    for line in out.splitlines(keepends=True):
        found = LOST_PANEL.fullmatch(line)
        if found and after is not None and int(found[1]) > after and int(found[1]) not in losses:
            after = int(found[1])
            losses[after] = (rounds, found[2].decode())
            continue
        kept.append(line)
        after = 0 if line.startswith(b"counts ") else None
        rounds += after == 0
    return b"".join(kept), losses, rounds


def panels_are_right(came, right, losses, rounds):
    """Whether each panel has written exactly its lines of the rounds that it was told."""
    for number, (wrote, whole) in enumerate(zip(came.files, right.files), 1):
        told = losses[number][0] - 1 if number in losses else rounds
        lines = whole.splitlines(keepends=True)[:told]
        if len(lines) != told or wrote != (b"".join(lines) if told else None):
            return False
    return all(number <= len(came.files) for number in losses)


def ending(came, right, ends):
    """In words, how a run ended, and how many of its panels were lost."""
    out, losses, rounds = without_losses(came.out)
    if len(out) not in ends or not right.out.startswith(out):
        return "other bytes", 0
    if any(why != "memory" for _, why in losses.values()):
        return "a panel that failed", len(losses)
    if not panels_are_right(came, right, losses, rounds):
        return "other bytes of a panel", len(losses)
    if came.status == NO_MEMORY and came.err in (b"no memory\n", b""):
        return "out of memory" if came.err else "out of memory, and no line", len(losses)
    if (came.status, out) == (right.status, right.out) and came.err in (right.err, b""):
        return "the answer" if came.err == right.err else "the answer, and no line", len(losses)
    return f"status {came.status} {came.err[:60]!r}", len(losses)


def show(refusing, run, sums):
    """Two lines: one request refused, and all from one on. Returns whether all is well."""
    right = refusing.run(run)
    again = refusing.run(run)
    if (right.out, right.files, right.requests) != (again.out, again.files, again.requests):
        print(f"{run.name}: two runs differ: {right.requests} and {again.requests} requests")
    well = right.status == run.status
    ends = ends_of_blocks(run, right.out)
    for name, last in (("one", lambda first: first), ("all from one on", lambda first: 2**63)):
        found, lost, where, fronts = Counter(), 0, {}, set()
        for first in range(1, right.requests + 1):
            came = refusing.run(run, first, last(first))
            said, panels = ending(came, right, ends)
            found[said] += 1
            lost += panels
            where.setdefault(said, []).append(first)
            fronts.add(len(came.out))
        told = f"{in_words(found)}; {lost} panels lost" if run.panels else in_words(found)
        print(f"{run.name}, {right.requests} requests, {name} refused: {told}; {sizes(fronts)} of {len(right.out)} bytes", flush=True)
        if name == "one":
            sums += found + Counter({"panels lost": lost})
        well &= tell_others(where)
    return well


def in_words(found):
    """How often each end came."""
    return ", ".join(f"{times} times {said}" for said, times in found.most_common())


def sizes(fronts):
    """How many bytes were written, in all runs."""
    sizes = [str(size) for size in sorted(fronts)]
    return "written " + ", ".join(sizes if len(sizes) <= 12 else [*sizes[:6], "..", *sizes[-5:]])


def tell_others(where):
    """Prints the requests after which anything else came. Returns whether there are none."""
    allowed = ("out of memory", "the answer")
    others = {said: places for said, places in where.items() if said.removesuffix(", and no line") not in allowed}
    for said, places in others.items():
        print(f"    {said}: at the requests {' '.join(str(place) for place in places[:20])}")
    return not others


def show_all(what, chosen, show_one):
    """Shows each by itself, and then their sums. Returns the status to end with."""
    sums = Counter()
    well = all([show_one(one, sums) for one in chosen])
    lost = sums.pop("panels lost", 0)
    print(f"{len(chosen)} {what}, {sums.total()} requests, one refused: {in_words(sums)}; {lost} panels lost")
    return int(not well)


def main():
    arguments = word_reader(__doc__)
    arguments.add_argument("--only", action="append", metavar="WORD", help="only the runs whose names begin so")
    words = arguments.parse_args()
    with folder_for() as top:
        refusing = Refusing(built_program(words.program), top)
        chosen = [run for run in runs(refusing, top) if is_wanted(run.name, words.only)]
        return show_all("runs", chosen, lambda run, sums: show(refusing, run, sums))


if __name__ == "__main__":
    sys.exit(main())

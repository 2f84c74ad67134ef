#!/usr/bin/env python3
"""Times the judge of reports beside `wc -l` and a reader in Python: megabytes a second of processor time, and peak memory. The
shortest of three runs.

    bench/check.py [--megabytes N] [--only WORD].. [--program FILE] [--keep FOLDER]

Most reports are those of `diagnose`, for a log that is long enough for N megabytes (50 if nothing is said) if there is such a log:

- "many pairs": 1,020 pairs explain the log and none alone, so each round has 1,020 traces.
- "two faults": 64 failure modes, 512 nodes and 2,048 edges; a round has what the tree of each set grew by, and the traces.
- "generated": the graph of `generate --size 100`, its log, and ticks after it.
- "hard": a small dense graph of `bench/compare.py` whose report has tens of thousands of splits in few rounds.
- "kept": 2,081 and 4,096 hypotheses with a budget of 1, most of them open in each round.
- "few lines": 4,096 hypotheses of which one is ranked and the others are covered, in 65,536 rounds of three lines each.
- "nested": one round in which one hypothesis has a million splits, each in the first alternative of the one before.

"check" judges the report. "reader" is `check` of the same lines in one round that never ends: all of them are read, and none is judged.
"""

import random
import subprocess
import sys
from pathlib import Path

from compare import HARD, hard_row
from diagnose import TWO_MODES, kept_searches, large_graph, large_script, many_pairs
from lib.graphs import ticks
from lib.program import built_program, folder_for, is_wanted, simulated, word_reader
from lib.timing import shortest
from tfpg.limits import MOST_EVENTS

READER = "import sys; print(sum(len(line.split()) for line in sys.stdin.buffer))"


def told(words, text):
    """What the shortest of some runs said first, on either stream, its seconds, and its peak memory in KB."""
    ran = shortest(words, text, status=None, peak=True)
    return (ran.output + ran.said).decode().split("\n")[0], max(ran.seconds, 1e-6), ran.peak


def report_of(program, top, name, words, graph, log, limit):
    """Writes the report of a log, of whole blocks up to so many bytes or of the first one, and the front of the log that it is of."""
    whole = top / f"{name}.log"
    whole.write_text(log)
    with open(whole, "rb") as stream:
        process = subprocess.Popen([program, "diagnose", *words, graph], stdin=stream, stdout=subprocess.PIPE)
        text = process.stdout.read(limit)
        while b"\ncounts " not in text and (more := process.stdout.read(limit)):
            text += more
        process.kill()
        process.communicate()
    lines = text.split(b"\n")[:-1]
    while not lines[-1].startswith((b"counts ", b"refused ", b"report ")):
        lines.pop()
    blocks = sum(line.startswith((b"counts ", b"refused ")) for line in lines)
    (top / f"{name}.report").write_bytes(b"\n".join(lines) + b"\n")
    whole.write_text("".join(log.splitlines(keepends=True)[:blocks]))


def in_one_round(report):
    """The same lines of hypotheses in one round that has no counts."""
    head, *lines = report.split(b"\n")[:-1]
    kinds = {b"ranked": 1, b"at": 1, b"open": 2, b"rejected": 3, b"round": 4, b"counts": 4, b"refused": 4}
    kept = sorted((line for line in lines if kinds.get(line.split(b" ", 1)[0], 0) < 4), key=lambda line: kinds.get(line.split(b" ", 1)[0], 0))
    return b"\n".join([head, b"round 1 1 0", *kept]) + b"\n"


def show(program, name, top, graph):
    """One line: what the report has, and how fast it is read."""
    report, read = top / f"{name}.report", top / f"{name}.read"
    text = report.read_bytes()
    read.write_bytes(in_one_round(text))
    words = [program, "check", graph, top / f"{name}.log"]
    rate = lambda file, took: file.stat().st_size / took / 1e6
    _, counting, _ = told(["wc", "-l"], report)
    _, python, _ = told([sys.executable, "-c", READER], report)
    said, judging, peak = told(words, report)
    ended, reading, read_peak = told(words, read)
    splits = text.count(b"\nsplit ")
    print(
        f"{name:12} {report.stat().st_size / 1e6:5.1f} MB, {splits:7} splits, {said:20} check {rate(report, judging):6.1f} MB/s"
        f"{peak / 1024:7.1f} MB resident   reader {rate(read, reading):6.1f} MB/s {read_peak / 1024:6.1f} MB"
        f"{'' if ended.endswith('EndsEarly') else '  ' + ended}   wc {rate(report, counting):6.0f} MB/s   python {rate(report, python):5.1f} MB/s",
        flush=True,
    )


class Draws:
    """The generator of `generate`: PCG32 with this number as state, on the stream 1."""

    def __init__(self, number):
        self.increment = 3
        self.state = (number + self.increment) % 2**64
        self.step()

    def step(self):
        self.state = (self.state * 6364136223846793005 + self.increment) % 2**64

    def draw(self, below):
        state = self.state
        self.step()
        word, turn = (((state >> 18) ^ state) >> 27) % 2**32, state >> 59
        return ((word >> turn | word << (32 - turn)) % 2**32) % below


def generated_case(number, size):
    """The graph and the script that `generate` draws."""
    draws = Draws(number)
    draw, name = draws.draw, lambda node: f"F{node}" if node < 16 else f"D{node - 16}"
    nodes, edges = [f"failure F{place} {place + 1}" for place in range(16)], []
    for node in range(16, 16 + 4 * size):
        a, b, c, w, g = draw(node), draw(node), draw(8), draw(4), draw(20)
        nodes.append(f"{'and' if a != b and c == 0 else 'or'} {name(node)} {'hidden' if w == 0 else f'watch {g}'}")
        for source in [a] if a == b else [a, b]:
            m, r, u, v = draw(50), draw(50), draw(16), draw(8)
            edges.append(f"edge {name(source)} {name(node)} {m} {'inf' if u == 0 else m + r} {'M0' if v == 0 else '*'}")
    x, y = draw(16), draw(16)
    script = [f"0 start F{x}", *([f"50 start F{y}"] if x != y else [])]
    script += ["100 mode M1", "140 mode M0", "200 sweep", "300 sweep", "400 stop"]
    return "\n".join(["tfpg 1", "mode M0", "mode M1", *nodes, *edges, "end"]) + "\n", "\n".join(script) + "\n"


def nested(count):
    """A report of two-modes in which the first failure mode has so many splits, none of whose alternatives is closed."""
    lines = [f"report 1 k 1 budget {count}", "round 1 1 30", "hyp 0", "cycle 2", "why unreached A 30", "why upto 1", "hyp 1"]
    lines += ["split ormay A 0 30"] * count
    lines += ["ranked 2 cost 5 robust 1/1 set F2", "at F2 25", "at A 30", "open 1 set F1", "rejected 0 set -"]
    return "\n".join([*lines, "counts ranked 1 covered 0 rejected 1 open 1"]) + "\n"


def twelve():
    """A graph of twelve failure modes and nothing else, which has 4,096 sets."""
    return "\n".join(["tfpg 1", "mode N", *[f"failure F{place} 1" for place in range(12)], "end"]) + "\n"


def cases(program, top, limit):
    """The name, the graph, and how its report is made, of each case in turn."""
    draws = random.Random(7)
    texts = {"pairs": many_pairs(), "large": large_graph(draws), "script": large_script(draws, 8_000), "kept": kept_searches()}
    texts["drawn"], texts["drawn-script"] = generated_case(1, 100)
    texts |= {"twelve": twelve(), "two-modes": TWO_MODES}
    for name, text in texts.items():
        (top / name).write_text(text)
    later = ticks(401, 60_000)
    log_of = lambda draw, graph, script: simulated(program, draw, top / graph, top / script).decode()
    of = lambda name, words, graph, log: report_of(program, top, name, words, top / graph, log(), limit)
    yield "many pairs", "pairs", lambda: of("many pairs", [], "pairs", lambda: "100 alarm A\n110 alarm B\n" + later)
    yield "two faults", "large", lambda: of("two faults", ["--k", "1"], "large", lambda: log_of(5, "large", "script"))
    yield "generated", "drawn", lambda: of("generated", [], "drawn", lambda: log_of(1, "drawn", "drawn-script") + later)
    for draw in HARD[:2]:

        def hard(draw=draw):
            row = hard_row(program, top, draw)
            report_of(program, top, f"hard {draw}", row.words[1:-1], row.words[-1], row.log.read_text(), limit)

        yield f"hard {draw}", f"hard{draw}.tfpg", hard
    for name, words in (("kept 2081", []), ("kept 4096", ["--doubt", "1"])):
        yield name, "kept", lambda name=name, words=words: of(name, [*words, "--budget", "1"], "kept", lambda: "100 alarm A\n" + later)
    yield "few lines", "twelve", lambda: of("few lines", ["--k", "12"], "twelve", lambda: ticks(0, MOST_EVENTS))

    def nest():
        (top / "nested.log").write_text("30 alarm A\n")
        (top / "nested.report").write_text(nested(1_000_000))

    yield "nested", "two-modes", nest


def main():
    arguments = word_reader(__doc__)
    arguments.add_argument("--megabytes", type=int, default=50)
    arguments.add_argument("--only", action="append", metavar="WORD", help="only the cases whose names begin so")
    arguments.add_argument("--keep", type=Path, help="the folder for graphs, logs and reports, which stay there")
    words = arguments.parse_args()
    program = built_program(words.program)
    with folder_for(words.keep) as top:
        for name, graph, make in cases(program, top, words.megabytes * 1_000_000):
            if is_wanted(name, words.only):
                make()
                show(program, name, top, top / graph)
    return 0


if __name__ == "__main__":
    sys.exit(main())

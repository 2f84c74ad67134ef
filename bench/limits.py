#!/usr/bin/env python3
"""Tries the limits that no row can hold: the longest input, and how much stack and memory the largest inputs take.

    bench/limits.py [--program FILE] [--stack KB]

- An input of 2^32 bytes is diagnosed: it is one line that is too long. One byte more ends the run with `too much input`, and what was
  written before stands. `explain` ends so too.
- 65,536 events are accepted, and the next line is refused as `LogFull`.
- With a stack of so many KB (192 if nothing is said): a report of 10^6 nested splits, a map of all of 512 nodes, JSON of 127 levels, a
  graph of 512 nodes in one chain, 512 monitors of which one may be doubted, and a map and a report whose set names all monitors.

Each line says what was tried, how the run ended, its seconds, and its peak memory. The exit status is 1 if one did not end as it should.
"""

import resource
import subprocess
import sys

import explain
from check import nested
from diagnose import TWO_MODES
from lib.graphs import ticks
from lib.program import built_program, folder_for, word_reader
from lib.timing import ended, with_peak
from tfpg.limits import INPUT_BYTES, MOST_EVENTS, MOST_NODES

SMALL = "tfpg 1\nmode N\nfailure F 1\nor A watch 5\nedge F A 1 3 *\nend\n"
MEGABYTE = b"a" * 2**20


def fed(words, pieces, folder, stack=None):
    """How a run of the program on these pieces of input ended, in a stack of so many KB."""
    out, said = folder / "out", folder / "said"

    def with_stack():
        if stack is not None:
            resource.setrlimit(resource.RLIMIT_STACK, (stack * 1024, stack * 1024))

    def feed():
        with open(out, "wb") as written, open(said, "wb") as line:
            process = subprocess.Popen(with_peak(words), stdin=subprocess.PIPE, stdout=written, stderr=line, preexec_fn=with_stack)
            try:
                for piece in pieces:
                    process.stdin.write(piece)
                process.stdin.close()
            except BrokenPipeError:
                pass
            return subprocess.CompletedProcess(words, process.wait(), out.read_bytes(), said.read_bytes())

    return ended(feed, peak=True)


def long_input(count):
    """So many bytes without a line end."""
    for _ in range(count // len(MEGABYTE)):
        yield MEGABYTE
    yield MEGABYTE[: count % len(MEGABYTE)]


def full_log():
    """A line more than a log has room for, each of which would be accepted if there were room."""
    yield ticks(0, MOST_EVENTS + 1).encode()


def chain():
    """As many nodes as a graph may have, each of which leads to the next."""
    lines = ["tfpg 1", "mode N", "failure F 1"] + [f"or A{number} watch 5" for number in range(MOST_NODES - 1)]
    lines += ["edge F A0 1 3 *"] + [f"edge A{number} A{number + 1} 1 3 *" for number in range(MOST_NODES - 2)]
    return "\n".join(lines + ["end"]) + "\n"


def ring():
    """As many monitors as a graph may have nodes, each of which leads to the next."""
    lines = ["tfpg 1", "mode N"] + [f"or A{number} watch 5" for number in range(MOST_NODES)]
    lines += [f"edge A{number} A{(number + 1) % MOST_NODES} 1 2 *" for number in range(MOST_NODES)]
    return "\n".join(lines + ["end"]) + "\n"


def wide_set():
    """The set of the failure mode and all monitors of the chain."""
    return "set F" + "".join(f",!A{number}" for number in range(MOST_NODES - 1)) + "\n"


def deep_json():
    """The JSON of the small graph, with 126 levels of lists under a key that is ignored."""
    graph = (
        '{"modes":["N"],"nodes":[{"name":"F","kind":"failure","rarity":1},{"name":"A","kind":"or","lag":5}],'
        '"edges":[{"from":"F","to":"A","min":1,"max":3,"modes":null}],"note":' + "[" * 126 + "]" * 126 + "}"
    )
    return graph + "\n"


def main():
    parser = word_reader(__doc__)
    parser.add_argument("--stack", type=int, default=192)
    given = parser.parse_args()
    program = built_program(given.program)
    wrong = 0
    with folder_for() as folder:

        def text(name, content):
            path = folder / name
            path.write_text(content)
            return str(path)

        def tell(what, run, is_right):
            nonlocal wrong
            right = is_right(run.output, run.said.decode(), run.status)
            wrong += not right
            how = "as it should" if right else f"WRONG: {run.status} {run.said!r} {run.output[-80:]!r}"
            print(f"{what}: {how}, {run.seconds:.1f} s, {run.peak / 1024:.0f} MB", flush=True)

        small = text("small", SMALL)
        empty = text("empty", "")
        head = b"report 2 k 2 doubt 0 budget 1000\n"
        tell(
            "diagnose, 2^32 bytes in one line",
            fed([program, "diagnose", small], long_input(INPUT_BYTES), folder),
            lambda out, said, status: status == 0 and out == head + b"refused 1 TooLong\n",
        )
        tell(
            "diagnose, a byte more",
            fed([program, "diagnose", small], long_input(INPUT_BYTES + 1), folder),
            lambda out, said, status: said == "too much input\n" and out == head,
        )
        tell(
            "explain, a byte more",
            fed([program, "explain", small, empty], long_input(INPUT_BYTES + 1), folder),
            lambda out, said, status: said == "too much input\n" and out == b"",
        )
        tell(
            f"diagnose, {MOST_EVENTS + 1:,} events",
            fed([program, "diagnose", small], full_log(), folder),
            lambda out, said, status: status == 0 and out.endswith(b"refused %d LogFull\n" % (MOST_EVENTS + 1)),
        )
        stack = given.stack
        graph, log = text("two-modes", TWO_MODES), text("nested.log", "30 alarm A\n")
        tell(
            f"check, 10^6 nested splits, a stack of {stack} KB",
            fed([program, "check", graph, log], [nested(1_000_000).encode()], folder, stack),
            lambda out, said, status: status == 0 and out.startswith(b"accepted "),
        )
        graph = text("wide", "\n".join(explain.graph()) + "\n")
        log = text("log", "\n".join(explain.log()) + "\n")
        tell(
            f"explain, a map of {MOST_NODES} nodes, a stack of {stack} KB",
            fed([program, "explain", graph, log], ["\n".join(explain.all_nodes()).encode() + b"\n"], folder, stack),
            lambda out, said, status: status == 0 and out == b"yes\n",
        )
        tell(
            f"convert, JSON of 127 levels, a stack of {stack} KB",
            fed([program, "convert", "--json", text("json", deep_json())], [], folder, stack),
            lambda out, said, status: status == 0 and out.decode() == SMALL,
        )
        tell(
            f"diagnose, a chain of {MOST_NODES} nodes, a stack of {stack} KB",
            fed([program, "diagnose", text("chain", chain())], [b"100 alarm A0\n2000 alarm A%d\n" % (MOST_NODES - 2)], folder, stack),
            lambda out, said, status: status == 0 and b"ranked" in out,
        )
        tell(
            f"diagnose, {MOST_NODES} monitors of which one may be doubted, a stack of {stack} KB",
            fed([program, "diagnose", "--k", "1", "--doubt", "1", text("ring", ring())], [b"9 alarm A0\n"], folder, stack),
            lambda out, said, status: status == 0 and b"\ncounts " in out,
        )
        graph, log = str(folder / "chain"), text("alarm.log", "100 alarm A0\n")
        tell(
            f"explain, a set that names {MOST_NODES - 1} monitors, a stack of {stack} KB",
            fed([program, "explain", graph, log], [f"{wide_set()}at F 100\n".encode()], folder, stack),
            lambda out, said, status: status == 0 and out.startswith((b"yes", b"no ")),
        )
        report = f"report 2 k 1 doubt 1 budget 1\nround 1 1 100\nranked 0 cost 0 robust 1/1 {wide_set()}counts ranked 1 covered 0 rejected 0 open 0\n"
        tell(
            f"check, a set that names {MOST_NODES - 1} monitors, a stack of {stack} KB",
            fed([program, "check", graph, log], [report.encode()], folder, stack),
            lambda out, said, status: said == "not accepted 3 WrongRanked\n" and status == 1,
        )
    sys.exit(1 if wrong else 0)


if __name__ == "__main__":
    main()

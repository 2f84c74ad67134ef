#!/usr/bin/env python3
"""Times `convert` on the largest graph, both ways, and `convert --json` on hostile texts of 16 MiB.

    bench/json_speed.py [--program FILE] [--only WORD].. [--runs N] [--keep FOLDER]

- "to JSON", "from JSON": the graph of `bench/graph_texts.py`, with 512 nodes, 2,048 edges and 64 modes, and in each edge a list of
  63 names of 32 bytes. The JSON that comes must be read back as the same text.
- the others are texts that are no graph, each of them refused with `graph 0 BadLine`: arrays that nest without an end, as deep as may
  be, or empty; numbers; a number of 16 MiB; texts, short ones, a long one, one of escapes; objects, empty or with one member; keys in
  one object, rising, falling or mixed; blanks; and a text whose last byte is wrong, because it is no UTF-8, or no JSON.

A line has the processor time beyond the start of the program on the smallest graph, the shortest of some runs, and the peak memory.
"""

import random
import sys
from pathlib import Path

from graph_texts import largest_graph
from lib.program import built_program, folder_for, is_wanted, word_reader
from lib.timing import shortest
from tfpg.limits import FILE_BYTES

SMALLEST = "tfpg 1\nmode N\nend\n"
BAD_GRAPH = 3


def filled(front, item, back, between=","):
    """A text as large as may be that has this item as often as it fits."""
    count = (FILE_BYTES - len(front) - len(back) + len(between)) // (len(item) + len(between))
    return front + between.join([item] * count) + back


def numbered(order):
    """One object with as many keys of seven digits as fit, in this order."""
    count = (FILE_BYTES - 2) // len('"1234567":0,')
    return "{" + ",".join(f'"{number:07}":0' for number in order(range(count))) + "}"


def mixed(numbers):
    found = list(numbers)
    random.Random(1).shuffle(found)
    return found


def hostile_texts():
    """The name of each text, and how it is made."""
    deep = "[" * 126 + "]" * 126
    zeros = filled("[", "0", "]")
    yield "nesting without an end", lambda: "[" * FILE_BYTES
    yield "nesting as deep as may be", lambda: filled("[", deep, "]")
    yield "empty arrays", lambda: filled("[", "[]", "]")
    yield "numbers", lambda: zeros
    yield "a long number", lambda: "1" * FILE_BYTES
    yield "a long fraction", lambda: "0." + "1" * (FILE_BYTES - 2)
    yield "empty texts", lambda: filled("[", '""', "]")
    yield "short texts", lambda: filled("[", '"a"', "]")
    yield "a long text", lambda: '"' + "a" * (FILE_BYTES - 2) + '"'
    yield "a text of escapes", lambda: filled('"', "\\u0041", '"', between="")
    yield "empty objects", lambda: filled("[", "{}", "]")
    yield "small objects", lambda: filled("[", '{"":0}', "]")
    yield "nested objects", lambda: filled("[", '{"":' * 126 + "0" + "}" * 126, "]")
    yield "rising keys", lambda: numbered(lambda numbers: numbers)
    yield "falling keys", lambda: numbered(reversed)
    yield "mixed keys", lambda: numbered(mixed)
    yield "the same key", lambda: filled("{", '"":0', "}")
    yield "blanks", lambda: " " * FILE_BYTES
    yield "lines", lambda: "\n" * FILE_BYTES
    yield "no UTF-8 at the end", lambda: zeros[:-1].encode() + b"\xff"
    yield "no JSON at the end", lambda: zeros[:-1] + "}"
    yield "a graph that is cut short", lambda: filled('{"modes":["N"],"edges":[],"nodes":[', '{"kind":"or","name":"A"}', "")


def show(name, size, seconds, peak):
    print(f"{name:26} {size / 1e6:5.1f} MB {1000 * seconds:7.1f} ms {peak / 1024:7.1f} MB resident", flush=True)


def main():
    arguments = word_reader(__doc__)
    arguments.add_argument("--only", action="append", metavar="WORD", help="only the texts whose names begin so")
    arguments.add_argument("--runs", type=int, default=7)
    arguments.add_argument("--keep", type=Path, help="the folder for the texts, which stay there")
    words = arguments.parse_args()
    program = built_program(words.program)
    with folder_for(words.keep) as top:
        (top / "smallest").write_text(SMALLEST)
        convert = lambda *names, runs=words.runs, **how: shortest([program, "convert", *names], runs=runs, peak=True, **how)
        start = convert(top / "smallest", runs=3 * words.runs).seconds
        random.seed(1)
        text, json = top / "largest", top / "largest.json"
        text.write_text(largest_graph())
        to_json = convert(text)
        written = to_json.output
        json.write_bytes(written)
        if is_wanted("to JSON", words.only):
            show("to JSON", len(written), to_json.seconds - start, to_json.peak)
        if is_wanted("from JSON", words.only):
            from_json = convert("--json", json)
            show("from JSON", len(written), from_json.seconds - start, from_json.peak)
            (top / "again").write_bytes(from_json.output)
            if convert(top / "again", runs=1).output != written:
                raise SystemExit("the graph that is read back is another one")
        for number, (name, make) in enumerate(hostile_texts()):
            if is_wanted(name, words.only):
                made = make()
                hostile = top / f"hostile-{number}.json"
                hostile.write_bytes(made if isinstance(made, bytes) else made.encode())
                refused = convert("--json", hostile, status=BAD_GRAPH)
                if refused.said != b"graph 0 BadLine\n":
                    raise SystemExit(f"{name}: {refused.said!r}")
                show(name, hostile.stat().st_size, refused.seconds - start, refused.peak)
    return 0


if __name__ == "__main__":
    sys.exit(main())

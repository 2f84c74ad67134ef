#!/usr/bin/env python3
"""Refuses each request for memory of worked rows in turn, one at a time, and says how they end.

    bench/refuse_rows.py --program FILE [--only WORD]..

FILE is the built program of `crates/tfpg_rows`. Its runs have what no run of `tfpg` has: panels in memory, and calls over texts. The rows
are those of the group "Panels" of its `stdin` in which no other call fails, and those of `OVER_TEXTS`. The program is given one row at a
time, with the files that the row names and with one call of it, by pieces of 4,096 bytes, so that a run is made once. With no request
refused it has to write what `stdout` says of the call. Then it is given the row once for each of its requests, with that one refused.

The program makes requests too: it reads rows, and makes the streams, the panels and the texts of their runs. They are told from those of a
run by what comes. If the program itself runs out of memory, it writes nothing and ends with status 1. If the run does, the program
writes all that came of it: that it ended with `no memory`; that its output or its shelf in memory failed, as they do if they run out
of it; or that a panel ran out of memory, and the run went on to its end.

What a run wrote has to be a front of the right output that ends with a block, but for the line of the panel that ran out of memory. That
panel was told exactly the rounds before, and each other one those whose texts were written whole, unless the row itself loses it. A call
over texts has to end with `no memory`, or as the row says: in the report at once, in the one line by line, and in the judgement. A line for
each row says how many requests there are, how often each end came, how many panels were lost, and how many bytes were written.
Ends with status 1 where anything else came.
"""

import argparse
import sys
from collections import Counter
from dataclasses import dataclass, field
from pathlib import Path

from lib import TOP
from lib.program import folder_for, is_wanted
from refuse import Refusing, Run, ends_of_blocks, in_words, show_all, sizes, without_losses

ROWS = TOP / "crates" / "tfpg_rows"
OVER_TEXTS = (
    b"pieces change no byte",
    b"a budget of 1, which leaves the set open for one round",
    b"a last line without a line end",
    b"a right report is accepted",
)
CALLS = (b"run ", b"diagnose-texts ", b"check-texts ")
BY_LINES = b"other line by line:"
ITSELF = "the program itself out of memory"
FAULTS = {b"no memory": "out of memory", b"write fault": "its output in memory failed", b"read fault": "its shelf in memory failed"}


@dataclass
class Part:
    """What came of a call, or of one way to make it: its first line, what it wrote, how it ended, and the lines of its panels."""

    head: bytes
    wrote: bytes = b""
    end: bytes = b""
    panels: list = field(default_factory=list)

    def fault(self):
        """The fault that it ended with, or nothing."""
        return self.end.partition(b": ")[2]


def parts_of(lines):
    """What lines of an answer say of the calls."""
    parts = []
    for line in lines:
        if line.startswith(b"|") and (not parts or parts[-1].end):
            parts.append(Part(b""))
        if line.startswith(b"|"):
            text = line[2:]
            parts[-1].wrote += text[:-1] if text.endswith(b"\\") else text + b"\n"
        elif line.startswith(b"status "):
            if not parts or parts[-1].end:
                parts.append(Part(b""))
            parts[-1].end = line
        elif line.startswith(b"panel "):
            parts[-1].panels.append(line)
        elif line and not line.startswith((b"row ", b"group ")):
            parts.append(Part(line))
    return parts


def rows_wanted():
    """For each row by its title the lines that have to come."""
    rows, title = {}, b""
    for line in (ROWS / "stdout").read_bytes().split(b"\n"):
        if line.startswith((b"row ", b"group ")):
            title = line
        rows.setdefault(title, []).append(line)
    return rows


def rows():
    """The rows that are tried, each as its title, the text that the program is given, and the parts that have to come."""
    wanted, files, name, found, group = rows_wanted(), {}, None, [], b""
    for line in (ROWS / "stdin").read_bytes().split(b"\n"):
        word, _, rest = line.partition(b" ")
        if word == b"file":
            name, files[rest] = rest, [line]
        elif name is not None and word in (b"|", b"repeat", b"#"):
            files[name].append(line)
        elif word == b"group":
            name, group = None, rest
        elif word == b"row":
            name, row = None, (group, line, [line, b"room 4096"], {})
            found.append(row)
        elif found:
            name = None
            row[2].append(line)
            if line.startswith((b"input ", *CALLS)):
                row[3].update((used, list(files[used])) for used in rest.split() if used in files)
    for group, title, lines, named in found:
        is_panels = group.startswith(b"Panels")
        if not is_panels and title[4:] not in OVER_TEXTS or any(line.startswith(b"fails ") for line in lines):
            continue
        calls = [line for line in lines if line.startswith(CALLS[:1] if is_panels else CALLS[1:])]
        if len(calls) == 1:
            given = [line for line in lines if not line.startswith(CALLS)]
            text = [line for file in named.values() for line in file] + given + calls
            yield title[4:].decode(), b"\n".join(text) + b"\n", parts_after(calls[0], parts_of(wanted[title]))


def parts_after(call, parts):
    """The parts of this call."""
    first = next(number for number, part in enumerate(parts) if part.head == call)
    last = next((number for number in range(first + 1, len(parts)) if parts[number].head), len(parts))
    return parts[first:last]


def came_of_run(came, right):
    """In words, how a run ended, and how many panels were lost that the row does not lose so."""
    if came.fault() in (b"write fault", b"read fault"):
        fronts = [whole.startswith(front) for front, whole in zip(map(told, came.panels), map(told, right.panels))]
        return FAULTS[came.fault()] if right.wrote.startswith(came.wrote) and all(fronts) else "other bytes", 0
    out, losses, rounds = without_losses(came.wrote)
    whole, lost, _ = without_losses(right.wrote)
    more = {panel: loss for panel, loss in losses.items() if lost.get(panel) != loss}
    if not whole.startswith(out) or len(out) not in ends_of_blocks(Run("", ["diagnose"]), whole):
        return "other bytes", len(more)
    if any(why != "memory" or panel in lost and lost[panel][0] < at for panel, (at, why) in more.items()):
        return "a panel that failed", len(more)
    if any(at <= rounds and panel not in losses for panel, (at, _) in lost.items()):
        return "a panel that was not lost", len(more)
    if came.panels != [panel_line(number, losses, rounds) for number in range(1, len(right.panels) + 1)]:
        return "another panel was told", len(more)
    return end_of(came, right, out == whole), len(more)


def end_of(came, right, is_whole):
    """In words, how a run ended that wrote what it may have written."""
    if came.fault() in FAULTS:
        return FAULTS[came.fault()]
    return "the answer" if came.end == right.end and is_whole else came.end.decode()


def told(line):
    """The rounds that a panel was told, by its line."""
    return (line.partition(b", told ")[2] + b" ").removeprefix(b"- ")


def panel_line(number, losses, rounds):
    """The line of a panel that was lost so, or was told so many rounds."""
    at, why = losses.get(number, (rounds + 1, None))
    said = b"%s at %d" % (why.encode(), at) if why else b"kept"
    told = b" ".join(b"%d" % past for past in range(1, at))
    return b"panel %d %s, told %s" % (number, said, told or b"-")


def came_over_texts(parts, right):
    """In words, how the calls over texts ended: one of them may be out of memory, and each has written a front of its right text."""
    by_lines = [part for part in parts if part.head == BY_LINES]
    others = [part for part in parts if part.head != BY_LINES]
    if parts == right:
        return "the answer"
    for part in by_lines:
        ends = ends_of_blocks(Run("", ["diagnose"]), right[0].wrote)
        if not right[0].wrote.startswith(part.wrote) or len(part.wrote) not in ends:
            return "other bytes"
    starved = [part for part in parts if part.fault() == b"no memory"]
    well = [part for part in others if part.fault() != b"no memory"]
    if len(starved) != 1 or any(part.wrote for part in starved if part in others):
        return "other ends"
    if any(part not in right for part in well) or any(part.end != right[0].end for part in by_lines if part not in starved):
        return "other bytes"
    return "out of memory"


def show(refusing, title, text, right, sums):
    """A line for a row. Returns whether all is well."""
    run = Run(title, [], text)
    whole = refusing.run(run)
    well = whole.status == 0 and parts_of(whole.out.split(b"\n")) == right
    found, lost, fronts = Counter(), 0, set()
    for request in range(1, whole.requests + 1):
        came = refusing.run(run, request, request)
        parts = parts_of(came.out.split(b"\n"))
        said, panels = f"status {came.status}", 0
        if came.status == 1 and not came.out:
            said = ITSELF
        elif came.status == 0 and right[0].head.startswith(CALLS[0]) and len(parts) == 1:
            said, panels = came_of_run(parts[0], right[0])
        elif came.status == 0 and parts:
            said = came_over_texts(parts, right)
        if said not in (ITSELF, "the answer", *FAULTS.values()):
            print(f"    {said}: at request {request}")
            well = False
        found[said] += 1
        lost += panels
        fronts.update([len(parts[0].wrote)] if parts else [])
    sums += found + Counter({"panels lost": lost})
    wrote = f"{sizes(fronts)} of {len(right[0].wrote)} bytes"
    print(f"{title}, {whole.requests} requests, one refused: {in_words(found)}; {lost} panels lost; {wrote}")
    if not well:
        print("    not as the row says")
    return well


def main():
    arguments = argparse.ArgumentParser(description=__doc__, formatter_class=argparse.RawDescriptionHelpFormatter)
    arguments.add_argument("--program", type=Path, metavar="FILE", required=True, help="the built program of the rows")
    arguments.add_argument("--only", action="append", metavar="WORD", help="only the rows whose titles begin so")
    words = arguments.parse_args()
    with folder_for() as folder:
        refusing = Refusing(words.program.resolve(), folder)
        chosen = [row for row in rows() if is_wanted(row[0], words.only)]
        return show_all("rows", chosen, lambda row, sums: show(refusing, *row, sums))


if __name__ == "__main__":
    sys.exit(main())

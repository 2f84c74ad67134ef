#!/usr/bin/env python3
"""Says how much stack a call from C needs at most, by the code of the library, and which functions call themselves.

    tools/checks/c/stack.py LIBRARY

It reads the library, the archive that `./build library` makes, by `objdump`, and adds up the frames of the functions on the deepest path from each call that the
header has. A function that calls itself is entered as often as LEVELS says, the greatest number that its input allows. Prints:

- `recursive FUNCTION BYTES LEVELS` for each function that calls itself: the bytes of one level, and how many there are.
- `stack CALL BYTES OF`: what a call needs by its code, and what the header says. The memory functions and those of the C library that copy
  and fill are not in it.
- `gone FUNCTION` for a function of LEVELS that calls itself no longer.

Ends with status 1 where a function calls itself that LEVELS does not have, or by way of another; where a frame has no known size; where the
address of a function is taken, since a call could then go by it; and where the header says less than a call needs, or lacks one. It is not
proved, and trusts `objdump` and LEVELS.
`tools/checks/c/stack.c` runs the calls in as much stack as the header says.
"""

import argparse
import re
import subprocess
import sys
from functools import lru_cache
from pathlib import Path

TOP = Path(__file__).resolve().parents[3]
HEADER = TOP / "include" / "tfpg.h"
sys.path.insert(0, str(TOP / "python"))

from tfpg.limits import MOST_FAILURES, MOST_NODES, MOST_TIME  # noqa: E402

# How often a function that calls itself is entered at most at once: once for each item of its list, and once for its end.
LEVELS = {
    "tfpg_hyp::listing::append_hypotheses": MOST_FAILURES + 1,
    "tfpg_hyp::listing::append_doubts": MOST_NODES + 1,  # each node may have a monitor
    "tfpg_predict::forecasting::halve": MOST_TIME.bit_length() + 1,  # a range of so many milliseconds, down to one
}
FUNCTION = re.compile(r"[0-9a-f]+ <(.*)>:$")
SECTION = re.compile(r"Disassembly of section (.*):$")
INSTRUCTION = re.compile(r"\s+[0-9a-f]+:\t(\S+)\s*(.*)$")
MOVED = re.compile(r"\t\t\t[0-9a-f]+: R_X86_64_\S+\t(.*?)(?:-0x4)?$")  # where the linker puts an address, below the instruction
LOCAL = re.compile(r"<(.*?)(?:\+0x[0-9a-f]+)?>$")
TABLE = re.compile(r"RELOCATION RECORDS FOR \[(.*)\]:$")
SIZE = re.compile(r"\$0x([0-9a-f]+),%(rsp|r11)$")
WORD = 8  # bytes of a pushed register, and of an address of return


class Function:
    """A function with the bytes of its frame, with the address of return, what it calls, and what is not known of it."""

    def __init__(self):
        self.pushed, self.taken, self.probed, self.calls, self.unknown = WORD, 0, 0, set(), []

    @property
    def frame(self):
        return self.pushed + self.taken + self.probed

    def note(self, word, rest, target):
        """Notes an instruction, with the name that it goes to. A large frame is taken in a loop, down to what is in %r11."""
        size = SIZE.match(rest)
        if word == "push":
            self.pushed += WORD
        elif word == "sub" and size:
            taken = int(size[1], 16)
            self.taken, self.probed = (self.taken + taken, self.probed) if size[2] == "rsp" else (self.taken, taken)
        elif word == "cmp" and rest == "%r11,%rsp" and self.probed:
            self.taken = 0
        elif rest.endswith(",%rsp") and not (word == "add" and size) or word == "call" and "*" in rest:
            self.unknown.append(f"{word} {rest}")
        if target and word != "call" and not word.startswith("j"):
            self.unknown.append(f"takes the address of {target}")
        elif target:
            self.calls.add(target)


def said_by(words, library):
    """The lines that `objdump` says of an archive."""
    return subprocess.run(["objdump", *words, library], check=True, capture_output=True, text=True).stdout.split("\n")


def functions_of(library):
    """The functions of an archive by their names."""
    lines = said_by(["-dr", "--no-show-raw-insn"], library)
    sections = [found[1] for found in map(SECTION.match, lines) if found]
    functions, names, section, name = {}, {}, "", ""
    for line, after in zip(lines, lines[1:]):
        if found := SECTION.match(line):
            section = found[1]
        elif found := FUNCTION.match(line):
            name = names[section] = found[1]
            functions[name] = Function()
        elif name and (found := INSTRUCTION.match(line)):
            moved, local = MOVED.match(after), LOCAL.search(found[2]) if found[1] == "call" else None
            target = moved[1] if moved else local[1] if local else ""
            is_code = found[1] == "call" or target in sections
            functions[name].note(found[1], found[2], target if is_code else "")
    for function in functions.values():
        function.calls = {names.get(target, target) for target in function.calls} & functions.keys()
    return functions


def strange_tables(library):
    """Where data of an archive has an address in a function, but for the places to which the function jumps by a table of its own."""
    section = ""
    for line in said_by(["-r"], library):
        if found := TABLE.match(line):
            section = found[1]
        elif section.startswith((".data", ".rodata")) and ".text" in line:
            target = line.split(None, 2)[2].split("+0x")[0]
            if target != section.replace(".rodata", ".text", 1):
                yield f"{section}: has the address of {target}"


def plain(name):
    """The name of a function without the types that it is made for."""
    return name.split("::<")[0]


def is_reached(functions, source, target):
    """Whether a call of the one function may lead to one of the other."""
    seen, open_names = set(), [source]
    while open_names:
        for name in functions[open_names.pop()].calls - seen:
            seen.add(name)
            open_names.append(name)
    return target in seen


def main():
    reader = argparse.ArgumentParser(description=__doc__, formatter_class=argparse.RawDescriptionHelpFormatter)
    reader.add_argument("library", type=Path, metavar="LIBRARY")
    library = reader.parse_args().library
    functions = functions_of(library)
    said = {name.lower(): int(size) * 1024 for name, size in re.findall(r"#define TFPG_STACK_OF_(\w+) \((\d+) \* 1024\)", HEADER.read_text())}
    calls = sorted(name for name in functions if re.fullmatch(r"tfpg_\w+", name))
    wrong = [f"{plain(name)}: {what}" for name, function in functions.items() for what in function.unknown] + list(strange_tables(library))
    recursive = {name for name in functions if is_reached(functions, name, name)}
    for name in sorted(recursive):
        levels = LEVELS.get(plain(name), 0)
        print(f"recursive {plain(name)} {functions[name].frame} {levels or 'unknown'}")
        if not levels:
            wrong.append(f"{plain(name)}: calls itself, and nothing says how often")
        if name not in functions[name].calls:
            wrong.append(f"{plain(name)}: calls itself by way of another")
    for name in sorted(LEVELS.keys() - {plain(name) for name in recursive}):
        print(f"gone {name}")

    @lru_cache(maxsize=None)
    def deepest(name):
        levels = LEVELS.get(plain(name), 1) if name in recursive else 1
        return functions[name].frame * levels + max((deepest(other) for other in functions[name].calls - {name}), default=0)

    if not wrong:
        for name in calls:
            needed, header = deepest(name), said.get(name[len("tfpg_"):], 0)
            print(f"stack {name} {needed} {header}")
            if needed > header:
                wrong.append(f"{name}: the header says {header} bytes of stack, and it needs {needed}")
    if not calls or not recursive and LEVELS.keys() - {plain(name) for name in functions} == LEVELS.keys():
        wrong.append("there is no call, or none of the functions is the library's")
    for line in wrong:
        print(f"wrong: {line}")
    sys.exit(1 if wrong else 0)


if __name__ == "__main__":
    main()

#!/usr/bin/env python3
"""Names that two notions share: definitions of specs/ that stand in two files, types that do, and a type and a definition of two crates.

    tools/checks/names.py [--inside]

Prints a line for each, with the files. Those of `specs/inside/` are left out but with --inside. Exits with 1 if it printed one.
"""
import argparse
import collections
import pathlib
import re
import sys

CRATES = pathlib.Path(__file__).resolve().parents[2] / "crates"
DEFINITION = re.compile(r"(?:abbrev pub|unfoldable pub|pub record|pub data|pub) ([^\s:({]+)")
TYPE = re.compile(r"\s*(?:pub(?:\(\w+\))? )?(?:struct|enum|trait|type) (\w+)")
WORDS = {"mod", "use", "record", "data", "open"}
# Their types are rows of tests.
TESTS = {"tfpg_rows", "tfpg_evidence_tests", "tfpg_model_tests"}


def names(pattern, files):
    found = collections.defaultdict(set)
    for file in files:
        for line in file.read_text().splitlines():
            name = pattern.match(line)
            if name and name.group(1) not in WORDS:
                found[name.group(1)].add(str(file.relative_to(CRATES)))
    return found


def main():
    reader = argparse.ArgumentParser(description=__doc__, formatter_class=argparse.RawDescriptionHelpFormatter)
    reader.add_argument("--inside", action="store_true", help="also those of specs/inside/")
    inside = reader.parse_args().inside
    specs = [it for it in CRATES.glob("*/specs/**/*.antt") if inside or "inside" not in it.parts]
    sources = [it for it in CRATES.glob("*/src/**/*.rt") if it.relative_to(CRATES).parts[0] not in TESTS]
    definitions, types = names(DEFINITION, specs), names(TYPE, sources)
    shared = [("definition", name, files) for name, files in definitions.items() if len(files) > 1]
    shared += [("type", name, files) for name, files in types.items() if len(files) > 1]
    for name in definitions.keys() & types.keys():
        both = definitions[name] | types[name]
        if len({file.split("/")[0] for file in both}) > 1:
            shared.append(("type and definition", name, both))
    for kind, name, files in sorted(shared):
        print(f"{kind} {name}: {', '.join(sorted(files))}")
    return 1 if shared else 0


if __name__ == "__main__":
    sys.exit(main())

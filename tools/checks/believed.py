#!/usr/bin/env python3
"""Prints what a reader has to believe: the definitions in `specs/` that clauses of public calls reach.

    tools/checks/believed.py [--from FUNCTION | --of DEFINITION] [--names]

Without `--from` it begins with the clauses of all public functions and traits and with the values of public models, with
`--from run` with those of the functions of that name, and with `--of IsReport` with the definition of that name. Each word of a
clause or of a definition is looked up where the `use` line of its file says, and from there on. With `--names` each
definition is printed. What a relation of representation is made of in `specs/inside/` is left out, since no promise reads it. It
goes by names and knows no types, so it is a guide and no proof.
"""
import argparse
import re
from pathlib import Path

CRATES = Path(__file__).resolve().parents[2] / "crates"
WORD = re.compile(r"[A-Za-z_][\w'-]*")
USE = re.compile(r"\buse Rattle\.(\w+)\.specs\.([\w.]+)\.\{([^}]*)\}")
DEFINITION = re.compile(r"^(?: {2})?(?:abbrev (?:pub )?|pub (?:abbrev |record |data )?|record |data )([A-Za-z]\S*)(?= [:({]|$)")
# What a type is seen as, and what ties that to its history: what these are made of in `specs/inside/` needs no belief.
REPRESENTS = re.compile(r"Represents|State$")
NO_DEFINITION = re.compile(r"^ *(?:pub )?(?:use|mod|module|abbrev mutual)\b")


class Definition:
    """A definition with its place and its text, which ends where the next one begins."""

    def __init__(self, crate, module, name):
        self.crate, self.module, self.name, self.lines = crate, module, name, []


def imported(text):
    """What the `use` lines of a file bring in: the local name, and where the definition stands under which name."""
    names = {}
    for crate, module, listed in USE.findall(text):
        for item in filter(None, (item.strip() for item in listed.split(","))):
            name, _, local = item.partition(" as ")
            names[local or name] = (crate, module, name)
    return names


def definitions_of(crate, module, text):
    """The definitions of a file. A field of a record is a part of the record."""
    current, in_record = None, False
    for line in text.splitlines():
        head = None if NO_DEFINITION.match(line) else DEFINITION.match(line)
        if line and not line.startswith(" "):
            in_record = bool(re.match(r"(?:pub )?(?:record|data)\b", line))
        if head and not (in_record and line.startswith(" ")):
            current = Definition(crate, module, head[1])
            yield current
        if current and line.strip():
            current.lines.append(line)


def clauses_of(text, wanted):
    """The clauses of the public functions and traits of a source, and the values of its models."""
    for match in re.finditer(r"^( *)(pub )?(?:const )?(?:extern \S+ )?fn (\w+)", text, re.M):
        indent, public, name = match.groups()
        rest = text[match.end():]
        end = re.search(rf"^{indent}[{{}}]|;\s*$", rest, re.M)
        opened = text[: match.start()].rpartition("\npub trait ")
        in_trait = indent and opened[1] and "\n}" not in opened[2]
        if (public or in_trait) and wanted in (None, name):
            head = rest[: end.start()] if end else rest
            yield from re.findall(r"(?:requires|ensures)[^{]*\{(.*?)\}\s*(?=requires|ensures|$)", head, re.S)
    if wanted is None:
        for name, body in re.findall(r"^impl\b[^\n]*\bModel for (\w+)(.*?)^\}", text, re.M | re.S):
            if re.search(rf"^pub (?:struct|enum) {name}\b", text, re.M):
                yield from re.findall(r"^\s*ghost Value = \{(.*?)\};", body, re.M | re.S)
        for trait in re.findall(r"^pub trait .*?^\}", text, re.M | re.S):
            yield from re.findall(r"ghost [^;]*;", trait)


def read_definitions():
    """All definitions by their places, and what each file of definitions imports."""
    found, imports = {}, {}
    for file in sorted(CRATES.glob("*/specs/**/*.antt")):
        crate, _, *path = file.relative_to(CRATES).with_suffix("").parts
        module, text = ".".join(path), file.read_text()
        imports[crate, module] = imported(text)
        for definition in definitions_of(crate, module, text):
            found[crate, module, definition.name] = definition
    return found, imports


def is_inside(place):
    """Whether a definition stands in `specs/inside/`."""
    return "inside" in place[1].split(".")


def reached_from(function, definition, found, imports):
    """The places of the definitions that the clauses reach, or else that this definition does, itself among them."""
    reached, waiting = set(), []

    def look_up(text, names, crate=None, module=None, inside=True):
        for word in set(WORD.findall(text)):
            for place in (names.get(word), (crate, module, word)):
                if place in found and place not in reached and (inside or not is_inside(place)):
                    reached.add(place)
                    waiting.append(place)

    if definition is not None:
        waiting = [place for place in found if place[2] == definition and not is_inside(place)]
        reached.update(waiting)
    else:
        for file in sorted(CRATES.glob("*/src/**/*.rt")):
            text = file.read_text()
            for clause in clauses_of(text, function):
                look_up(clause, imported(text))
    while waiting:
        crate, module, name = waiting.pop()
        look_up("\n".join(found[crate, module, name].lines), imports[crate, module], crate, module, inside=not REPRESENTS.search(name))
    return reached


def main():
    parser = argparse.ArgumentParser(description=__doc__.splitlines()[0])
    begin = parser.add_mutually_exclusive_group()
    begin.add_argument("--from", dest="function", metavar="FUNCTION", help="begin with the clauses of the functions of this name")
    begin.add_argument("--of", dest="definition", metavar="DEFINITION", help="begin with the definition of this name")
    parser.add_argument("--names", action="store_true", help="print each definition")
    options = parser.parse_args()
    found, imports = read_definitions()
    reached = reached_from(options.function, options.definition, found, imports)
    modules = {}
    for place in sorted(reached):
        modules.setdefault(place[:2], []).append(found[place])
    for (crate, module), definitions in modules.items():
        size = sum(len(definition.lines) for definition in definitions)
        names = " ".join(definition.name for definition in definitions) if options.names else ""
        print(f"{crate + '/specs/' + module.replace('.', '/'):<56} {len(definitions):>4} definitions {size:>5} lines  {names}".rstrip())
    size = sum(len(found[place].lines) for place in reached)
    print(f"{len(reached)} definitions, {size} lines")
    inside = [".".join(place) for place in sorted(reached) if is_inside(place)]
    if inside:
        print("reached in inside/:", " ".join(inside))


if __name__ == "__main__":
    main()

#!/usr/bin/env python3
"""Tells whether the paths and names that the documents cite exist. Prints those that do not, and ends with status 1 if there are any.

    tools/checks/cited.py

It looks at links, and at what stands between backquotes outside blocks of code.

- A path has to be that of a file or a folder, or the end of one, in a crate that the section names if it names any.
- A name that looks like an item, by an underline, by `::`, or by a capital letter beside a small one, has to be a word of a source, a
  definition, a proof, an edit, a script, an example or a block of code, comments aside. Of `Type::name` the type has to have that name.
- Names in a list before "in" and the path of a source or of definitions have to be words of that file.
- What stands after a `#` in a link, or in quotation marks after a link to a document or its name, has to be a heading of it.
- Names in a list after "clause" or "clauses", or after a law, have to be clauses of the function that stands before.

It goes by words, so it is a guide and no proof. FOREIGN has what is not of this repository, or an example of a name.
"""
import argparse
import re
import sys
from collections import defaultdict
from pathlib import Path

TOP = Path(__file__).resolve().parents[2]
DOCUMENTS = ["README.md", "CONTRIBUTING.md", "docs/*.md", "bench/README.md", "examples/README.md", "examples/car/README.md",
             "page/README.md", "python/README.md"]
TOPS = ("bench/", "crates/", "docs/", "examples/", "include/", "python/", "tools/")
FOREIGN = {
    "CONTRACTS.md", "Ord::max", "Snapshot::of", "at_exit", "put_at", "out/",
    "Boxed", "Is", "Are", "Tr", "ghosts-HELPER", "NAME-inside", "proofs/lemmas.antt", "lemmas/reading.antt",
}
ENDINGS = "rt antt md py sh c h edit txt tfpg log report map verdict".split()
COMMENTS = {".rt": r"//.*", ".antt": r"--.*", ".py": r"#.*", ".sh": r"#.*"}
SPAN = re.compile(r"`([^`\n]+)`")
PATH = re.compile(rf"(?=.*[a-z])(?:[\w.*-]+/)+[\w.*-]*|[\w*-]+\.(?:{'|'.join(ENDINGS)})")
NAME = re.compile(r"[A-Za-z_][\w'-]*(?:::[A-Za-z_][\w']*)*")
CRATE = re.compile(r"\btfpg_\w+|(?<=`)tfpg(?=[`/])")
BLOCK = re.compile(r"^(?:pub(?:\(\w+\))? )?(?:unsafe )?(?:impl(?:<[^{]*?>)? (?:.* for )?|struct |enum |trait )(\w+)")
TYPE = re.compile(r"^(?:pub(?:\(\w+\))? )?(?:struct|enum|trait) (\w+)", re.M)
MEMBER = re.compile(r"^    (?:pub(?:\(\w+\))? )?(?:const )?(?:fn |type )?(\w+)")
FUNCTION = re.compile(r"^ *(?:pub(?:\(\w+\))? )?(?:const )?(?:extern \S+ )?fn (\w+)")
CLAUSE = re.compile(r"^ *(?:ensures|requires) (\w+) \{")
HEADING = re.compile(r"^#+ (.*)", re.M)
TO_HEADING = re.compile(r"\]\(([^)#:]*\.md)#([^)]+)\)")
IN_QUOTES = re.compile(r"(?:`([\w./-]+\.md)`\)?|\]\(([^)#:]*\.md)[^)]*\)),\s+\"([^\"]+)\"")


class Repository:
    """The paths, the words of the files, and what the types and the functions of the sources have."""

    def __init__(self):
        files = [path for path in TOP.rglob("*") if not {".git", "out"} & set(path.relative_to(TOP).parts)]
        self.crates = {path.name for path in (TOP / "crates").iterdir()}
        self.paths = defaultdict(list)
        for path in files:
            self.paths[path.name].append(str(path.relative_to(TOP)))
            self.paths[path.stem].append(str(path.relative_to(TOP)))
        self.words, self.types, self.members, self.clauses = {}, set(), defaultdict(set), defaultdict(set)
        self.headings = defaultdict(set)
        for path in files:
            if path.is_file():
                self.read(path)
        self.known = set().union(*self.words.values())

    def read(self, path):
        """Notes the words of a file; of a document, those in its blocks of code."""
        text = path.read_text(errors="replace")
        if path.suffix == ".md":
            self.headings[str(path.relative_to(TOP))] = set(HEADING.findall(text))
            text = "\n".join(re.findall(r"^ *```.*?\n(.*?)^ *```", text, re.M | re.S))
        text = re.sub(COMMENTS.get(path.suffix, r"(?!)"), "", text)
        self.words[str(path.relative_to(TOP))] = set(re.findall(r"[A-Za-z_][\w'-]*", text)) | set(re.findall(r"[A-Za-z_]\w*", text))
        if path.suffix == ".rt":
            self.read_source(text)

    def read_source(self, text):
        """Notes the types, the members of each and the clauses of each function."""
        self.types.update(TYPE.findall(text))
        block = function = None
        for line in text.splitlines():
            block = None if line == "}" else block
            if opened := BLOCK.match(line):
                block = opened[1]
            elif block and (member := MEMBER.match(line)):
                self.members[block].add(member[1])
            if head := FUNCTION.match(line):
                function = head[1]
            elif clause := CLAUSE.match(line):
                self.clauses[function].add(clause[1])

    def at(self, path, crates):
        """The files and folders whose path ends with this one, in one of the crates if there are any."""
        *_, last = path.rstrip("/").split("/")
        ending = re.escape(path.removeprefix("./").rstrip("/")).replace(r"\*", "[^/]*").replace("NAME", "[^/]*")
        near = self.paths[last] if "*" not in last else sum(self.paths.values(), [])
        found = [known for known in near if re.fullmatch(rf"(?:.*/)?{ending}(?:\.\w+)?", known)]
        inside = [known for known in found if not known.startswith("crates/") or known.split("/")[1] in crates]
        return inside if crates and not path.startswith(TOPS) else found

    def headed(self, path):
        """The headings of the documents whose path ends with this one."""
        return set().union(*(self.headings[found] for found in self.at(re.sub(r"^(?:\.\./)+", "", path), set())))

    def has(self, name):
        """Whether the name is known, and each type in it has what stands after it."""
        parts = name.split("::")
        return all(part in self.known for part in parts) and all(
            one not in self.types or other in self.members[one] for one, other in zip(parts, parts[1:])
        )


def sections(text):
    """The sections of a document, each with the number of its first line, without what is in blocks of code."""
    begun, lines, in_code = 1, [], False
    for number, line in enumerate(text.splitlines(), 1):
        fence = line.lstrip().startswith("```")
        if not in_code and line.startswith("#"):
            yield begun, "\n".join(lines)
            begun, lines = number, []
        in_code ^= fence
        lines.append("" if in_code or fence else line)
    yield begun, "\n".join(lines)


def is_item(name):
    """Whether what stands between backquotes looks like the name of an item."""
    return "_" in name or "::" in name or bool(re.search("[A-Z]", name) and re.search("[a-z]", name))


def anchor_of(heading):
    """What stands after the `#` in a link to a heading."""
    return re.sub(r"[^\w -]", "", heading.lower()).replace(" ", "-")


def listed_before(text, end):
    """The names in the list that ends before "in" here."""
    end = len(re.sub(r"\s+in\s*$", "", text[:end])) if re.search(r"\sin\s*$", text[:end]) else 0
    while found := re.search(r"`([^`\n]+)`(?:,\s+|\s+and\s+|\s+with\s+)?$", text[:end]):
        yield found[1]
        end = found.start()


def clauses_after(text, start):
    """The names in the list of clauses that begins here, what stands in brackets aside."""
    while found := re.match(r"(?:,?\s+and\s+|,\s+|\s+)`(\w+)`(?:\s+\([^)]*\))?", text[start:]):
        yield found[1]
        start += found.end()


def faults(text, repository):
    """What a section cites and is not there, each with its place."""
    crates = set(CRATE.findall(text)) & repository.crates
    for span in SPAN.finditer(text):
        said = span[1]
        if said in FOREIGN:
            continue
        if PATH.fullmatch(said):
            files = repository.at(said, crates)
            if not files:
                yield span.start(), said
            elif said.endswith((".rt", ".antt")):
                words = set().union(*(repository.words.get(file, set()) for file in files))
                for name in listed_before(text, span.start()):
                    if NAME.fullmatch(name) and not set(name.split("::")) <= words:
                        yield span.start(), f"{name} in {said}"
        elif NAME.fullmatch(said) and is_item(said) and not repository.has(said):
            yield span.start(), said
    for link in re.finditer(r"\]\(([^)#:]+)(?:#[^)]*)?\)", text):
        if not repository.at(re.sub(r"^(?:\.\./)+", "", link[1]), set()):
            yield link.start(), link[1]
    for link in TO_HEADING.finditer(text):
        if link[2] not in map(anchor_of, repository.headed(link[1])):
            yield link.start(), f"{link[1]}#{link[2]}"
    for cited in IN_QUOTES.finditer(text):
        if " ".join(cited[3].split()) not in repository.headed(cited[1] or cited[2]):
            yield cited.start(), f'"{cited[3]}" in {cited[1] or cited[2]}'
    for call in re.finditer(r"`(?:\w+::)?(\w+)`(?: of `\w+`)?,\s+clauses?\b|\blaw\s+`(\w+)`(?: of `\w+`)?(?=, `[a-z]+`)", text):
        for name in clauses_after(text, call.end()):
            if name not in repository.clauses[call[1] or call[2]]:
                yield call.start(), f"clause {name} of {call[1] or call[2]}"


def main():
    argparse.ArgumentParser(description=__doc__, formatter_class=argparse.RawDescriptionHelpFormatter).parse_args()
    repository = Repository()
    missing = 0
    for document in sorted(path for pattern in DOCUMENTS for path in TOP.glob(pattern)):
        for begun, text in sections(document.read_text()):
            for place, what in faults(text, repository):
                print(f"{document.relative_to(TOP)}:{begun + text.count(chr(10), 0, place)}: {what}")
                missing += 1
    sys.exit(missing > 0)


if __name__ == "__main__":
    main()

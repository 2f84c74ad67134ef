#!/usr/bin/env python3
"""Makes the manual pages and the texts of help of their one source, the pages in docs/man.

    tools/manual.py help FOLDER     the texts of help: tfpg.txt and tfpg-COMMAND.txt
    tools/manual.py pages FOLDER    the manual pages, in man1, man3 and man5 of this folder

The pages are Markdown, since `pandoc` makes manual pages of that, also of docs/formats.md, which is tfpg(5) as it stands; the other tools
of Debian each want a language of their own. tfpg(3) is a beginning and what include/tfpg.h says. A text of help needs no tool: it is what
docs/man says in NAME to SEE ALSO, without what only a page has, on one screen. docs/man/help has them, and a test compares.
"""

import argparse
import re
import subprocess
import sys
import textwrap
from pathlib import Path
from typing import Dict, Iterator, List, Tuple

TOP = Path(__file__).resolve().parent.parent
SOURCES = TOP / "docs" / "man"
WIDTH = 80
HELPED = ["SYNOPSIS", "DESCRIPTION", "COMMANDS", "OPTIONS", "EXIT STATUS", "EXAMPLE", "SEE ALSO"]


def version() -> str:
    return (TOP / "VERSION").read_text(encoding="ascii").strip()


def sections_of(text: str) -> Dict[str, str]:
    """The sections of a page by their headings."""
    pieces = re.split(r"^# (.*)\n", text, flags=re.M)
    return {heading: body.strip("\n") for heading, body in zip(pieces[1::2], pieces[2::2])}


def plain(text: str) -> str:
    """A text in one line, without what Markdown marks."""
    return re.sub(r"\*\*|\*(?=\w)|(?<=\w)\*|`|\\", "", " ".join(text.split()))


def paragraphs_of(body: str) -> List[str]:
    return [piece for piece in re.split(r"\n\n+", body) if piece.strip()]


def entries_of(body: str) -> Iterator[Tuple[str, str]]:
    """The terms of the list of a section, each with what is said of it."""
    for found in re.finditer(r"^(\S.*)\n:   ((?:.+\n?(?:    )?)+)", body, re.M):
        yield plain(found[1]), plain(found[2])


def wrapped(text: str, first: str = "", rest: str = "") -> List[str]:
    return textwrap.wrap(text, WIDTH, initial_indent=first, subsequent_indent=rest, break_long_words=False, break_on_hyphens=False)


def listed(body: str) -> List[str]:
    """The entries of a list in two columns."""
    entries = list(entries_of(body))
    width = max((len(term) for term, _ in entries), default=0) + 4
    return [line for term, said in entries for line in wrapped(said, f"  {term}".ljust(width), " " * width)]


def statuses(body: str) -> List[str]:
    """The statuses in a row, each with the fixed words of the line that the program writes."""
    said = [f"{number} {re.sub(' [A-Z]+', '', meaning.split(':')[0])}".replace(" ", "_") for number, meaning in entries_of(body)]
    return [line.replace("_", " ") for line in wrapped(", ".join(said), "Status: ", "        ")]


def help_text(text: str) -> str:
    """The text of help of a page: of each section what fits on a screen."""
    sections, lines = sections_of(text), []
    for heading, body in ((one, sections[one]) for one in HELPED if one in sections):
        before = len(lines)
        if heading == "SYNOPSIS":
            for piece in paragraphs_of(body):
                lines += wrapped(plain(piece), "       " if lines else "Usage: ", "         ")
        elif heading == "DESCRIPTION":
            lines += wrapped(plain(paragraphs_of(body)[0]))
        elif heading in ("COMMANDS", "OPTIONS"):
            lines += listed(body)
        elif heading == "EXIT STATUS":
            lines += statuses(body)
        elif heading == "EXAMPLE":
            for piece in paragraphs_of(body):
                lines += textwrap.dedent(piece).split("\n") if piece.startswith("    ") else wrapped(plain(piece))
        else:
            lines += wrapped("Read on: " + plain(body))
        lines += [""] if len(lines) > before and heading != "SEE ALSO" else []
    return "\n".join(lines) + "\n"


def write_help(folder: Path) -> None:
    folder.mkdir(parents=True, exist_ok=True)
    for page in sorted(SOURCES.glob("tfpg*.1.md")):
        if page.name != "tfpg-page.1.md":
            (folder / page.name.replace(".1.md", ".txt")).write_text(help_text(page.read_text(encoding="ascii")), encoding="ascii")


def blocks_of(header: str) -> Iterator[Tuple[str, str]]:
    """The comments at the margin of the header, each with the code up to the next one. The last two are of C alone."""
    pieces = re.split(r"^/\* ", header[:header.index("#ifdef __cplusplus\n}")], flags=re.M)[1:]
    for piece in pieces:
        comment, code = piece.split("*/", 1)
        yield "\n".join(re.sub(r"^ \* ?", "", line) for line in comment.rstrip().split("\n")), code


def members_of(code: str) -> Iterator[Tuple[str, str]]:
    """The members of an enumeration, whose comments come before them, or of a struct, whose comments come after."""
    if "enum" in code:
        for comment, member in re.findall(r"(?:/\*((?:(?!\*/).)*)\*/\s*)?(TFPG_\w+ = \d+)", code, re.S):
            yield member, comment
    for member, comment in re.findall(r"^    ([\w ]+\*?[\w\[\]]+);[ \t]*(?:/\*((?:(?!\*/).)*)\*/)?", code, re.M | re.S):
        yield member, comment


def code_lines(code: str) -> List[str]:
    """What is declared, in Markdown: members with comments as a list, and all else as code of few columns."""
    members = list(members_of(code))
    if any(comment for _, comment in members):
        said = [(member, re.sub(r"\n[ *]*", " ", comment).strip() or "as the others") for member, comment in members]
        return [line for member, comment in said for line in (f"`{member}`", f":   {comment}", "")]
    lines = [member for member, _ in members] or re.findall("^#define .*", code, re.M)
    lines = lines or textwrap.wrap(" ".join(code.split()), 70, subsequent_indent="    ")
    return ["    " + line for line in lines] + [""]


def header_text(header: str) -> str:
    """What the header says, in Markdown: its comments at the margin are paragraphs, each under the name of what it is about."""
    said: List[str] = []
    for comment, code in blocks_of(header):
        code = re.sub(r"^(?:#(?!define TFPG_[A-GI-Z]|define TFPG_HEADER).*|extern .*|typedef struct.*)$", "", code, flags=re.M)
        name = re.search(r"enum (tfpg_\w+)|\} (tfpg_\w+);|(tfpg_\w+)\(|define (TFPG_\w+)", code)
        if name:
            said += [f"## {next(filter(None, name.groups()))}", "", *code_lines(code)]
        said += [comment, ""]
    return "\n".join(said)


def page_text(name: str) -> str:
    """A page in Markdown: tfpg.5 is docs/formats.md after its beginning, and tfpg.3 ends with what the header says."""
    text = (SOURCES / f"{name}.md").read_text(encoding="ascii")
    if name == "tfpg.5":
        return text + (TOP / "docs" / "formats.md").read_text(encoding="utf-8").split("\n", 1)[1]
    if name == "tfpg.3":
        return text + "\n# CALLS\n\n" + header_text((TOP / "include" / "tfpg.h").read_text(encoding="ascii"))
    return text


def page_names() -> List[str]:
    return sorted(page.name[:-3] for page in SOURCES.glob("tfpg*.md"))


def write_page(name: str, folder: Path) -> None:
    """Has `pandoc` make a manual page. tools/manual.lua leaves out what a terminal does not bear."""
    title, section = name.rsplit(".", 1)
    there = folder / f"man{section}" / name
    there.parent.mkdir(parents=True, exist_ok=True)
    form = ["-f", "gfm", "--shift-heading-level-by=-1"] if section == "5" else ["-f", "markdown-smart"]
    about = {"title": title, "section": section, "header": "tfpg", "footer": f"tfpg {version()}"}
    words = ["pandoc", "-s", *form, "-t", "man", "--lua-filter", str(TOP / "tools" / "manual.lua"), "-o", str(there)]
    for key, value in about.items():
        words += ["-M", f"{key}={value}"]
    subprocess.run(words, input=page_text(name), encoding="utf-8", check=True)


def main() -> int:
    parser = argparse.ArgumentParser(description=__doc__, formatter_class=argparse.RawDescriptionHelpFormatter)
    parser.add_argument("what", choices=["help", "pages"])
    parser.add_argument("folder", type=Path, metavar="FOLDER")
    words = parser.parse_args()
    if words.what == "help":
        write_help(words.folder)
        return 0
    try:
        for name in page_names():
            write_page(name, words.folder)
    except (OSError, subprocess.CalledProcessError) as fault:
        print(f"manual: pandoc did not make the pages: {fault}", file=sys.stderr)
        return 1
    return 0


if __name__ == "__main__":
    sys.exit(main())

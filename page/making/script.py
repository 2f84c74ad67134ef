"""Puts the modules of the script after one another, each after those that it imports, and each as a function that returns what it exports."""

import json
import re

from tfpg import limits
from tfpg.reading import shapes

IMPORT = re.compile(r'^import \{[^}]*\} from "([^"]+)";\n', re.MULTILINE)
EXPORT = re.compile(r"^export ((?:async )?(?:function|const|class) (\w+))", re.MULTILINE)
TABLE = "table.mjs"  # the one module that is no file
LIMITS = ("LONGEST_LINE", "LONGEST_NAME", "MOST_TIME", "NEVER", "MOST_EVENTS", "MOST_CHANGES", "MOST_HYPOTHESES")


def table_module():
    """The table of the lines of reports and answers, and some limits, as a module. The numbers of lines are texts, since a script has none
    so large."""
    table = {
        "after": shapes.AFTER,
        "causes": shapes.CAUSES,
        "last": shapes.LAST,
        "numbers": {kind: list(map(str, ends)) for kind, ends in shapes.NUMBERS.items()},
        "shapes": {"report": shapes.REPORT, "ask": shapes.ASK, "predict": shapes.PREDICT, "fleet": shapes.FLEET},
    }
    known = {name: getattr(limits, name) for name in LIMITS}
    return f"export const TABLE = {json.dumps(table)};\nexport const LIMITS = {json.dumps(known)};\n"


def in_order(module, done):
    """Adds the text of a module to those that are done, after those that it imports."""
    if module in done:
        return
    text = table_module() if module.name == TABLE else module.read_text(encoding="utf-8")
    for name in IMPORT.findall(text):
        in_order((module.parent / name).resolve(), done)
    done[module] = text


def as_function(text):
    names = ", ".join(name for _, name in EXPORT.findall(text))
    body = EXPORT.sub(r"\1", IMPORT.sub("", text))
    if not names:
        return "(() => {\n" + body + "})();\n"
    return f"const {{ {names} }} = (() => {{\n{body}return {{ {names} }};\n}})();\n"


def joined(main):
    """The modules that this one needs, and itself. What they export stands in one function, so an exported name stands in one module only."""
    modules = {}
    in_order(main.resolve(), modules)
    return '"use strict";\n(() => {\n' + "\n".join(map(as_function, modules.values())) + "})();\n"


def script(main):
    """The whole script of the page."""
    text = joined(main)
    if "</script" in text.lower() or "<!--" in text:
        raise SystemExit("tfpg-page: a module has what ends a script")
    return text

"""The limits of `tfpg.limits`, beside those that `include/tfpg.h` and docs/formats.md say."""

import re
import unittest

from support import TOP
from tfpg import limits

HEADER = " ".join((TOP / "include" / "tfpg.h").read_text(encoding="utf-8").replace("\n *", "\n").split())
FORMATS = (TOP / "docs" / "formats.md").read_text(encoding="utf-8")
TABLE = FORMATS[FORMATS.index("\n## Limits\n"):]
OPTIONS = FORMATS[FORMATS.index("\n| Option | Numbers |"):]


def number(said):
    """A number as these pages spell it: 4,096, 10^12 or 1000."""
    base, _, power = said.replace(",", "").partition("^")
    return int(base) ** int(power) if power else int(base)


class Limits(unittest.TestCase):
    def header(self, pattern):
        """The numbers of the one place in the header that has this form. # is a number."""
        found = re.findall(pattern.replace("#", r"([\d,^]+)"), HEADER)
        self.assertEqual(len(found), 1, pattern)
        return [number(one) for one in (found[0] if isinstance(found[0], tuple) else found)]

    def row(self, what):
        """The numbers of a row of the table of limits."""
        found = re.findall(rf"^\| {re.escape(what)} \| ([^|]*) \|", TABLE, re.M)
        self.assertEqual(len(found), 1, what)
        return [number(one.replace("milliseconds", "").replace("bytes", "").strip()) for one in re.split(r"[;,] ", found[0])]

    def test_header(self):
        options = limits.OPTIONS
        self.assertEqual(self.header("`k` is more than #, `doubt` more than #, the budget 0 or more than #, or `ahead` more than #"),
                         [options[name].greatest for name in ("--k", "--doubt", "--budget", "--ahead")])
        self.assertEqual(options["--budget"].least, 1)
        self.assertEqual(self.header(r"There are more than # hypotheses: `count_high`"), [limits.MOST_HYPOTHESES])
        self.assertEqual(self.header(r"`tfpg_report` takes a log of at most # bytes, and each other call one of at most #"),
                         [limits.INPUT_BYTES, limits.FILE_BYTES])
        self.assertEqual(self.header("The graph has # nodes or # edges, and no room"), [limits.MOST_NODES, limits.MOST_EDGES])
        self.assertEqual(self.header("a line of more than # bytes, as `TooLong`"), [limits.LONGEST_LINE])
        self.assertEqual(self.header("Once # lines are accepted"), [limits.MOST_EVENTS])
        self.assertEqual(self.header("Once # of them change the mode"), [limits.MOST_CHANGES])
        self.assertEqual(self.header(r"number of its bytes, at most #, also if the room is too small\. There is no byte 0"),
                         [limits.LONGEST_NAME])
        self.assertEqual(self.header(r"TFPG_NEVER UINT64_C\(#\)"), [limits.NEVER])

    def test_macros_of_the_header(self):
        """Each limit that is a macro, and that its text says too where it does."""
        options = limits.OPTIONS
        found = re.findall(r"#define TFPG_MAX_(\w+) (?:UINT64_C\()?(\d+)", HEADER)
        self.assertEqual({name: int(one) for name, one in found}, {
            "LINE": limits.LONGEST_LINE, "NAME": limits.LONGEST_NAME, "FILE": limits.FILE_BYTES, "INPUT": limits.INPUT_BYTES,
            "NODES": limits.MOST_NODES, "FAILURES": limits.MOST_FAILURES, "EDGES": limits.MOST_EDGES, "MODES": limits.MOST_MODES,
            "INCOMING": limits.MOST_INCOMING, "RARITY": limits.MOST_RARITY, "TIME": limits.MOST_TIME, "EVENTS": limits.MOST_EVENTS,
            "CHANGES": limits.MOST_CHANGES, "HYPOTHESES": limits.MOST_HYPOTHESES, "K": options["--k"].greatest,
            "DOUBT": options["--doubt"].greatest, "BUDGET": options["--budget"].greatest, "AHEAD": options["--ahead"].greatest,
            "QUESTIONS": self.header(r"\. It has at most # bytes\. The log")[0], "VERDICT": self.header(r"\. It has at most # bytes, and the same")[0],
        })

    def test_table_of_limits(self):
        self.assertEqual(self.row("a line"), [limits.LONGEST_LINE])
        self.assertEqual(self.row("a name"), [limits.LONGEST_NAME])
        self.assertEqual(self.row("the input"), [limits.INPUT_BYTES])
        self.assertEqual(self.row("a file"), [limits.FILE_BYTES])
        self.assertEqual(self.row("nodes, failure modes, edges, modes, edges into a node"),
                         [limits.MOST_NODES, limits.MOST_FAILURES, limits.MOST_EDGES, limits.MOST_MODES, limits.MOST_INCOMING])
        self.assertEqual(self.row("rarity"), [limits.MOST_RARITY])
        self.assertEqual(self.row("times, lags, delays"), [limits.MOST_TIME])
        self.assertEqual(self.row("accepted lines of a log, and those that change the mode"), [limits.MOST_EVENTS, limits.MOST_CHANGES])
        self.assertEqual(self.row("lines of a script, and those that change the mode"), [limits.MOST_SCRIPT_LINES, limits.MOST_CHANGES])
        self.assertEqual(self.row("hypotheses; those of all vehicles of a fleet"),
                         [limits.MOST_HYPOTHESES, limits.MOST_HYPOTHESES_OF_FLEET])
        self.assertEqual(self.row("vehicles"), [limits.MOST_VEHICLES])

    def test_table_of_options(self):
        found = re.findall(r"^\| `(--\w+)` \| ([\d^]+) to ([\d^]+) \| (\d+) \|", OPTIONS, re.M)
        self.assertEqual({name: limits.Limits(*map(number, some)) for name, *some in found}, limits.OPTIONS)

    def test_numbers_stand_in_no_other_module(self):
        """Large limits, which are nothing else by accident: in the package, and in the page and its maker, which go by those of the package."""
        package, page = TOP / "python" / "tfpg", TOP / "page"
        said = re.compile(r"(?<![\d.])(?:10 ?\*\* ?12|1e12|1_?000_?000_?000_?000|65_?536|8192|4096|2048|2 ?\*\* ?(?:24|32))(?![\d.])")
        known = {package / "limits.py", package / "calls" / "session.py"}  # that has the room of a text of its first try
        files = {*package.rglob("*.py"), *(page / "making").glob("*.py"), *(page / "src").rglob("*.mjs")}
        for path in sorted(files - known):
            code = re.sub(r'""".*?"""|#.*|(?<![:"\'])//.*', "", path.read_text(encoding="utf-8"), flags=re.S if path.suffix == ".py" else 0)
            self.assertIsNone(said.search(code), path)
        self.assertGreater(len(files), 150)


if __name__ == "__main__":
    unittest.main()

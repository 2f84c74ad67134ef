"""The package beside the maker and the readers of the page, without a browser: graphs, logs, reports, and the sentences of refutations."""

import json
import random
import re
import shutil
import subprocess
import sys
import tempfile
import unittest
from collections import Counter
from pathlib import Path

from support import EXAMPLES, TOP, tiny
from test_graph_causes import CASES as GRAPHS
from test_log_causes import CASES as LOGS
from test_reports import CHANGES, SYSTEMS, changed, read
from tfpg.inputs import subject_of
from tfpg.reading import shapes
from tfpg.reading.graph_json import json_lines
from tfpg.reading.graphs import graph_of
from tfpg.reading.steps import steps_of
from tfpg.reading.texts import read_text, text_of
from tfpg.reading.trees import Contradiction, tree_of
from tfpg.saying.choices import case_sentence, excluded_sentence, reused_sentence, split_sentence
from tfpg.saying.contradictions import contradiction_sentences
from tfpg.saying.speech import speech_of

sys.path.insert(0, str(TOP / "page"))

from making import graph_text, reading, report_text, script  # noqa: E402
from making.texts import Fault  # noqa: E402

NODE = shutil.which("node")
LEAST = 1000  # sentences
DATA = TOP / "page" / "tests" / "data"
REPORTS = [("pump", EXAMPLES / "pump"), ("satellite", EXAMPLES / "satellite-array"), ("satellite", EXAMPLES / "satellite-relay"),
           ("pump", DATA / "pump-gauge"), ("pump", DATA / "pump-first"), ("pump", DATA / "pump-early")]
VALUES = [None, True, -1, 0, 7, 1.5, 2**64, 10**13, "", "or", "and", "failure", "LowFlow", "a b", "1st", [], ["Run"], {}]


def bytes_of(text):
    """The bytes of a text of the package's tests."""
    return text.encode("utf-8", "surrogateescape")


def report_texts(system, name):
    """The graph, the log and the report of a name, as files."""
    log = name.with_suffix(".log") if name.with_suffix(".log").exists() else EXAMPLES / f"{name.name}.log"
    return EXAMPLES / f"{system}.tfpg", log, name.with_suffix(".report")


def changed_json(draw, value):
    """A value of JSON with another one in some place."""
    if draw.random() < 0.2 or not isinstance(value, (dict, list)) or not value:
        return draw.choice(VALUES)
    if isinstance(value, list):
        place = draw.randrange(len(value))
        more = [value[place]] if draw.random() < 0.1 else []
        return value[:place] + more + [changed_json(draw, value[place])] + value[place + 1:]
    key = draw.choice(sorted(value))
    kept = {name: one for name, one in value.items() if name != key}
    return kept if draw.random() < 0.2 else {**kept, key: changed_json(draw, value[key])}


def changed_reports():
    """Graphs, each with a report that was changed in one place."""
    for number in range(CHANGES):
        draw = random.Random(f"page {number}")
        system, name, folder = draw.choice(SYSTEMS)
        graph = read_text(EXAMPLES / f"{system}.tfpg")
        yield graph, changed(draw, graph_of(graph), read_text(folder / f"{name}.report"))


def spoken(speech, node, said):
    """The sentences of a tree, in the order in which the page says them."""
    if isinstance(node, Contradiction):
        sentences, end = contradiction_sentences(speech, node)
        said += [*sentences, end]
    elif node is not None:
        said.append(split_sentence(speech, node))
        for case in node.cases:
            said.append(case_sentence(speech, node, case))
            if case.reused is not None:
                said.append(reused_sentence(case))
            else:
                spoken(speech, case.child, said)
        said += [excluded_sentence(speech, node, other) for other in node.found.excluded]
    return said


class Maker(unittest.TestCase):
    """The maker of pages is in Python, as the package is, and refuses what is no graph and no report."""

    def test_graphs(self):
        for cause, graph, line, *_ in GRAPHS:
            with self.subTest(cause=cause, line=line, graph=graph[:60]):
                with self.assertRaises(Fault) as raised:
                    graph_text.read_graph_text(bytes_of(graph))
                self.assertEqual((raised.exception.line, raised.exception.cause), (line, cause))
        self.assertGreaterEqual(len(GRAPHS), 60)

    def test_reports(self):
        """Random changes of some: maker and package name the same line and cause, or read them."""
        causes = Counter()
        for number, (graph, report) in enumerate(changed_reports()):
            with self.subTest(number=number):
                said = read(report, graph_of(graph))
                self.assertEqual(self.said_of(graph, report), said)
                causes[said[1] if said != "read" else said] += 1
        self.assertGreaterEqual(min(causes["BadReport"], causes["EndsEarly"], causes["read"]), CHANGES // 50)

    @staticmethod
    def said_of(graph, report):
        """What the maker says: `read`, or the line and the cause."""
        try:
            report_text.check_report(report.encode("latin-1"), report_text.Named.of(graph_text.read_graph_text(graph.encode("latin-1"))))
        except Fault as fault:
            return fault.line, fault.cause
        return "read"

    def test_the_page_has_the_table(self):
        table, known = (json.loads(line.split(" = ", 1)[1].rstrip(";")) for line in script.table_module().splitlines())
        self.assertEqual(table["shapes"]["report"], list(shapes.REPORT))
        self.assertEqual(table["after"], shapes.AFTER)
        self.assertEqual(known["MOST_TIME"], int(table["numbers"]["<time>"][1]))


class Calls(unittest.TestCase):
    """The global object `Tfpg` of a page has the calls of reading that the page's own tests use, and no others."""

    def test_each_is_used(self):
        main = (TOP / "page" / "src" / "showing" / "main.mjs").read_text(encoding="utf-8")
        there = re.findall(r"\w+", re.search(r"globalThis\.Tfpg = \{([^}]*)\}", main)[1])
        tests = "".join(path.read_text(encoding="utf-8") for path in (TOP / "page" / "tests").glob("*.py"))
        self.assertEqual(set(there), set(re.findall(r"\bTfpg\.(\w+)", tests)))


@unittest.skipUnless(NODE, "node is missing")
class Page(unittest.TestCase):
    """The modules of the page run by node."""

    maxDiff = None

    def said(self, **texts):
        """What the page's readers say."""
        with tempfile.TemporaryDirectory(prefix="tfpg-python-") as name:
            folder = Path(name)
            for module in (TOP / "page" / "src" / "reading").glob("*.mjs"):
                shutil.copy(module, folder)
            (folder / script.TABLE).write_text(script.table_module(), encoding="utf-8")
            shutil.copy(TOP / "python" / "tests" / "page_says.mjs", folder)
            asked = {"graphs": [], "logs": [], "changed": [], "reports": [], **texts}
            ran = subprocess.run([NODE, folder / "page_says.mjs"], input=json.dumps(asked).encode(), stdout=subprocess.PIPE, check=True)
        return json.loads(ran.stdout)[next(iter(texts))]

    def test_graphs_as_json(self):
        """Random changes of one: the page reads of those that the maker takes what the text says that each stands for."""
        right, refused, both = json.loads((DATA / "pump.json").read_text(encoding="ascii")), Counter(), []
        for number in range(400):
            content = json.dumps(changed_json(random.Random(number), right))
            cause = self.cause_of(content.encode())
            refused[cause] += 1
            if not cause:
                both += [content, "".join(line + "\n" for line in json_lines(content.encode()))]
        self.assertGreater(min(refused["BadLine"], refused["BadName"], refused[""]), 10)
        said = self.said(graphs=both)
        self.assertEqual(said[::2], said[1::2])

    @staticmethod
    def cause_of(content):
        """Why the maker takes this for no graph, or nothing."""
        try:
            reading.read_graph(content)
        except Fault as fault:
            return fault.cause
        return ""

    def test_changed_reports(self):
        """The page names the same line and cause as the package, or reads them."""
        asked = [{"graph": graph, "report": report} for graph, report in changed_reports()]
        said = self.said(changed=asked)
        for number, (one, here) in enumerate(zip(asked, said)):
            with self.subTest(number=number):
                self.assertEqual(tuple(here) if here != "read" else here, read(one["report"], graph_of(one["graph"])))

    def test_logs(self):
        """Each line comes first, and once more after a tick at 60000."""
        logs = [{"graph": tiny(), "log": text_of(bytes_of(line)) + "\n"} for _, line, *_ in LOGS]
        said = self.said(logs=logs)
        self.assertEqual(said, [[cause] for cause, *_ in LOGS])
        self.assertGreaterEqual(len(LOGS), 33)
        late = self.said(logs=[{"graph": tiny(), "log": "60000 tick\n65 tick\n60000 mode Run\n"}])
        self.assertEqual(late, [[None, "TimeBack 60000", None]])

    def test_sentences(self):
        """Of each set that a report has steps for."""
        asked, wanted = [], []
        for system, name in REPORTS:
            files = report_texts(system, name)
            subject = subject_of(*map(str, files))
            sets = sorted((number, text) for text, number in subject.report.sets().items())
            asked.append({**dict(zip(("graph", "log", "report"), map(read_text, map(str, files)))), "sets": sets})
            wanted.append([spoken(speech_of(subject, text), tree_of(subject.graph, subject.log, text, steps).root, [])
                           for number, text in sets for steps in [steps_of(subject.graph, subject.report, number)]])
        for (system, name), here, there in zip(REPORTS, wanted, self.said(reports=asked)):
            with self.subTest(report=name.name):
                self.assertEqual(there, here)
        self.assertGreaterEqual(sum(len(some) for report in wanted for some in report), LEAST)


if __name__ == "__main__":
    unittest.main()

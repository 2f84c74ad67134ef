"""Graphs, reports and checks, and the errors of each call."""

import json
import shutil
import subprocess
import unittest
import unittest.mock
from pathlib import Path
from types import SimpleNamespace

import tfpg
from support import EXAMPLES, Unwarned, files, library_words, text, tiny
from tfpg.calls.layouts import HEADER_VERSION, Answer, Handle, Status
from tfpg.calls.library import CALLS, FILE, Library, find_library
from tfpg.calls.numbers import Numbers
from tfpg.program import run_program

PUMP = EXAMPLES / "pump.tfpg"
REPORTS = [("pump", "pump"), ("satellite", "satellite-array"), ("satellite", "satellite-relay")]
MANY = text(["tfpg 1", "mode M", *(f"failure F{n} 1" for n in range(64)), "or D hidden", "edge F0 D 0 1 *", "end"])


class Graphs(unittest.TestCase):
    def test_a_text(self):
        graph = tfpg.Graph.load(EXAMPLES / "satellite.tfpg")
        self.assertEqual((graph.modes, len(graph.nodes), len(graph.edges)), (("Sun", "Eclipse", "Saving"), 13, 14))
        self.assertEqual(graph.failures[0], graph.nodes[0].name)
        node = graph.node(graph.monitored[0])
        self.assertEqual((graph.nodes[node.number], node.kind in ("or", "and"), len(node.lags)), (node, True, 2))
        self.assertEqual({graph.nodes[edge.target].kind for edge in graph.edges}, {"or", "and"})
        self.assertRaises(KeyError, graph.node, "Nobody")

    def test_json(self):
        for name in ("pump", "satellite"):
            ended = run_program(["convert", str(EXAMPLES / f"{name}.tfpg")])
            with files(graph=ended.output):
                graph = tfpg.Graph.load("graph")
                again = run_program(["convert", "--json", "graph"])
            self.assertEqual(graph.text, again.output)
            one = tfpg.Graph.load(EXAMPLES / f"{name}.tfpg")
            self.assertEqual(([(node.name, node.kind, node.rarity, node.lags) for node in graph.nodes], graph.modes),
                             ([(node.name, node.kind, node.rarity, node.lags) for node in one.nodes], one.modes))

    def test_json_that_is_no_graph(self):
        graph = json.loads(run_program(["convert", str(PUMP)]).output)
        cases = [("{", (0, "BadLine", "")), ("{}", (0, "BadLine", ""))]
        graph["nodes"].append({"name": "Lost", "kind": "or"})
        cases.append((json.dumps(graph), (13, "NoIncoming", "or Lost hidden")))
        graph["nodes"][-1]["name"] = "1st"
        cases.append((json.dumps(graph), (0, "BadName", "")))
        for content, said in cases:
            with self.subTest(said=said), files(graph=content), self.assertRaises(tfpg.BadGraph) as raised:
                tfpg.Graph.load("graph")
            self.assertEqual((raised.exception.line, raised.exception.cause, raised.exception.text), said)
            self.assertNotIn("no sentence", raised.exception.sentence)


class Loading(unittest.TestCase):
    def test_what_is_none(self):
        with files(**{FILE: b"no library"}) as folder, self.assertRaises(tfpg.NoLibrary):
            Library(str(folder / FILE))
        with self.assertRaisesRegex(tfpg.NoLibrary, "has no tfpg_report"):
            Library("libc.so.6")

    def test_which_calls_keep_the_lock_of_python(self):
        """Those that only read what is there. Others may take long, as `tfpg_block`, which makes the text after an event."""
        kept, left = ({name: unittest.mock.Mock() for name in CALLS} for _ in range(2))
        with unittest.mock.patch("ctypes.PyDLL", return_value=kept), unittest.mock.patch("ctypes.CDLL", return_value=left), \
                unittest.mock.patch("tfpg.calls.library.need_version"):
            bound = list(vars(Library("some.so")).values())
        reads = {"tfpg_result_of", "tfpg_ranked_at", "tfpg_index", "tfpg_name"}
        self.assertEqual({name for name in CALLS if kept[name] in bound}, reads)
        self.assertEqual({name for name in CALLS if left[name] in bound}, CALLS.keys() - reads)

    @unittest.skipUnless(shutil.which("cc"), "cc, the C compiler, is missing")
    def test_a_library_of_another_header(self):
        """All calls are there, and the version of the header is an older one, or is not said."""
        calls = "".join(f"void {name}(void) {{}}\n" for name in CALLS)
        other = f"is of version 2 of the header, and this package of version {HEADER_VERSION}: "
        for version, said in (("const unsigned tfpg_header_version = 2;", other),
                              ("", "does not say the version of its header, so it is older than this package: ")):
            with self.subTest(version=version), files(**{"calls.c": calls + version}) as folder:
                subprocess.run(["cc", "-shared", "-fPIC", "-o", FILE, "calls.c"], check=True)
                with self.assertRaisesRegex(tfpg.NoLibrary, f"{FILE} {said}python/build-library of the checkout makes it anew$"):
                    Library(str(folder / FILE))

    def test_statuses_of_the_calls_that_read_numbers(self):
        none = lambda *_: Answer(Status.NO_SUCH)
        calls = SimpleNamespace(name=none, result_of=none, ranked_at=none)
        numbers = Numbers(calls, Handle(), 0)
        numbers.result_of = lambda *_: Answer(Status.ENDED)
        self.assertRaises(tfpg.SessionClosed, numbers.brought)
        numbers.result_of = lambda *_: Answer(Status.DONE)
        self.assertEqual(numbers.brought().ranked, ())
        numbers.result.ranked = 1
        self.assertRaisesRegex(tfpg.Error, "the library answers 11", numbers.brought)

    def test_where_it_is(self):
        with unittest.mock.patch.dict("os.environ", {"TFPG_LIBRARY": "here.so"}):
            self.assertEqual(find_library(), str(Path("here.so").absolute()))


@unittest.skipIf(library_words(), library_words())
class Whole(Unwarned):
    def test_reports(self):
        for system, name in REPORTS:
            with self.subTest(name=name):
                graph, log = tfpg.Graph.load(EXAMPLES / f"{system}.tfpg"), EXAMPLES / f"{name}.log"
                said = tfpg.report(graph, log)
                self.assertEqual(said, (EXAMPLES / f"{name}.report").read_text(encoding="ascii"))
                self.assertEqual(tfpg.check(graph, log, said), said.count("\ncounts "))
                self.assertEqual(tfpg.report(graph, log.read_text(encoding="ascii").splitlines()), said)

    def test_a_report_that_is_longer_than_the_first_room(self):
        graph = tfpg.Graph(text(["tfpg 1", "mode M", *(f"failure F{n:031} 1" for n in range(32)), "or D watch 900",
                                 *(f"edge F{n:031} D 0 1 *" for n in range(32)), "end"]))
        said = tfpg.report(graph, text([f"{time} alarm D" for time in range(20)]), k=1)
        self.assertEqual((said.count("\nround "), len(said) > 1 << 16), (20, True))

    def test_what_is_not_accepted(self):
        graph, log, report = tfpg.Graph.load(PUMP), EXAMPLES / "pump.log", (EXAMPLES / "pump.report").read_text(encoding="ascii")
        for old, new, said in (("ranked 1 cost 2", "ranked 1 cost 1", (79, "WrongRanked", "ranked 1 cost 1 robust 1/3 set FilterClogged")),
                               ("why unreached LowFlow", "why unreached MotorHot", (10, "Unchained", "cycle 2")),
                               ("report 2", "report 3", (1, "BadReport", "report 3 k 2 doubt 0 budget 1000"))):
            with self.subTest(new=new), self.assertRaises(tfpg.NotAccepted) as raised:
                tfpg.check(graph, log, report.replace(old, new))
            self.assertEqual((raised.exception.line, raised.exception.cause, raised.exception.text), said)
        with self.assertRaisesRegex(tfpg.NotAccepted, "line 1: EndsEarly$"):
            tfpg.check(graph, log, b"")

    def test_the_errors_of_a_diagnosis(self):
        graph = tfpg.Graph.load(PUMP)
        for call in (tfpg.Session, lambda graph, **terms: tfpg.report(graph, "5 tick\n", **terms),
                     lambda graph, **terms: tfpg.ask(graph, "5 tick\n", **terms),
                     lambda graph, **terms: tfpg.predict(graph, "5 tick\n", "D", **terms)):
            for terms, said in (({"k": 65}, "k is from 0 to 64, and 65 is not"), ({"k": -1}, "k is from 0 to 64, and -1 is not"),
                                ({"k": 2**32 + 2}, "k is from 0 to 64"), ({"doubt": 5}, "doubt is from 0 to 4, and 5 is not"),
                                ({"budget": 0}, "budget is from 1 to 1000000000000"), ({"budget": 2**64 + 1}, "budget is from")):
                with self.subTest(terms=terms), self.assertRaisesRegex(tfpg.OutOfRange, said):
                    call(graph, **terms)
            with self.assertRaises(tfpg.TooManyHypotheses) as raised:
                call(tfpg.Graph(MANY), k=4)
            self.assertEqual(raised.exception.count, 679121)
            with self.assertRaises(tfpg.BadGraph) as raised:
                call(tfpg.Graph(tiny((7, "or Wet watch 5000 7"))))
            fault = raised.exception
            self.assertEqual((fault.line, fault.cause, fault.text), (7, "BadLine", "or Wet watch 5000 7"))
            self.assertEqual(fault.sentence, "In version 1 `watch` has one number, the greatest lag, and here are two.")
            self.assertRaises(TypeError, call, graph, k=1.5)

    def test_errors_have_kinds(self):
        self.assertTrue(issubclass(tfpg.NoMemory, MemoryError) and issubclass(tfpg.OutOfRange, ValueError))
        self.assertTrue(all(issubclass(one, tfpg.Error) for one in (tfpg.NoProgram, tfpg.NoLibrary, tfpg.LineRefused, tfpg.NotAccepted)))

    def test_a_log_that_is_too_long(self):
        graph, log = tfpg.Graph.load(PUMP), b"\n" * (2**24 + 1)
        for call in (lambda: tfpg.check(graph, log, b""), lambda: tfpg.ask(graph, log), lambda: tfpg.predict(graph, log, "LowFlow"),
                     lambda: tfpg.explain(graph, log, b"set -\n")):
            self.assertRaises(tfpg.TooMuchInput, call)

    def test_the_name_of_a_file_is_no_text(self):
        graph = tfpg.Graph.load(PUMP)
        for call in (lambda: tfpg.report(graph, "pump.log"), lambda: tfpg.check(graph, b"", "pump.report"), lambda: tfpg.Graph(str(PUMP))):
            self.assertRaisesRegex(ValueError, "a file is given as pathlib.Path", call)
        self.assertEqual(tfpg.Graph(Path(PUMP)).text, graph.text)


if __name__ == "__main__":
    unittest.main()

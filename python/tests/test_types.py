"""What lines, texts, times and terms may be, and that anything else is a TypeError."""

import os
import unittest
import warnings
from pathlib import Path

import tfpg
from support import files, library_words, tiny


class Whole:
    """A whole number that is no int, as NumPy's are."""

    def __init__(self, number):
        self.number = number

    def __index__(self):
        return self.number


class Place:
    """A path that is no pathlib.Path."""

    def __init__(self, name):
        self.name = name

    def __fspath__(self):
        return self.name


WRONG_LINES = [5, None, 5.0, ["5 tick"], object()]


@unittest.skipIf(library_words(), library_words())
class Types(unittest.TestCase):
    def setUp(self):
        self.graph = tfpg.Graph(tiny())

    def test_lines(self):
        with tfpg.Session(self.graph) as session:
            for line in ("5 tick", b"5 tick", bytearray(b"5 tick"), memoryview(b"5 tick"), memoryview(b"x5 tick")[1:], "5 tick\n",
                         b"5 tick\n"):
                with self.subTest(line=line):
                    self.assertEqual(session.line(line).now, 5)
            self.assertEqual([one.now for one in session.rounds([bytearray(b"6 tick\n"), memoryview(b"7 tick")])], [6, 7])
            for line in WRONG_LINES:
                with self.subTest(line=line), self.assertRaisesRegex(TypeError, "is str, bytes, bytearray or memoryview"):
                    session.line(line)
                with self.subTest(lines=line), self.assertRaises(TypeError):
                    list(session.rounds([line]))
            count = session.count
            self.assertEqual(session.line("8 tick").line, count + 1)

    def test_one_line_end_is_left_out(self):
        with tfpg.Session(self.graph) as session:
            self.assertEqual([one.cause for one in session.rounds(["5 tick\n\n", b"5 tick\n\n"])], ["BadLine", "BadLine"])

    def test_texts(self):
        given = tiny().encode()
        for one in (given.decode(), given, bytearray(given), memoryview(given)):
            self.assertEqual(tfpg.Graph(one), self.graph)
        with files(graph=given):
            for place in (Place("graph"), Place(b"graph")):
                self.assertEqual((tfpg.Graph(place), tfpg.Graph.load(place)), (self.graph, self.graph))
        for log in ("5 tick\n", b"5 tick\n", bytearray(b"5 tick\n"), memoryview(b"5 tick\n"), (line for line in ["5 tick"])):
            self.assertEqual(tfpg.ask(self.graph, log, k=1).now, 5)
        for wrong in (5, None, 5.0):
            with self.subTest(wrong=wrong):
                self.assertRaises(TypeError, tfpg.Graph, wrong)
                self.assertRaises(TypeError, tfpg.ask, self.graph, wrong, k=1)
                self.assertRaises(TypeError, tfpg.explain, self.graph, "5 tick\n", wrong)
                self.assertRaises(TypeError, tfpg.check, self.graph, "5 tick\n", wrong)
                self.assertRaises(TypeError, tfpg.report, self.graph, wrong)

    def test_times(self):
        with tfpg.Session(self.graph, origin=Whole(3)) as session:
            self.assertEqual([session.event(time, "tick").now for time in (5, Whole(6), True + 6)], [5, 6, 7])
            self.assertEqual(session.event(Whole(9), "alarm", "Nobody").text, "9 alarm Nobody")
            for time in (5.0, "5", None, b"5"):
                self.assertRaises(TypeError, session.event, time, "tick")
        with self.assertRaises(TypeError):
            tfpg.Session(self.graph, origin="5")

    def test_kinds_and_names(self):
        for kind in (tfpg.Session, tfpg.RenewingSession):
            with kind(self.graph) as session:
                for words in ((None,), (5,), (b"tick",), ("alarm", None), ("alarm", 5), ("alarm", b"Wet"), ("tick", None)):
                    with self.subTest(kind=kind.__name__, words=words), self.assertRaises(TypeError):
                        session.event(5, *words)
                self.assertEqual((session.count, session.event(5, "alrm", "Wet").cause), (0, "BadLine"))
        self.assertRaises(TypeError, tfpg.predict, self.graph, "5 tick\n", b"Wet")
        self.assertRaises(TypeError, tfpg.predict, self.graph, "5 tick\n", None)

    def test_surrogates(self):
        """A text with a surrogate that stands for no byte has an answer as any that is no UTF-8. No file has such a name."""
        odd = "5 alarm \ud800\udcff"
        for kind in (tfpg.Session, tfpg.RenewingSession):
            with kind(self.graph, k=0) as session:
                for answer in (session.line(odd), *session.rounds([odd]), session.event(5, "alarm", "\ud800"), session.event(5, "\ud800")):
                    with self.subTest(kind=kind.__name__, line=answer.line):
                        self.assertIsInstance(answer, tfpg.Refused)
                        self.assertIn(answer.cause, answer.to_dict()["cause"])
                        self.assertTrue(answer.sentence)
                with kind(self.graph, k=0, strict=True) as strict:
                    self.assertRaises(tfpg.LineRefused, strict.line, odd)
        with warnings.catch_warnings():
            warnings.simplefilter("ignore")
            for log in (odd + "\n", [odd]):
                self.assertEqual(tfpg.ask(self.graph, log, k=0).refused[0].line, 1)
                self.assertEqual(tfpg.report(self.graph, log, k=0).refused[0].line, 1)
        self.assertRaises(tfpg.BadGraph, tfpg.Session, tfpg.Graph(odd + "\n"))
        self.assertRaises(tfpg.UnknownNode, tfpg.predict, self.graph, "5 tick\n", "\ud800")
        self.assertRaises(tfpg.NotAccepted, tfpg.explain, self.graph, "5 tick\n", "set \ud800\n")
        self.assertRaises(tfpg.NotAccepted, tfpg.check, self.graph, "5 tick\n", odd + "\n")
        self.assertRaisesRegex(ValueError, "is no text, since it has no line end", tfpg.report, self.graph, "\ud800")
        place = Path("\ud800")
        for call in (lambda: tfpg.Graph(place), lambda: tfpg.Graph.load(place), lambda: tfpg.Graph.load("\ud800"),
                     lambda: tfpg.report(self.graph, place), lambda: tfpg.records(self.graph, place)):
            self.assertRaises(FileNotFoundError, call)
        with tfpg.Session(self.graph) as session:
            self.assertRaises(FileNotFoundError, list, session.rounds(place))

    def test_terms(self):
        with tfpg.Session(self.graph, Whole(1), Whole(0), Whole(9)) as session:
            self.assertEqual(session.head, "report 2 k 1 doubt 0 budget 9\n")
        self.assertEqual(tfpg.predict(self.graph, "5 tick\n", "Wet", Whole(7), Whole(1)).until, 12)
        self.assertEqual(tfpg.report(self.graph, "", k=Whole(1)), "report 2 k 1 doubt 0 budget 1000\n")
        for call in (tfpg.Session, tfpg.RenewingSession, lambda graph, **terms: tfpg.ask(graph, "5 tick\n", **terms)):
            for terms in ({"k": 1.0}, {"doubt": "0"}, {"budget": None}):
                with self.subTest(terms=terms), self.assertRaises(TypeError):
                    call(self.graph, **terms)

    def test_numpy(self):
        try:
            import numpy
        except ImportError:
            self.skipTest("numpy is missing")
        with tfpg.Session(self.graph, numpy.int64(1), origin=numpy.uint32(2)) as session:
            said = [session.event(time, "tick") for time in numpy.array([5, 6, 7], dtype="int64")]
        self.assertEqual([(one.now, type(one.now)) for one in said], [(5, int), (6, int), (7, int)])
        with self.assertRaises(TypeError), tfpg.Session(self.graph) as session:
            session.event(numpy.float64(5), "tick")

    def test_what_is_exported(self):
        for name in tfpg.__all__:
            self.assertTrue(hasattr(tfpg, name), name)
        wanted = {"Answered", "Kind", "RefusedLines", "RenewingSession", "SessionBusy", "OtherProcess", "rows"}
        self.assertLessEqual(wanted, set(tfpg.__all__))
        self.assertEqual(os.path.basename(os.path.dirname(tfpg.__file__)), "tfpg")


if __name__ == "__main__":
    unittest.main()

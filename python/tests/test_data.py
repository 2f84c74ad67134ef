"""Answers as JSON has them, as rows of a table, and as a notebook shows them."""

import json
import unittest
import warnings
from html.parser import HTMLParser

import tfpg
from support import EXAMPLES, files, library_words, program_words, run, tiny
from tfpg.calls.answers import Names, Ranked, Refused, Round
from tfpg.calls.notebook import MOST_ROWS
from tfpg.calls.rows import COLUMNS
from tfpg.reading.graphs import graph_of

PUMP, LOG = EXAMPLES / "pump.tfpg", EXAMPLES / "pump.log"
NAMES = Names(("Leak", "Wet"), ("Leak",), 0)


def ranked(number=1, failures=("Leak",), times=(5, 9)):
    return Ranked(number, failures, ("Wet",), 2, 1, 3, b"".join(time.to_bytes(8, "little") for time in times), NAMES)


def round_of(*sets):
    return Round(4, 7, 100, True, sets, 2, 1, 0)


def refused(text="6 alarm Nobody"):
    return Refused(8, "UnknownName", text, None, graph_of(tiny()), 0)


RANKED = {"hypothesis": 1, "set": "Leak,!Wet", "failures": ["Leak"], "doubts": ["Wet"], "cost": 2, "alarmed": 1, "monitored": 3,
          "trace": {"Leak": 5, "Wet": 9}}
REFUSED = {"line": 8, "cause": "UnknownName", "sentence": "The graph declares no node `Nobody`.", "text": "6 alarm Nobody",
           "hints": ["The nodes with a monitor: Wet."]}


class Dicts(unittest.TestCase):
    """By hand."""

    def same(self, answer, shape):
        self.assertEqual(answer.to_dict(), shape)
        self.assertEqual(json.loads(json.dumps(answer.to_dict())), shape)

    def test_a_round(self):
        self.same(ranked(), RANKED)
        self.same(round_of(ranked()), {"number": 4, "line": 7, "now": 100, "changed": True, "ranked": [RANKED], "covered": 2, "rejected": 1,
                                       "open": 0})
        self.same(round_of(), {"number": 4, "line": 7, "now": 100, "changed": True, "ranked": [], "covered": 2, "rejected": 1, "open": 0})

    def test_a_refused_line(self):
        self.same(refused(), REFUSED)
        odd = refused(b"6 alarm \xff\r".decode("utf-8", "surrogateescape"))
        self.assertEqual(json.loads(json.dumps(odd.to_dict()))["text"], "6 alarm \ufffd\u240d")

    @unittest.skipIf(program_words(), program_words())
    def test_the_shape_is_that_of_lint(self):
        with files(graph=tiny(), log="5 tick\n6 alarm Nobody\n7 tock\r\n3 tick\n"):
            said = json.loads(run("lint", "--json", "graph", "log")[1])
        lines = [(2, "UnknownName", "6 alarm Nobody", None), (3, "BadLine", "7 tock\r", None), (4, "TimeBack", "3 tick", 5)]
        answers = [Refused(*line, graph_of(tiny()), 0) for line in lines]
        self.assertEqual([one.to_dict() for one in answers], said["refused"])

    def test_other_answers(self):
        lines = {"refused": [REFUSED]}
        self.same(tfpg.Questions(5, 1, 0, (tfpg.Question("Wet", 1, 2, 3),), (refused(),)),
                  {"now": 5, "ranked": 1, "open": 0, "questions": [{"node": "Wet", "silent": 1, "alarm": 2, "unknown": 3}], **lines})
        forecast = tfpg.Forecast(1, "Leak", "earliest", 9, {"Leak": 5, "Wet": 9}, ("cycle 2", "why at"))
        self.same(tfpg.Prediction("Wet", 5, 1005, (forecast,), (refused(),)),
                  {"node": "Wet", "now": 5, "until": 1005, **lines, "forecasts": [
                      {"hypothesis": 1, "set": "Leak", "outcome": "earliest", "time": 9, "trace": {"Leak": 5, "Wet": 9},
                       "steps": ["cycle 2", "why at"]}]})
        self.same(tfpg.Verdict(False, "must", "Wet", 7), {"explains": False, "fault": "must", "node": "Wet", "time": 7,
                                                          "sentence": "By 7 Wet had to be active.", "refused": []})
        self.same(tfpg.Verdict(True, refused=(refused(),)), {
            "explains": True, "fault": "", "node": "", "time": None, **lines,
            "sentence": "The history explains the accepted lines alone: line 8 is refused."})
        report, accepted = tfpg.Report("report\n"), tfpg.Accepted(3)
        report.refused = accepted.refused = (refused(),)
        self.same(report, {"report": "report\n", **lines})
        self.same(accepted, {"rounds": 3, **lines})

    @unittest.skipIf(library_words(), library_words())
    def test_what_calls_return(self):
        graph = tfpg.Graph.load(PUMP)
        with warnings.catch_warnings(), tfpg.Session(graph, origin=0) as session:
            warnings.simplefilter("ignore")
            answers = [*session.rounds(LOG), tfpg.ask(graph, LOG, k=1), tfpg.predict(graph, LOG, "HighPressure", k=1),
                       tfpg.report(graph, LOG), tfpg.explain(graph, LOG, EXAMPLES / "pump-filter.map")]
            answers.append(tfpg.check(graph, LOG, answers[-2]))
        for answer in answers:
            with self.subTest(kind=type(answer).__name__):
                json.dumps(answer.to_dict(), allow_nan=False)
        self.assertEqual({type(answer).__name__ for answer in answers},
                         {"Round", "Refused", "Questions", "Prediction", "Report", "Verdict", "Accepted"})
        self.assertEqual([one["line"] for answer in answers[7:] for one in answer.to_dict()["refused"]], [5] * 5)


class Rows(unittest.TestCase):
    ANSWERS = [round_of(ranked(1), ranked(2, ())), refused(), round_of()]

    def test_rows(self):
        found = tfpg.rows(self.ANSWERS)
        self.assertTrue(all(tuple(row) == COLUMNS for row in found))
        here = {"line": 7, "now": 100, "number": 4, "changed": True, "covered": 2, "rejected": 1, "open": 0, "cause": None,
                "sentence": None}
        nothing = dict.fromkeys(("place", "set", "cost", "alarmed", "monitored"))
        self.assertEqual(found, [
            {**here, "place": 1, "set": "Leak,!Wet", "cost": 2, "alarmed": 1, "monitored": 3},
            {**here, "place": 2, "set": "!Wet", "cost": 2, "alarmed": 1, "monitored": 3},
            {**dict.fromkeys(COLUMNS), "line": 8, "cause": "UnknownName", "sentence": "The graph declares no node `Nobody`."},
            {**here, **nothing}])
        self.assertEqual(tfpg.rows([]), [])

    def test_pandas(self):
        try:
            import pandas
        except ImportError:
            self.skipTest("pandas is missing")
        frame = pandas.DataFrame(tfpg.rows(self.ANSWERS))
        self.assertEqual((list(frame.columns), len(frame)), (list(COLUMNS), 4))
        self.assertEqual(list(frame[frame.place == 1].set), ["Leak,!Wet"])
        self.assertEqual(list(frame[frame.cause.notna()].line), [8])


class Cells(HTMLParser):
    """The texts of the cells of a table."""

    def __init__(self, content):
        super().__init__()
        self.texts, self.tags, self.is_cell = [], [], False
        self.feed(content)
        self.close()

    def handle_starttag(self, tag, attrs):
        self.tags.append(tag)
        self.is_cell = tag in ("td", "caption")
        if self.is_cell:
            self.texts.append("")

    def handle_data(self, data):
        if self.is_cell:
            self.texts[-1] += data


class Notebook(unittest.TestCase):
    def test_a_round(self):
        cells = Cells(round_of(ranked())._repr_html_())
        self.assertEqual(cells.texts, ["round 4 at 100: 1 ranked, 2 covered, 1 rejected, 0 open", "1", "Leak,!Wet", "2", "1 of 3",
                                       "Leak 5"])

    def test_names_are_text(self):
        """No name of a graph has such signs. If one had, it would still be text."""
        evil = "<script>alert('&amp;')</script>"
        one = Ranked(1, (evil,), (), 2, 1, 3, (5).to_bytes(8, "little"), Names((evil,), (evil,), 0))
        cells = Cells(round_of(one)._repr_html_())
        self.assertEqual((cells.texts[2], cells.texts[5]), (evil, f"{evil} 5"))
        self.assertNotIn("script", cells.tags)

    def test_many_sets_and_none(self):
        said = Cells(round_of(*(ranked(number) for number in range(50)))._repr_html_())
        self.assertEqual(said.tags.count("tr"), MOST_ROWS + 1)
        self.assertIn("50 ranked, 2 covered, 1 rejected, 0 open; 30 more are ranked", said.texts[0])
        self.assertEqual(Cells(round_of()._repr_html_()).tags.count("td"), 0)


if __name__ == "__main__":
    unittest.main()

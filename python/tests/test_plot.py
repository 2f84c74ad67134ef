"""The picture of a ranking, and what is said where matplotlib is missing."""

import importlib.util
import os
import re
import subprocess
import sys
import unittest
from unittest import mock
from xml.etree import ElementTree

from support import EXAMPLES, TOP, files, run, text
from tfpg.inputs import subject_of
from tfpg.plot.thinning import COLUMNS, MOST_MARKS, drawn_rounds, thinned, thinned_rows

HAS_MATPLOTLIB = importlib.util.find_spec("matplotlib") is not None
RELAY = [str(EXAMPLES / "satellite.tfpg"), str(EXAMPLES / "satellite-relay.log"), str(EXAMPLES / "satellite-relay.report")]


def drawn():
    """The picture of the satellite whose relay sticks."""
    ran = subprocess.run([sys.executable, "-m", "tfpg", "plot", *RELAY], cwd=TOP / "python", stdout=subprocess.PIPE, check=True)
    return ran.stdout


class Plot(unittest.TestCase):
    def test_without_matplotlib(self):
        with mock.patch.dict(sys.modules, {"matplotlib": None, "tfpg.plot.picture": None}):
            status, said = run("plot", *RELAY)
        self.assertEqual(status, 4)
        self.assertIn("matplotlib is missing; on Debian it is the package python3-matplotlib", said)

    @unittest.skipUnless(HAS_MATPLOTLIB, "matplotlib is missing")
    def test_the_picture_has_sets_modes_and_monitors(self):
        content = drawn()
        ElementTree.fromstring(content)
        for words in ("RelayStuck", "StringOpen + CellShort", "no failure", "Eclipse", "Saving", "BusLow", "place in the ranking", "cost"):
            self.assertIn(f">{words}<", content.decode())

    @unittest.skipUnless(HAS_MATPLOTLIB, "matplotlib is missing")
    def test_places_and_costs_of_the_pump(self):
        """By its story: nothing failed at first, and from the alarm on three sets are ranked, by their rarities."""
        from tfpg.plot.picture import _draw

        axes = [mock.MagicMock() for _ in range(3)]
        _draw(subject_of(*(str(EXAMPLES / f"pump.{kind}") for kind in ("tfpg", "log", "report"))), axes)
        lines = [[call for call in axis.plot.call_args_list if call.args[2] == "-"] for axis in axes[:2]]
        names = [call.kwargs["label"] for call in lines[0]]
        places, costs = ([{value for value in call.args[1] if value == value} for call in some] for some in lines)
        self.assertEqual({name: (place, cost) for name, place, cost in zip(names, places, costs)}, {
            "no failure": ({1}, {0}), "FilterClogged": ({1}, {2}), "ValveStuck": ({2}, {3}), "MotorBearing": ({3}, {4})})
        alarms = {tuple(call.args[0]): call.args[1][0] for call in axes[2].plot.call_args_list if call.args[2] == "v" and call.args[0]}
        self.assertEqual(alarms, {(2715000,): 1, (3300000,): 2, (4500000,): 3})

    @unittest.skipUnless(HAS_MATPLOTLIB, "matplotlib is missing")
    def test_the_same_report_gives_the_same_bytes(self):
        self.assertEqual(drawn(), drawn())


MONITORS = 60
WIDE = ["tfpg 1", "mode Day", "mode Night", "failure Left 1", "failure Right 1",
        *(f"or Monitor{number} watch 900000" for number in range(MONITORS)),
        *(f"edge {'Left' if number % 2 else 'Right'} Monitor{number} 0 900000 *" for number in range(MONITORS)), "end"]


def svg_of(graph, log, report):
    """The picture of these texts, read as XML."""
    with files(graph=text(graph), log=text(log), report=text(report)):
        ran = subprocess.run([sys.executable, "-m", "tfpg", "plot", "graph", "log", "report"], stdout=subprocess.PIPE, check=True,
                             env={**os.environ, "PYTHONPATH": str(TOP / "python")})
    return ran.stdout, ElementTree.fromstring(ran.stdout)


def texts_of(picture):
    """The texts of a picture, each with its place."""
    found = []
    for one in picture.iter("{http://www.w3.org/2000/svg}text"):
        place = re.search(r"translate\(([-\d.]+) ([-\d.]+)\)", one.get("transform") or "")
        x, y = (float(place[1]), float(place[2])) if place else (float(one.get("x")), float(one.get("y")))
        found.append(("".join(one.itertext()), x, y))
    return found


def rounds_of(count, ranked):
    """A log of alarms and silences, and a report of it in which each round ranks what a function says."""
    log, report = [], ["report 2 k 1 doubt 0 budget 1000"]
    for number in range(1, count + 1):
        log.append(f"{number * 1000} {'alarm' if number % 3 else 'silent'} Monitor{number % MONITORS}")
        sets = ranked(number)
        report += [f"round {number} {number} {number * 1000}"]
        report += [line for place, (hypothesis, name) in enumerate(sets) for line in
                   (f"ranked {hypothesis} cost 1 robust 1/30 set {name}", f"at {name} 0")]
        others = [one for one in ((0, "-"), (1, "Left"), (2, "Right")) if one not in sets]
        report += [f"rejected {hypothesis} set {name}" for hypothesis, name in others]
        report += [f"counts ranked {len(sets)} covered 0 rejected {3 - len(sets)} open 0"]
    return log, report


@unittest.skipUnless(HAS_MATPLOTLIB, "matplotlib is missing")
class Large(unittest.TestCase):
    def test_names_of_many_monitors_do_not_overprint(self):
        _, picture = svg_of(WIDE, *rounds_of(9, lambda number: [(1, "Left")]))
        heights = sorted(y for words, _, y in texts_of(picture) if words.startswith("Monitor"))
        self.assertEqual(len(heights), MONITORS)
        self.assertGreater(min(after - before for before, after in zip(heights, heights[1:])), 9)

    def test_places_and_costs_are_whole_numbers(self):
        _, picture = svg_of(WIDE, *rounds_of(9, lambda number: [(1, "Left")]))
        left = min(x for words, x, _ in texts_of(picture) if words.startswith("Monitor"))
        marks = [words for words, x, _ in texts_of(picture) if re.fullmatch(r"[-−\d.]+", words) and x < left + 200]
        self.assertGreaterEqual(marks.count("1"), 2)
        self.assertEqual([words for words in marks if "." in words], [])

    def test_ten_thousand_rounds(self):
        """Also if the ranking changes in each of them."""
        changing = lambda number: [(1, "Left"), (2, "Right")][::-1 if number % 2 else 1]
        for name, ranked in (("changing", changing), ("still", lambda number: [(1, "Left")])):
            with self.subTest(name):
                content, picture = svg_of(WIDE, *rounds_of(10000, ranked))
                self.assertLess(len(content), 10**6)
                self.assertTrue([words for words, _, _ in texts_of(picture) if "of 10,000 rounds are drawn" in words])

    def test_a_log_without_an_accepted_line(self):
        for log, report in (([], []), (["x tick"], ["refused 1 BadNumber"])):
            with files(graph=text(WIDE), log=text(log), report=text(["report 2 k 1 doubt 0 budget 1000", *report])):
                ran = subprocess.run([sys.executable, "-m", "tfpg", "plot", "graph", "log", "report"], stdout=subprocess.PIPE,
                                     env={**os.environ, "PYTHONPATH": str(TOP / "python")}, stderr=subprocess.PIPE, check=False)
            self.assertEqual((ran.returncode, ran.stdout), (1, b""))
            self.assertEqual(ran.stderr, b"tfpg plot: log has no line that is accepted, so there is nothing to draw\n")

    def test_a_value_that_stays_is_one_line(self):
        from tfpg.plot.picture import _draw_set

        axis, rounds = mock.Mock(), [mock.Mock(now=now) for now in (0, 10, 20, 30)]
        _draw_set(rounds, axis, [(0, 1), (1, 1), (3, 2)], "C0", "")
        lines, dots = (call.args[:2] for call in axis.plot.call_args_list)
        self.assertEqual([(at, value) for at, value in zip(*lines) if value == value], [(0, 1), (20, 1), (30, 2), (30, 2)])
        self.assertEqual(dots, ([0, 10, 30], [1, 1, 2]))


class Thinned(unittest.TestCase):
    def test_rounds(self):
        self.assertEqual(drawn_rounds([5, 5, 7]), [0, 1, 2])
        times = list(range(0, 30000, 3))
        kept = drawn_rounds(times)
        self.assertEqual((kept[-1], len(kept) <= COLUMNS + 2, len(kept) > COLUMNS // 2), (len(times) - 1, True, True))
        self.assertEqual(drawn_rounds([9] * 400), [399])

    def test_marks(self):
        self.assertEqual(thinned([0, 1, 5, 9, 10], 5), [0, 2, 4])
        rows = {row: list(range(10000)) for row in range(MONITORS)}
        kept = thinned_rows(rows, 10000)
        self.assertLessEqual(sum(map(len, kept.values())), MOST_MARKS)
        self.assertGreater(min(map(len, kept.values())), 20)
        self.assertEqual(thinned_rows({0: [1, 2, 3]}, 300), {0: [1, 2, 3]})


if __name__ == "__main__":
    unittest.main()

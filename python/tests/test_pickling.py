"""Each class of the package goes whole from one process to another, or says that it cannot. The classes are found here, not listed."""

import copy
import ctypes
import enum
import importlib
import inspect
import pickle
import pkgutil
import typing
import unittest
from concurrent.futures import ProcessPoolExecutor
from multiprocessing import get_context

import tfpg
from support import library_words, text, tiny
from tfpg.calls.answers import Refused
from tfpg.calls.library import Library
from tfpg.calls.reporting import Accepted, Report
from tfpg.reading.graphs import graph_of
from tfpg.reading.logs import EventLog
from tfpg.reading.reports import read_report
from tfpg.reading.subjects import Subject

# What is bound to this process: sessions with what they hold, and a sum that is still being made.
BOUND = {"calls.session.Session", "calls.renewing.RenewingSession", "calls.taking.Taking", "calls.renewing.State", "calls.library.Library",
         "calls.numbers.Numbers", "calls.turns.Turns", "calls.layouts.Handle", "fleet.one_log.ReportBytes"}
LINES = ["5 alarm Wet", "7 alarm Nobody"]


def classes():
    """All classes of the package, but those of the picture if matplotlib is missing."""
    for found in pkgutil.walk_packages(tfpg.__path__, "tfpg."):
        if found.name.endswith("__main__"):
            continue
        try:
            module = importlib.import_module(found.name)
        except ImportError:
            continue
        yield from (one for one in vars(module).values() if inspect.isclass(one) and one.__module__ == found.name)


def name_of(kind):
    """The name of a class in the package."""
    return f"{kind.__module__}.{kind.__name__}"[len("tfpg."):]


def refused():
    return Refused(2, "UnknownName", "7 alarm Nobody", None, graph_of(tiny()), 0)


def special():
    """Objects of the classes that are not made of their parts."""
    graph = graph_of(tiny())
    made = [graph, refused(), tfpg.Graph(tiny()), EventLog(graph, LINES, [1]),
            Subject(graph, [], read_report("report 2 k 1 doubt 0 budget 1000\n", graph)), Report("report\n"), Accepted(3)]
    made[-1].refused = made[-2].refused = (refused(),)
    return {type(one): one for one in made}


class Maker:
    """Makes an object of any class, of numbers and words that differ."""

    def __init__(self):
        self.count = 0
        self.made = special()

    def object(self, kind):
        if kind in self.made:
            return self.made[kind]
        if issubclass(kind, enum.Enum):
            return list(kind)[-1]
        if issubclass(kind, ctypes.Structure):
            return kind()
        maker = kind.__new__ if issubclass(kind, tuple) else kind.__init__
        if issubclass(kind, BaseException) and maker is Exception.__init__:
            return kind(self.value(str))
        names = dict(vars(importlib.import_module(kind.__module__)), Refused=Refused)
        hints = typing.get_type_hints(kind if issubclass(kind, tuple) else maker, names)
        hints.pop("return", None)
        return kind(**{name: self.value(hint) for name, hint in hints.items()})

    def value(self, hint):
        origin, parts = typing.get_origin(hint), typing.get_args(hint)
        self.count += 1
        if hint in (int, str, bytes, bool):
            return {int: self.count, str: f"word {self.count}", bytes: b"%d" % self.count, bool: True}[hint]
        if origin is typing.Union:
            return self.value(parts[0])
        if origin is dict or (inspect.isclass(origin) and issubclass(origin, typing.Mapping)):
            return {self.value(parts[0]): self.value(parts[1])}
        if origin in (list, tuple, frozenset):
            return origin(self.value(part) for part in parts if part is not ...)
        if origin is not None or hint in (typing.Any, typing.SupportsIndex):
            return [self.value(part) for part in parts] or self.count
        return self.object(hint)


def content(one):
    """What an object consists of, to compare it with another."""
    if isinstance(one, ctypes.Structure):
        return type(one), bytes(one)
    if isinstance(one, BaseException):
        return type(one), str(one), content(one.args), content(vars(one))
    if isinstance(one, Refused):
        return type(one), one, content(one.explanation)
    if isinstance(one, dict):
        return type(one), [(key, content(value)) for key, value in one.items()]
    if isinstance(one, (list, tuple)):
        return type(one), [content(value) for value in one], content(getattr(one, "__dict__", None))
    if isinstance(one, (str, int)):
        return type(one), str(one), content(getattr(one, "__dict__", None))
    return (type(one), content(vars(one))) if hasattr(one, "__dict__") and not isinstance(one, type) else one


class Pickling(unittest.TestCase):
    def test_each_class(self):
        maker, found = Maker(), set(classes())
        self.assertGreater(len(found), 70)
        self.assertLessEqual(BOUND, set(map(name_of, found)))
        for kind in sorted(found, key=lambda one: (one.__module__, one.__name__)):
            if name_of(kind) in BOUND:
                continue
            with self.subTest(kind=name_of(kind)):
                try:
                    one = maker.object(kind)
                except Exception:
                    self.assertNotIn(kind.__name__, tfpg.__all__)
                    one = self.without_parts(kind)
                for again in (pickle.loads(pickle.dumps(one, protocol)) for protocol in range(2, pickle.HIGHEST_PROTOCOL + 1)):
                    self.assertEqual(content(again), content(one))
                self.assertEqual(content(copy.copy(one)), content(one))

    def without_parts(self, kind):
        """An object of a class whose parts have to fit together."""
        one = kind.__new__(kind)
        if hasattr(one, "__dict__"):
            vars(one).update(number=7, word="word", refused=refused())
        return one

    def test_errors_are_whole(self):
        errors = [one for one in classes() if issubclass(one, (tfpg.Error, Warning))]
        self.assertGreater(len(errors), 15)
        maker = Maker()
        for kind in errors:
            with self.subTest(kind=kind.__name__):
                one = maker.object(kind)
                again = pickle.loads(pickle.dumps(one))
                self.assertEqual((type(again), str(again), again.args), (type(one), str(one), one.args))
                self.assertEqual(content(vars(again)), content(vars(one)))
                self.assertEqual(vars(one).keys() & {"line", "cause", "count", "name", "refused", "first"}, vars(again).keys() & {
                    "line", "cause", "count", "name", "refused", "first"})

    def test_what_is_said_once_is_said_once(self):
        fault = tfpg.UnknownNode("X")
        for _ in range(3):
            fault = pickle.loads(pickle.dumps(fault))
        self.assertEqual((str(fault), fault.name), ("the graph has no node 'X'", "X"))

    def test_a_refused_line_leaves_the_graph_behind(self):
        one = refused()
        again = pickle.loads(pickle.dumps(one))
        self.assertEqual((again, again.sentence, again.hints), (one, one.sentence, one.hints))
        self.assertEqual(again.sentence, "The graph declares no node `Nobody`.")
        self.assertLess(len(pickle.dumps(one)), 2000)

    def test_graphs_are_equal_by_their_texts(self):
        one, other = tfpg.Graph(tiny()), tfpg.Graph(tiny((4, "failure Leak 3")))
        self.assertEqual((one, hash(one)), (tfpg.Graph(tiny()), hash(tfpg.Graph(tiny()))))
        self.assertNotEqual(one, other)
        self.assertEqual(pickle.loads(pickle.dumps(one)).declared.modes, ["Run", "Stop"])

    @unittest.skipIf(library_words(), library_words())
    def test_what_is_bound_to_this_process(self):
        from tfpg.calls.library import library

        with tfpg.Session(tfpg.Graph(tiny())) as session, tfpg.RenewingSession(tfpg.Graph(tiny())) as renewing:
            for one in (session, renewing, session._turns, session._numbers, session._handle, renewing._state):
                with self.subTest(kind=type(one).__name__), self.assertRaises((TypeError, ValueError)):
                    pickle.dumps(one)
            with self.assertRaisesRegex(TypeError, "a session cannot be pickled"):
                pickle.dumps(session)
        self.assertIsInstance(library(), Library)
        with self.assertRaises((TypeError, ValueError, AttributeError, pickle.PicklingError)):
            pickle.dumps(library())


def failing(number):
    """A task of a pool, whose error has to come back."""
    graph = tfpg.Graph(tiny())
    if number == 0:
        raise tfpg.UnknownNode("X")
    if number == 1:
        return tfpg.Session(tfpg.Graph(tiny((7, "or Wet watch 5000 7"))))
    if number == 2:
        return tfpg.Session(graph, strict=True).line("7 alarm Nobody")
    if number == 3:
        return tfpg.explain(graph, "5 tick\n", "set Nobody\n")
    many = text(["tfpg 1", "mode M", *(f"failure F{n} 1" for n in range(64)), "or D hidden", "edge F0 D 0 1 *", "end"])
    return tfpg.Session(tfpg.Graph(many), k=4)


@unittest.skipIf(library_words(), library_words())
class Pools(unittest.TestCase):
    KINDS = [tfpg.UnknownNode, tfpg.BadGraph, tfpg.LineRefused, tfpg.NotAccepted, tfpg.TooManyHypotheses]

    def test_a_pool_of_executors(self):
        with ProcessPoolExecutor(1, mp_context=get_context("spawn")) as pool:
            for number, kind in enumerate(self.KINDS):
                with self.subTest(kind=kind.__name__), self.assertRaises(kind) as raised:
                    pool.submit(failing, number).result(timeout=60)
                self.assertEqual(type(raised.exception), kind)
            self.assertIsInstance(pool.submit(len, "abc").result(timeout=60), int)

    def test_a_pool_of_multiprocessing(self):
        with get_context("spawn").Pool(1) as pool:
            for number, kind in enumerate(self.KINDS):
                with self.subTest(kind=kind.__name__), self.assertRaises(kind):
                    pool.apply_async(failing, [number]).get(timeout=60)

    def test_answers(self):
        graph = tfpg.Graph(tiny())
        with tfpg.Session(graph) as session:
            answers = list(session.rounds(LINES + ["8 alarm Wet"]))
        self.assertEqual(pickle.loads(pickle.dumps(answers)), answers)
        self.assertEqual([one.trace for one in pickle.loads(pickle.dumps(answers))[0].ranked], [one.trace for one in answers[0].ranked])


if __name__ == "__main__":
    unittest.main()

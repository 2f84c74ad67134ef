"""What the docstrings of the public calls say: each word of a call, its unit where it is a time, and an example, which runs here."""

import doctest
import importlib
import inspect
import os
import pkgutil
import unittest

import tfpg
from support import TOP, library_words

CLASSES = (tfpg.Graph, tfpg.Session, tfpg.RenewingSession)


def public_calls():
    """The public calls by their names: functions, and what the classes have that do something."""
    for name in tfpg.__all__:
        one = getattr(tfpg, name)
        if inspect.isfunction(one):
            yield f"tfpg.{name}", one
    for kind in CLASSES:
        yield f"tfpg.{kind.__name__}", kind
        for base in kind.__mro__[:-1]:
            for name, one in vars(base).items():
                if not name.startswith("_") and (inspect.isfunction(one) or isinstance(one, (property, classmethod))):
                    yield f"tfpg.{kind.__name__}.{name}", getattr(kind, name)


def parts():
    """The modules with examples."""
    for found in pkgutil.walk_packages(tfpg.__path__, "tfpg."):
        if found.name.startswith("tfpg.calls.") or found.name == "tfpg.recording.calling":
            yield importlib.import_module(found.name)


class Docstrings(unittest.TestCase):
    def test_each_call_has_one(self):
        found = dict(public_calls())
        self.assertGreater(len(found), 30)
        for name, call in found.items():
            with self.subTest(call=name):
                self.assertTrue(inspect.getdoc(call))

    def test_each_word_of_a_call_is_named(self):
        for name, call in public_calls():
            if isinstance(call, property):
                continue
            said = inspect.getdoc(call)
            for word in inspect.signature(call).parameters:
                if word not in ("self", "cls", "content"):
                    with self.subTest(call=name, word=word):
                        self.assertRegex(said, rf"(?m)`{word}`|^{word}:|^graph, {word}:|^{word}, ")

    def test_times_have_a_unit(self):
        for name in ("Session", "Session.event", "RenewingSession", "report", "check", "ask", "predict", "explain", "rows", "Graph.node"):
            with self.subTest(call=name):
                one = tfpg
                for part in name.split("."):
                    one = getattr(one, part)
                self.assertIn("milliseconds", inspect.getdoc(one))

    def test_those_that_have_to_have_an_example(self):
        of_sessions = ("line", "event", "rounds", "rounds_async", "block", "last", "count", "close")
        for name in ("Graph", "Graph.load", "Graph.node", "Session", *(f"Session.{call}" for call in of_sessions), "RenewingSession",
                     "report", "check", "ask", "predict", "explain", "records", "rows"):
            with self.subTest(call=name):
                one = tfpg
                for part in name.split("."):
                    one = getattr(one, part)
                self.assertIn(">>> ", inspect.getdoc(one))

    @unittest.skipIf(library_words(), library_words())
    def test_the_examples(self):
        before, count = os.getcwd(), 0
        os.chdir(TOP)
        try:
            for module in parts():
                result = doctest.testmod(module, extraglobs={"tfpg": tfpg})
                with self.subTest(module=module.__name__):
                    self.assertEqual(result.failed, 0)
                count += result.attempted
        finally:
            os.chdir(before)
        self.assertGreater(count, 30)


if __name__ == "__main__":
    unittest.main()

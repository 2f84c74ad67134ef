"""Each mistake that is planted in the page or in the package for Python applies: its text stands there once, and its test is there."""

import ast
import importlib.util
import unittest
from pathlib import Path
from types import ModuleType
from typing import Set

TOP = Path(__file__).resolve().parents[2]
LISTS = {"page": TOP / "page", "python": TOP / "python" / "tfpg"}  # the folder that has the planted mistakes, and what files they are in
LEAST = 100


def module_of(path: Path) -> ModuleType:
    """A module by its file, whatever else bears its name."""
    spec = importlib.util.spec_from_file_location(f"{path.parents[1].name}_{path.stem}", path)
    assert spec and spec.loader
    module = importlib.util.module_from_spec(spec)
    spec.loader.exec_module(module)
    return module


def page_tests() -> Set[str]:
    """The names of the tests of the page."""
    found = set()
    for path in (TOP / "page" / "tests").glob("test_*.py"):
        for node in ast.parse(path.read_text(encoding="utf-8")).body:
            if isinstance(node, ast.FunctionDef) and [one.arg for one in node.args.args] == ["view"]:
                found.add(f"{path.stem.replace('test_', '', 1)}.{node.name}")
    return found


def package_tests() -> Set[str]:
    """The names of the tests of the package."""
    found = set()
    for path in (TOP / "python" / "tests").glob("test_*.py"):
        classes = [node for node in ast.parse(path.read_text(encoding="utf-8")).body if isinstance(node, ast.ClassDef)]
        found.update(f"{path.stem}.{one.name}.{test.name}" for one in classes for test in one.body if isinstance(test, ast.FunctionDef))
    return found


class Planted(unittest.TestCase):
    def test_each_applies(self):
        tests, count = {"page": page_tests(), "python": package_tests()}, 0
        for place, folder in LISTS.items():
            for mistake in module_of(TOP / place / "planted" / "mistakes.py").MISTAKES:
                count += 1
                with self.subTest(place=place, what=mistake.what):
                    text = (folder / mistake.file).read_text(encoding="utf-8")
                    self.assertEqual(text.count(mistake.right), 1, f"how often it stands in {mistake.file}")
                    self.assertNotEqual(mistake.right, mistake.wrong)
                    self.assertIn(mistake.test, tests[place])
                    if mistake.file.endswith(".py"):
                        ast.parse(text.replace(mistake.right, mistake.wrong))
        self.assertGreaterEqual(count, LEAST)

    def test_each_forged_report_applies(self):
        right = (TOP / "examples" / "pump.report").read_bytes()
        for forged in module_of(TOP / "page" / "planted" / "forged.py").FORGED:
            with self.subTest(what=forged.what):
                report = right
                for old, new in forged.changes:
                    self.assertEqual(report.count(old), 1, old)
                    report = report.replace(old, new)


if __name__ == "__main__":
    unittest.main()

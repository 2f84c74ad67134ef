"""No module of the package imports one above it, and parts of one layer import nothing of each other."""

import ast
import unittest

from support import TOP

PACKAGE = TOP / "python" / "tfpg"
# The parts from below. A part is a folder with its modules, or a module beside the folders.
LAYERS = [
    {"limits", "portable"},
    {"faults", "reading"},
    {"program", "explaining", "saying"},
    {"calls", "warning"},
    {"inputs", "recording", "stream"},
    {"fleet"},
    {"lint", "brief", "plot", "answers"},
    {"__main__", "__init__"},
]
HEIGHTS = {part: height for height, parts in enumerate(LAYERS) for part in parts}


def part_of(names):
    """The part in which a module stands, by the names from the top of the package."""
    return names[0] if names else "__init__"


def is_for_types(node):
    """Whether these statements are for checkers of types alone, and never run."""
    return isinstance(node, ast.If) and getattr(node.test, "id", "") == "TYPE_CHECKING"


def imports_in(body):
    """All imports that may run, also those in functions."""
    for node in body:
        if isinstance(node, (ast.Import, ast.ImportFrom)):
            yield node
        elif not is_for_types(node):
            yield from imports_in(ast.iter_child_nodes(node))


def parts_imported(path):
    """The parts of the package that a module imports, each with the line."""
    here = list(path.relative_to(PACKAGE).with_suffix("").parts)
    for node in imports_in(ast.parse(path.read_text(encoding="utf-8")).body):
        if isinstance(node, ast.Import):
            found = [name.name.split(".")[1:] for name in node.names if name.name.split(".")[0] == "tfpg"]
        elif node.level:
            base = here[:len(here) - node.level] + (node.module.split(".") if node.module else [])
            found = [base + ([] if base else [name.name]) for name in node.names]
        else:
            found = [node.module.split(".")[1:]] if node.module.split(".")[0] == "tfpg" else []
        yield from ((part_of(names), node.lineno) for names in found)


class Layers(unittest.TestCase):
    def test_each_part_has_a_layer(self):
        parts = {path.relative_to(PACKAGE).with_suffix("").parts[0] for path in PACKAGE.rglob("*.py")}
        self.assertEqual(parts - HEIGHTS.keys(), set())

    def test_imports_go_down(self):
        count = 0
        for path in sorted(PACKAGE.rglob("*.py")):
            own = path.relative_to(PACKAGE).with_suffix("").parts[0]
            for part, line in parts_imported(path):
                count += 1
                with self.subTest(file=str(path.relative_to(PACKAGE)), line=line):
                    self.assertTrue(part == own or HEIGHTS[part] < HEIGHTS[own], f"{own} imports {part}")
        self.assertGreater(count, 200)


if __name__ == "__main__":
    unittest.main()

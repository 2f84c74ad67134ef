"""The layouts, the numbers and the calls of `tfpg.calls`, beside those that `include/tfpg.h` declares."""

import ctypes
import hashlib
import re
import unittest

from support import TOP
from tfpg.calls import layouts
from tfpg.calls.library import CALLS

HEADER = re.sub(r"/\*.*?\*/", "", (TOP / "include" / "tfpg.h").read_text(encoding="utf-8"), flags=re.S)
FIELDS = {"bool": ctypes.c_bool, "uint32_t": ctypes.c_uint32, "uint64_t": ctypes.c_uint64, "uint8_t *": ctypes.c_void_p}
WORDS = {"size_t": ctypes.c_size_t, "uint32_t": ctypes.c_uint32, "uint64_t": ctypes.c_uint64, "const uint8_t *": ctypes.c_char_p}
ENUMS = {
    "tfpg_status": ("TFPG_", layouts.Status),
    "tfpg_graph_cause": ("TFPG_GRAPH_", layouts.GRAPH_CAUSES),
    "tfpg_report_cause": ("TFPG_REPORT_", layouts.REPORT_CAUSES),
    "tfpg_refusal": ("TFPG_LOG_", layouts.LOG_CAUSES),
    "tfpg_event_kind": ("TFPG_", layouts.EventKind),
    "tfpg_name_kind": ("TFPG_", layouts.NameKind),
}


def found(pattern):
    """What the header has of this form."""
    return re.search(pattern, HEADER, re.S)


def typed(declared, types, otherwise=None):
    """The name and the type of a declared field or word."""
    kind, name, count = re.fullmatch(r"\s*((?:const )?\w+ \*?)(\w+)(?:\[(\d+)\])?", declared, re.S).groups()
    one = types.get(kind.strip() if kind.strip() in types else kind, otherwise)
    return name, one * int(count) if count else one


def fields_of(body):
    """The fields of a struct. Those of one type may stand together."""
    for declared in filter(str.strip, body.split(";")):
        first, *more = declared.split(",")
        yield typed(first, FIELDS)
        for name in more:
            yield typed(f"{first.split()[0]} {name.strip()}", FIELDS)


# Of the declarations and the numbers of the header, without comments and spaces.
SUM = "dcaa868778f8f2acdfeaa21eca177ae11e2e9c645e1737ea8646bf911e094655"


class Header(unittest.TestCase):
    def test_the_version_rises_with_each_change(self):
        """If this fails, raise TFPG_HEADER_VERSION, change HEADER_VERSION and what else the change asks for, and then the sum."""
        version = found(r"#define TFPG_HEADER_VERSION (\d+)")
        self.assertEqual(int(version[1]), layouts.HEADER_VERSION)
        declarations = "".join(HEADER[:HEADER.index("static inline")].split())
        self.assertEqual(hashlib.sha256(declarations.encode("ascii")).hexdigest(), SUM)

    def test_layouts(self):
        for name, layout in layouts.LAYOUTS.items():
            with self.subTest(name=name):
                body = found(rf"typedef struct \{{([^}}]*)\}} {name};")
                self.assertEqual([tuple(field) for field in layout._fields_], list(fields_of(body[1])))

    def test_numbers_that_are_read_at_once_have_no_hole(self):
        for layout in (layouts.ResultNumbers, layouts.RankedNumbers):
            self.assertEqual(layouts.numbers_in(layout).size, ctypes.sizeof(layout))

    def test_numbers(self):
        for name, (prefix, known) in ENUMS.items():
            with self.subTest(name=name):
                body = found(rf"enum {name} \{{([^}}]*)\}}")
                declared = {one[1]: int(one[2]) for one in re.finditer(prefix + r"(\w+) = (\d+)", body[1])}
                if isinstance(known, dict):
                    self.assertEqual({number: "".join(map(str.capitalize, cause.split("_"))) for cause, number in declared.items()}, known)
                else:
                    self.assertEqual(declared, {one.name: int(one) for one in known})

    def test_all_of_them_are_there(self):
        self.assertEqual(set(re.findall(r"^\} (tfpg_\w+);", HEADER, re.M)), set(layouts.LAYOUTS))
        self.assertEqual(set(re.findall(r"^(?:tfpg_answer|void) (tfpg_\w+)\(", HEADER, re.M)), set(CALLS))

    def test_calls(self):
        for name, (answer, words) in CALLS.items():
            with self.subTest(name=name):
                declared = found(rf"(\w+) {name}\(([^)]*)\);")
                self.assertEqual(declared[1], "void" if answer is None else "tfpg_answer")
                self.assertEqual([typed(word, WORDS, ctypes.c_void_p)[1] for word in declared[2].split(",")], words)


if __name__ == "__main__":
    unittest.main()

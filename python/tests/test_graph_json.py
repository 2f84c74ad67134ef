"""Graphs as JSON that are none: the place, and what has to stand there."""

import json
import unittest

import tfpg
from support import files, run, unwrapped
from tfpg.explaining.graph_json import json_sentence

GRAPH = {"modes": ["Run"], "nodes": [{"name": "F", "kind": "failure", "rarity": 1}, {"name": "A", "kind": "or", "lag": 5, "least": 0}],
         "edges": [{"from": "F", "to": "A", "min": 0, "max": 5, "modes": None}]}


def changed(path, value=...):
    """The graph with another value at a path, or without it."""
    graph = json.loads(json.dumps(GRAPH))
    *way, last = path
    here = graph
    for key in way:
        here = here[key]
    if value is ...:
        del here[last]
    else:
        here[last] = value
    return json.dumps(graph)


CASES = [
    ("[1, 2]", "At `.` there has to be an object with the keys `modes`, `nodes` and `edges`."),
    ('{"modes": ["Run"],\n "nodes": [],\n "edges": [1,]}', "It is no JSON from line 3, column 1"),  # 14; from Python 3.13 on 13
    ('{"modes": ["Run"]', "It is no JSON from line 1, column 18 on: Expecting ',' delimiter."),
    (changed(["modes"]), "At `.modes` there has to be a list of names."),
    (changed(["edges"], {}), "At `.edges` there has to be a list of objects."),
    (changed(["modes", 0], 5), "At `.modes[0]` there has to be a name, a text."),
    (changed(["nodes", 1], "A"), "At `.nodes[1]` there has to be an object."),
    (changed(["nodes", 0, "kind"], "fault"), "At `.nodes[0].kind` there has to be `failure`, `or` or `and`, a text."),
    (changed(["nodes", 0, "rarity"]), "At `.nodes[0].rarity` there has to be a whole number without a sign, a point or an exponent."),
    (changed(["nodes", 1, "lag"], 1.5), "At `.nodes[1].lag` stands 1.5, and has to be a whole number without a sign, a point or an "
                                        "exponent, or "
                                        "null if the node has no monitor."),
    (changed(["nodes", 1, "least"], None), "At `.nodes[1].least` there has to be a whole number"),
    (changed(["nodes", 1, "name"], "A b"), "At `.nodes[1].name` the name \"A b\" has not the form of one. A name has 1 to 32 bytes"),
    (changed(["edges", 0, "from"]), "At `.edges[0].from` there has to be a name, a text."),
    (changed(["edges", 0, "min"], -1), "At `.edges[0].min` there has to be a whole number"),
    (changed(["edges", 0, "max"]), "At `.edges[0].max` there has to be a whole number without a sign, a point or an exponent, or null if "
                                   "there is "
                                   "no greatest delay."),
    (changed(["edges", 0, "modes"]), "At `.edges[0].modes` there has to be a list of names, or null for all modes."),
    (changed(["edges", 0, "modes"], ["Run", "2"]), "At `.edges[0].modes[1]` the name \"2\" has not the form of one."),
]


class Json(unittest.TestCase):
    def test_each_place(self):
        for content, said in CASES:
            with self.subTest(content=content):
                self.assertIn(said, json_sentence(content.encode()))
        self.assertIn("It is not UTF-8 from line 2 on", json_sentence(b'{"modes":\n["\xe4"]}'))
        self.assertIn("has the shape", json_sentence(json.dumps(GRAPH).encode()))

    def test_the_program_refuses_them(self):
        """What has a place here is refused by the program too, and both commands of `lint` name the place."""
        for content, said in (CASES[1], CASES[9], CASES[14]):
            with self.subTest(content=content), files(graph=content):
                for words, status in ((["graph"], 3), (["--words", "convert", "--json", "graph"], 3)):
                    found, told = run("lint", *words)
                    self.assertEqual(found, status)
                    self.assertIn(said, unwrapped(told))
                with self.assertRaises(tfpg.BadGraph) as raised:
                    tfpg.Graph.load("graph")
                self.assertIn(said, raised.exception.sentence)

    def test_more_digits_than_python_reads(self):
        """What the program refuses is refused in its words, and not by the limit that Python sets to the digits of a number."""
        for sign in ("", "-"):
            for path, said in ((["nodes", 0, "rarity"], "At `.nodes[0].rarity` there has to be a whole number"),
                               (["edges", 0, "max"], "At `.edges[0].max` there has to be a whole number"),
                               (["note"], "It is no JSON that the program reads")):
                content = changed(path, 12345).replace("12345", sign + "1" * 5000)
                with self.subTest(path=path, sign=sign), files(graph=content):
                    for words in (["graph"], ["--words", "convert", "--json", "graph"]):
                        status, told = run("lint", *words)
                        self.assertEqual(status, 3)
                        self.assertIn(said, unwrapped(told))
                    with self.assertRaises(tfpg.BadGraph) as raised:
                        tfpg.Graph.load("graph")
                    self.assertIn(said, raised.exception.sentence)

    def test_a_fault_of_the_graph(self):
        with files(graph=changed(["edges", 0, "to"], "B")):
            said = unwrapped(run("lint", "--words", "convert", "--json", "graph")[1])
        self.assertIn("graph, line 5 of the text that it stands for: UnknownName", said)


if __name__ == "__main__":
    unittest.main()

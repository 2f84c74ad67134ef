"""Slips of ten kinds that a person makes in the graph and the log of the pump, each with the right sentence."""

import unittest

from support import EXAMPLES, lint, underlined, unwrapped

GRAPH = (EXAMPLES / "pump.tfpg").read_text()
LOG = (EXAMPLES / "pump.log").read_text()
COOLANT = GRAPH.replace("MotorHot", "CoolantHot")

# the kind of slip, the graph, the log or nothing, the first line that is told, the underlined word, the sentence
SLIPS = [
    ("a wrong name of a node", COOLANT, LOG.replace("MotorHot", "CoolantHeat"), "log line 4: UnknownName", "CoolantHeat",
     "The graph declares no node `CoolantHeat`. The nodes with a monitor: HighPressure, LowFlow, CoolantHot, LowLevel."),
    ("small and capital letters", GRAPH, LOG.replace("alarm LowFlow", "alarm lowflow"), "log line 3: UnknownName", "lowflow",
     "The graph declares no node `lowflow`."),
    ("seconds with decimals", GRAPH, LOG.replace("2715000", "2715.0"), "log line 3: BadNumber", "2715.0",
     "If it counts seconds, write 2715000."),
    ("a time of day", GRAPH, LOG.replace("2715000", "6:45:15"), "log line 3: BadNumber", "6:45:15", "This one is a date or a time of day."),
    ("two words in turn", GRAPH, LOG.replace("2715000 alarm LowFlow", "alarm 2715000 LowFlow"), "log line 3: BadLine", "alarm",
     "The time comes first."),
    ("the greatest delay first", GRAPH.replace("LowFlow 1000 20000", "LowFlow 20000 1000"), None, "graph line 14: MinOverMax", "20000",
     "The least delay 20000 is above the greatest delay 1000."),
    ("source and target in turn", GRAPH.replace("edge ValveStuck LowFlow", "edge LowFlow ValveStuck"), None,
     "graph line 17: EdgeIntoFailure",
     "ValveStuck", "The edge enters `ValveStuck`, which line 4 declares as a failure mode."),
    ("a word that is missing", GRAPH.replace("20000 *", "20000"), None, "graph line 14: BadLine", "20000",
     "1 word is missing after `20000`. The shape is `edge SOURCE TARGET TMIN TMAX MODES`."),
    ("an edge before its node", GRAPH.replace("or LowLevel watch 60000\n", "").replace("end\n", "or LowLevel watch 60000\nend\n"), None,
     "graph line 21: UnknownName", "LowLevel", "Line 23 declares it, and that is below. Nodes come before edges."),
    ("a line twice", GRAPH.replace("or LowFlow watch 5000\n", "or LowFlow watch 5000\nor LowFlow watch 5000\n"), None,
     "graph line 11: DuplicateName", "LowFlow", "The name `LowFlow` is taken: line 10 declares it."),
    ("a letter that is missing in a keyword", GRAPH.replace("failure ValveStuck", "falure ValveStuck"), None, "graph line 4: BadLine",
     "falure",
     "`falure` is no keyword of a graph. A line begins with mode, failure, or, and, edge or end."),
    ("the lines of Windows", GRAPH, LOG.replace("\n", "\r\n"), "log line 1: BadLine", None, "All 7 lines end with a carriage return"),
]


class Slips(unittest.TestCase):
    def test_each_slip(self):
        for kind, graph, log, first, word, sentence in SLIPS:
            with self.subTest(kind=kind):
                status, said = lint(graph, log)
                self.assertEqual(status, 3 if log is None else 1)
                self.assertEqual(said.split("\n")[0], first)
                self.assertIn(sentence, unwrapped(said))
                if word is not None:
                    self.assertEqual(underlined(said)[0], word)

    def test_no_name_is_guessed(self):
        """The list of names is the same, whichever wrong name is asked for."""
        ends = set()
        for name in ("CoolantHeat", "LowFlo", "Xyz"):
            said = unwrapped(lint(COOLANT, f"5 alarm {name}\n")[1])
            ends.add(said.partition("`. ")[2])
        self.assertEqual(len(ends), 1)


if __name__ == "__main__":
    unittest.main()

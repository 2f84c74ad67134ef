"""Each cause of a graph: the line, the word that is underlined, and the sentence."""

import unittest

from support import TINY, lint, text, tiny, underlined, unwrapped, widest

EDGES = TINY[7:]
LONG = "N" * 33

# cause, graph, line, underlined word or nothing, what is said
CASES = [
    ("BadHeader", tiny((1, "tfpg 3")), 1, "tfpg 3",
     "The first line is `tfpg 1` or `tfpg 2`, and nothing else. There are the versions 1 and 2."),
    ("BadHeader", tiny((1, "TFPG 1")), 1, "TFPG 1", "Small and capital letters differ."),
    ("BadHeader", "", 1, None, "The text is empty."),
    ("BadHeader", tiny((1, "# pump")), 1, "# pump", "Empty lines and comments may stand below it."),
    ("BadHeader", tiny((1, "\ufefftfpg 1")), 1, None, "The text begins with a byte order mark. Save it as UTF-8 without one."),
    ("BadHeader", '{"modes":["N"],"nodes":[],"edges":[]}\n', 1, None,
     "It begins like JSON. The program makes a graph of that: `tfpg convert --json OLD > NEW`"),
    ("BadLine", tiny((4, "fail Leak 2")), 4, "fail",
     "`fail` is no keyword of a graph. A line begins with mode, failure, or, and, edge or end."),
    ("BadLine", tiny((4, "Failure Leak 2")), 4, "Failure", "Keywords have small letters."),
    ("BadLine", tiny((4, "failure Leak")), 4, "Leak", "1 word is missing after `Leak`. The shape is `failure NAME RARITY`."),
    ("BadLine", tiny((4, "failure Big Leak 2")), 4, "2",
     "`2` is one word too many. The shape is `failure NAME RARITY`. A name has no spaces."),
    ("BadLine", tiny((8, "edge Leak Hidden 10 20")), 8, "20",
     "1 word is missing after `20`. The shape is `edge SOURCE TARGET TMIN TMAX MODES`."),
    ("BadLine", tiny((7, "or Wet watched 5000")), 7, "watched", "`watched` is neither `hidden` nor `watch`."),
    ("BadLine", tiny((7, "or Wet watch 0 5000")), 7, "5000", "In version 1 `watch` has one number, the greatest lag, and here are two."),
    ("BadLine", tiny((1, "tfpg 2")), 7, "5000", "In version 2 `watch` has two numbers, the least lag and the greatest, and here is one."),
    ("BadLine", tiny((7, "or Wet watch")), 7, "watch", "After `watch` the lag is missing."),
    ("BadLine", tiny((6, "or Hidden hidden 0")), 6, "0", "After `hidden` comes nothing, and here comes `0`."),
    ("BadLine", tiny((4, "failure  Leak 2")), 4, " ", "There are two spaces in a row. Words have one space between them."),
    ("BadLine", tiny((4, " failure Leak 2")), 4, " ", "It begins with a space. The first word begins the line."),
    ("BadLine", tiny((4, "failure Leak 2 # drips")), 4, "#",
     "A comment at the end of a line is not possible: all words of the line count."),
    ("BadLine", tiny((4, "failure\tLeak 2")), 4, None, "There is a tab in it. Words have one space between them."),
    ("BadLine", text(TINY[:1] + TINY[3:]), 2, "failure",
     "Here is a node before any mode. There is at least one mode, and modes come first."),
    ("BadLine", text(TINY[:4] + ["mode Late"] + TINY[4:]), 5, "mode", "Here is a mode after a node: line 4 declares one."),
    ("BadLine", text(TINY[:8] + ["or Late hidden"] + TINY[8:]), 9, "or", "Here is a node after an edge: line 8 declares one."),
    ("BadLine", tiny((4, "failure " + "L" * 5000 + " 2")), 4, None, "A line has at most 4,096 bytes, and this one has 5,010."),
    ("BadName", tiny((4, "failure 1Leak 2")), 4, "1Leak", "`1Leak` is no name. A name has 1 to 32 bytes"),
    ("BadName", tiny((4, "failure " + LONG + " 2")), 4, LONG, "This one has 33 bytes."),
    ("BadName", tiny((4, "failure Le:ak 2")), 4, "Le:ak", "This one has `:` in it."),
    ("BadName", tiny((4, "failure Läck 2")), 4, "Läck", "This one has a letter that is none from A to Z or a to z."),
    ("BadName", tiny((9, "edge Hidden Wet 0 inf Run,,Stop")), 9, None, "A name is missing between commas."),
    ("BadName", tiny((2, "mode Run\r")), 2, "Run␍", "This line ends with a carriage return before the line feed"),
    ("DuplicateName", tiny((5, "failure Leak 3")), 5, "Leak", "The name `Leak` is taken: line 4 declares it."),
    ("DuplicateName", tiny((3, "mode Run")), 3, "Run", "The name `Run` is taken: line 2 declares it."),
    ("DuplicateName", tiny((9, "edge Hidden Wet 0 inf Run,Stop,Run")), 9, "Run", "MODES names `Run` twice."),
    ("UnknownName", tiny((8, "edge Leek Hidden 10 20 *")), 8, "Leek",
     "No line above declares a node `Leek`. The nodes: Leak, Jam, Hidden, Wet."),
    ("UnknownName", tiny((9, "edge Hidden Wet 0 inf Runs")), 9, "Runs", "`Runs` is no mode of the graph. Its modes: Run, Stop."),
    ("UnknownName", text(TINY[:5] + EDGES[:1] + TINY[5:7] + EDGES[1:]), 6, "Hidden",
     "Line 7 declares it, and that is below. Nodes come before edges."),
    ("BadNumber", tiny((4, "failure Leak two")), 4, "two", "`two` is no number."),
    ("BadNumber", tiny((8, "edge Leak Hidden 0.5 20 *")), 8, "0.5", "This one has decimals. If it counts seconds, write 500."),
    ("BadNumber", tiny((8, "edge Leak Hidden -1 20 *")), 8, "-1", "This one is below 0."),
    ("BadNumber", tiny((8, "edge Leak Hidden inf inf *")), 8, "inf", "Only the greatest delay of an edge may be `inf`."),
    ("BadNumber", tiny((8, "edge Leak Hidden 10 20s *")), 8, "20s", "This one has the unit `s` after it."),
    ("BadNumber", tiny((7, "or Wet watch 05")), 7, "05", "This one has a 0 before it: write 5."),
    ("NumberTooLarge", tiny((4, "failure Leak 1000001")), 4, "1000001", "A rarity is at most 1,000,000, and `1000001` is above it."),
    ("NumberTooLarge", tiny((8, "edge Leak Hidden 10 9999999999999 *")), 8, "9999999999999", "For no greatest delay write `inf`."),
    ("MinOverMax", tiny((8, "edge Leak Hidden 30 20 *")), 8, "30",
     "The least delay 30 is above the greatest delay 20. The least comes first."),
    ("MinOverMax", tiny((1, "tfpg 2"), (7, "or Wet watch 9 5")), 7, "9", "The least lag 9 is above the greatest lag 5."),
    ("EdgeIntoFailure", tiny((8, "edge Hidden Leak 10 20 *")), 8, "Leak",
     "The edge enters `Leak`, which line 4 declares as a failure mode."),
    ("SelfEdge", tiny((8, "edge Hidden Hidden 10 20 *")), 8, "Hidden", "The edge goes from `Hidden` to itself."),
    ("DuplicateEdge", tiny((9, "edge Leak Hidden 0 5 *")), 9, "Hidden", "Line 8 declares an edge from `Leak` to `Hidden` already."),
    ("NoModes", tiny((9, "edge Hidden Wet 0 inf -")), 9, "-",
     "`-` means no mode, and an edge is active in at least one. Write `*` for all modes. The modes: Run, Stop."),
    ("NoIncoming", tiny((9, "edge Leak Wet 0 inf *"), (8, "edge Hidden Wet 0 5 *")), 6, "Hidden",
     "No edge enters the discrepancy `Hidden`, so nothing can cause it. Edges leave it in line 8."),
    ("ZeroCycle", text(TINY[:9] + ["edge Wet Hidden 0 5 *", "end"]), 9, "Hidden",
     "Edges with the least delay 0 make a cycle: Hidden to Wet to Hidden. They stand in lines 9 and 10."),
    ("ZeroCycle", text(TINY[:6] + ["or Damp hidden"] + TINY[6:9]
                       + ["edge Wet Damp 0 5 *", "edge Damp Hidden 0 5 *", "edge Wet Hidden 5 9 *", "end"]), 10, "Hidden",
     "make a cycle: Hidden to Wet to Damp to Hidden. They stand in lines 10, 11 and 12."),
    ("MissingEnd", text(TINY[:9]), 10, None, "There is no line `end`, which is the last one of a graph. Is the text cut off?"),
    ("AfterEnd", text(TINY + ["mode Late"]), 11, "mode", "Line 10 is `end`, after which come empty lines and comments alone."),
    ("TooManyNodes", text(TINY[:7] + [f"or N{n} hidden" for n in range(509)] + ["end"]), 516, "N508",
     "A graph has at most 512 nodes, and this line declares one more."),
    ("TooManyFailures", text(TINY[:3] + [f"failure F{n} 1" for n in range(65)] + ["end"]), 68, "F64",
     "A graph has at most 64 failure modes"),
    ("TooManyModes", text(["tfpg 1"] + [f"mode M{n}" for n in range(65)]), 66, "M64",
     "A graph has at most 64 modes, and this line declares one more."),
    ("TooManyIncoming",
     text(TINY[:2] + [f"failure F{n} 1" for n in range(33)] + ["or A hidden"] + [f"edge F{n} A 1 2 *" for n in range(33)] + ["end"]),
     69, "A", "A graph has at most 32 edges into one node, and this line declares one more."),
    ("TooManyEdges", text(TINY[:2] + [f"failure F{n} 1" for n in range(32)] + [f"or A{n} hidden" for n in range(65)]
                          + [f"edge F{m} A{n} 1 2 *" for n in range(64) for m in range(32)] + ["edge F0 A64 1 2 *", "end"]),
     2148, "F0", "A graph has at most 2,048 edges, and this line declares one more."),
]
CAUSES = set("""BadHeader BadLine BadName DuplicateName UnknownName BadNumber NumberTooLarge MinOverMax EdgeIntoFailure SelfEdge
DuplicateEdge NoModes NoIncoming ZeroCycle TooManyNodes TooManyFailures TooManyEdges TooManyModes TooManyIncoming
MissingEnd AfterEnd""".split())


class GraphCauses(unittest.TestCase):
    def test_each_cause_has_a_case(self):
        self.assertEqual({case[0] for case in CASES}, CAUSES)

    def test_the_tiny_graph_is_accepted(self):
        self.assertEqual(lint(tiny()), (0, "graph: the program accepts this graph.\n"))

    def test_each_case(self):
        for cause, graph, line, word, sentence in CASES:
            with self.subTest(cause=cause, sentence=sentence):
                status, said = lint(graph)
                self.assertEqual(status, 3)
                self.assertEqual(said.split("\n")[0], f"graph line {line}: {cause}")
                self.assertIn(sentence, unwrapped(said))
                self.assertLessEqual(widest(said), 80)
                if word is not None:
                    self.assertEqual(underlined(said), [word])


if __name__ == "__main__":
    unittest.main()

"""Each cause of the words of the command line: the word that is underlined, and the sentence."""

import unittest

from support import EXAMPLES, files, run, tiny, underlined, unwrapped, widest
from tfpg.explaining.usage import explain_words

NAMES = ",".join(f"V{n}" for n in range(65))

# cause, words, underlined word or nothing, what is said
CASES = [
    ("NoCommand", "", None, "There is no word. The first word is a command. The commands: diagnose, check, explain, simulate"),
    ("UnknownCommand", "diagnoze G", "diagnoze", "`diagnoze` is no command."),
    ("UnknownCommand", "--k 3 diagnose G", "--k", "The command is the first word, before all options."),
    ("BadWords", "diagnose", None, "GRAPH is missing. The log is the input of diagnose: `tfpg diagnose GRAPH < LOG` "
     "The words are `tfpg diagnose [--k N] [--doubt N] [--budget N] GRAPH [PANEL]..`."),
    ("BadWords", "check", None, "GRAPH and LOG are missing."),
    ("BadWords", "ask G L N", "N", "`N` is one word too many."),
    ("BadWords", "diagnose --ahead 5 G", "--ahead", "`--ahead` is no option of diagnose. It is an option of predict."),
    ("BadWords", "diagnose -k 5 G", "-k", "`-k` is no option of diagnose. Options begin with two dashes."),
    ("BadWords", "diagnose --k 1 G --k=2", "--k=2", "`--k` stands twice."),
    ("BadWords", "diagnose G --k", "--k", "The value of `--k` is missing."),
    ("BadWords", "diagnose --k -1 G", "--k", "`-1` begins with `-`, so it is an option and never a value."),
    ("BadWords", "convert --json=1 G", "--json=1", "`--json` has no value."),
    ("BadWords", "check -G L", "-G", "A file whose name begins with `-` stands after `--`."),
    ("BadNumber", "diagnose --k two G", "two", "The value `two` of `--k` is no number."),
    ("BadNumber", "diagnose --k=2.5 G", "2.5", "This one has decimals."),
    ("BadNumber", "diagnose --k= G", "--k=", "The value of `--k` is empty."),
    ("OutOfRange", "diagnose --k 65 G", "65", "`--k` is from 0 to 64, and `65` is not. Without this option it is 2."),
    ("OutOfRange", "ask --budget 0 G L", "0", "`--budget` is from 1 to 10^12, and `0` is not."),
    ("OutOfRange", "diagnose --doubt 5 G", "5", "`--doubt` is from 0 to 4, and `5` is not."),
    ("OutOfRange", "generate --size 101", "101", "`--size` is from 1 to 100, and `101` is not."),
    ("BadPanel", "diagnose G L", "L", "`L` comes after GRAPH, and is no panel. A panel is `top:FILE`, `count:FILE` or `json:FILE`. "
     "The log is the input: `tfpg diagnose GRAPH < LOG`"),
    ("BadPanel", "diagnose G top:", "top:", "After the colon comes the name of a file."),
    ("BadNames", "fleet G north,south,north", "north", "The vehicle `north` stands twice."),
    ("BadNames", "fleet G north,,south", None, "A name of a vehicle is empty."),
    ("BadNames", "fleet G 1st,2nd", "1st", "`1st` is no name of a vehicle."),
    ("BadNames", f"fleet G {NAMES}", None, "There are 65 names of vehicles, and at most 64 are possible."),
]
CAUSES = {"NoCommand", "UnknownCommand", "BadWords", "BadNumber", "OutOfRange", "BadPanel", "BadNames"}


class Usage(unittest.TestCase):
    def test_each_cause_has_a_case(self):
        self.assertEqual({case[0] for case in CASES}, CAUSES)

    def test_each_case(self):
        for cause, words, word, sentence in CASES:
            with self.subTest(words=words[:40]):
                status, said = run("lint", "--words", *words.split())
                self.assertEqual((status, said.split("\n")[0]), (2, f"words: {cause}"))
                self.assertIn(sentence, unwrapped(said))
                self.assertLessEqual(widest(said), 80)
                if word is not None:
                    self.assertEqual(underlined(said), [word])

    def test_words_that_are_not_utf_8(self):
        said = explain_words(["convert", "\xff"], "BadWords")
        self.assertEqual((said.sentence, said.word.text), ("`\ufffd` is not UTF-8.", "\xff"))

    def test_a_node_that_the_graph_does_not_have(self):
        with files(graph=tiny(), log="5 tick\n"):
            status, said = run("lint", "--words", "predict", "graph", "log", "Wett")
        self.assertEqual((status, underlined(said)), (2, ["Wett"]))
        self.assertIn("The graph declares no node `Wett`. Its nodes: Leak, Jam, Hidden, Wet.", unwrapped(said))

    def test_words_that_are_accepted(self):
        self.assertEqual(run("lint", "--words", "diagnose", "--k=1", str(EXAMPLES / "pump.tfpg")), (0,
            "The program accepts these words.\n"))

    def test_right_words_with_a_wrong_graph(self):
        with files(graph=tiny((4, "failure Leak two"))):
            status, said = run("lint", "--words", "diagnose", "graph")
        self.assertEqual(status, 3)
        self.assertTrue(said.startswith("The program accepts the words, and refuses the graph.\ngraph line 4: BadNumber\n"), said)

    def test_names_of_files_with_letters_of_all_kinds(self):
        with files(**{"gräph": tiny((4, "failure Leak two"))}):
            status, said = run("lint", "--words", "convert", "gräph")
            self.assertEqual(status, 3)
            self.assertIn("\ngräph line 4: BadNumber\n", said)
        with files(**{"gräph": tiny(), "log": ""}):
            status, said = run("lint", "--words", "predict", "gräph", "log", "Nobody")
            self.assertEqual(status, 2)
            self.assertIn("The graph declares no node `Nobody`. Its nodes: Leak, Jam, Hidden, Wet.", unwrapped(said))

    def test_ends_that_are_no_fault_of_a_word(self):
        status, said = run("lint", "--words", "convert", "no-such-file")
        self.assertEqual(status, 5)
        self.assertIn("The program accepts the words. It says: read fault A file is absent or could not be read.", unwrapped(said))


if __name__ == "__main__":
    unittest.main()

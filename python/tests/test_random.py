"""Random slips in the example graphs and logs: what `lint` refuses is what the program refuses, and each refusal has its sentence.

TFPG_SLIPS says how many slips are tried, 200 if it says nothing. They are the same each time.
"""

import os
import random
import re
import unittest

from support import EXAMPLES, files, run, underlined, unwrapped, widest
from tfpg.program import run_program
from tfpg.reading.texts import lines_of, text_of

SLIPS = int(os.environ.get("TFPG_SLIPS", "200"))
SYSTEMS = [("pump", "pump"), ("pump", "pump-gauge"), ("satellite", "satellite-array"), ("satellite", "satellite-relay")]
PIECES = [b" ", b"\t", b"\r", b"#", b",", b"0", b".5", b"-", b"x", b"inf", b"*", b"\xc3\xa9", b"\xff", b"9999999999999", b"end", b"\n"]
# What is said where no word of the line is at fault.
NO_WORD = ("There is no line `end`", "The line is empty, and a log has no empty lines.", "Empty lines and comments may stand below it.",
           "A line has at most 4,096 bytes")


def slip(draw, text):
    """A text with one slip: a byte more or less, a line that moved, stands twice or is gone, or a word of another line."""
    lines, place = text.split(b"\n")[:-1], draw.randrange(len(text))
    one, other = draw.randrange(len(lines)), draw.randrange(len(lines))
    kind = draw.randrange(8)
    if kind <= 1:
        return text[:place] + draw.choice(PIECES) + text[place:]
    if kind == 2:
        return text[:place] + text[place + 1:]
    if kind == 3:
        lines[one], lines[other] = lines[other], lines[one]
    elif kind == 4:
        lines.insert(one, lines[other])
    elif kind == 5:
        del lines[one]
    else:
        words, others = lines[one].split(b" "), lines[other].split(b" ")
        words[draw.randrange(len(words))] = draw.choice(others if kind == 6 else PIECES)
        lines[one] = b" ".join(words)
    return b"".join(line + b"\n" for line in lines)


def verdict_of_program(log):
    """What the program itself says: its status, and the first line that it refuses, with the cause."""
    ended = run_program(["diagnose", "--k", "1", "--budget", "2", "graph"], log)
    if ended.status != 0:
        return ended.status, ended.line.replace("graph ", "graph line ").rsplit(" ", 1)[0] + ": " + ended.line.rsplit(" ", 1)[1]
    refused = next((line.split(" ") for line in lines_of(text_of(ended.output)) if line.startswith("refused ")), None)
    return (1, f"log line {refused[1]}: {refused[2]}") if refused else (0, "")


class Slips(unittest.TestCase):
    def test_the_verdicts_are_those_of_the_program(self):
        refusals = 0
        for number in range(SLIPS):
            draw = random.Random(number)
            graph, log = ((EXAMPLES / name).read_bytes() for name in "{}.tfpg {}.log".format(*draw.choice(SYSTEMS)).split())
            for _ in range(draw.choice((1, 1, 2))):
                graph, log = (slip(draw, graph), log) if draw.random() < 0.5 else (graph, slip(draw, log))
            with self.subTest(number=number), files(graph=graph, log=log):
                refusals += self.hold(log)
        self.assertGreaterEqual(refusals, SLIPS // 3)

    def hold(self, log):
        """Holds what `lint` says against what the program says, and counts what is refused in another way than by the examples."""
        status, first = verdict_of_program(log)
        said_status, said = run("lint", "graph", "log")
        _, *told = re.split(r"^((?:graph|log) line \d+: [A-Za-z]+)$", said, flags=re.MULTILINE)
        self.assertEqual((said_status, told[0] if told else ""), (status, first))
        for refused in told[1::2]:
            self.assertTrue(underlined(refused) or any(sentence in unwrapped(refused) for sentence in NO_WORD), refused)
        self.assertLessEqual(widest(said), 100)  # a name in a sentence is never broken
        return first != ""


if __name__ == "__main__":
    unittest.main()

"""What `brief` says of the small reports that were written by hand for the page: an open set, a reused subtree, and lost panels."""

import importlib.util
import unittest

from support import TOP, files, run, unwrapped

SPEC = importlib.util.spec_from_file_location("handmade", TOP / "page" / "tests" / "handmade.py")
HANDMADE = importlib.util.module_from_spec(SPEC)
SPEC.loader.exec_module(HANDMADE)

REUSED = """\
log by graph: sets of at most 0 members

Why not no failure?
Rejected since round 1, at 0:00:00.010: no history of it explains the log.
3 steps, 1 contradiction. It rests on line 1 alarm A (1×). ¶ is a line of the
report.

choice 1: A becomes active before the time from 0:00:00 to 0:00:00.010, after
  it, or within it over one of its edges: ¶4
  case 1 of 4: A active before time begins, at 0
    1. A not active by 0:00:00.010: nothing reaches it without a failure ¶7
    2. A active by 0:00:00.010: the alarm of line 1 ¶6
    ✕ Both cannot hold: A not before 0:00:00.011, and by 0:00:00.010 (gap 1 ms).
      ¶5
  case 2 of 4: A not active by 0:00:00.010 ✕ closed as case 1 is: no
    contradiction there rests on what case 1 says ¶8
  case 3 of 4: A over F1 to A, not before F1, from 0:00:00 to 0:00:00.010 ✕
    closed as case 1 is: no contradiction there rests on what case 1 says ¶8
  case 4 of 4: A over F2 to A, not before F2, from 0:00:00 to 0:00:00.010 ✕
    closed as case 1 is: no contradiction there rests on what case 1 says ¶8
"""


def told(texts, count, *words):
    """What `brief` says of the first blocks of a report, so many of them, with their lines of the log."""
    lines = texts["log"].splitlines(keepends=True)[:count]
    report = "round".join(texts["report"].split("round")[:count + 1])
    with files(graph=texts["tfpg"], log="".join(lines), report=report):
        return run("brief", "graph", "log", "report", *words)


class Handmade(unittest.TestCase):
    maxDiff = None

    def test_a_reused_subtree(self):
        self.assertEqual(told(HANDMADE.REUSED, 1, "--why", "-"), (0, REUSED))

    def test_a_case_that_may_not_be_used_again(self):
        """The contradiction rests on the case itself, so the other cases are not closed by it."""
        report = HANDMADE.REUSED["report"].replace("why upto 1\nwhy unreached A 10", "why pick 1 1\nwhy zero A")
        wrong = dict(HANDMADE.REUSED, report=report)
        said = unwrapped(told(wrong, 1, "--why", "-")[1])
        self.assertIn("The steps do not fit. Of the step in line 8 of the report: the case before cannot be used again.", said)

    def test_reasons_that_do_not_chain(self):
        wrong = dict(HANDMADE.REUSED, report=HANDMADE.REUSED["report"].replace("why unreached A 10", "why unreached F1 10"))
        said = unwrapped(told(wrong, 1, "--why", "-")[1])
        self.assertIn("The steps do not fit. Of the step in line 5 of the report: its reasons do not chain.", said)

    def test_reasons_that_may_hold_together(self):
        """Not before 10 and by 10 leaves 10."""
        wrong = dict(HANDMADE.REUSED, report=HANDMADE.REUSED["report"].replace("why unreached A 10", "why unreached A 9"))
        said = unwrapped(told(wrong, 1, "--why", "-")[1])
        self.assertIn("The steps do not fit. Of the step in line 5 of the report: it is no contradiction.", said)

    def test_lost_panels(self):
        said = told(HANDMADE.THREE_ROUNDS, 2)[1]
        self.assertNotIn("Panel", said)
        report = HANDMADE.THREE_ROUNDS["report"].replace("panel 1 lost\npanel 2 memory\n", "")
        lost = "rejected 1 open 1\npanel 1 lost\npanel 2 memory\n"
        moved = dict(HANDMADE.THREE_ROUNDS, report=report.replace("rejected 1 open 1\n", lost))
        self.assertIn("  Panel 1 was lost.\n  Panel 2 ran out of memory.\n", told(moved, 2)[1])

    def test_an_open_set(self):
        status, said = told(HANDMADE.THREE_ROUNDS, 2)
        self.assertEqual(status, 0)
        self.assertIn("Nothing is ranked, since line 2, at 0:00:00.010: 10 alarm E\n", said)
        self.assertIn("  Rejected: no failure.\n  Open now, since the budget was spent: F.\n", said)

    def test_the_steps_of_an_open_set(self):
        said = unwrapped(told(HANDMADE.THREE_ROUNDS, 2, "--why", "F")[1])
        self.assertIn("F is open The budget of this round was spent, so nobody knows whether a history of it explains the log.", said)
        self.assertIn("3 steps, 2 contradictions. Some case is left, so this is no refutation so far.", said)
        self.assertIn("This case is not ruled out so far.", said)

    def test_steps_of_two_rounds(self):
        said = unwrapped(told(HANDMADE.THREE_ROUNDS, 3, "--why", "F")[1])
        self.assertIn("Rejected since round 3, at 0:00:00.011: no history of it explains the log. 7 steps, 5 contradictions.", said)
        self.assertIn("E at least 9 ms after F (by case 3 of choice 1): so E not active before 0:00:00.018", said)
        self.assertIn("A not active by 0:00:00.010: silent by line 1", said)
        self.assertIn("Both cannot hold: E not before 0:00:00.017, and by 0:00:00.010 (gap 7 ms).", said)
        self.assertIn("case 3 of 3: A active by 0:00:00.003 ✕ but A not active by 0:00:00.010: silent by line 1", said)
        self.assertNotIn("not ruled out", said)


if __name__ == "__main__":
    unittest.main()

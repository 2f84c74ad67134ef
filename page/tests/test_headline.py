"""The head of each round: what explains all that was seen, what is not known, and on what it rests; worked out by hand."""

from handmade import THREE_ROUNDS, written
from pages import ARRAY, GAUGE, PUMP, RELAY

NO_SET = {  # two alarms at once, which two failure modes raise, but no single one
    "tfpg": "tfpg 1\nmode N\nfailure F1 1\nfailure F2 2\nor A watch 0\nor B watch 0\nedge F1 A 0 9 *\nedge F2 B 0 9 *\nend\n",
    "log": "10 alarm A\n10 alarm B\n",
    "report": """report 2 k 1 doubt 0 budget 9
round 1 1 10
hyp 0
cycle 2
why upto 1
why unreached A 10
hyp 2
cycle 2
why upto 1
why unreached A 10
ranked 1 cost 1 robust 1/1 set F1
at F1 10
at A 10
rejected 0 set -
rejected 2 set F2
counts ranked 1 covered 0 rejected 2 open 0
round 2 2 10
hyp 1
cycle 2
why upto 2
why unreached B 10
rejected 1 set F1
counts ranked 0 covered 0 rejected 3 open 0
""",
}


def three_sets_can_each_explain_the_pump(view):
    view.show(*PUMP)
    wanted = "3 sets can each explain all that was seen: FilterClogged (cost 2), ValveStuck (cost 3), MotorBearing (cost 4)."
    view.same(view.text("#headline .lead"), wanted, "what explains the log")
    view.has(view.text("#headline .rest"), ["Each other set of at most 2 failure modes has one of these as a part, or is rejected."], "the other sets")
    view.has(view.text("#headline .rest"), ["Alarms: LowFlow (line 3), MotorHot (line 4), LowLevel (line 6)."], "what says so")
    view.has(view.text("#headline .rest"), ["1 line of the log is refused: line 5 (TimeBack 3300000)", "k 2, doubt 0, budget 1,000"], "refusals and terms")
    view.click("#headline .link[data-log-line='5']")
    view.same(view.main("tab"), "log", "the tab after the link to the refused line")
    view.has(view.text("#log-lines [aria-current=true]"), "3290000 tick", "the line that is shown")
    view.go_to(1)
    view.same(view.text("#headline .lead"), "Nothing need have failed: all that was seen can be so without a failure.", "before the first alarm")
    view.has(view.text("#headline .rest"), "No alarm so far.", "before the first alarm")
    view.quiet()


def one_set_explains_the_satellite(view):
    view.show(*RELAY)
    view.same(view.text("#headline .lead"), "RelayStuck explains all that was seen, at cost 7.", "what explains the log of the relay")
    view.show(*ARRAY)
    view.same(view.text("#headline .lead"), "StringOpen explains all that was seen, at cost 3.", "what explains the log of the array")
    view.has(view.text("#headline .rest"), "Each other set of at most 2 failure modes has it as a part, or is rejected.", "the other sets")
    view.show(*GAUGE)
    view.has(view.text("#headline .rest"), ["at most 2 members (failure modes, and at most 1 wrong monitor)", "doubt 1"], "with a doubt")


def that_no_set_explains_the_log_is_said(view):
    view.show(*written(view.maker, "no-set", NO_SET))
    wanted = "No set of at most 1 failure mode explains this log. Then more failed at once, a monitor was wrong, or the graph is not that of the system."
    view.same(view.text("#headline .lead"), wanted, "the head of the round")
    view.same(view.text("#no-ranking"), wanted, "in place of an empty table")
    view.same(view.text("#problems"), "", "what does not fit")
    view.quiet()


def an_open_set_is_named_with_its_budget(view):
    """In round 2 of three the set F is open, and no set is ranked."""
    view.show(*written(view.maker, "three", THREE_ROUNDS))
    view.go_to(2)
    view.same(view.text("#headline .lead"), "Not known: no set of at most 1 failure mode is shown to explain this log, and 1 set may.", "what explains it")
    wanted = "1 set is open: F. There the budget of 1 split was spent on it, so nobody knows whether it explains the log."
    view.has(view.text("#headline .rest"), wanted, "what is open, and by which budget")


def open_sets_are_not_printed_as_an_explanation(view):
    view.show(*written(view.maker, "three", THREE_ROUNDS))
    view.go_to(2)
    view.run("dispatchEvent(new Event('beforeprint'))")
    parts = "return [...document.querySelectorAll('#sheet h2')].map(e => e.textContent)"
    view.same([title for title in view.run(parts) if "explains" in title], [], "headings of what explains the log")
    view.has(view.text("#sheet"), ["Not known: no set of at most 1 failure mode is shown to explain this log", "Open, since the budget was spent: F"], "the sheet")
    view.show(*written(view.maker, "no-set", NO_SET))
    view.run("dispatchEvent(new Event('beforeprint'))")
    view.has(view.text("#sheet"), "No set of at most 1 failure mode explains this log", "the sheet of a log that no set explains")

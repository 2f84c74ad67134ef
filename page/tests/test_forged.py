"""Forged reports: the page names each contradiction in red, and says nothing in its own words that the texts do not show."""

import sys

from handmade import written
from judged import lines_of
from pages import CHECK, PUMP, TOP
from slow_judge import Graph, Judge

sys.path.insert(0, str(TOP / "page" / "planted"))
from forged import FORGED  # noqa: E402


def forged_report(maker, forged):
    report = PUMP[2].read_bytes()
    for old, new in forged.changes:
        assert report.count(old) == 1, (forged.what, old)
        report = report.replace(old, new)
    return maker.write(f"forged-{FORGED.index(forged)}.report", report)


def named(what):
    return next(forged for forged in FORGED if forged.what == what)


def show_forged(view, what, *words):
    view.show(*PUMP[:2], forged_report(view.maker, named(what)), *words)


def each_contradiction_is_named_at_its_line(view):
    for forged in FORGED:
        report = forged_report(view.maker, forged)
        answer = Judge(Graph(PUMP[0].read_bytes()), lines_of(PUMP[1].read_bytes())).judge(report.read_bytes())
        view.same(answer.split(" ")[:3], ["not", "accepted", str(forged.first)], f"what the judge says if {forged.what}")
        view.show(*PUMP[:2], report)
        view.has(view.text("#problems"), ["do not fit together", *forged.says], f"what is said if {forged.what}")
        view.same(view.values("#problems .link[data-report-line]", "reportLine")[0], str(forged.first), f"the line if {forged.what}")
        view.same(view.run("return getComputedStyle(document.querySelector('#problems')).display"), "block", "the red bar is shown")
        view.has(view.text("#headline .lead"), "not to be believed", f"the head of the round if {forged.what}")


def a_right_report_has_nothing_that_does_not_fit(view):
    view.show(*PUMP)
    view.same((view.text("#problems"), view.run("return document.querySelector('#problems').hidden")), ("", True), "the red bar")
    view.lacks(view.text("#headline"), "believed", "the head of the round")


def a_set_without_its_steps_is_not_said_to_have_no_history(view):
    for what, lack in (("the steps of a rejected set are cut out", "it has no step"), ("a reason of a refutation is bent by an instant", "a step does not fit")):
        show_forged(view, what)
        view.go_to(3)
        view.choose("-")
        view.open_tab("why")
        view.lacks(view.text("#panel"), "no history of it explains the log", f"why not, if {what}")
        view.lacks(view.text("#panel"), "No step was needed", f"why not, if {what}")
        view.has(view.text("#meaning"), ["does not show it", lack], f"why not, if {what}")
    view.show(*PUMP)
    view.go_to(3)
    view.choose("-")
    view.open_tab("why")
    view.has(view.text("#meaning"), "no history of it explains the log", "why not, of the right report")


def a_case_that_is_left_refutes_nothing(view):
    show_forged(view, "a case of a refutation is cut out")
    view.go_to(3)
    view.choose("LevelWiring")
    view.open_tab("why")
    view.has(view.text("#meaning"), "some case is left", "why not the wiring")
    view.lacks(view.text("#panel"), "no history of it explains the log", "why not the wiring")


def a_set_that_was_cut_out_is_missing(view):
    show_forged(view, "the best set is cut out, and the counts are mended")
    view.open_tab("sets")
    statuses = view.statuses()
    gone = ["FilterClogged", "FilterClogged,LevelWiring"]  # the pairs with the valve and the bearing have a ranked part
    view.same([name for name, status in statuses.items() if status == "missing"], gone, "sets of which the report says nothing")
    view.choose("FilterClogged")
    view.has(view.text("#panel"), "has no status", "what is said of the set")


def a_ranked_set_that_does_not_fit_says_so_in_its_row(view):
    show_forged(view, "a node is active before its cause")
    view.has(view.text("#ranking tr[data-set=FilterClogged]"), ["does not fit", "nothing had arrived over an edge"], "the row of the set")
    view.lacks(view.text("#ranking tr[data-set=ValveStuck]"), "does not fit", "the row of another")
    view.lacks(view.history()["WeakSuction"], ", over ", "the activation without a cause")
    view.has(view.history()["WeakSuction"], "nothing had arrived over an edge", "the activation without a cause")


def a_warning_outlives_a_file_that_is_not_opened(view):
    """A file that is none must not hide that log and report do not fit."""
    show_forged(view, "a wrong count")
    view.open_texts([("bad.report", b"report 2 k 2 doubt 0 budget 9\nx\n")])
    view.has(view.text("#problems"), ["Not opened: bad.report line 2: BadReport", "covered, and by its lines it has 6"], "both")


def a_refused_report_says_so_at_its_head(view):
    show_forged(view, "a reason of a refutation is bent by an instant", "--check", CHECK)
    view.has(view.text("#headline .lead"), "The report was refused, so this is not to be believed", "the head of the round")


SILENCE = {
    "tfpg": "tfpg 1\nmode N\nfailure F 1\nor A watch 0\nedge F A 0 9 *\nend\n",
    "log": "10 silent A\n",
    "report": "report 2 k 1 doubt 0 budget 9\nround 1 1 10\nranked 1 cost 1 robust 0/1 set F\nat F 1\nat A 5\ncounts ranked 1 covered 1 rejected 0 open 0\n",
}


def a_history_over_a_silence_is_named(view):
    view.show(*written(view.maker, "silence", SILENCE))
    wanted = "the history of F does not fit: line 1 says that A was not active by 0:00:00.010, and it is so at 0:00:00.005"
    view.has(view.text("#problems"), [wanted, "set 0 (-) is neither ranked, open nor rejected"], "what does not fit")


# The third round says what the second one said, although A must be active by then.
LATE = {
    "tfpg": "tfpg 1\nmode N\nfailure F 1\nor A watch 0\nor B watch 0\nedge F A 0 9 *\nedge F B 0 9 *\nend\n",
    "log": "5 alarm B\n9 tick\n20 tick\n",
    "report": """report 2 k 1 doubt 0 budget 9
round 1 1 5
hyp 0
cycle 2
why upto 1
why unreached B 5
ranked 1 cost 1 robust 1/2 set F
at F 5
at B 5
rejected 0 set -
counts ranked 1 covered 0 rejected 1 open 0
round 2 2 9
ranked 1 cost 1 robust 1/2 set F
at F 5
at B 5
counts ranked 1 covered 0 rejected 1 open 0
round 3 3 20
ranked 1 cost 1 robust 1/2 set F
at F 5
at B 5
counts ranked 1 covered 0 rejected 1 open 0
""",
}


def a_history_that_becomes_late_is_named(view):
    texts = [LATE[kind].encode() for kind in ("tfpg", "log", "report")]
    view.same(Judge(Graph(texts[0]), lines_of(texts[1])).judge(texts[2]), "not accepted 18 NotATrace", "what the judge says")
    view.show(*written(view.maker, "late", LATE))
    view.same(view.values("#problems .link[data-report-line]", "reportLine"), ["18"], "the line that is named, and no other")
    view.has(view.text("#problems"), "A must be active by 0:00:00.014, and is not active", "what does not fit")

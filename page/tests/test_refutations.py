"""Refutations that are not finished, that are continued, and that reuse a subtree; each report is one that the slow judge accepts."""

from handmade import REUSED, THREE_ROUNDS, written
from judged import judged


def an_open_set_has_its_steps_so_far(view):
    files = written(view.maker, "three", THREE_ROUNDS)
    view.same(judged(*(path.read_bytes() for path in files)).statuses, [["ranked", "covered"], ["rejected", "open"], ["rejected", "rejected"]], "what the judge says")
    view.show(*files)
    view.go_to(2)
    view.why_not("F")
    view.has(view.text("#panel"), ["F is open", "3 steps, 2 contradictions", "Some case is left", "budget"], "what is said of an open set")
    view.same(sorted(view.contradictions()), [14, 17], "lines of the contradictions")
    view.has(view.text("#refutation .present"), "not ruled out so far", "the case that is left")
    view.same(view.values("#refutation", "state"), ["partial"], "the state of the tree")
    view.quiet()


def a_later_round_closes_what_was_left(view):
    view.show(*written(view.maker, "three", THREE_ROUNDS))
    view.go_to(3)
    view.why_not("F")
    view.has(view.text("#panel"), ["Why not F?", "7 steps, 5 contradictions"], "what is said of a rejected set")
    view.same(view.values("#refutation", "state"), ["closed"], "the state of the tree")
    said = view.contradictions()
    view.has(said[26], ["F not active before", "E at least 9 ms after F", "Both cannot hold: E not before 0:00:00.018, and by 0:00:00.010 (gap 8 ms)"], "the first")
    view.has(said[30], ["A not active by 0:00:00.010: silent by line 1", "A at most 3 ms after F", "(gap 7 ms)"], "the second, of four reasons")
    view.has(said[35], ["A active by 0:00:00.003", "silent by line 1"], "the third, in one line")
    view.same(view.count("#refutation .present"), 0, "cases that are left")
    view.quiet()


def lost_panels_are_named(view):
    view.show(*written(view.maker, "three", THREE_ROUNDS))
    view.go_to(1)
    view.has(view.text("#round-words"), ["panel 1 was lost", "panel 2 ran out of memory"], "the round at which two panels were lost")
    view.go_to(2)
    view.lacks(view.text("#round-words"), "panel", "the round after")


def a_reused_case_is_said_in_words(view):
    files = written(view.maker, "reused", REUSED)
    view.same(judged(*(path.read_bytes() for path in files)).statuses, [["rejected"]], "what the judge says")
    view.show(*files)
    view.why_not("-")
    view.has(view.text("#panel"), ["Why must something have failed?", "3 steps, 1 contradiction."], "how large it is")
    view.same(view.values("#refutation .reused", "case"), ["2", "3", "4"], "the cases that are closed by the first one")
    for said in view.texts("#refutation .reused"):
        view.has(said, "closed as case 1 is", "a reused case")
    view.same(view.values("#refutation .reused", "line"), ["8", "8", "8"], "the line of the report that says so")
    view.quiet()

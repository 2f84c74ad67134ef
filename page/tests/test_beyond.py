"""A fleet with its worst vehicle first, and two reports of one log beside each other."""

from handmade import THREE_ROUNDS, written
from judged import judged
from pages import CHECK, DATA, EXAMPLES, PUMP
from slow_search import Diagnosis

FLEET = (EXAMPLES / "pump.tfpg", EXAMPLES / "pumps.log")
RIGHT_COUNTS = b"counts ranked 1 covered 4 rejected 0 open 0\n"


def vehicles(view, selector="#vehicles tr[data-vehicle]"):
    return view.values(selector, "vehicle")


def each_vehicle_has_a_line_with_its_head(view):
    view.show(*FLEET, "--fleet", DATA / "pumps.fleet", "--check", CHECK)
    rows = dict(zip(vehicles(view), view.texts("#vehicles tr[data-vehicle]")))
    view.has(rows["east"], ["ValveStuck explains all that was seen, at cost 3.", "checked by tfpg check: accepted 3"], "the line of the third")
    view.has(rows["north"], "3 sets can each explain all that was seen: FilterClogged (cost 2)", "the line of the first")
    view.has(rows["south"], "Nothing need have failed", "the line of the second")
    view.quiet()


def a_vehicle_whose_texts_are_wrong_comes_first(view):
    text = (DATA / "pumps.fleet").read_bytes()
    begin = text.index(b"vehicle south\nround")
    end = text.index(b"vehicle", begin + 1)
    block = text[begin:end]
    view.same(block.count(RIGHT_COUNTS), 1, "the counts of the first block of the second vehicle")
    forged = view.maker.write("forged.fleet", text[:begin] + block.replace(RIGHT_COUNTS, RIGHT_COUNTS.replace(b"4", b"3")) + text[end:])
    for more, words in (((), "Its texts do not fit together."), (("--check", CHECK), "WrongCounts")):
        view.show(*FLEET, "--fleet", forged, *more)
        view.same(vehicles(view)[0], "south", "the first vehicle")
        view.has(view.texts("#vehicles tr[data-vehicle]")[0], words, "what its line says")
    view.click("#vehicles tr[data-vehicle=south]")
    view.wait("return Page.state.vehicle === 'south' && document.documentElement.dataset.ready === 'yes'")
    view.has(view.text("#problems"), ["tfpg check refuses this report", "covered"], "the red bar of the vehicle that is opened")


def two_reports_of_one_log_are_held_beside_each_other(view):
    """With a budget of one split the set F is open in round 2. With nine it is rejected there; in the other rounds both say the same."""
    files = written(view.maker, "three", THREE_ROUNDS)
    graph, log = (path.read_bytes() for path in files[:2])
    other = view.maker.write("nine.report", Diagnosis(graph, log, 1, 0, 9).report())
    view.same(judged(graph, log, other.read_bytes()).statuses[1], ["rejected", "rejected"], "the other report, which the judge accepts")
    view.show(*files, "--compare", other)
    view.open_tab("compare")
    view.same(view.text("#compared"), "They say the same up to round 1. They differ in 1 set.", "what differs")
    rows = list(zip(*(view.values("#differences tr[data-set]", key) for key in ("set", "from", "to"))))
    view.same(rows, [("F", "2", "2")], "the sets that differ, with their rounds")
    view.has(view.text("#differences tr[data-set=F]"), ["open", "neither ranked nor open"], "what each report says of it")
    view.has(view.text("#panel"), ["k 1, doubt 0, budget 1.", "k 1, doubt 0, budget 9."], "what both were asked with")
    view.click("#differences tr[data-set=F]")
    view.same(view.main("round"), "2", "the round that the row leads to")
    view.quiet()


def two_equal_reports_say_so(view):
    view.show(*PUMP, "--compare", PUMP[2])
    view.open_tab("compare")
    view.same(view.text("#compared"), "Both rank the same sets in each round, and leave the same sets open.", "what differs")
    view.same(view.count("#differences tr[data-set]"), 0, "sets that differ")


def rounds_that_only_one_has_are_not_said_to_be_the_same(view):
    view.show(*PUMP, "--compare", view.maker.write("head.report", PUMP[2].read_bytes().split(b"\n")[0] + b"\n"))
    view.open_tab("compare")
    wanted = "Both rank the same sets in each round that both have, and leave the same sets open."
    view.same(view.text("#compared"), wanted, "what differs from a report without a round")
    view.has(view.text("#panel"), "6 of the rounds are not in the other report.", "what the other report does not have")


def another_report_that_does_not_fit_is_said(view):
    other = view.maker.write("other.report", PUMP[2].read_bytes().replace(b"ranked 1 cost 2 robust 1/3", b"ranked 1 cost 1 robust 1/3"))
    view.show(*PUMP, "--compare", other)
    view.open_tab("compare")
    view.has(view.text("#panel"), ["The other report does not fit together with the log: line 79: the cost of FilterClogged is said to be 1"], "what is said of it")
    status, page, said = view.maker.run(*PUMP[:2], "--compare", PUMP[2])
    view.same((status, page), (2, b""), "status and page of a report beside none")
    view.has(said, "--compare needs a REPORT", "what is said of it")

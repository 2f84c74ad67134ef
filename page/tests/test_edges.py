"""Texts at the edge of what is one: empty, cut off, without a last line feed, of the first version, and with the largest times."""

from pages import PUMP
from test_words import EACH_TAB

HEAD = b"report 2 k 2 doubt 0 budget 1000\n"
GRAPH, LOG, REPORT = (path.read_bytes() for path in PUMP)


def shown(view, name, *texts):
    """Shows the page of the pump with these texts, and looks through its tabs."""
    files = [view.maker.write(f"{name}.{kind}", text) for kind, text in zip(("log", "report"), texts)]
    view.show(PUMP[0], *files)
    view.same(view.run(EACH_TAB), [], f"words that nobody means, with {name}")
    view.quiet()


def texts_without_a_round(view):
    shown(view, "an empty log", b"")
    shown(view, "an empty log and a report without a block", b"", HEAD)
    view.same((view.main("round"), view.text("#problems")), ("", ""), "the chosen round, and what does not fit")
    shown(view, "a refused line", b"x\n", HEAD + b"refused 1 BadLine\n")
    view.same((view.main("round"), view.text("#problems")), ("", ""), "the chosen round, and what does not fit")


def a_report_that_was_cut_between_two_blocks(view):
    shown(view, "the first two rounds", LOG, b"".join(line + b"\n" for line in REPORT.split(b"\n")[:7]))
    view.open_tab("ranking")
    view.same(view.values("#ranking tr[data-set]", "set"), ["-"], "what is ranked in the last round that is there")
    view.has(view.text("#problems"), ["7 lines", "2 of them"], "what is missing")


def a_report_that_was_cut_after_its_first_line(view):
    """All seven lines of the log are missing in it, and six of them are accepted."""
    shown(view, "the first line", LOG, HEAD)
    view.has(view.text("#problems"), ["7 lines", "0 of them"], "what is missing")
    wanted = "The texts do not fit together, so this is not to be believed: The report has no round, and the log has 6 accepted lines."
    view.same(view.text("#headline .lead"), wanted, "the head")
    view.same(view.run("return document.querySelector('#headline').className"), "doubtful", "that the head is red")
    view.open_tab("ranking")
    view.same(view.text("#panel"), "The report has no round, so there is no ranking.", "in place of the ranking")
    view.run("dispatchEvent(new Event('beforeprint'))")
    view.has(view.text("#sheet"), wanted, "what is printed")


def a_report_with_a_block_too_many(view):
    more = b"ranked 1 cost 2 robust 3/3 set FilterClogged\ncounts ranked 1 covered 10 rejected 0 open 0\n"
    shown(view, "a block too many", LOG, REPORT + b"round 7 8 5400001\n" + more)
    view.has(view.text("#problems"), "line 8", "the block that the log has no line for")


def a_report_without_its_last_line_feed(view):
    shown(view, "no last line feed", LOG[:-1], REPORT[:-1])
    view.same(view.text("#problems"), "", "what does not fit")
    view.same(view.main("round"), "6", "the last round")


def a_report_of_the_first_version(view):
    shown(view, "the first version", LOG, REPORT.replace(b"report 2 k 2 doubt 0 budget", b"report 1 k 2 budget"))
    view.same(view.text("#problems"), "", "what does not fit")
    view.same(view.run("return Page.state.table.length"), 11, "the number of sets")


def a_set_that_is_none_of_the_table(view):
    shown(view, "a set of another number", LOG, REPORT.replace(b"ranked 3 cost 4 robust 1/3", b"ranked 300 cost 4 robust 1/3"))
    view.has(view.text("#problems"), "300", "the number of which there is no set")


def lines_that_end_in_a_carriage_return_are_refused(view):
    shown(view, "carriage returns", LOG.replace(b"\n", b"\r\n"))
    view.open_tab("log")
    causes = ["BadLine", "BadLine", "UnknownName", "UnknownName", "BadLine", "UnknownName", "BadLine"]
    view.same(view.values("#log-lines [data-line]", "refused"), causes, "the refusals")


def the_largest_time_is_a_time(view):
    shown(view, "large times", b"999999999999 tick\n1000000000000 alarm LowFlow\n1000000000001 tick\n")
    view.open_tab("log")
    view.same(view.values("#log-lines [data-line]", "refused"), [None, None, "TimeTooLarge"], "the refusals")
    view.same(view.nodes("alarm"), ["LowFlow"], "what has an alarm")

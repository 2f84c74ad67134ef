"""What the page says of the check: only what the checker said, and only of the very bytes that it was given."""

import os

from pages import CHECK, PUMP

RIGHT = b"why unreached LowFlow 2715000\nhyp 1"
FORGED = b"why unreached LowFlow 2714998\nhyp 1"  # the empty set is refuted at an instant that the alarm leaves free


def forged(maker):
    """The report with one number changed: the cycle of line 10 sums to a second more, and is no longer negative."""
    report = PUMP[2].read_bytes()
    assert report.count(RIGHT) == 1
    return maker.write("pump.report", report.replace(RIGHT, FORGED))


def a_report_that_was_checked_is_said_to_be(view):
    view.show(*PUMP, "--check", CHECK)
    view.same((view.verdict(), view.text("#badge").count("accepted 6")), ("accepted", 1), "the badge")
    view.has(view.text("#badge"), "tfpg check", "who checked")
    view.same(view.text("#problems"), "", "what does not fit")


def without_a_check_nobody_has_checked(view):
    view.show(*PUMP)
    view.same(view.verdict(), "unchecked", "the badge")
    view.has(view.text("#badge").lower(), "not checked", "the badge")
    view.show(PUMP[0])
    view.same(view.verdict(), "none", "the badge of a graph")


def a_forged_report_is_shown_with_its_line_and_cause(view):
    view.show(*PUMP[:2], forged(view.maker), "--check", CHECK)
    view.same(view.verdict(), "refused", "the badge")
    view.has(view.text("#badge"), ["10", "NotNegative"], "line and cause")
    view.click("#badge .link[data-report-line='10'], #problems .link[data-report-line='10']")
    view.same(view.main("tab"), "report", "the tab after a link to the line")


def a_report_that_was_swapped_is_not_checked(view):
    """The carried report of a checked page is exchanged for another one, and all else stays."""
    page, other = (view.maker.page(*PUMP[:2], report, "--check", CHECK).read_bytes() for report in (PUMP[2], forged(view.maker)))
    here, there = (carried(text, b"report") for text in (page, other))
    view.same(page.count(here), 1, "where the page carries its report")
    view.load_right(view.maker.write("swapped.html", page.replace(here, there)))
    view.same(view.verdict() in ("other", "unchecked"), True, "the badge of a swapped report")
    view.lacks(view.text("#badge"), "accepted", "the badge of a swapped report")


def carried(page, kind):
    """The packed text of this kind that a page carries."""
    begin = page.index(b'data-kind="' + kind + b'"')
    begin = page.index(b">", begin) + 1
    return page[begin : page.index(b"<", begin)]


def a_badge_holds_for_all_three_texts(view):
    """Another log or report is opened on a page that was checked."""
    for number, kind in ((1, "log"), (2, "report")):
        view.show(*PUMP, "--check", CHECK)
        files = [PUMP[1].read_bytes(), PUMP[2].read_bytes()]
        files[number - 1] += b"5400000 tick\n" if kind == "log" else b""
        if kind == "report":
            files[1] = files[1].replace(b"at FilterClogged 2654000", b"at FilterClogged 2653000")
        view.open_texts([(f"pump.{name}", text) for name, text in zip(("log", "report"), files)])
        view.same(view.verdict(), "other", f"the badge after another {kind} of the same name was opened")
    view.open_texts([("some.log", PUMP[1].read_bytes()), ("some.report", PUMP[2].read_bytes())])
    view.same(view.verdict(), "accepted", "the badge of the same bytes by other names")


def a_check_that_did_not_run_says_nothing(view):
    silent = view.maker.write("silent", "#!/bin/sh\nexit 70\n")
    silent.chmod(0o755)
    for command in (silent, view.maker.folder / "absent"):
        view.show(*PUMP, "--check", command)
        view.same(view.verdict(), "failed", f"the badge after a check by {command.name}")
        view.has(view.text("#badge"), "not checked: the check did not run", "the badge")
        view.lacks(view.text("#badge"), "accepted", "the badge")


def checker(maker, name, status, output, errors=""):
    """A command that answers a check with these texts, whatever it reads."""
    path = maker.write(name, f"#!/bin/sh\ncat > /dev/null\nprintf '%s' '{output}'\nprintf '%s' '{errors}' >&2\nexit {status}\n")
    path.chmod(0o755)
    return path


def a_checker_that_answers_nonsense_accepts_nothing(view):
    """Status 0 alone is no acceptance: the answer must be `accepted N`, alone, with its status, and of as many rounds as there are."""
    answers = {
        "mute": (0, ""), "other-count": (0, "accepted 7\n"), "other-status": (1, "accepted 6\n"), "more": (0, "accepted 6\nor not\n"),
        "on-errors": (0, "", "accepted 6\n"), "in-a-line": (0, "not quite accepted 6\n"),
    }  # fmt: skip
    for name, answer in answers.items():
        view.show(*PUMP, "--check", checker(view.maker, name, *answer))
        view.same(view.verdict(), "failed", f"the badge after the answer {answer}")
        view.lacks(view.text("#badge"), "accepted", f"the badge after the answer {answer}")


TRIAL_BEFORE = "tfpg: the program is not built here, so a trial answers: the same sources, checked while they run and not proved\n"
TRIAL_AFTER = "tfpg: this answer is of a trial, whose proofs were not checked here. ./build proves and builds the program\n"


def a_trial_that_refuses_is_shown_in_red(view):
    """Its lines stand around the verdict."""
    said = TRIAL_BEFORE + "not accepted 10 NotNegative\n" + TRIAL_AFTER
    view.show(*PUMP[:2], forged(view.maker), "--check", checker(view.maker, "trial-refuses", 1, "", said))
    view.same(view.verdict(), "refused", "the badge")
    view.has(view.text("#badge"), ["not accepted 10 NotNegative", "by an unproved trial"], "the badge")
    view.has(view.text("#problems"), ["tfpg check refuses this report: not accepted 10 NotNegative"], "the red bar")
    view.click("#badge")
    view.has(view.text("#badge-words"), ["so a trial answers", "status 1", "not proved"], "what the checker said on standard error")


def a_trial_that_accepts_is_said_to_be_unproved(view):
    view.show(*PUMP, "--check", checker(view.maker, "trial-accepts", 0, "accepted 6\n", TRIAL_BEFORE + TRIAL_AFTER))
    view.same((view.verdict(), view.values("#badge", "checker")), ("accepted", ["trial"]), "the badge")
    view.has(view.text("#badge"), ["accepted 6", "by an unproved trial of tfpg check"], "the badge")
    view.show(*PUMP, "--check", checker(view.maker, "program-accepts", 0, "accepted 6\n"))
    view.lacks(view.text("#badge"), "trial", "the badge by a program")


QUIET_TRIAL = """#!/bin/sh
cat > /dev/null
echo 'accepted 6'
if [ "${TFPG_QUIET-}" != 1 ]; then echo 'tfpg: a trial answered, since the program is not built here' >&2; fi
"""


def a_trial_that_was_told_to_be_quiet_is_said_to_be_unproved(view):
    """TFPG_QUIET keeps the line of a trial from a terminal, and not from the page."""
    quiet = view.maker.write("quiet-trial", QUIET_TRIAL)
    quiet.chmod(0o755)
    os.environ["TFPG_QUIET"] = "1"
    try:
        page = view.maker.page(*PUMP, "--check", quiet)
    finally:
        del os.environ["TFPG_QUIET"]
    view.load_right(page)
    view.same((view.verdict(), view.values("#badge", "checker")), ("accepted", ["trial"]), "the badge")
    view.has(view.text("#badge"), ["accepted 6", "by an unproved trial of tfpg check"], "the badge")


def a_refused_report_is_red_whatever_else_was_said(view):
    answers = {
        "also-accepted": (0, "accepted 6\n", "not accepted 10 NotNegative\n"), "killed": (137, "", "not accepted 10 NotNegative\nKilled\n"),
        "on-output": (1, "not accepted 10 NotNegative\n"),
    }  # fmt: skip
    for name, answer in answers.items():
        view.show(*PUMP, "--check", checker(view.maker, name, *answer))
        view.same(view.verdict(), "refused", f"the badge after the answer {answer}")


def the_red_bar_says_what_the_check_says(view):
    """A line that only has what looks like a refusal within it is none."""
    said = "note: not accepted 3 BadReport was said of another report\nnot accepted 10 NotNegative\n"
    view.show(*PUMP[:2], forged(view.maker), "--check", checker(view.maker, "chatty", 1, "", said))
    view.has(view.text("#badge"), "not accepted 10 NotNegative", "the badge")
    view.has(view.text("#problems"), "tfpg check refuses this report: not accepted 10 NotNegative. Believe nothing of it from ¶10 on.", "the red bar")
    view.lacks(view.text("#problems"), "BadReport", "the red bar")


def the_page_says_that_a_badge_can_be_forged(view):
    view.show(*PUMP, "--check", CHECK)
    view.has(view.text("footer"), ["A badge in a file can be forged", "./tfpg check pump.tfpg pump.log < pump.report"], "how to check for oneself")
    view.click("#badge")
    view.has(view.text("#badge-words"), ["A file can be forged, and its badge too", "tfpg check"], "what the badge says of itself")

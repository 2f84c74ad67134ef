"""Smaller things: refused lines at one mark, scales that say what they are, sheets that fit, words that one reads once."""

import base64
import re

from handmade import REUSED, written
from large import ONE_ALARM, TWO_CAUSES, report_of_choices, wide_texts
from pages import ARRAY, GAUGE, PUMP, RELAY

BEFORE_PRINT = "dispatchEvent(new Event('beforeprint'))"


def pages_of_print(view, mark=rb"/Type\s*/Page\b"):
    pdf = base64.b64decode(view.command("Page.printToPDF", preferCSSPageSize=True)["data"])
    return len(re.findall(mark, pdf))


def refused_lines_at_one_place_are_counted(view):
    log = view.maker.write("refused.log", b"600000 tick\nx\ny\nz\n700000 tick\n5 tick\n")
    view.show(PUMP[0], log)
    marks = zip(view.values("#tracks .mark[data-kind=refused]", "logLine"), view.values("#tracks .mark[data-kind=refused]", "count"))
    view.same(list(marks), [("2", "3"), ("6", None)], "marks of refused lines, with their numbers")
    view.has(view.texts("#tracks .mark[data-kind=refused]")[0], ["✕3", "the first of 3 refused lines here"], "the mark of three lines")


def silences_that_are_not_listed_are_counted(view):
    """A node has 300 silences of its own and 50 of sweeps; the last 60 are listed."""
    lines = b"".join(b"%d %s\n" % (number, b"sweep" if number > 300 else b"silent LowFlow") for number in range(1, 351))
    view.show(PUMP[0], view.maker.write("silent.log", lines))
    view.run("Page.mark('LowFlow')")
    view.same(view.count("#said tr"), 60, "the events that are listed")
    view.has(view.text("#panel"), "… and 290 more. These are the last", "how many there are besides")


def even_steps_say_that_they_are_no_scale(view):
    view.show(*PUMP)
    view.same(view.text("#even-words"), "even steps, which are no scale", "the word at the box")
    ticks = b"".join(b"%d tick\n" % (1000 * number) for number in range(4001))
    view.show(PUMP[0], view.maker.write("many.log", ticks))
    said = view.run("const e = document.querySelector('#even'); return [e.checked, e.disabled]")
    view.same((said, view.text("#even-words")), ([False, True], "true scale: too many events for even steps"), "the box of a log of 4,001 events")
    view.show(PUMP[0], view.maker.write("less.log", b"".join(ticks.splitlines(True)[:-1])))
    view.same(view.run("const e = document.querySelector('#even'); return [e.checked, e.disabled]"), [True, False], "the box of 4,000")


def a_sheet_has_legend_refutations_and_digests(view):
    view.show(*PUMP)
    view.go_to(3)
    view.run(BEFORE_PRINT)
    said = view.text("#sheet")
    view.has(said, ["edge that carried", "AND: needs all its causes"], "the legend")
    view.has(said, ["Rejected in this round", "Why must something have failed?", "Why not LevelWiring?"], "the refutations")
    view.has(said, "Both cannot hold: LowFlow not before 0:45:15.001, and by 0:45:15", "what contradicts what")
    for kind in ("graph", "log", "report"):
        digest = view.run("return Page.state.digests[arguments[0]]", kind)
        view.has(said, f"SHA-256 of the {kind}: {digest}", "the sum of a file")
    view.has(said, "One history of several", "what is said of the times")


def sheets_fit_their_pages(view):
    """Also those of a refutation of thousands of steps, and of a history of a hundred nodes; what is left out is counted."""
    files = written(view.maker, "choices", {"tfpg": TWO_CAUSES, "log": ONE_ALARM, "report": report_of_choices(5)})
    for name, some in (("array", ARRAY), ("gauge", GAUGE), ("choices", files), ("wide", written(view.maker, "wide-sheet", wide_texts(60)))):
        view.show(*some)
        view.same(pages_of_print(view), 1, f"pages of the last round of {name}")
    view.run(BEFORE_PRINT)
    view.has(" ".join(view.texts("#sheet .left-out")), "activations more", "what the sheet of the wide graph leaves out")
    view.show(*RELAY)
    view.run("window.print = () => {}")
    view.click("#print-all")
    view.same(pages_of_print(view), 10, "pages of ten rounds")
    view.lacks(view.text("#sheet"), "have no sheet", "no round is left out")


def all_rounds_say_which_they_leave_out(view):
    count = 230
    log = "".join(f"{1000 * number} tick\n" for number in range(1, count + 1))
    rounds = "".join(f"round {number} {number} {1000 * number}\nranked 0 cost 0 robust 1/1 set -\ncounts ranked 1 covered 10 rejected 0 open 0\n" for number in range(1, count + 1))
    view.show(PUMP[0], view.maker.write("long.log", log), view.maker.write("long.report", "report 2 k 2 doubt 0 budget 1000\n" + rounds))
    view.run("window.print = () => {}")
    view.click("#print-all")
    view.same(view.values("#sheet .sheet", "round"), [str(number) for number in range(31, 231)], "the sheets")
    view.has(view.text("#sheet .sheet"), "Rounds 1 to 30 have no sheet: these are the last 200 of 230.", "what the first sheet says")
    view.same((view.main("round"), view.address().count("round=230")), ("230", 1), "the round that was chosen before, and the address")


def without_javascript_the_page_says_so(view):
    view.command("Emulation.setScriptExecutionDisabled", value=True)
    try:
        view.driver.get(view.maker.page(*PUMP).as_uri())
        said = view.driver.find_element("css selector", "noscript").text
        view.has(said, ["This page needs JavaScript", "python3 -m tfpg brief"], "what the page says without its script")
    finally:
        view.command("Emulation.setScriptExecutionDisabled", value=False)


def a_search_without_a_match_says_so(view):
    view.show(*PUMP)
    view.fill("#find", "Turbine")
    view.same(view.text("#found"), "no node has “Turbine” in its name", "what is said of a name that no node has")
    view.same(view.main("tab"), "ranking", "the tab, as before")
    view.fill("#find", "flow")
    view.same((view.text("#found"), view.text("#panel h2")), ("", "LowFlow"), "what is said of a part of a name")
    view.open_tab("sets")
    view.fill("#set-filter", "turbine")
    view.same(view.text("#no-sets"), "No set has these words and this status.", "what is said of a filter without a match")


def words_that_one_reads_once(view):
    view.show(*written(view.maker, "reused", REUSED))
    view.why_not("-")
    view.has(view.text("#panel"), ["Why must something have failed?", "A active before time begins, at 0"], "the words of a refutation")
    for unclear in ("Why not no failure", "no time is", "active before 0:", "active before 0 "):
        view.lacks(view.text("#panel"), unclear, "the words of a refutation")
    view.show(*RELAY)
    view.same(view.text("#one-of-several"), "One history of several: others with other times may explain the log too.", "what is said of exact times")
    for number in range(len(view.run("return Page.state.table"))):
        view.run("Page.choose(arguments[0], 'why')", number)
        view.lacks(view.text("#panel"), "no time is", f"the words of set {number}")


def dragging_chooses_a_span_of_time(view):
    view.show(*PUMP)
    box = view.run("const b = document.querySelector('#tracks').getBoundingClientRect(); return [b.x, b.y, b.width]")
    names = view.run("return document.querySelector('.track-names').getBoundingClientRect().width")
    begin, end = box[0] + names + 250, box[0] + names + 400
    for kind, x in (("mousePressed", begin), ("mouseMoved", (begin + end) / 2), ("mouseMoved", end), ("mouseReleased", end)):
        view.command("Input.dispatchMouseEvent", type=kind, x=x, y=box[1] + 60, button="left", buttons=0 if kind == "mouseReleased" else 1, clickCount=1)
    view.wait("return Page.state.widening > 2")
    shown = view.run("const t = document.querySelector('#tracks'); return [t.scrollLeft, t.clientWidth]")
    view.same(abs(shown[0] / view.run("return Page.state.widening") - 244) < 25, True, f"where the span begins: {shown}")
    view.click("#all-times")
    view.same(view.run("return Page.state.widening"), 1, "the width of all times")
    view.command("Input.dispatchMouseEvent", type="mouseWheel", x=end, y=box[1] + 60, deltaX=0, deltaY=-600, modifiers=2)
    view.wait("return Page.state.widening > 1")
    view.quiet()


def the_drawing_is_saved_as_svg(view):
    view.show(*RELAY)
    for path in view.saved.iterdir():
        path.unlink()
    view.click("#save-drawing")
    view.until(lambda: (view.saved / "drawing.svg").exists())
    text = (view.saved / "drawing.svg").read_text()
    view.same(text.startswith("<svg"), True, "the beginning of the file")
    view.has(text, ['xmlns="http://www.w3.org/2000/svg"', "RelayStuck", "0:35:00.150"], "what is in it")
    view.load(view.maker.write("drawing.html", f"<!DOCTYPE html><html data-ready=yes>{text}</html>"))
    fill = "return document.querySelector('g.node[data-node=BusLow]').querySelector('path, polygon').getAttribute('fill')"
    view.same(view.run(fill), "rgb(246, 185, 140)", "the colour of an alarm in the file")


def nothing_is_cut_without_a_word(view):
    """Lists that are longer than their place say how much is left: 99 monitors, of which the report has 60 alarms."""
    view.show(*written(view.maker, "wide-cut", wide_texts(30)))
    waiting = view.values("#waiting .link", "node")
    view.same((len(waiting), view.text("#waiting").endswith(" and 29 more.")), (40, True), "monitors that could alarm: 69, of which 40 are named")
    view.has(view.text("#headline .rest"), "(line 6) and 24 more.", "alarms: 30, of which six are named")
    view.same(len(view.values("#tracks [data-track=node]", "name")), 34, "rows of the history, of which there is place for 60")
    view.show(*written(view.maker, "wide-cut-more", wide_texts(70)))
    view.same(len(view.values("#tracks [data-track=node]", "name")), 60, "rows of a history of 78 nodes")
    view.same(view.texts(".track-names text")[-1].startswith("… and 18 more"), True, "rows that are left out")
    long = view.maker.write("long-line.log", "600000 tick\n" + "5" * 300 + "\n" + "\n".join(f"{number} x" for number in range(30)) + "\n")
    view.show(PUMP[0], long)
    titles = view.run("return [...document.querySelectorAll('#tracks .mark title')].map(e => e.textContent)")
    view.same(any("… (180 characters more)" in title for title in titles), True, f"the title of a long line: {titles[-1]}")

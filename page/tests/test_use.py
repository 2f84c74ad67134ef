"""How the page is used: keys, times, the search, the print view, narrow screens, and signs beside colours."""

import base64
import re

from pages import DATA, PUMP, RELAY

OUT_OF_REACH = """
const clicked = [...document.querySelectorAll(".link, #panel button")];
return clicked.filter(one => one.tabIndex < 0).map(one => one.textContent);
"""
SHAPE = """
const shape = document.querySelector(arguments[0]).querySelector("polygon, ellipse, path");
return shape.tagName + (shape.getAttribute("points") || "").trim().split(" ").length;
"""


def keys_go_from_round_to_round(view):
    view.show(*PUMP)
    places = []
    for key in ("left", "left", "Home", "left", "right", "End", "right"):
        view.press(key)
        places.append(view.main("round"))
    view.same(places, ["5", "4", "1", "1", "2", "6", "6"], "the rounds")
    view.quiet()


def keys_choose_sets_and_tabs(view):
    view.show(*PUMP)
    view.press("down")
    view.same(view.main("set"), "ValveStuck", "the set below the first")
    view.press("down", "up", "up")
    view.same(view.main("set"), "FilterClogged", "the first set again")
    tabs = view.values("[role=tab]", "tab")
    for number in (2, 3, 1):
        view.press(str(number))
        view.same(view.main("tab"), tabs[number - 1], f"the tab of key {number}")


def keys_in_a_field_are_text(view):
    view.show(*PUMP)
    view.open_tab("sets")
    field = view.driver.find_element("css selector", "#set-filter")
    field.send_keys("a1")
    view.same((view.main("tab"), field.get_attribute("value")), ("sets", "a1"), "the tab and the field")


def every_link_is_reached_by_the_keyboard(view):
    view.show(*PUMP)
    for tab in ("ranking", "why", "sets"):
        view.open_tab(tab)
        view.same(view.run("return document.querySelectorAll('.link').length") > 0, True, f"links beside the tab {tab}")
        view.same(view.run(OUT_OF_REACH), [], f"what a click chooses in the tab {tab}, and no key reaches")


def times_of_day_from_a_start(view):
    view.show(*PUMP)
    view.go_to(3)
    view.fill("#start", "6:00")
    view.has(view.text("#round-words"), "6:45:15", "the time of day")
    view.has(view.history()["LowFlow"], ["6:45:15", "after 1 s"], "times move, and durations stay")
    view.fill("#start", "0:00")
    view.fill("#unit", "milliseconds")
    view.has(view.text("#round-words").replace(",", "").replace("\u202f", ""), "2715000", "milliseconds")
    view.quiet()


def the_slider_and_its_buttons(view):
    view.show(*PUMP)
    view.fill("#round", "3")
    view.same(view.main("round"), "3", "the round of the slider")
    view.click("#back")
    view.same(view.main("round"), "2", "the round before")
    view.click("#forth")
    view.same(view.main("round"), "3", "the round after")


def the_list_of_sets_is_filtered(view):
    view.show(*RELAY)
    view.open_tab("sets")
    view.fill("#set-filter", "relay")
    shown = "return [...document.querySelectorAll('#sets tr[data-set]')].filter(e => e.offsetParent).map(e => e.dataset.set)"
    view.same(len(view.run(shown)), 6, "the sets with the relay")
    view.fill("#status-filter", "ranked")
    view.same(view.run(shown), ["RelayStuck"], "of these the ranked one")


def signs_stand_beside_colours(view):
    view.show(*RELAY)
    signs = "return [...document.querySelectorAll(arguments[0])].map(e => [e.dataset.node, e.querySelector('.sign').textContent])"
    by_kind = {kind: dict(view.run(signs, f"g.node.{kind}")) for kind in ("alarm", "silent")}
    view.same(by_kind["alarm"], dict.fromkeys(["BusLow", "PayloadOff"], "▲"), "the signs of nodes with an alarm")
    view.same(by_kind["silent"], dict.fromkeys(["ArrayLow", "BatteryLow", "RadioOff"], "○"), "the signs of nodes that are silent")


def and_nodes_have_a_shape_of_their_own(view):
    view.show(*RELAY)
    and_node, or_node, failure = (view.run(SHAPE, f"g.node[data-node={node}]") for node in ("SourcesLow", "BusLow", "RelayStuck"))
    view.same(and_node in (or_node, failure), False, "the shape of an AND node")


def a_narrow_screen_has_no_side_to_scroll_to(view):
    view.command("Emulation.setDeviceMetricsOverride", width=390, height=800, deviceScaleFactor=1, mobile=True)
    try:
        view.show(*RELAY)
        for tab in view.values("[role=tab]", "tab"):
            view.open_tab(tab)
            view.same(view.run("return document.documentElement.scrollWidth <= innerWidth"), True, f"the width of {tab}")
    finally:
        view.command("Emulation.clearDeviceMetricsOverride")


def a_round_is_printed_on_one_page(view):
    view.show(*RELAY)
    for number in (4, 10):
        view.go_to(number)
        pdf = base64.b64decode(view.command("Page.printToPDF", preferCSSPageSize=True)["data"])
        view.same(pdf[:5], b"%PDF-", "the beginning of a PDF")
        view.same(len(re.findall(rb"/Type\s*/Page\b", pdf)), 1, f"pages of round {number}")


def every_round_is_printed_on_a_page_of_its_own(view):
    view.show(*RELAY)
    view.run("window.print = () => {}")
    view.click("#print-all")
    view.same(view.values("#sheet .sheet", "round"), [str(number) for number in range(1, 11)], "the sheets")
    pdf = base64.b64decode(view.command("Page.printToPDF", preferCSSPageSize=True)["data"])
    view.same(len(re.findall(rb"/Type\s*/Page\b", pdf)), 10, "pages of ten rounds")
    view.same(view.main("round"), "10", "the round that was chosen before")


def the_sheet_says_what_the_crew_has_to_know(view):
    view.show(*PUMP)
    view.go_to(3)
    view.run("dispatchEvent(new Event('beforeprint'))")
    view.has(view.text("#sheet"), ["pump.report", "FilterClogged", "ValveStuck", "MotorBearing", "0:45:15", "not checked"], "the sheet")
    view.quiet()


def a_graph_of_json_is_the_same_graph(view):
    view.show(*PUMP)
    edges = sorted(view.values("g.edge", "edge"))
    view.show(DATA / "pump.json", *PUMP[1:])
    view.same(sorted(view.values("g.edge", "edge")), edges, "the edges of the graph as JSON")
    view.same(view.values("#ranking tr[data-set]", "set"), ["FilterClogged", "ValveStuck", "MotorBearing"], "its ranking")
    view.quiet()


def the_page_says_that_it_judges_nothing(view):
    view.show(*PUMP)
    view.has(view.text("body"), ["judges nothing"], "what the page says of itself")

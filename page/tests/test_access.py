"""The keyboard and screen readers: what the browser's tree of accessibility says, and where the focus goes."""

from pages import DATA, EXAMPLES, PUMP, RELAY

FOCUS = "const e = document.activeElement; return e.dataset.node || e.dataset.edge || e.dataset.set || e.id || e.localName"
IN_SIGHT = """
const box = document.querySelector(arguments[0]).getBoundingClientRect();
return box.top >= -2 && box.top < innerHeight * 0.7;
"""


def arrows_move_between_the_tabs(view):
    view.show(*PUMP)
    view.same(view.run("return [...document.querySelectorAll('[role=tab]')].map(e => e.tabIndex)"), [0, -1, -1, -1, -1, -1, -1], "one tab is in the order of the keys")
    view.focus("#tab-ranking")
    said = []
    for key in ("right", "right", "left", "End", "Home", "left"):
        view.press_there(key)
        said.append((view.main("tab"), view.run(FOCUS)))
    view.same(said, [(tab, "tab-" + tab) for tab in ("why", "sets", "why", "graph", "ranking", "ranking")], "the tab and the focus")
    view.same(view.main("round"), "6", "the round, which stays")
    view.press_there("Enter")
    view.same(view.run(FOCUS), "tab-ranking", "the focus after Enter on a tab")
    tabs = {name: properties for name, properties in view.accessible("tab")}
    view.same({name: properties.get("selected") for name, properties in tabs.items()}, {name: name == "ranking" for name in tabs}, "which tab is selected")
    view.same([name for name, _ in view.accessible("tabpanel")], ["ranking"], "the name of the panel")


def the_focus_is_never_lost(view):
    view.show(*PUMP)
    for selector in ("#headline .link[data-log-line='3']", "#headline .link[data-set=ValveStuck]", "#history .link[data-node=LowFlow]", "#history .link[data-edge]"):
        view.open_tab("ranking")
        view.focus(selector)
        view.press_there("Enter")
        view.same(view.run(FOCUS), "panel", f"the focus after Enter on {selector}")
    view.open_tab("ranking")
    view.focus("#ranking tr[data-set=ValveStuck]")
    view.press_there("Enter")
    view.same((view.run(FOCUS), view.main("set")), ("ValveStuck", "ValveStuck"), "the focus after a set was chosen")


def a_list_box_says_which_set_is_chosen(view):
    view.show(*PUMP)
    view.same([name for name, _ in view.accessible("listbox")], ["sets that explain all that was seen, best first"], "the name of the list")
    options = [option for option in view.accessible("option") if option[0][0].isdigit()]  # without those of the units
    wanted = [("1. FilterClogged, cost 2, 3 of 3 alarms", True), ("2. ValveStuck, cost 3, 3 of 4 alarms", False), ("3. MotorBearing, cost 4, 3 of 3 alarms", False)]
    view.same([(name, said.get("selected", False)) for name, said in options], wanted, "the sets")
    view.focus("#ranking tr[data-set=FilterClogged]")
    view.press_there("down", "down")
    view.same((view.run(FOCUS), view.main("set")), ("MotorBearing", "MotorBearing"), "the focus and the set after two keys")
    view.press_there("Home")
    view.same((view.run(FOCUS), view.main("set")), ("FilterClogged", "FilterClogged"), "the focus and the set at the first")
    view.open_tab("sets")
    view.focus("#sets tr[data-set='-']")
    view.press_there("down", "down")
    view.same((view.run(FOCUS), view.main("set")), ("ValveStuck", "FilterClogged"), "arrows in the list of all sets go on, and choose nothing")
    view.press_there("Enter")
    view.same((view.main("set"), view.main("tab")), ("ValveStuck", "ranking"), "what Enter chooses there")
    for files, tab in (((EXAMPLES / "pumps.log", "--fleet", DATA / "pumps.fleet"), "fleet"),
                       ((DATA / "pump-first.log", DATA / "pump-first.report", "--predict", DATA / "pump-first.predict"), "predict")):  # fmt: skip
        view.show(PUMP[0], *files)
        view.open_tab(tab)
        view.same(view.count("#panel [role=listbox] > [role=option][aria-label]"), 3, f"options in the tab {tab}")


def the_slider_says_its_round(view):
    view.show(*PUMP)
    view.go_to(3)
    (name, said), = view.accessible("slider")
    text = view.run("return document.querySelector('#round').getAttribute('aria-valuetext')")
    view.same((name, said["valuemin"], said["valuemax"]), ("round", 1, 6), "the slider, which counts from 1")
    view.same(text.replace("\u2068", "").replace("\u2069", ""), "round 3 of 6, 0:45:15, 2715000 alarm LowFlow", "what it says of its value")
    view.focus("#round")
    view.press_there("right")
    view.same(view.main("round"), "4", "the round after a key on the slider")


def nodes_and_edges_have_names_and_take_the_focus(view):
    view.show(*RELAY)
    names = [name for name, _ in view.accessible("button")]
    nodes = [name for name in names if name.startswith("BusLow: ")]
    view.has(nodes[0], ["OR, monitored", "alarm at 0:35:00.150, 0:35:00.900", "active from 0:35:00.150 by the history of RelayStuck"], "the name of a node")
    edges = [name for name in names if name.startswith("edge RelayStuck to BusLow")]
    view.has(edges[0], ["after 0 ms to 200 ms", "active in Eclipse", "carried after 0 ms"], "the name of an edge")
    view.same(sum(name.startswith("edge ") for name in names), len(view.values(f"{view.drawing()} g.edge", "edge")), "edges with a name")
    stops = view.run("return [...document.querySelectorAll('#drawing [tabindex=\"0\"]')].length")
    view.same(stops, 1, "parts of the drawing in the order of the keys")
    view.run("document.querySelector('#drawing g.node[data-node=RelayStuck]').focus()")
    said = [view.run(FOCUS)]
    for key in ("right", "right", "right", "left", "left"):
        view.press_there(key)
        said.append(view.run(FOCUS))
    wanted = ["RelayStuck", "RelayStuck BusLow", "BusLow", "BusLow PayloadOff", "BusLow"]
    view.same(said[:5], wanted, "the way of the focus along edges")
    view.same(view.main("round"), "10", "the round, which stays")
    view.run("document.querySelector('#drawing g.node[data-node=BusLow]').focus()")
    view.press_there("Enter")
    view.same((view.main("tab"), view.run(FOCUS), view.text("#panel h2")), ("node", "BusLow", "BusLow"), "what Enter on a node opens")


def edge_details_need_no_pointer(view):
    view.show(*RELAY)
    view.run("document.querySelector('#drawing g.edge[data-edge=\"BusLow PayloadOff\"]').focus()")
    view.press_there("Enter")
    view.has(view.text("#panel"), ["Edge from BusLow to PayloadOff", "0 ms to 2 s", "carried after 650 ms", "0:35:00.150"], "what is said of an edge")
    view.open_tab("ranking")
    view.click("#history .link[data-edge='RelayStuck BusLow']")
    view.has(view.text("#panel"), ["Edge from RelayStuck to BusLow", "Eclipse"], "what a link to an edge opens")


def a_table_says_what_the_drawing_says(view):
    for files, number in ((PUMP, 3), (RELAY, 7)):
        view.show(*files)
        view.go_to(number)
        view.open_tab("node")
        names = view.values("#all-nodes tr[data-node]", "node")
        view.same(sorted(names), sorted(view.values(f"{view.drawing()} g.node", "node")), "the nodes of the table")
        monitors = dict(zip(names, view.texts("#all-nodes .monitor")))
        for kind in ("alarm", "silent"):
            view.same(sorted(name for name, said in monitors.items() if said.startswith(kind)), view.nodes(kind), f"nodes that are {kind}")
        since = dict(zip(names, view.texts("#all-nodes .since")))
        view.same(sorted(name for name, said in since.items() if said), view.nodes("active"), "nodes that are active")
        edges = dict(zip(view.values("#all-edges tr[data-edge]", "edge"), view.texts("#all-edges tr[data-edge]")))
        view.same(sorted(name for name, said in edges.items() if "carried after" in said), view.edges("carried"), "edges that carried")
        view.same(sorted(name for name, said in edges.items() if "off now" in said), view.edges("off"), "edges that are off")


def keys_scroll_the_tracks(view):
    """Where they fit into their place, the keys go from round to round."""
    view.show(*PUMP)
    view.same(view.run("return document.querySelector('#tracks').tabIndex"), 0, "the tracks are in the order of the keys")
    view.same("tracks on one axis of time" in [name for name, _ in view.accessible("group")], True, "the name of the tracks")
    view.focus("#tracks")
    view.press_there("left")
    view.same(view.main("round"), "5", "the round after a key on tracks that fit")
    for _ in range(3):
        view.click("#wide")
    scrolled = lambda: view.run("const t = document.querySelector('#tracks'); return [t.scrollLeft, t.scrollWidth - t.clientWidth]")
    view.focus("#tracks")
    view.press_there("Home")
    view.same(scrolled()[0], 0, "where Home scrolls")
    view.press_there("right", "right", "left")
    view.same(scrolled()[0], 80, "where three arrows scroll")
    view.press_there("End")
    place, end = scrolled()
    view.same((end > 1000, abs(place - end) <= 1), (True, True), "where End scrolls")
    view.same((view.main("round"), view.run(FOCUS)), ("5", "tracks"), "the round and the focus, which stay")


def a_tap_on_a_phone_shows_what_it_opened(view):
    view.at_size(390, 844)
    view.command("Emulation.setTouchEmulationEnabled", enabled=True)
    try:
        view.show(*PUMP)
        for selector in ("#drawing g.node.active", "#headline .link[data-log-line='5']"):
            view.run("scrollTo(0, 0); document.querySelector(arguments[0]).scrollIntoView({block: 'center', inline: 'center'})", selector)
            x, y = view.run("const b = document.querySelector(arguments[0]).getBoundingClientRect(); return [b.x + b.width / 2, b.y + b.height / 2]", selector)
            for kind, points in (("touchStart", [{"x": x, "y": y}]), ("touchEnd", [])):
                view.command("Input.dispatchTouchEvent", type=kind, touchPoints=points)
            view.wait("return document.querySelector('#panel').dataset.tab !== 'ranking'")
            view.wait(IN_SIGHT, "#side")
            view.same(view.run(IN_SIGHT, "#side"), True, f"what a tap on {selector} opened is in sight")
            view.open_tab("ranking")
    finally:
        view.command("Emulation.setTouchEmulationEnabled", enabled=False)
        view.as_usual()

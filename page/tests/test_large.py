"""Large graphs and refutations: a second drawing of what matters, and thousands of steps that open at once."""

from judged import judged
from large import ONE_ALARM, TWO_CAUSES, long_chain, report_of_choices

DEPTH = 6
SPLITS, LEAVES = sum(4**level for level in range(DEPTH)), 4**DEPTH
IN_SIGHT = """
const [node, place] = [arguments[0], "#drawing"].map(one => document.querySelector(one).getBoundingClientRect());
return node.left >= place.left && node.right <= place.right && node.width > 20;
"""


def a_graph_of_many_nodes_has_a_second_drawing(view):
    graph, log = view.maker.write("chain.tfpg", long_chain(120)), view.maker.write("chain.log", "5 alarm D0\n6 alarm D1\n900 alarm D7\n")
    view.show(graph, log)
    view.same(view.values("#drawing > svg", "drawing"), ["whole", "part"], "the drawings")
    count = lambda kind: view.count(f"svg[data-drawing={kind}] g.node")
    view.same((count("whole"), count("part")), (121, 80), "the nodes of both")
    named = view.values("svg[data-drawing=part] g.node", "node")
    view.same([name for name in ["F", *(f"D{number}" for number in range(8))] if name not in named], [], "alarms and what is near that are not drawn")
    view.same(view.shown_drawings(), ["part"], "the drawing that is shown at first")
    view.click("#part")
    view.same(view.shown_drawings(), ["whole"], "the drawing that is shown next")
    view.quiet()


def a_node_is_found_by_a_part_of_its_name(view):
    graph, log = view.maker.write("chain.tfpg", long_chain(120)), view.maker.write("chain.log", "5 alarm D0\n")
    view.show(graph, log)
    view.press("/")
    field = view.driver.switch_to.active_element
    field.send_keys("d117\n")
    view.same(view.main("tab"), "node", "the tab after a search")
    view.has(view.text("#panel"), ["D117", "D116"], "what is said of the node that was found")
    view.same(view.shown_drawings(), ["whole"], "the drawing that has it")
    view.same(view.run(IN_SIGHT, "svg[data-drawing=whole] g.node[data-node=D117]"), True, "the node is in sight, and can be read")
    view.quiet()


def thousands_of_steps_open_at_once(view):
    texts = {"tfpg": TWO_CAUSES, "log": ONE_ALARM, "report": report_of_choices(DEPTH)}
    files = [view.maker.write(f"choices.{kind}", text) for kind, text in texts.items()]
    view.same(judged(*(path.read_bytes() for path in files)).statuses, [["rejected"]], "the report, which the judge accepts")
    view.show(*files)
    view.open_tab("why")
    view.has(view.text("#rests-on"), [f"{SPLITS + LEAVES} steps", f"{LEAVES} contradictions", "line 1"], "how large it is")
    view.open_all()
    opened = view.count("#refutation .split") + view.count("#refutation .contradiction")
    view.same(opened >= 3000, True, f"steps that are shown: {opened}")
    view.click("#close-all")
    view.same(view.count("#refutation details[open]"), 0, "cases that are open after all were closed")
    view.quiet()

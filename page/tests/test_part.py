"""Large graphs: the part that is drawn has the history with its causes first, and says what it leaves out."""

from handmade import written
from judged import judged
from large import wide_graph, wide_texts

ALARMS = 91
NODES = 4 * (1 + 9 + 99)


def the_part_has_the_whole_history_with_its_causes(view):
    texts = wide_texts(ALARMS)
    files = written(view.maker, "wide", texts)
    view.same(judged(*(path.read_bytes() for path in files)).statuses[-1], ["rejected", "ranked", "rejected", "rejected", "rejected"], "the report, which the judge accepts")
    view.show(*files)
    view.same(view.text("#problems"), "", "what does not fit")
    view.same(view.shown_drawings(), ["part"], "the drawing that is shown at first")
    drawn = view.values(f"{view.drawing()} g.node", "node")
    view.same((len(drawn), len(view.nodes("active")), len(view.nodes("alarm"))), (101, 101, 91), "nodes that are drawn, active, and have an alarm")
    view.same([name for name in ("F0", "H0.0", "H0.8") if name not in drawn], [], "causes that are not drawn")
    targets = sorted(edge.split(" ")[1] for edge in view.edges("carried"))
    view.same(targets, sorted(set(drawn) - {"F0"}), "each node of the history with the edge over which the failure came")
    view.same(view.text("#part-words"), f"101 of {NODES} nodes", "what is left out")
    view.click("#part")
    view.same(len(view.values(f"{view.drawing()} g.node", "node")), NODES, "the nodes of the whole graph")
    view.same(view.run("return document.querySelector('#part-words').hidden"), True, "nothing is left out of the whole")
    view.quiet()


def what_another_round_has_outside_of_the_part_is_counted(view):
    """The alarms of a log without a report stand in the part up to 80 nodes, and the others are counted."""
    texts = wide_texts(ALARMS)
    files = written(view.maker, "wide-log", texts)[:2]
    view.show(*files)
    view.same(len(view.values(f"{view.drawing()} g.node", "node")), 80, "nodes that are drawn")
    view.same(view.text("#part-words"), f"80 of {NODES} nodes; left out are 11 with an alarm", "what is left out")


def the_nearest_come_first(view):
    """By hand: the history, then the alarm beside it, then one further off, then neighbours, causes before effects."""
    part, graph_text = view.maker.module("part"), view.maker.module("graph_text")
    lines = ["tfpg 1", "mode N", *[f"failure F{number} 1" for number in range(3)]]
    lines += [f"or {name} watch 9" for name in ("A", "B", "C", "X", "Y", "Z")]
    edges = [("F0", "A"), ("A", "B"), ("B", "C"), ("F1", "C"), ("F1", "X"), ("F2", "Y"), ("Y", "Z")]
    lines += [f"edge {source} {target} 1 2 *" for source, target in edges] + ["end", ""]
    graph = graph_text.read_graph_text("\n".join(lines).encode())
    log = b"5 alarm Z\n6 alarm X\n7 alarm C\n"
    report = b"report 2 k 1 doubt 0 budget 1\nround 3 3 7\nranked 1 cost 1 robust 1/3 set F0\nat F0 1\nat B 3\nat A 2\ncounts ranked 1 covered 0 rejected 0 open 0\n"
    chosen = lambda most: sorted(part.part_of(graph, log, report, most))
    view.same(part.last_traces(report), [[b"F0", b"A", b"B"]], "the history by time")
    view.same(chosen(3), [b"A", b"B", b"F0"], "three nodes")
    view.same(chosen(4), [b"A", b"B", b"C", b"F0"], "and the alarm beside them")
    view.same(chosen(5), [b"A", b"B", b"C", b"F0", b"X"], "and the alarm two edges further")
    view.same(chosen(6), [b"A", b"B", b"C", b"F0", b"X", b"Z"], "and the alarm that no edge joins")
    view.same(chosen(7), [b"A", b"B", b"C", b"F0", b"F1", b"X", b"Z"], "and the nearest other node")
    view.same(chosen(1), [b"A", b"B", b"F0"], "the history is whole, although it is larger")
    view.same(part.part_of(graph, b"", b"", 5), set(), "no text names a node")
    view.same(wide_graph().count("\nor "), NODES - 4, "the discrepancies of the wide graph")

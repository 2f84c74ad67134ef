"""Bad input of the script: one line with the file and the line, status 1, and no page."""

from pages import EXAMPLES, PUMP, RELAY


def refused(view, words, pieces, what):
    status, page, said = view.maker.run(*words)
    view.same((status, page), (1, b""), f"status and page of {what}")
    view.same(said.count("\n"), 1, f"lines said of {what}: {said}")
    view.has(said, ["tfpg-page", *pieces], f"what is said of {what}")


def with_change(view, path, old, new):
    text = path.read_bytes()
    assert text.count(old) >= 1
    return view.maker.write(f"changed{path.suffix}", text.replace(old, new, 1))


def a_graph_that_is_none(view):
    graph = PUMP[0]
    cases = [
        (b"tfpg 1", b"tfpg 3", 1), (b"mode Run", b"mood Run", 2), (b"failure ValveStuck 3", b"failure ValveStuck three", 4),
        (b"or LowLevel watch 60000", b"or LowFlow watch 60000", 12), (b"edge WeakSuction LowFlow", b"edge WeakSuction LowFlown", 14),
        (b"edge LevelWiring LowLevel 1000 60000", b"edge LevelWiring LowLevel 60001 60000", 23), (b"\nend\n", b"\n", 24),
    ]  # fmt: skip
    for old, new, line in cases:
        refused(view, [with_change(view, graph, old, new)], ["changed.tfpg", f"line {line}"], f"a graph with {new!r}")


def a_graph_of_json_that_is_none(view):
    for text in (b"{", b'{"modes": ["N"], "nodes": []}', b'{"modes": ["N"], "nodes": [{"name": "F"}], "edges": []}', b"[]"):
        refused(view, [view.maker.write("changed.json", text)], ["changed.json"], f"JSON that is no graph: {text!r}")


def a_report_that_is_none(view):
    cases = [
        (b"report 2 k", b"repor 2 k", 1), (b"ranked 1 cost 2", b"ranked 1 cots 2", 79), (b"why upto 3", b"why until 3", 11),
        (b"at FilterClogged", b"at Filter", 80), (b"counts ranked 1", b"panel 1 lost\ncounts ranked 1", 4),
        (b"split ormust ValveStuck HighPressure", b"split ormust ValveStuck High", 123), (b"cycle 2", b"cycle 3", 13),
    ]  # fmt: skip
    for old, new, line in cases:
        refused(view, [*PUMP[:2], with_change(view, PUMP[2], old, new)], ["changed.report", f"line {line}"], f"a report with {new!r}")


def files_in_the_wrong_place(view):
    refused(view, [PUMP[2], PUMP[1]], ["pump.report", "line 1"], "a report as a graph")
    refused(view, [*PUMP[:2], PUMP[1]], ["pump.log", "line 1"], "a log as a report")
    refused(view, [*RELAY[:2], PUMP[2]], ["pump.report", "line"], "a report of another graph")
    refused(view, [PUMP[0], PUMP[0]], ["pump.tfpg"], "a graph as a log")
    refused(view, [EXAMPLES / "absent.tfpg"], ["absent.tfpg"], "a file that is not there")


def a_question_or_prediction_that_is_none(view):
    for word in ("--ask", "--predict", "--fleet"):
        refused(view, [PUMP[0], PUMP[1], word, PUMP[1]], ["pump.log", "line 1"], f"a log after {word}")

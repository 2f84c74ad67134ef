"""The maker of pages, the page and the judge, beside each other on random changes of reports.

Which texts are reports, with the line and the cause of one that is none; and whether the page finds something in each report that is wrong.
"""

import base64

from forgeries import many_forged
from judged import lines_of
from pages import PUMP
from slow_judge import Graph, Judge

LEAST = 500  # changed reports, of which these tests are about at least so many
READ_ALL = """
const textOf = packed => Tfpg.textOf(Uint8Array.from(atob(packed), character => character.charCodeAt(0)));
const graph = Tfpg.readGraph(textOf(arguments[0]));
return arguments[1].map(([packedLog, packedReport]) => {
  const log = Tfpg.readLog(graph, textOf(packedLog));
  try {
    const report = Tfpg.readReport(graph, textOf(packedReport));
    const { found } = Tfpg.mismatchesOf(graph, Tfpg.hypothesesOf(graph, report.terms), log, report);
    return ["read", found.map(one => one.at + " " + JSON.stringify(one.words))];
  } catch (fault) {
    if (fault.cause === undefined) throw fault;
    return [fault.line + " " + fault.cause, []];
  }
});
"""


def packed(text):
    return base64.b64encode(text).decode()


def answers_of_the_page(view, graph, forged):
    return view.run(READ_ALL, packed(graph), [[packed(log), packed(report)] for log, report, _ in forged])


def answer_of_the_maker(view, graph, report):
    """By the modules of the maker that is tested."""
    graph_text, report_text, texts = (view.maker.module(name) for name in ("graph_text", "report_text", "texts"))
    try:
        report_text.check_report(report, report_text.Named.of(graph_text.read_graph_text(graph)))
    except texts.Fault as fault:
        return f"{fault.line} {fault.cause}"
    return "read"


def is_form(answer, report):
    """Whether the judge refuses the report for its form. One that ends early may lack blocks alone, which is no fault of its form."""
    last = report.rstrip(b"\n").split(b"\n")[-1].split(b" ")[0]
    return answer.endswith("BadReport") or answer.endswith("EndsEarly") and last not in (b"report", b"refused", b"counts", b"panel")


def maker_page_and_judge_name_the_same_line_and_cause(view):
    """A report that the judge refuses for its form is refused by both with the same words. Any other is read, or refused at a later line:
    the judge stops at the first fault."""
    view.show(PUMP[0])
    count = refused = 0
    for seed, graph, forged in many_forged():
        for number, ((_, report, wanted), (said, _)) in enumerate(zip(forged, answers_of_the_page(view, graph, forged), strict=True)):
            what, count = f"the form of report {number} of case {seed}", count + 1
            view.same(answer_of_the_maker(view, graph, report), said, f"what the maker and the page say of {what}")
            if is_form(wanted, report):
                view.same(said, wanted, what)
                refused += 1
            elif said != "read" and wanted not in ("accepted", "too"):
                view.same(int(said.split(" ")[0]) >= int(wanted.split(" ")[0]), True, f"{said} after {wanted}, {what}")
            else:
                view.same(said, "read", f"{what}, of which the judge says {wanted}")
    view.same((count >= LEAST, refused >= LEAST / 10), (True, True), f"{count} changed reports, {refused} of them none")


LATER_RANKED = b"ranked 3 cost 4 robust 1/3 set MotorBearing\nat MotorBearing 2700000\nat MotorStrain 2705000\nat LowFlow 2715000\nrejected 0 set -\n"
CHOSEN = [  # changes of the report of the pump
    (b"rejected 4 set LevelWiring", b"rejected 4 set LevelWiring,ValveStuck"),
    (b"rejected 4 set LevelWiring", b"rejected 4 set LevelWiring,LevelWiring"),
    (b"rejected 4 set LevelWiring", b"rejected 4 set !LowFlow,LevelWiring"),
    (b"rejected 4 set LevelWiring", b"rejected 4 set LowFlow"),
    (b"rejected 4 set LevelWiring", b"rejected 4 set !WeakSuction"),
    (LATER_RANKED, b"open 4 set LevelWiring\n" + LATER_RANKED),
    (b"split ormust ValveStuck HighPressure", b"split ormust ValveStuck LowLevel"),
    (b"report 2 k 2 doubt 0 budget 1000", b"report 2 k 65 doubt 0 budget 1000"),
    (b"report 2 k 2 doubt 0 budget 1000", b"report 2 k 2 doubt 5 budget 1000"),
    (b"report 2 k 2 doubt 0 budget 1000", b"report 2 k 2 doubt 0 budget 0"),
    (b"report 2 k 2 doubt 0 budget 1000", b""),
]


def wide_set(count):
    """A graph of so many monitors with long names, a log, and a report with a line that has all of them in a set."""
    names = [f"N{number:031}" for number in range(count)]
    nodes, edges = [f"or {name} watch 1" for name in names], [f"edge F {name} 1 2 *" for name in names]
    graph = "\n".join(["tfpg 1", "mode M", "failure F 1", *nodes, *edges, "end", ""])
    report = "report 2 k 1 doubt 0 budget 1\nround 1 1 5\nopen 0 set " + ",".join("!" + name for name in names) + "\n"
    return graph.encode(), b"5 tick\n", report.encode()


def chosen_lines_are_none_of_a_report(view):
    """A set in another order, with a member that is none, or in a line that is too long; a rank after an open set; terms out of range."""
    view.show(PUMP[0])
    graph, log, right = (path.read_bytes() for path in PUMP)
    cases = [(graph, log, right.replace(old, new, 1)) for old, new in CHOSEN if right.count(old) >= 1]
    view.same(len(cases), len(CHOSEN), "changes that are made")
    for one_graph, one_log, report in [*cases, wide_set(125), (graph, log, b"")]:
        answer = Judge(Graph(one_graph), lines_of(one_log)).judge(report).removeprefix("not accepted ")
        view.same(is_form(answer, report), True, f"the judge refuses its form: {answer}")
        (said, _), = answers_of_the_page(view, one_graph, [(one_log, report, answer)])
        view.same((said, answer_of_the_maker(view, one_graph, report)), (answer, answer), "what the page and the maker say")


def the_page_finds_something_in_each_wrong_report(view):
    """Nothing in a report that the judge accepts, and something in each that it refuses, if it is a report by its form."""
    view.show(PUMP[0])
    accepted = refused = 0
    for seed, graph, forged in many_forged():
        for number, ((_, report, wanted), (said, found)) in enumerate(zip(forged, answers_of_the_page(view, graph, forged), strict=True)):
            if said != "read":
                continue
            if wanted == "accepted":
                view.same(found, [], f"what does not fit in report {number} of case {seed}, which is right")
                accepted += 1
            else:
                view.same(len(found) > 0, True, f"the page finds nothing in report {number} of case {seed}, of which the judge says {wanted}")
                refused += 1
    view.same((accepted >= LEAST / 20, refused >= LEAST / 4), (True, True), f"{accepted} right reports, and {refused} wrong ones")

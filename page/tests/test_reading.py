"""What the page reads, beside the slow judge of `bench/`: what each reason of each cycle states, the status of each set, and the ages of edges."""

import base64

from ages import arrivals_by_instants
from cases import many_cases
from judged import judged
from pages import ARRAY, PUMP, RELAY
from probed import constraints_of_forecasts

EXAMPLES = [PUMP, RELAY, ARRAY]
# The readers of the page on texts that are handed over: graph, log, report, and a prediction if there is one.
READING = """
const texts = [...arguments].map(text => Tfpg.textOf(Uint8Array.from(atob(text), character => character.charCodeAt(0))));
const graph = Tfpg.readGraph(texts[0]), log = Tfpg.readLog(graph, texts[1]), report = Tfpg.readReport(graph, texts[2]);
const table = Tfpg.hypothesesOf(graph, report.terms);
const cycles = {};
const walk = node => {
  if (!node) return;
  if (node.cases) node.cases.forEach(one => walk(one.child));
  else cycles[node.at] = node.constraints.map(one => [one.left, one.right, one.bound]);
};
const addTree = tree => {
  if (tree.complaint) throw new Error(JSON.stringify(tree.complaint));
  walk(tree.root);
};
"""
CYCLES = f"""{READING}
table.forEach((hypothesis, number) => addTree(Tfpg.treeOf(graph, log, hypothesis, Tfpg.stepsOf(graph, report, number, Infinity))));
return cycles;
"""
STATUSES = f"""{READING}
return report.rounds.map(round => table.map((_, number) => Tfpg.statusOf(Tfpg.statusesOf(report, round), number).status));
"""
ARRIVALS = f"""{READING}
return report.rounds.map(round => round.ranked.map(ranked => {{
  const trace = Tfpg.traceOf(graph, report, ranked);
  const history = Tfpg.historyOf(graph, log, trace, round.now, new Map()).sort((one, other) => one.node - other.node);
  return history.map(({{node, time, arrivals}}) => [node, time, arrivals.map(({{edge, age}}) => [edge.number, age])]);
}}));
"""
FORECASTS = f"""{READING}
Tfpg.readPredict(graph, texts[3]).forecasts.forEach(forecast => {{
  const probed = Tfpg.probedFor(graph, log, forecast), round = {{number: probed.log.events.length, now: forecast.to}};
  const steps = Tfpg.readSteps(probed.graph, forecast.steps, forecast.stepsAt, round);
  addTree(Tfpg.treeOf(probed.graph, probed.log, Tfpg.setOf(graph, forecast.set), steps));
}});
return cycles;
"""


def read(view, script, texts):
    return view.run(script, *(base64.b64encode(text).decode() for text in texts))


def examples_and_cases():
    """Name, graph, log and report of the examples, and with a prediction of many random cases."""
    for files in EXAMPLES:
        yield files[2].name, [path.read_bytes() for path in files]
    yield from many_cases()


def each_reason_states_what_the_judge_says(view):
    view.show(PUMP[0])
    for name, texts in examples_and_cases():
        found = {int(line): constraints for line, constraints in read(view, CYCLES, texts).items()}
        wanted = judged(*texts[:3]).cycles
        view.same(sorted(found), sorted(wanted), f"lines of cycles of {name}")
        for line, constraints in wanted.items():
            view.same(found[line], constraints, f"the reasons of line {line} of {name}")


def each_set_has_the_status_that_the_judge_says(view):
    view.show(PUMP[0])
    for name, texts in examples_and_cases():
        for number, (found, wanted) in enumerate(zip(read(view, STATUSES, texts), judged(*texts[:3]).statuses, strict=True), 1):
            view.same(found, wanted, f"statuses in round {number} of {name}")


def each_edge_that_carried_has_its_age(view):
    view.show(PUMP[0])
    for name, texts in many_cases():
        wanted = arrivals_by_instants(*texts[:3])
        for number, (found, right) in enumerate(zip(read(view, ARRIVALS, texts), wanted, strict=True), 1):
            view.same(found, right, f"arrivals in round {number} of {name}")


def each_reason_of_a_forecast_states_what_the_judge_says(view):
    """By the probed graph and the probed log, which are made anew beside the page."""
    view.show(PUMP[0])
    for name, texts in many_cases():
        found = {int(line): constraints for line, constraints in read(view, FORECASTS, texts).items()}
        view.same(found, constraints_of_forecasts(texts[0], texts[1], texts[3]), f"the reasons of the prediction of {name}")


def the_list_of_sets_says_each_status_in_each_round(view):
    for files in EXAMPLES:
        view.show(*files)
        view.open_tab("sets")
        for number, wanted in enumerate(judged(*(path.read_bytes() for path in files)).statuses, 1):
            view.go_to(number)
            view.same(list(view.statuses().values()), wanted, f"the list in round {number} of {files[2].name}")

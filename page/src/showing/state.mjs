// What the page has read and what is chosen on it. Whoever draws is told of each change.
import { believedIn, coveringOf, setOf, setText, statusOf, statusesOf } from "../reading/hypotheses.mjs";
import { carriedIn, historyOf } from "../reading/histories.mjs";
import { modeAt } from "../reading/spans.mjs";
import { monitorsAt } from "../reading/monitors.mjs";
import { nowOf } from "../reading/log.mjs";
import { traceOf } from "../reading/report.mjs";

// `round` is an index, `chosen` the number of a hypothesis or null for the first in the ranking, and `forecast` one that is shown in its
// place.
export const state = {
  texts: {}, names: {}, digests: {}, about: null, graph: null, log: null, report: null, table: [],
  other: null, otherProblems: "", ask: null, predictions: [], fleet: null, vehicle: null, problems: [], comparedTo: null, notOpened: [], isQuiet: false,
  round: 0, chosen: null, forecast: null, tab: "ranking", marked: null, logLine: null, reportLine: null, graphLine: null,
  units: { unit: "clock", start: 0 }, filter: "", statusFilter: "", isEven: true, widening: 1
};

// What follows from the state: the round, what the log says by then, and the history that is shown.
export const view = {};

const drawers = [];

export function whenChanged(draw) {
  drawers.push(draw);
}

// Keeps values that no drawer but the one that calls this goes by.
export function keep(values) {
  Object.assign(state, values);
}

export function change(values) {
  Object.assign(state, values);
  derive();
  for (const draw of drawers) draw();
}

export function goTo(round) {
  if (!state.report || !state.report.rounds.length) return;
  change({ round: Math.max(0, Math.min(round, state.report.rounds.length - 1)), forecast: null });
}

export function choose(hypothesis, tab) {
  change({ chosen: hypothesis, forecast: null, tab: tab || state.tab });
}

export function show(tab) {
  change({ tab });
}

// Marks the node of this name, and shows what is known of it.
export function markNode(name) {
  change({ marked: { node: state.graph.numberOf.get(name) }, tab: "node" });
}

function derive() {
  const { graph, log, report, forecast } = state, round = report ? report.rounds[state.round] || null : null;
  const isWhole = !round || forecast;
  view.round = round;
  const eventCount = log ? log.events.length : 0; // a report that does not fit may have more rounds
  view.count = isWhole ? eventCount : Math.min(round.number, eventCount);
  view.now = isWhole ? log ? nowOf(log) : 0 : round.now;
  view.mode = log ? modeAt(log, view.now) : 0;
  view.statuses = round ? statusesOf(report, round) : new Map();
  view.monitors = log ? monitorsAt(graph, log, view.count) : new Map();
  view.ranked = round && !forecast ? rankedLine(round) : null;
  deriveHistory();
}

// The line of the chosen hypothesis in the ranking, or of the first one if none is chosen.
function rankedLine(round) {
  if (state.chosen === null) return round.ranked[0] || null;
  return round.ranked.find(line => line.hypothesis === state.chosen) || null;
}

function deriveHistory() {
  const { graph, log, report, forecast } = state, shown = forecast || view.ranked;
  view.set = shown ? shown.set : state.chosen !== null && state.table[state.chosen] ? setText(graph, state.table[state.chosen]) : null;
  view.hypothesis = view.set === null ? null : setOf(graph, view.set);
  view.trace = forecast ? forecast.trace : shown ? traceOf(graph, report, shown) : null;
  view.horizon = forecast ? forecast.to : view.now;
  view.history = view.trace && log ? historyOf(graph, log, view.trace, view.horizon, view.monitors) : [];
  view.carried = carriedIn(view.history);
}

export function speechOf(set) {
  return { graph: state.graph, log: state.log, units: state.units, set };
}

// The status of a set in this round, with what is known of it. One that no line names is covered if a part of it is ranked, and else missing.
export function statusNow(hypothesis) {
  const found = statusOf(view.statuses, hypothesis);
  return found.status === "covered" && !coveringNow(hypothesis).length ? { status: "missing" } : found;
}

export function coveringNow(hypothesis) {
  return state.table[hypothesis] ? coveringOf(state.table, view.round, hypothesis) : [];
}

// The monitored nodes that the shown set could make alarm, and that have no alarm so far.
export function waitingNow() {
  if (!view.hypothesis) return [];
  return believedIn(state.graph, view.hypothesis).filter(node => !view.monitors.has(node) || !view.monitors.get(node).alarms.length);
}

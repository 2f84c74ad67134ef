// What `ask`, `predict` and `fleet` said.
import { bar, cell, element, foreign, listBox, option, table } from "./elements.mjs";
import { askMismatches, timeMismatch } from "../reading/answermismatches.mjs";
import { durationWords, timeWords } from "../reading/times.mjs";
import { probedFor } from "../reading/probe.mjs";
import { readSteps } from "../reading/steps.mjs";
import { historyTitle, setWords } from "../reading/sentences.mjs";
import { setOf } from "../reading/hypotheses.mjs";
import { Seen, againstTrace } from "../reading/rules.mjs";
import { treeOf } from "../reading/trees.mjs";
import { headline } from "../reading/headlines.mjs";
import { linked, lookAtPanel, nodeLink, nodeName, plainWords } from "./links.mjs";
import { openVehicle } from "./files.mjs";
import { activationPart } from "./ranking.mjs";
import { treePart } from "./why.mjs";
import { change, speechOf, state, view } from "./state.mjs";

const MOST_STRAYS = 40;

// ---- ask

export function askPanel() {
  const { ask } = state, all = Math.max(1, ask.ranked + ask.open),
    head = ["ask the monitor of", "if it is silent", "if it alarms", "at least", "unknown"];
  return [
    element("h2", {}, "What to look at next"),
    ...(state.log ? askMismatches(state.graph, state.log, ask).map(mismatchPart) : []),
    ask.isFull ? element("p", { class: "refused" }, "The log is full, so nothing can be asked.") : null,
    element("p", {}, "At " + timeWords(ask.now, state.units) + " " + ask.ranked + " sets are ranked and " + ask.open + " open."),
    element("p", {}, "How many of them does an answer rule out? The most useful question stands first."),
    table({ id: "questions" }, head, ask.questions.map((question, index) => questionRow(question, all, index === 0)))
  ];
}

function mismatchPart(words) {
  return element("p", { class: "refused" }, "✗ This does not fit together with the log. ", linked(words));
}

function questionRow({ node, silent, alarm, unknown }, all, isFirst) {
  return element("tr", { "data-node": nodeName(node), "aria-current": isFirst ? "true" : null },
    cell(null, nodeLink(node)), cell("silent", bar(silent / all, "silences"), silent), cell("alarm", bar(alarm / all, "alarms"), alarm),
    cell("least", Math.min(silent, alarm)), cell("unknown", unknown));
}

// ---- predict

export function predictPanel() {
  return state.predictions.flatMap((prediction, index) => [
    element("h2", {}, "When can ", nodeLink(prediction.node), " become active at the earliest?"),
    element("p", {}, "It is " + timeWords(prediction.now, state.units) + ". Looked ahead to " + timeWords(prediction.to, state.units)
      + "."),
    ...(state.log ? [timeMismatch(state.log, prediction.now)].filter(Boolean).map(mismatchPart) : []),
    forecastTable(prediction, index),
    ...(prediction.forecasts.includes(state.forecast) ? forecastPart(state.forecast) : [])
  ]);
}

function forecastTable({ forecasts, node }, index) {
  const attributes = { id: index ? "forecasts-" + (index + 1) : "forecasts", class: "forecasts", "data-node": nodeName(node) };
  return listBox(attributes, "forecasts for " + nodeName(node), ["by the set", "earliest", "from now", "evidence"], forecasts.map(forecastRow));
}

function forecastRow(forecast) {
  const { set, hypothesis, outlook } = forecast, words = [setWords(set), outlookWords(forecast), fromNow(forecast), evidenceWords(forecast)];
  const click = () => showForecast(forecast), kinds = [null, "earliest", null, lackOf(forecast) ? "refused" : "dim"];
  return option({ "data-set": set, "data-hypothesis": hypothesis, "data-outlook": outlook, click }, words.filter(Boolean).join(", "),
    forecast === state.forecast, words.map((some, index) => cell(kinds[index], some)));
}

// A forecast is made after the whole log, and so beside the last round.
function showForecast(forecast) {
  const round = state.report ? Math.max(0, state.report.rounds.length - 1) : 0;
  change({ forecast, chosen: forecast.hypothesis, round });
}

function outlookWords({ outlook, time, to }) {
  if (outlook === "never") return "not by " + timeWords(to, state.units);
  return outlook === "earliest" ? timeWords(time, state.units) : "unsettled: the budget was spent on " + timeWords(time, state.units);
}

function fromNow({ outlook, time, now }) {
  if (outlook !== "earliest") return "";
  return time <= now ? "can be so already, for " + durationWords(now - time, state.units) : "in " + durationWords(time - now, state.units);
}

function evidenceWords(forecast) {
  const { trace, steps } = forecast, lack = lackOf(forecast), history = trace.size ? "a history of " + trace.size + " nodes" : "";
  const refutation = steps.length ? "a refutation of " + steps.length + " lines" : "";
  return lack || [history, refutation].filter(Boolean).join(", ");
}

// What a forecast has to have as evidence, and has not, or nothing.
function lackOf({ node, outlook, time, trace, steps }) {
  if (outlook === "earliest" && trace.get(node) !== time) return "no history attains it";
  return outlook === "unsettled" || time === 0 || steps.length ? "" : "no step shows it";
}

// The history that attains the time, and why no earlier one does.
function forecastPart(forecast) {
  const rows = view.history.map(entry => activationPart(forecast.set, entry));
  const history = [element("h2", {}, historyTitle(forecast.set) + ", which attains it"), element("ol", { id: "history" }, rows)];
  const refutation = forecast.steps.length && state.log ? refutationPart(forecast) : [];
  return [...(rows.length ? [...history, againstPart(forecast)] : []), ...refutation];
}

// What speaks against the history, by the log as it is continued.
function againstPart({ set, trace, to }) {
  const { graph, log } = state, seen = new Seen(graph);
  for (const event of [...log.events, { kind: "tick", time: to }]) seen.take(event);
  const against = againstTrace(graph, log, seen, setOf(graph, set), trace);
  return against ? element("p", { class: "refused" }, "This history does not fit: ", linked(against), ".") : null;
}

function refutationPart(forecast) {
  const { set, steps, stepsAt, to, node } = forecast, probed = probedFor(state.graph, state.log, forecast);
  const bound = timeWords(probed.bound, state.units), round = { number: probed.log.events.length, now: to };
  const tree = treeOf(probed.graph, probed.log, setOf(state.graph, set), readSteps(probed.graph, steps, stepsAt, round));
  const speech = { graph: probed.graph, log: probed.log, units: state.units, set };
  const notShown = "The prediction says that it is not active by " + bound + ", and does not show it";
  const why = tree.state === "closed" ? "Why not by " + bound + "?" : notShown;
  const title = forecast.outlook === "unsettled" ? "Can it be active by " + bound + "? Not settled" : why;
  const meaning = "The probe becomes active at the same instant as " + nodeName(node) + ", and its alarm says: by " + bound + ".";
  return [element("h2", {}, title), element("p", { class: "dim" }, meaning), ...treePart(tree, speech, lineWords)];
}

function lineWords(at) {
  return element("span", { class: "dim small", title: "line of the prediction" }, "¶" + at);
}

// ---- fleet

export function fleetPanel() {
  const { fleet } = state, head = ["vehicle", "what explains its log", "rounds", "last at", "alarms", "checked"];
  const rows = worstFirst([...fleet.vehicles.keys()].map(name => ({ name, ...fleet.summaries.get(name) }))).map(vehicleRow);
  const left = fleet.strays.length - MOST_STRAYS;
  return [
    element("h2", {}, "Vehicles, the worst first"),
    listBox({ id: "vehicles" }, "vehicles, the worst first", head, rows),
    fleet.strays.length ? element("p", {}, "Stray lines of the stream: " + fleet.strays.slice(0, MOST_STRAYS).join(", ")
      + (left > 0 ? " and " + left + " more" : "") + ".") : null,
    fleet.mismatch ? element("p", { class: "refused" }, "✗ The output does not fit together with the stream. " + fleet.mismatch) : null,
    fleet.modes.length ? element("h2", {}, "How many vehicles may have a failure mode") : null,
    modesTable(fleet)
  ];
}

// Those whose texts are wrong come first, then those that no set explains, those with open sets, and those with a failure, the dearest
// first; last those without a failure, and without a round.
function worstFirst(vehicles) {
  const rank = ({ last, verdict, problems }) => {
    if (verdict.verdict === "refused" || problems) return 0;
    if (!last) return 5;
    if (!last.ranked.length) return last.open.length ? 2 : 1;
    return last.ranked[0].set === "-" ? 4 : 3;
  };
  const cost = ({ last }) => last && last.ranked.length ? last.ranked[0].cost : 0;
  return vehicles.sort((one, other) => rank(one) - rank(other) || other.alarms - one.alarms || cost(other) - cost(one));
}

function modesTable(fleet) {
  const right = vehiclesByMode(fleet);
  return table({ id: "modes" }, [], fleet.modes.map(({ node, vehicles }) => modeRow(node, vehicles, right.get(node) || 0)));
}

// How many vehicles have a last round that ranks a set with each failure mode.
function vehiclesByMode(fleet) {
  const counts = new Map();
  for (const { last } of fleet.summaries.values()) {
    const modes = new Set((last ? last.ranked : []).flatMap(({ set }) => setOf(state.graph, set).failures));
    for (const node of modes) counts.set(node, (counts.get(node) || 0) + 1);
  }
  return counts;
}

function modeRow(node, vehicles, right) {
  const wrong = vehicles === right ? null : element("span", { class: "refused" }, " ✗ by the last rounds it is " + right);
  return element("tr", { "data-mode": nodeName(node) }, cell(null, nodeLink(node)), cell("number", vehicles, wrong));
}

function vehicleRow({ name, rounds, last, alarms, terms, verdict, problems }) {
  const says = last ? plainWords(headline(terms, last)) : "no round", wrong = problems ? "Its texts do not fit together. " : "";
  const click = () => openVehicle(name, "ranking").then(lookAtPanel);
  return option({ "data-vehicle": name, click }, [name, wrong + says, verdict.words].join(", "), state.vehicle === name,
    cell(null, foreign(name)), cell(null, wrong ? element("span", { class: "refused" }, wrong) : null, says), cell("number", rounds),
    cell("time", last ? timeWords(last.now, state.units) : ""), cell("number", alarms),
    cell(verdict.verdict === "refused" ? "refused" : null, verdict.words));
}

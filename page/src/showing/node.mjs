// One node or edge: what it is, and what the round says of it. Where none is chosen, all of them as tables, which say what the drawing says.
import { cell, element, table } from "./elements.mjs";
import { durationWords, rangeWords, timeWords } from "../reading/times.mjs";
import { edgeModes, nodeWords, setWords } from "../reading/sentences.mjs";
import { intervalOf, signOf } from "../reading/monitors.mjs";
import { edgeLink, logLink, nodeLink, nodeName } from "./links.mjs";
import { more } from "./ranking.mjs";
import { change, state, view } from "./state.mjs";

const MOST_EVENTS = 60, MOST_EDGES = 500;

export function nodePanel() {
  const { marked } = state;
  if (!marked) return allPart();
  const back = element("p", {}, element("button", { id: "show-all-nodes", click: () => change({ marked: null }) }, "all nodes and edges"));
  return [...(marked.edge ? edgePart(marked.edge) : onePart(marked.node)), back];
}

// ---- one of them

function onePart(node) {
  const { graph } = state, { line } = graph.nodes[node];
  return [
    element("h2", { "data-node": nodeName(node) }, nodeName(node)),
    element("p", {}, nodeWords(graph, node, state.units) + (line ? "; line " + line + " of the graph" : "") + "."),
    activePart(node),
    saidPart(node),
    edgesPart("Edges into it", graph.incoming[node]),
    edgesPart("Edges from it", graph.outgoing[node])
  ];
}

function edgePart(edge) {
  const { graph, units } = state, arrival = arrivalsNow().get(edge), modes = edgeModes(graph, edge) || "all modes";
  const rows = [["from", nodeLink(edge.source)], ["to", nodeLink(edge.target)], ["delay", rangeWords(edge, units)], ["active in", modes]];
  if (edge.greatest === null) rows.push(["forced", "never: it may carry the failure"]);
  if (state.log) rows.push(["now", stateWords(edge, arrival)]);
  if (arrival) rows.push(["counted from", timeWords(arrival.from, units) + (arrival.anew ? ", when the edge became active" : "")]);
  const title = element("h2", { "data-edge": nodeName(edge.source) + " " + nodeName(edge.target) }, "Edge from ", nodeName(edge.source), " to ",
    nodeName(edge.target));
  return [title, edge.line ? element("p", {}, "Line " + edge.line + " of the graph.") : null,
    table({ id: "edge" }, [], rows.map(([name, words]) => element("tr", {}, element("th", { scope: "row" }, name), cell(null, words))))];
}

function activePart(node) {
  if (!view.trace) return null;
  const time = view.trace.get(node),
    words = time === undefined ? " it is not active." : " it is active from " + timeWords(time, state.units) + ".";
  return element("p", {}, "By the history of " + setWords(view.set) + words);
}

function saidPart(node) {
  const said = view.monitors.get(node);
  if (!said) return null;
  const events = [...said.alarms, ...said.silences].sort((one, other) => one.number - other.number);
  if (!events.length) return element("p", {}, "The log says nothing of it so far.");
  return [table({ id: "said" }, [], events.slice(-MOST_EVENTS).map(event => saidRow(node, event))),
    more(events.length + said.earlier - MOST_EVENTS, "These are the last; the tab log has them all.")];
}

function saidRow(node, event) {
  const time = timeWords(event.time, state.units);
  return element("tr", {}, cell(null, time), cell(null, logLink(event.line)), cell(null, event.kind), cell(null, meaningOf(node, event)));
}

function meaningOf(node, event) {
  const { graph, units } = state;
  if (event.kind === "alarm") {
    const [from, to] = intervalOf(graph, event);
    return "active from an instant between " + timeWords(from, units) + " and " + timeWords(to, units);
  }
  const until = event.time - graph.nodes[node].lags[0];
  return until < 0 ? "says nothing yet" : "not active by " + timeWords(until, units);
}

// ---- edges

function arrivalsNow() {
  return new Map(view.history.flatMap(entry => entry.arrivals).map(arrival => [arrival.edge, arrival]));
}

function stateWords(edge, arrival) {
  if (arrival) return "carried after " + durationWords(arrival.age, state.units);
  return edge.modes.has(view.mode) ? "" : "off now";
}

function edgesPart(title, edges) {
  if (!edges.length) return null;
  return element("div", {}, element("h2", {}, title), table({}, [], edges.map(edgeRow)));
}

function edgeRow(edge) {
  const range = rangeWords(edge, state.units), modes = edgeModes(state.graph, edge) || "all modes";
  return element("tr", { "data-edge": nodeName(edge.source) + " " + nodeName(edge.target) },
    cell(null, edgeLink(edge)), cell(null, range), cell(null, modes), cell(null, stateWords(edge, arrivalsNow().get(edge))));
}

// ---- all of them

function allPart() {
  const { graph } = state, left = graph.edges.length - MOST_EDGES;
  return [
    element("h2", {}, "All nodes"),
    table({ id: "all-nodes" }, ["node", "what it is", "its monitor", "active by the history"], graph.nodes.map(({ number }) => nodeRow(number))),
    element("h2", {}, "All edges"),
    table({ id: "all-edges" }, ["edge", "delay", "active in", "now"], graph.edges.slice(0, MOST_EDGES).map(edgeRow)),
    more(left, "The tab graph has them all.")
  ];
}

function nodeRow(number) {
  const said = view.monitors.get(number), sign = signOf(said), isDoubted = view.hypothesis !== null && view.hypothesis.doubts.includes(number);
  const last = sign ? said[sign === "alarm" ? "alarms" : "silences"].slice(-1)[0] : null, time = view.trace ? view.trace.get(number) : undefined;
  const heard = (sign ? sign + " at " + timeWords(last.time, state.units) : said ? "nothing so far" : "") + (isDoubted ? ", not believed" : "");
  return element("tr", { "data-node": nodeName(number) }, cell(null, nodeLink(number)), cell(null, nodeWords(state.graph, number, state.units)),
    cell("monitor", heard), cell("since", time === undefined ? "" : "from " + timeWords(time, state.units)));
}

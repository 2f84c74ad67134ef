// What clauses and reasons state, by the two tables of docs/evidence.md.
import { NEVER, atLeast, atLeastAfter, atMost, atMostAfter } from "./constraints.mjs";
import { isSilence, nowOf } from "./log.mjs";
import { edgeWindow, spansAt, windowOf } from "./spans.mjs";

const KIND_OF_TARGET = { ormay: "or", ormust: "or", andmay: "and", andmust: "and" };

// The alternatives of a clause, with its span and window. Null if the clause is not allowed.
// `excluded` are the edges over which nothing can come in the span, with the instant before which nothing arrives if they are active.
export function alternativesOf(graph, log, clause) {
  const needsEdge = clause.kind === "andmay" || clause.kind === "ormust";
  if (clause.node === undefined || (needsEdge && !clause.edge) || clause.horizon > nowOf(log)) return null;
  if (graph.nodes[clause.node].kind !== KIND_OF_TARGET[clause.kind]) return null;
  const spans = spansAt(log, clause.horizon), span = spans[clause.span];
  if (!span) return null;
  const found = { span, window: null, alternatives: [], excluded: [] };
  if (clause.kind === "ormay") return may(found, spans, clause, graph.incoming[clause.node]);
  if (clause.kind === "andmay") return may(found, spans, clause, [clause.edge]);
  return clause.kind === "ormust" ? orMust(found, spans, clause) : andMust(found, spans, clause, graph.incoming[clause.node]);
}

function may(found, spans, { node, span: number }, edges) {
  const { lo, hi } = found.span;
  found.alternatives.push({ label: "before", edge: null, constraints: [atMost(node, lo - 1)] });
  found.alternatives.push({ label: "after", edge: null, constraints: [atLeast(node, hi + 1)] });
  for (const edge of edges) {
    const window = edgeWindow(spans, number, edge), arrival = window && window.lo + edge.least;
    if (window && arrival <= hi) {
      const constraints = [atLeastAfter(edge, edge.least), atLeast(node, Math.max(lo, arrival)), atMost(node, hi)];
      found.alternatives.push({ label: "over", edge, constraints });
    } else found.excluded.push({ edge, arrival });
  }
  return found;
}

function orMust(found, spans, { edge, span: number }) {
  const window = edgeWindow(spans, number, edge);
  if (edge.greatest === null || !window || window.first !== number || window.lo + edge.greatest > window.hi) return null;
  found.window = window;
  found.alternatives.push({ label: "late", edge, constraints: [atLeast(edge.source, window.hi - edge.greatest + 1)] });
  found.alternatives.push({ label: "follows", edge, constraints: [atMostAfter(edge, edge.greatest)] });
  found.alternatives.push({ label: "due", edge, constraints: [atMost(edge.target, window.lo + edge.greatest)] });
  return found;
}

function andMust(found, spans, { node, span: number }, edges) {
  const window = windowOf(spans, number, mode => edges.every(edge => edge.modes.has(mode)));
  if (!window || window.first !== number || edges.some(edge => edge.greatest === null)) return null;
  const due = Math.max(...edges.map(edge => edgeWindow(spans, number, edge).lo + edge.greatest));
  if (due > window.hi) return null;
  found.window = window;
  for (const edge of edges) {
    found.alternatives.push({ label: "late", edge, constraints: [atLeast(edge.source, window.hi - edge.greatest + 1)] });
  }
  for (const edge of edges) found.alternatives.push({ label: "follows", edge, constraints: [atMostAfter(edge, edge.greatest)] });
  found.alternatives.push({ label: "due", edge: null, constraints: [atMost(node, due)] });
  return found;
}

// The constraint of a reason that is no pick. Null if the reason states nothing for this reach and these doubts.
export function factOf(graph, log, reach, doubts, reason) {
  if (reason.kind === "zero") return atLeast(reason.node, 0);
  if (reason.kind === "top") return atMost(reason.node, NEVER);
  if (reason.kind === "unreached") {
    const isUnreached = reason.horizon <= nowOf(log) && !reach.has(reason.node);
    return isUnreached ? atLeast(reason.node, reason.horizon + 1) : null;
  }
  const event = log.events[reason.event - 1];
  if (!event) return null;
  if (reason.kind === "quiet") return silenceFact(graph, log, doubts, event, reason.node);
  return event.kind === "alarm" && !doubts.includes(event.node) ? alarmFact(graph, event, reason.kind) : null;
}

// An alarm comes at least the least lag after the activation, and at most the greatest.
function alarmFact(graph, event, kind) {
  const [least, greatest] = graph.nodes[event.node].lags;
  if (kind === "from") return atLeast(event.node, Math.max(0, event.time - greatest));
  return atMost(event.node, Math.max(0, event.time - least));
}

function silenceFact(graph, log, doubts, event, node) {
  if (doubts.includes(node) || !isSilence(graph, log, event, node)) return null;
  const least = graph.nodes[node].lags[0];
  return event.time < least ? null : atLeast(node, event.time - least + 1);
}

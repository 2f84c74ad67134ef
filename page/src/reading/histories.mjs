// A trace as a history: what became active when, over which edges the failure had arrived, and what the log says of it.
import { modesBetween, windowAt } from "./spans.mjs";

// The edges over which the failure had arrived when the node became active. The age of an edge counts from when both its source and
// the edge are active, so it may be less than the time since the source became active.
export function arrivalsAt(graph, log, trace, node, horizon) {
  const time = trace.get(node);
  return graph.incoming[node].flatMap(edge => {
    const since = trace.get(edge.source), window = since <= time ? windowAt(log, time, horizon, edge) : null;
    if (!window) return [];
    const from = Math.max(since, window.lo), age = time - from;
    return age >= edge.least ? [{ edge, age, from, anew: from > since, modes: modesBetween(log, from, time) }] : [];
  });
}

// The history of a trace, by time: of each active node its arrivals, and the alarms that it explains. The modes are those up to a horizon.
export function historyOf(graph, log, trace, horizon, monitors) {
  const order = [...trace].sort((one, other) => one[1] - other[1] || one[0] - other[0]);
  return order.map(([node, time]) => ({
    node,
    time,
    arrivals: graph.nodes[node].kind === "failure" ? [] : arrivalsAt(graph, log, trace, node, horizon),
    alarms: monitors.has(node) ? monitors.get(node).alarms : []
  }));
}

// The edges that carried: those over which the failure had arrived at some active node.
export function carriedIn(history) {
  return new Set(history.flatMap(({ arrivals }) => arrivals.map(({ edge }) => edge.number)));
}

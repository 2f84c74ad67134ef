// The probed graph and the probed log, which the steps of a forecast are about. docs/search.md has the rules.
import { withProbe } from "./graph.mjs";
import { addEvent, isSilence, newLog } from "./log.mjs";

// The bound that the steps of a forecast refute, or that a search left open. There are no steps for the least time 0.
export function boundOf(forecast) {
  if (forecast.outlook === "never") return forecast.to;
  return forecast.outlook === "earliest" ? forecast.time - 1 : forecast.time;
}

export function probedFor(graph, log, forecast) {
  const bound = boundOf(forecast), probed = withProbe(graph, forecast.node, [forecast.to - bound, forecast.to]);
  const kept = newLog(), probe = probed.nodes.length - 1;
  const last = lastOfEach(graph, log);
  const some = log.events.flatMap(event => keptOf(graph, log, last, event));
  some.forEach((event, index) => addEvent(kept, { ...event, number: index + 1 }));
  addEvent(kept, { number: kept.events.length + 1, line: null, time: forecast.to, kind: "alarm", node: probe, mode: null });
  return { graph: probed, log: kept, probe, bound };
}

// The numbers of the last alarm and of the last silence of each monitored node.
function lastOfEach(graph, log) {
  const alarms = new Map(), silences = new Map();
  for (const event of log.events) {
    if (event.kind === "alarm") alarms.set(event.node, event.number);
    if (event.kind === "silent") silences.set(event.node, event.number);
    const swept = event.kind === "sweep" ? graph.monitored.filter(node => isSilence(graph, log, event, node)) : [];
    for (const node of swept) silences.set(node, event.number);
  }
  return { alarms, silences };
}

// What is kept of an event: a change of mode, the first and the last alarm of a node, and of its last silence a silence of its own.
function keptOf(graph, log, { alarms, silences }, event) {
  if (event.kind === "mode") return [event];
  if (event.kind === "alarm") {
    const isKept = log.firstAlarm.get(event.node) === event.number || alarms.get(event.node) === event.number;
    return isKept ? [event] : [];
  }
  if (event.kind === "tick") return [];
  const silent = graph.monitored.filter(node => silences.get(node) === event.number);
  return silent.map(node => ({ ...event, kind: "silent", node }));
}

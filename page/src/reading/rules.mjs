// What speaks against a trace: the first thing in it that the rules of propagation or the log do not allow. docs/model.md has the rules.
// Whether a trace explains a log is for `tfpg check` to say. A trace of which nothing is said here may still be none.
import { edgeWindow, numberAt, spansAt } from "./spans.mjs";

// What a log so far says of the nodes: of each monitored one the instants between which its alarms leave it, and until when it is
// inactive by its silences, each with the line that says so. It takes events one by one.
export class Seen {
  constructor(graph) {
    Object.assign(this, { graph, now: 0, said: new Map(graph.monitored.map(node => [node, newSaid()])) });
  }

  take(event) {
    this.now = event.time;
    if (event.kind === "alarm") this.alarm(event);
    else if (event.kind === "silent") this.silence(event, event.node);
    else if (event.kind === "sweep") {
      for (const [node, said] of this.said) if (!said.alarms) this.silence(event, node);
    }
  }

  alarm({ node, time, line }) {
    const said = this.said.get(node), [least, greatest] = this.graph.nodes[node].lags;
    said.alarms++;
    if (Math.max(0, time - greatest) >= said.from) Object.assign(said, { from: Math.max(0, time - greatest), fromLine: line });
    if (Math.max(0, time - least) < said.upto) Object.assign(said, { upto: Math.max(0, time - least), uptoLine: line });
  }

  silence({ time, line }, node) {
    const said = this.said.get(node), until = time - this.graph.nodes[node].lags[0];
    if (until >= 0 && until > said.inactive) Object.assign(said, { inactive: until, silentLine: line });
  }
}

function newSaid() {
  return { alarms: 0, from: 0, fromLine: null, upto: Infinity, uptoLine: null, inactive: -1, silentLine: null };
}

// What speaks against the trace, in words and references, or null. It is a trace of a set of failure modes, and the log is as seen.
export function againstTrace(graph, log, seen, { failures, doubts }, trace) {
  const spans = spansAt(log, seen.now);
  for (const [node, time] of trace) {
    const found = againstActivation(graph, spans, failures, trace, node, time, seen.now);
    if (found) return found;
  }
  return againstLateness(graph, spans, trace, seen.now) || againstLog(seen, doubts, trace);
}

function againstActivation(graph, spans, failures, trace, node, time, now) {
  if (time > now) return [{ node }, " is active at ", { time }, ", after the time of the round"];
  if (graph.nodes[node].kind === "failure") return failures.includes(node) ? null : [{ node }, " fails, and is no part of the set"];
  const arrived = edge => hasArrived(spans, trace, edge, time), edges = graph.incoming[node];
  if (graph.nodes[node].kind === "or" && !edges.some(arrived)) {
    return [{ node }, " is active at ", { time }, ", and nothing had arrived over an edge by then"];
  }
  const missing = graph.nodes[node].kind === "and" ? edges.find(edge => !arrived(edge)) : null;
  return missing ? [{ node }, " is active at ", { time }, ", and nothing had arrived over ", { edge: missing }, " by then"] : null;
}

function hasArrived(spans, trace, edge, time) {
  const since = trace.get(edge.source);
  if (since === undefined || since > time) return false;
  const window = edgeWindow(spans, numberAt(spans, time), edge);
  return window !== null && time - Math.max(since, window.lo) >= edge.least;
}

// A node that must be active: an OR node by the first edge that is due, and an AND node by the last.
function againstLateness(graph, spans, trace, now) {
  const targets = new Set([...trace.keys()].flatMap(source => graph.outgoing[source].map(edge => edge.target)));
  for (const node of targets) {
    const due = dueOf(graph, spans, trace, node, now), time = trace.get(node);
    if (due === null || (time !== undefined && time <= due)) continue;
    const late = time === undefined ? [", and is not active"] : [", and is active at ", { time }];
    return [{ node }, " must be active by ", { time: due }, ...late];
  }
  return null;
}

// The first instant by which the node must be active, or null.
function dueOf(graph, spans, trace, node, now) {
  const edges = graph.incoming[node], isOr = graph.nodes[node].kind === "or";
  for (let number = 0; number < spans.length; number++) {
    const dues = edges.map(edge => dueOver(spans, trace, edge, number, now));
    const due = isOr ? Math.min(...dues) : Math.max(...dues);
    if (due <= Math.min(spans[number].hi, now)) return due;
  }
  return null;
}

function dueOver(spans, trace, edge, number, now) {
  const since = trace.get(edge.source), window = since === undefined || edge.greatest === null ? null : edgeWindow(spans, number, edge);
  return window ? Math.max(spans[number].lo, Math.max(since, window.lo) + edge.greatest) : now + 1;
}

function againstLog(seen, doubts, trace) {
  for (const [node, said] of seen.said) {
    if (doubts.includes(node)) continue;
    const time = trace.get(node);
    if (said.alarms && time === undefined) return ["the alarm of ", { logLine: said.fromLine }, ": ", { node }, " is not active"];
    if (said.alarms && time < said.from) return early(node, time, said);
    if (said.alarms && time > said.upto) {
      return ["the alarm of ", { logLine: said.uptoLine }, " says that ", { node }, " was active by ", { time: said.upto }, ", and it is so at ",
        { time }];
    }
    if (time !== undefined && time <= said.inactive) {
      return [{ logLine: said.silentLine }, " says that ", { node }, " was not active by ", { time: said.inactive }, ", and it is so at ",
        { time }];
    }
  }
  return null;
}

function early(node, time, { fromLine, from }) {
  return ["the alarm of ", { logLine: fromLine }, " says that ", { node }, " was not active before ", { time: from }, ", and it is so at ",
    { time }];
}

// A log: its lines, each an event or refused, as docs/formats.md says.
import { LIMITS } from "./table.mjs";
import { linesOf } from "./texts.mjs";

const WORDS = { alarm: 3, silent: 3, mode: 3, sweep: 2, tick: 2 };
const { LONGEST_LINE, MOST_CHANGES, MOST_EVENTS, MOST_TIME } = LIMITS;

// The log of a graph: `lines` are all, `events` the accepted ones. `firstAlarm` has the number of the first alarm of each node.
export function readLog(graph, text) {
  const log = newLog();
  linesOf(text).forEach((line, index) => takeLogLine(graph, log, line, index + 1));
  return log;
}

export function newLog() {
  return { lines: [], events: [], firstAlarm: new Map(), modeChanges: [] };
}

function takeLogLine(graph, log, text, number) {
  const words = text.split(" ");
  const event = { number: log.events.length + 1, line: number, time: Number(words[0]), kind: words[1], node: null, mode: null };
  if (event.kind === "mode") event.mode = graph.modes.indexOf(words[2]);
  else if (graph.numberOf.has(words[2])) event.node = graph.numberOf.get(words[2]);
  const refused = refusalOf(graph, log, text, words, event);
  log.lines.push({ number, text, event: refused ? null : event, refused });
  if (!refused) addEvent(log, event);
}

export function addEvent(log, event) {
  log.events.push(event);
  if (event.kind === "alarm" && !log.firstAlarm.has(event.node)) log.firstAlarm.set(event.node, event.number);
  if (event.kind === "mode") log.modeChanges.push(event);
}

// Why a line is refused, in the words of a report, or null.
function refusalOf(graph, log, text, words, event) {
  if (text.length > LONGEST_LINE) return "TooLong";
  if (words.includes("") || !Object.hasOwn(WORDS, words[1] || "") || WORDS[words[1]] !== words.length) return "BadLine";
  if (!/^(0|[1-9][0-9]*)$/.test(words[0])) return "BadNumber";
  if (event.time > MOST_TIME) return "TimeTooLarge";
  if (event.time < nowOf(log)) return "TimeBack " + nowOf(log);
  if (event.kind === "alarm" || event.kind === "silent") {
    if (event.node === null) return "UnknownName";
    if (!graph.nodes[event.node].lags) return "NotMonitored";
  }
  if (event.kind === "mode" && event.mode < 0) return "NotAMode";
  if (log.events.length === MOST_EVENTS) return "LogFull";
  return event.kind === "mode" && log.modeChanges.length === MOST_CHANGES ? "ModesFull" : null;
}

export function nowOf(log) {
  return log.events.length ? log.events[log.events.length - 1].time : 0;
}

// Whether an event is a silence of a monitored node: its own, or by a sweep before the first alarm of the node.
export function isSilence(graph, log, event, node) {
  if (event.kind === "silent") return event.node === node;
  return event.kind === "sweep" && graph.nodes[node].lags !== null && !(log.firstAlarm.get(node) < event.number);
}

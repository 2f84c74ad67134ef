// What does not fit between a log and what `ask`, `predict` or `fleet` wrote, as sentences of words and references. That nothing is named
// does not say that an answer is right.
import { nowOf } from "./log.mjs";
import { LIMITS } from "./table.mjs";

// ---- ask and predict

export function askMismatches(graph, log, ask) {
  return [timeMismatch(log, ask.now), monitorMismatch(graph, log, ask), numberMismatch(log, ask), orderMismatch(ask)].filter(Boolean);
}

// An answer is made at the time of the last event.
export function timeMismatch(log, now) {
  const right = nowOf(log);
  return now === right ? null : ["This was made at ", { time: now }, ", and the last event of the log is at ", { time: right }, "."];
}

// There is one question for each monitored node without an alarm, or the log is full.
function monitorMismatch(graph, log, { questions, isFull }) {
  const left = graph.monitored.filter(node => !log.firstAlarm.has(node));
  const isOver = log.events.length === LIMITS.MOST_EVENTS && left.length > 0;
  if (isFull !== isOver) return ["The log is " + (isOver ? "full, so nothing can be asked." : "not full.")];
  const due = isOver ? [] : left, asked = questions.map(({ node }) => node), missing = due.find(node => !asked.includes(node));
  const surplus = asked.find((node, index) => !due.includes(node) || asked.indexOf(node) < index);
  if (surplus !== undefined) return ["After this log there is no such question about ", { node: surplus }, "."];
  return missing === undefined ? null : [{ node: missing }, " has no alarm, and there is no question about it."];
}

function numberMismatch(log, { ranked, open, questions }) {
  const all = ranked + open;
  if (all && !log.events.length) return ["No line of the log is accepted, so no set is ranked or open."];
  const wrong = questions.find(({ silent, alarm, unknown }) => Math.max(silent, alarm) > all || silent + alarm + unknown > 2 * all);
  return wrong ? ["The question about ", { node: wrong.node }, " speaks of more sets than there are."] : null;
}

function orderMismatch({ questions }) {
  const least = ({ silent, alarm }) => Math.min(silent, alarm);
  const isAfter = (one, before) => least(one) === least(before) ? one.node > before.node : least(one) < least(before);
  const wrong = questions.find((question, index) => index > 0 && !isAfter(question, questions[index - 1]));
  return wrong ? ["The question about ", { node: wrong.node }, " does not stand in its place."] : null;
}

// ---- fleet

// What does not fit first between the output of a fleet and its stream, or null. There is a head for each vehicle, an answer to each line
// of the stream, and then, unless the run is not over, a line for each failure mode.
export function fleetMismatch(graph, stream, { vehicles, parts, modes }) {
  const heads = [...vehicles.keys()].map(name => "vehicle " + name);
  const answers = stream.map((line, index) => answerTo(line, index + 1, vehicles));
  const due = [...heads, ...answers, ...(modes.length ? graph.failures.map(node => "mode " + graph.nodes[node].name) : [])];
  const index = parts.findIndex(({ begin, kinds }, number) => begin !== due[number] || !isWhole(begin, kinds, number < heads.length));
  if (index < 0) return parts.length < due.length ? "The output has no more lines, where “" + due[parts.length] + "” is due." : null;
  const { at, begin } = parts[index], line = "Line " + at + " of the output is “" + begin + "”, ";
  if (begin === due[index]) return line + "and what stands after it is not what it begins.";
  return line + "where " + (due[index] ? "“" + due[index] + "” is due." : "no line is due.");
}

// To which vehicle a line of a stream belongs, or that it is stray.
function answerTo(line, number, vehicles) {
  const [name] = line.split(" ", 1), isOwn = vehicles.has(name) && line.length > name.length && line.length <= LIMITS.LONGEST_LINE;
  return isOwn ? "vehicle " + name : "stray " + number;
}

// Whether a vehicle has the first line of its report after it, or one block, and all else has nothing.
function isWhole(begin, kinds, isHead) {
  if (isHead) return kinds.join() === "report";
  const isBlock = kind => kind === "round" || kind === "refused";
  return begin.startsWith("vehicle ") ? kinds.length > 0 && isBlock(kinds[0]) && kinds.filter(isBlock).length === 1 : !kinds.length;
}

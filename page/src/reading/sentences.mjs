// What the things of the texts say, as lists of words and of references: a node, an edge, a line of the log or a line of the report.
// `speech` has the graph, the log, the units of times, and the words of the set that is spoken of.
import { NEVER } from "./constraints.mjs";
import { durationWords, rangeWords, timeWords } from "./times.mjs";

const MOST_ALARMS = 5; // of an activation

export function setWords(set) {
  if (set === "-") return "no failure";
  return set.split(",").map(member => member[0] === "!" ? "wrong monitor of " + member.slice(1) : member).join(" + ");
}

// The title of a refutation.
export function whyNotWords(set) {
  return set === "-" ? "Why must something have failed?" : "Why not " + setWords(set) + "?";
}

// The title of a history: what failed, and which monitors are wrong.
export function historyTitle(set) {
  const words = set === "-" ? [] : set.split(","), failures = words.filter(member => member[0] !== "!"),
    wrong = words.filter(member => member[0] === "!");
  const title = failures.length ? "A history of " + failures.join(" + ") : "A history without a failure";
  if (!wrong.length) return title;
  return title + ", if the monitor" + (wrong.length > 1 ? "s" : "") + " of " + wrong.map(member => member.slice(1)).join(" and ")
    + (wrong.length > 1 ? " are wrong" : " is wrong");
}

export function nodeWords(graph, node, units) {
  const { kind, rarity, lags } = graph.nodes[node];
  if (kind === "failure") return "failure mode, rarity " + rarity;
  if (!lags) return kind.toUpperCase() + ", hidden";
  const lag = lags[0] ? durationWords(lags[0], units) + " to " + durationWords(lags[1], units) : "up to " + durationWords(lags[1], units);
  return kind.toUpperCase() + ", monitored, lag " + lag;
}

// The modes in which an edge is active, or nothing if it is in all.
export function edgeModes(graph, edge) {
  return edge.modes.size === graph.modes.length ? "" : [...edge.modes].map(mode => graph.modes[mode]).join(", ");
}

function spanWords({ graph, units }, { lo, hi, mode }) {
  const time = "from " + timeWords(lo, units) + " to " + timeWords(hi, units);
  return graph.modes.length > 1 ? "in mode " + graph.modes[mode] + " " + time : time;
}

// ---- constraints and reasons

export function constraintSentence({ units }, { form, node, edge, value }) {
  if (form === "atMost") return [{ node }, byWords(value, units)];
  if (form === "atLeast") return [{ node }, value >= NEVER ? " never active" : " not active before " + timeWords(value, units)];
  const isMost = form === "atMostAfter", least = isMost ? " not after " : " not before ";
  const after = (isMost ? " at most " : " at least ") + durationWords(value, units) + " after ";
  return [{ node: edge.target }, value === 0 ? least : after, { node: edge.source }];
}

// The instant 0, as a time of day if there is a start.
function beginWords(units) {
  return units.start ? timeWords(0, units) : "0";
}

function byWords(time, units) {
  if (time < 0) return " active before time begins, at " + beginWords(units);
  return time >= NEVER ? " active at some time or never" : " active by " + timeWords(time, units);
}

function eventReference({ log }, number) {
  const event = log.events[number - 1];
  return event.line === null ? "the probe" : { logLine: event.line };
}

// A reason of a contradiction, with why it holds.
export function reasonSentence(speech, reason, constraint) {
  const said = constraintSentence(speech, constraint);
  if (reason.kind === "top") return said;
  if (reason.kind === "zero") return [...said, ": time begins there"];
  if (reason.kind === "pick") return [...said, " (by case " + constraint.of.number + " of choice " + constraint.split.number + ")"];
  if (reason.kind === "from" || reason.kind === "upto") return [...said, ": the alarm of ", ...alarmWords(speech, reason, constraint)];
  const inactive = [{ node: constraint.node }, " not active by " + timeWords(constraint.value - 1, speech.units)];
  return reason.kind === "unreached" ? [...inactive, ": " + unreachedWords(speech)] : [...inactive, ...silenceWords(speech, reason)];
}

function unreachedWords({ set }) {
  return set === "-" ? "nothing reaches it without a failure" : "nothing that " + setWords(set) + " causes reaches it";
}

function alarmWords(speech, reason, { node }) {
  const { graph, units } = speech, line = eventReference(speech, reason.event), [least, greatest] = graph.nodes[node].lags;
  if (reason.kind === "upto") return [line, least ? " comes at least " + durationWords(least, units) + " after it" : ""];
  return [line, greatest ? " comes at most " + durationWords(greatest, units) + " after it" : " comes at once"];
}

function silenceWords(speech, { event, node }) {
  const { graph, log, units } = speech, [least] = graph.nodes[node].lags;
  const isSweep = log.events[event - 1].kind === "sweep", late = ", and an alarm may come " + durationWords(least, units) + " late";
  return [": silent " + (isSweep ? "in the sweep of " : "by "), eventReference(speech, event), least ? late : ""];
}

// A contradiction: its reasons, after each difference what follows from it, and why both ends cannot hold.
export function contradictionSentences(speech, chain) {
  const { links, throughZero } = chain;
  const reasons = links.map(({ constraint, reason, node, least }, index) => {
    const follows = throughZero && constraint.edge !== undefined && index < links.length - 1;
    const so = follows ? [": so ", { node }, " not active before " + timeWords(least, speech.units)] : [];
    return { words: [...reasonSentence(speech, reason, constraint), ...so], at: reason.at };
  });
  return { reasons, end: endSentence(speech, chain) };
}

function endSentence({ units }, { links, throughZero, gap }) {
  const [before, last] = links.slice(-2), gapWords = " (gap " + durationWords(gap, units) + ")";
  if (!throughZero || !last) return ["Together they cannot hold: ", { node: before.node }, " would be active before itself" + gapWords];
  const { bound } = last.constraint, early = before.least >= NEVER ? " never" : " not before " + timeWords(before.least, units);
  const late = bound < 0 ? "before " + beginWords(units) : "by " + timeWords(bound, units);
  return ["Both cannot hold: ", { node: before.node }, early + ", and " + late + gapWords];
}

// ---- choices and cases

export function splitSentence(speech, split) {
  const { units } = speech, { kind, node, edge } = split.clause;
  const parts = "becomes active before the time " + spanWords(speech, split.span) + ", after it, or within it ";
  if (kind === "ormay") return [{ node }, " " + parts + "over one of its edges:"];
  if (kind === "andmay") return [{ node }, " needs all its causes at one instant. It " + parts + "over ", { edge }, ":"];
  const time = " from " + timeWords(split.window.lo, units) + " to " + timeWords(split.window.hi, units);
  if (kind === "ormust") return [{ edge }, " is active" + time + ", and carries within " + durationWords(edge.greatest, units) + ". So:"];
  return ["All edges into ", { node }, " are active" + time + ", and carry in time if all their sources are active. So:"];
}

export function caseSentence(speech, split, taken) {
  const { units } = speech, { node } = split.clause, { label, edge, constraints } = taken, [{ value }] = constraints;
  if (label === "before") return [{ node }, byWords(value, units)];
  if (label === "after") return [{ node }, " not active by " + timeWords(value - 1, units)];
  if (label === "follows" || label === "due") return constraintSentence(speech, constraints[0]);
  const source = { node: edge.source };
  if (label === "late") return [source, " not active before " + timeWords(value, units) + ": too late for ", { edge }, " to be due"];
  const after = edge.least ? ", at least " + durationWords(edge.least, units) + " after " : ", not before ";
  const [from, to] = constraints.slice(1).map(constraint => timeWords(constraint.value, units));
  return [{ node }, " over ", { edge }, after, source, ", from " + from + " to " + to];
}

export function excludedSentence({ graph, units }, split, { edge, arrival }) {
  if (arrival === null) return [{ edge }, " is not active in mode " + graph.modes[split.span.mode]];
  return [{ edge }, " brings nothing before " + timeWords(arrival, units)];
}

// A case that one reason closes together with the case itself, in one line: that reason. Null for all other cases.
export function trivialReason(split, taken) {
  const { child } = taken;
  if (!child || child.kind !== "cycle" || child.reasons.length !== 2) return null;
  const own = child.constraints.findIndex(constraint => constraint.split === split && constraint.of === taken);
  return own < 0 ? null : { reason: child.reasons[1 - own], constraint: child.constraints[1 - own] };
}

export function reusedSentence(taken) {
  return "closed as case " + taken.reused.by + " is: no contradiction there rests on what case " + taken.reused.by + " says";
}

// ---- histories

function arrivalWords({ graph, units }, { edge, age, modes }) {
  const ran = edgeModes(graph, edge) ? " in mode " + modes.map(mode => graph.modes[mode]).join(" and ") : "";
  return [{ edge }, " (after " + durationWords(age, units) + ran + ", of " + rangeWords(edge, units) + ")"];
}

// What one activation of a history says, after its time.
export function activationSentence(speech, { node, time, arrivals, alarms }) {
  const { graph, units } = speech, { kind } = graph.nodes[node], between = kind === "and" ? " and " : " or ";
  const over = arrivals.flatMap((arrival, index) => [index ? between : ", over ", ...arrivalWords(speech, arrival)]);
  const raised = alarms.slice(0, MOST_ALARMS).flatMap((alarm, index) =>
    [index ? ", " : "; alarm by ", { logLine: alarm.line }, laterWords(alarm.time - time, units)]);
  const more = alarms.length > MOST_ALARMS ? [" and " + (alarms.length - MOST_ALARMS) + " more"] : [];
  const alone = kind !== "failure" && !arrivals.length ? [{ warning: ", and nothing had arrived over an edge by then" }] : [];
  return [{ node }, kind === "failure" ? " fails" : " active", ...over, ...alone, ...raised, ...more];
}

function laterWords(milliseconds, units) {
  if (milliseconds === 0) return " at once";
  return milliseconds > 0 ? " after " + durationWords(milliseconds, units) : " before it";
}

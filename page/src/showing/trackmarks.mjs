// What stands in one row of the tracks.
import { drawn, isolated } from "./elements.mjs";
import { intervalOf } from "../reading/monitors.mjs";
import { runWords } from "../reading/runs.mjs";
import { setWords } from "../reading/sentences.mjs";
import { charactersOf } from "../reading/texts.mjs";
import { spansAt } from "../reading/spans.mjs";
import { timeWords } from "../reading/times.mjs";
import { nodeName } from "./links.mjs";
import { change, choose, goTo, state, view } from "./state.mjs";

const HEIGHT = 20, BASE = 15, MOST_MARKS = 200, MANY = 3000; // a log with more events has one mark of a kind for each pixel
const SIGNS_OF_EVENTS = { alarm: "▲", silent: "○", sweep: "◎", tick: "·", mode: "⇄", refused: "✕" };

// A shape with attributes, the words that it shows, and those that a pointer on it shows.
function shapeOf(tag, attributes, title, words = []) {
  return drawn(tag, attributes, words, drawn("title", {}, title));
}

function clock(time) {
  return timeWords(time, state.units);
}

export function modeTrack({ at, last }) {
  const { modes } = state.graph;
  return spansAt(state.log, last).map(({ lo, hi, mode }) => {
    const [x, width] = [at(lo), Math.max(1, at(hi) - at(lo))], grey = Math.round(238 - 90 * mode / modes.length);
    const fill = `rgb(${grey},${grey},${grey})`,
      name = width > 7 * modes[mode].length ? drawn("text", { class: "mode-words", x: x + 4, y: 14 }, modes[mode]) : null;
    const title = modes[mode] + " from " + clock(lo) + " to " + clock(hi);
    return [shapeOf("rect", { class: "mode-span", x, y: 2, width, height: HEIGHT - 4, fill }, title), name];
  });
}

// Refused lines stand beside the last accepted one, in one mark with their number.
export function logTrack({ at }) {
  const isMany = state.log.events.length > MANY, taken = new Set(), marks = [];
  let last = 0, refused = null;
  for (const line of state.log.lines) {
    if (line.event) last = line.event.time;
    const kind = line.event ? line.event.kind : "refused", x = at(last), key = kind + Math.round(x / 4);
    if (!line.event && refused && refused.key === key) refused.count++;
    else if (!line.event) marks.push(refused = { line, kind, x, key, count: 1 });
    else if (!isMany || (kind !== "tick" && !taken.has(key))) marks.push({ line, kind, x, count: 1 });
    taken.add(key);
  }
  return marks.map(logMark);
}

function logMark({ line: { number, text, refused }, kind, x, count }) {
  const title = "line " + number + ": " + isolated(charactersOf(text), 120) + (refused ? ", refused: " + refused : "")
    + (count > 1 ? ", the first of " + count + " refused lines here" : "");
  const place = { x: refused ? x + 6 : x, y: BASE, click: () => openLine(number, state.roundOfLine.get(number)) };
  const attributes = { class: "mark", "data-log-line": number, "data-kind": kind, "data-count": count > 1 ? count : null };
  return shapeOf("text", { ...attributes, ...place }, title, [SIGNS_OF_EVENTS[kind], count > 1 ? String(count) : ""]);
}

function openLine(number, round) {
  if (round !== undefined) goTo(round);
  change({ logLine: number, tab: "log" });
}

export function setTrack(row, { at }, end) {
  const { rounds, rejections } = state.report, since = rejections.get(row.hypothesis);
  let free = -1;
  const runs = row.runs.map(run => {
    const x = at(rounds[run.from].now), to = run.to + 1 < rounds.length ? at(rounds[run.to + 1].now) : end;
    if (to <= free) return null;
    free = x + 1;
    return runPart(row, run, x, Math.max(2, to - x - 1));
  });
  return [runs, since ? rejectedMark(row, since, at) : null];
}

function rejectedMark({ hypothesis }, since, at) {
  const place = { x: at(since.now), y: BASE, click: () => choose(hypothesis, "why") };
  return shapeOf("text", { class: "rejected", ...place }, "rejected in round " + since.number, "✕");
}

function runPart(row, run, x, width) {
  const { rounds } = state.report, words = runWords(run), place = run.status === "ranked" ? Math.min(run.place, 4) : null;
  const title = setWords(row.set) + " " + words + " from round " + rounds[run.from].number + " to " + rounds[run.to].number;
  const click = () => change({ chosen: row.hypothesis, round: run.to, forecast: null });
  const bar = shapeOf("rect", { class: run.status + "-run", "data-place": place, x, y: 3, width, height: HEIGHT - 6, click }, title);
  return [bar, width > 46 ? drawn("text", { class: "run-words", "data-place": place, x: x + 4, y: 14 }, words) : null];
}

export function nodeTrack(node, axis, end) {
  const said = view.monitors.get(node), name = nodeName(node), time = view.trace ? view.trace.get(node) : undefined;
  const alarms = said ? said.alarms.slice(0, MOST_MARKS).map(event => alarmPart(event, axis.at, name)) : [];
  const silences = said ? said.silences.map(event => silencePart(event, axis.at, name)) : [];
  const [bar, start] = time === undefined ? [] : activationParts(name, time, axis, end);
  return [bar, alarms, silences, start];
}

function activationParts(name, time, { at, last }, end) {
  const x = at(time), until = view.horizon >= last ? end : at(view.horizon), transform = `translate(${x},${HEIGHT / 2})`;
  const bar = drawn("rect", { class: "active-run", x, y: 5, width: Math.max(1, until - x), height: HEIGHT - 10 });
  const attributes = { class: "activation", "data-node": name, "data-time": time, d: "M0,-7L5,0L0,7L-5,0Z", transform };
  return [bar, shapeOf("path", attributes, name + " active from " + clock(time))];
}

function alarmPart(event, at, name) {
  const [from, to] = intervalOf(state.graph, event), words = "line " + event.line + ": alarm at " + clock(event.time);
  const meaning = words + ", so active from an instant between " + clock(from) + " and " + clock(to);
  const place = { x: at(from), y: 2, width: Math.max(2, at(to) - at(from)), height: HEIGHT - 4 };
  const interval = shapeOf("rect", { class: "interval", "data-node": name, "data-from": from, "data-to": to, ...place }, meaning);
  return [interval, shapeOf("text", { class: "alarm", "data-node": name, x: at(event.time), y: BASE }, words, "▲")];
}

function silencePart(event, at, name) {
  const attributes = { class: "silence", "data-node": name, "data-log-line": event.line, cx: at(event.time), cy: HEIGHT / 2, r: 3.5 };
  return shapeOf("circle", attributes, "line " + event.line + ": silent at " + clock(event.time));
}

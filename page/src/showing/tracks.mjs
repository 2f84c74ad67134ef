// The tracks on one axis of time: modes, log, the sets over the rounds, and the chosen history against what the log says.
import { byId, drawn, element } from "./elements.mjs";
import { timeWords } from "../reading/times.mjs";
import { rowsFirst } from "../reading/runs.mjs";
import { setWords } from "../reading/sentences.mjs";
import { axisOf, canBeEven } from "./axis.mjs";
import { logTrack, modeTrack, nodeTrack, setTrack } from "./trackmarks.mjs";
import { edgeTip } from "./drawing.mjs";
import { nodeName } from "./links.mjs";
import { change, choose, markNode, state, view, whenChanged } from "./state.mjs";

const NAMES = 196, LETTERS = 26, ROW = 20, TOP = 24, MOST_SETS = 25, MOST_NODES = 60, MOST_OTHERS = 40; // widths and heights in pixels
const LEFT = 6, LEAST_DRAG = 8, STEP = 80, SCROLL_BAR = 20; // pixels

let latest = null; // the axis that was drawn last

export function prepareTracks() {
  byId("even").addEventListener("change", event => change({ isEven: event.target.checked }));
  byId("narrow").addEventListener("click", () => widenTo(state.widening / 2));
  byId("wide").addEventListener("click", () => widenTo(state.widening * 2));
  byId("all-times").addEventListener("click", () => widenTo(1));
  byId("tracks").addEventListener("wheel", widenByWheel, { passive: false });
  prepareSpan(byId("tracks"));
  addEventListener("resize", drawTracks);
  whenChanged(drawTracks);
}

// ---- how wide, and which span of time

const MOST_WIDENING = 256;

// Another width, at which the instant at this place of the window, or else in the middle, stays where it is.
function widenTo(widening, clientX) {
  const place = byId("tracks"), box = place.getBoundingClientRect(), middle = (box.width + NAMES) / 2;
  const x = clientX === undefined ? middle : clientX - box.left, share = (place.scrollLeft + x - NAMES) / latest.width;
  change({ widening: Math.max(1, Math.min(MOST_WIDENING, widening)) });
  place.scrollLeft = share * latest.width + NAMES - x;
}

// With Ctrl, as the fingers on a touchpad send it, or with Alt, a wheel changes the width. Without, it scrolls.
function widenByWheel(event) {
  if (!event.ctrlKey && !event.altKey) return;
  event.preventDefault();
  widenTo(state.widening * Math.exp(-event.deltaY / 300), event.clientX);
}

// Scrolls the tracks where they are larger than their place, and says whether the key does so: along the time, to its ends, over the rows.
export function scrollTracks(key) {
  const place = byId("tracks"), isHigh = place.scrollHeight > place.clientHeight;
  const isWide = place.scrollWidth > place.clientWidth + SCROLL_BAR; // that over the rows takes some of the width
  const along = isWide && { ArrowLeft: -STEP, ArrowRight: STEP, Home: -place.scrollWidth, End: place.scrollWidth }[key];
  const over = isHigh && { ArrowUp: -STEP, ArrowDown: STEP }[key];
  if (!along && !over) return false;
  place.scrollBy(along || 0, over || 0);
  return true;
}

// Dragging over the tracks chooses a span of time, which is then as wide as its place.
function prepareSpan(place) {
  let from = null, shade = null;
  const at = event => event.clientX - place.getBoundingClientRect().left + place.scrollLeft;
  place.addEventListener("pointerdown", event => {
    if (event.pointerType === "mouse" && event.button === 0 && event.clientX - place.getBoundingClientRect().left > NAMES) from = at(event);
  });
  addEventListener("pointermove", event => {
    if (from === null || !latest || Math.abs(at(event) - from) < LEAST_DRAG) return;
    event.preventDefault();
    if (!shade || !shade.isConnected) latest.body.append(shade = drawn("rect", { class: "span", y: 16, height: 4000 }));
    shade.setAttribute("x", Math.min(from, at(event)) - NAMES - LEFT);
    shade.setAttribute("width", Math.abs(at(event) - from));
  });
  addEventListener("pointerup", event => {
    const begin = from;
    from = null;
    if (begin === null || !shade) return;
    shade.remove();
    shade = null;
    showSpan(Math.min(begin, at(event)) - NAMES - LEFT, Math.max(begin, at(event)) - NAMES - LEFT);
  });
}

// Shows what stands between these two places of the axis, in pixels, as wide as there is place.
function showSpan(low, high) {
  const place = byId("tracks"), shares = [low, high].map(x => Math.max(0, Math.min(1, x / latest.width)));
  const share = Math.max(1e-4, shares[1] - shares[0]), visible = place.clientWidth - NAMES - LEFT;
  change({ widening: Math.max(1, Math.min(MOST_WIDENING, visible / share / (latest.width / state.widening))) });
  place.scrollLeft = shares[0] * latest.width;
}

function sayScale() {
  const even = byId("even"), isOff = !canBeEven();
  even.disabled = isOff;
  even.checked = state.isEven && !isOff;
  byId("even-words").textContent = isOff ? "true scale: too many events for even steps" : "even steps, which are no scale";
}

function drawTracks() {
  const place = byId("tracks");
  byId("times").hidden = !state.log;
  if (!state.log || place.clientWidth === 0) return;
  sayScale();
  const width = Math.max(300, place.clientWidth - NAMES - 60) * state.widening, axis = axisOf(width);
  const rows = rowsNow(), height = TOP + ROW * rows.length + 6;
  const names = drawn("svg", { class: "track-names", width: NAMES, height }), marks = drawn("svg", { width: width + 56, height });
  const body = drawn("g", { transform: "translate(" + LEFT + ",0)" }, gridPart(axis, width, height));
  rows.forEach((row, index) => {
    const top = TOP + ROW * index, transform = "translate(0," + top + ")";
    const group = drawn("g", { "data-track": row.track, "data-name": row.name, transform });
    if (row.draw) group.append(row.isSteady ? keptMarks(row, axis, width + 40) : marksOf(row, axis, width + 40));
    names.append(rowName(row, top));
    body.append(group);
  });
  body.append(...linksOfHistory(rows, axis), ...nowPart(axis, width, height));
  marks.append(body);
  latest = { width, body };
  const [left, top] = [place.scrollLeft, place.scrollTop];
  place.replaceChildren(element("div", { class: "track-rows" }, names, marks));
  place.scrollTo(left, top);
}

function marksOf(row, axis, end) {
  return drawn("g", {}, row.draw(axis, end));
}

// The marks of steady rows are the same in each round, so they are kept until the axis or the texts change.
let kept = { key: null, log: null, marks: new Map() };

function keptMarks(row, axis, end) {
  const key = axis.key + " " + state.units.unit + " " + state.units.start, name = row.track + " " + row.name;
  if (kept.key !== key || kept.log !== state.log) kept = { key, log: state.log, marks: new Map() };
  if (!kept.marks.has(name)) kept.marks.set(name, marksOf(row, axis, end));
  return kept.marks.get(name);
}

// ---- rows

function rowsNow() {
  const steady = (name, draw) => ({ track: name, name, isSteady: true, draw });
  const modes = state.graph.modes.length > 1 ? [steady("mode", modeTrack)] : [];
  return [...modes, steady("log", logTrack), ...setRows(), ...nodeRows()];
}

function setRows() {
  if (!view.round) return [];
  const shown = rowsFirst(state.report.runs, view.round, MOST_SETS), left = state.report.runs.length - shown.length;
  const rows = shown.map(row => ({
    track: "set", name: setWords(row.set), choose: () => choose(row.hypothesis),
    isChosen: view.ranked !== null && view.ranked.hypothesis === row.hypothesis, isSteady: true,
    draw: (axis, end) => setTrack(row, axis, end)
  }));
  return [{ track: "heading", name: "ranked sets" }, ...rows, ...(left > 0 ? [{ track: "note", name: "… and " + left + " more" }] : [])];
}

// The active nodes of the history by time, and the other monitored nodes of which the log says something.
function nodeRows() {
  const active = view.history.slice(0, MOST_NODES).map(entry => entry.node);
  const isOther = ([node, said]) => (said.alarms.length || said.silences.length) && !(view.trace && view.trace.has(node));
  const all = [...view.monitors].filter(isOther).map(([node]) => node), others = all.slice(0, MOST_OTHERS);
  const left = view.history.length - active.length + all.length - others.length;
  const rows = [...active, ...others].map(node => ({
    track: "node", name: nodeName(node), node, isChosen: state.marked !== null && state.marked.node === node,
    choose: () => markNode(nodeName(node)), draw: (axis, end) => nodeTrack(node, axis, end)
  }));
  const note = left > 0 ? [{ track: "note", name: "… and " + left + " more" }] : [];
  return [{ track: "heading", name: view.trace ? "history of " + setWords(view.set) : "monitors" }, ...rows, ...note];
}

function rowName(row, top) {
  const isHeading = row.track === "heading", most = isHeading || row.isChosen ? LETTERS - 3 : LETTERS;
  const words = row.name.length > most ? row.name.slice(0, most - 1) + "…" : row.name;
  const kind = isHeading ? "heading" : row.choose ? row.isChosen ? "choice chosen" : "choice" : "";
  return drawn("text", { class: kind, x: isHeading ? 6 : 14, y: top + 14, click: row.choose || null }, words, drawn("title", {}, row.name));
}

// ---- what goes over all rows

function gridPart({ at, named }, width, height) {
  return named.flatMap(instant => {
    const x = at(instant), anchor = x < 24 ? "start" : x > width + 10 ? "end" : "middle";
    const name = drawn("text", { x, y: 13, "text-anchor": anchor }, timeWords(instant, state.units));
    return [drawn("line", { class: "grid", x1: x, x2: x, y1: 18, y2: height }), name];
  });
}

function nowPart({ at, last }, width, height) {
  const x = at(view.now), line = drawn("line", { class: "now", x1: x, x2: x, y1: 16, y2: height });
  const place = { x, y: 18, width: Math.max(0, width + 40 - x), height: height - 18 };
  return view.now < last ? [drawn("rect", { class: "ahead", ...place }), line] : [line];
}

// From the activation of a source to that of the node to which the failure came over an edge.
function linksOfHistory(rows, { at }) {
  const isActive = node => node !== undefined && view.trace !== null && view.trace.has(node);
  const middles = new Map(rows.map((row, index) => [row.node, TOP + ROW * index + ROW / 2]).filter(([node]) => isActive(node)));
  return view.history.flatMap(({ node, arrivals }) => arrivals.map(({ edge }) => {
    if (!middles.has(node) || !middles.has(edge.source)) return null;
    const [from, to] = [at(view.trace.get(edge.source)), at(view.trace.get(node))];
    const d = `M${from},${middles.get(edge.source)}V${middles.get(node)}H${to}`;
    return drawn("path", { class: "carried-link", d }, drawn("title", {}, edgeTip(edge)));
  })).filter(Boolean);
}

// The drawing of the graph, which Graphviz laid out: signs and colours of the round, its scale, and the words of its parts.
import { byId, drawn, element } from "./elements.mjs";
import { durationWords, rangeWords, shortTime, timeWords } from "../reading/times.mjs";
import { edgeModes, nodeWords, setWords } from "../reading/sentences.mjs";
import { signOf } from "../reading/monitors.mjs";
import { boxOf, drawMap, prepareMap } from "./map.mjs";
import { edgeName, lookAtPanel, nodeName } from "./links.mjs";
import { change, markNode, state, view, whenChanged } from "./state.mjs";

const SIGNS = { alarm: "▲", silent: "○" };
const LEAST_TEXT = 11, GREATEST_SCALE = 6, ROOMY = 1.6; // the least height of letters in pixels; scales in pixels for a unit
const drawings = []; // each with its root, its size, its least scale, and the groups of its nodes and edges by number
let shownDrawing = null;

// ---- preparing

export function prepareDrawings() {
  for (const root of document.querySelectorAll("#drawing > svg")) drawings.push(prepare(bestWay(root)));
  byId("part").hidden = drawings.length < 2;
  byId("names").replaceChildren(...state.graph.nodes.map(node => element("option", { value: node.name })));
  prepareMap(scrollTo);
  prepareDrag(byId("drawing"));
  byId("drawing").addEventListener("scroll", drawMapNow);
  byId("drawing").addEventListener("wheel", zoomByWheel, { passive: false });
  byId("smaller").addEventListener("click", () => rescale(1 / 1.25));
  byId("larger").addEventListener("click", () => rescale(1.25));
  addEventListener("resize", () => setScale(shownDrawing, shownDrawing.scale));
  whenChanged(colour);
  showDrawing(drawings[drawings.length - 1]);
}

// The layout of this drawing of which the most fits the place at a scale at which it can be read.
function bestWay(root) {
  const ways = [root, ...[...document.querySelectorAll("template[data-of=" + root.dataset.drawing + "]")].map(one => one.content.firstElementChild)];
  const shares = ways.map(shareOf), best = ways[shares.indexOf(Math.max(...shares))];
  if (best !== root) root.replaceWith(best);
  for (const template of document.querySelectorAll("template[data-of=" + root.dataset.drawing + "]")) template.remove();
  return best;
}

// Which share of a drawing stands in its place at its least scale, and above 1 how much larger it can be.
function shareOf(root) {
  const place = byId("drawing"), { width, height } = sizeOf(root), least = leastScale(root);
  const [across, down] = [place.clientWidth / width, place.clientHeight / height], fitting = Math.min(across, down);
  return fitting >= least ? fitting / least : Math.min(1, across / least) * Math.min(1, down / least);
}

function sizeOf(root) {
  const [, , width, height] = root.getAttribute("viewBox").split(" ").map(Number);
  return { width, height };
}

function leastScale(root) {
  const sizes = [...root.querySelectorAll("text")].map(text => Number(text.getAttribute("font-size")));
  return LEAST_TEXT / Math.min(...sizes);
}

function prepare(root) {
  const picture = root.querySelector("g.graph"), drawing = { root, picture, ...sizeOf(root), least: leastScale(root), nodes: new Map(), edges: new Map() };
  root.setAttribute("role", "group");
  root.setAttribute("aria-label", "graph; arrows lead along its edges, and the tab nodes says the same as a table");
  for (const group of picture.querySelectorAll("g.node")) drawing.nodes.set(Number(group.id.slice(2)), prepareNode(group));
  for (const group of picture.querySelectorAll("g.edge")) drawing.edges.set(Number(group.id.slice(2)), prepareEdge(group));
  const [first] = drawing.nodes.values();
  if (first) first.setAttribute("tabindex", "0");
  fitScale(drawing);
  return drawing;
}

function prepareNode(group) {
  const number = Number(group.id.slice(2)), node = state.graph.nodes[number], box = boxOf(group);
  group.dataset.node = node.name;
  group.querySelector("text:last-of-type").classList.add("when");
  const inset = node.kind === "and" ? [14, 17] : [3, 13]; // the corners of an octagon are cut
  group.append(drawn("text", { class: "sign", x: box.right - inset[0], y: box.top + inset[1], "font-size": 12 }));
  if (node.kind !== "failure" && !node.lags) group.classList.add("hidden-node");
  return takePointer(group, () => nodeTip(number), () => markNode(node.name));
}

function prepareEdge(group) {
  const edge = state.graph.edges[Number(group.id.slice(2))];
  group.dataset.edge = nodeName(edge.source) + " " + nodeName(edge.target);
  return takePointer(group, () => edgeTip(edge), () => change({ marked: { edge }, tab: "node" }));
}

// A node or an edge is a button. What it opens is brought into sight on a narrow screen, and the focus stays where it is.
function takePointer(group, words, act) {
  group.setAttribute("role", "button");
  group.setAttribute("tabindex", "-1");
  group.addEventListener("click", event => {
    act();
    if (event.detail && matchMedia("(max-width: 900px)").matches) lookAtPanel();
  });
  group.addEventListener("focus", () => tip(null));
  group.addEventListener("mousemove", event => tip(words(), event));
  group.addEventListener("mouseleave", () => tip(null));
  return group;
}

// ---- words beside the pointer

function tip(words, event) {
  const box = byId("tip");
  box.hidden = !words;
  if (!words) return;
  box.textContent = words;
  box.style.left = Math.min(event.clientX + 14, innerWidth - 330) + "px";
  box.style.top = Math.min(event.clientY + 14, innerHeight - 110) + "px";
}

// What carried over each edge, by its number.
function arrivalsNow() {
  return new Map(view.history.flatMap(({ arrivals }) => arrivals.map(arrival => [arrival.edge.number, arrival])));
}

export function edgeLines(edge, arrival = arrivalsNow().get(edge.number)) {
  const modes = edgeModes(state.graph, edge), lines = [edgeName(edge), "after " + rangeWords(edge, state.units)];
  if (modes) lines.push("active in " + modes);
  if (edge.greatest === null) lines.push("may carry the failure, and is never forced to");
  if (arrival) lines.push("carried after " + durationWords(arrival.age, state.units) + ", counted from " + timeWords(arrival.from, state.units));
  else if (state.log && !edge.modes.has(view.mode)) lines.push("off in the mode of now");
  return lines;
}

export function edgeTip(edge) {
  return edgeLines(edge).join("\n");
}

function nodeLines(number) {
  const lines = [nodeName(number) + ": " + nodeWords(state.graph, number, state.units)], said = view.monitors.get(number);
  const times = events => (events.length > 4 ? "the last 4 of " + events.length + ", " : "")
    + events.slice(-4).map(event => timeWords(event.time, state.units)).join(", ");
  if (said && said.alarms.length) lines.push("alarm at " + times(said.alarms));
  if (said && said.silences.length) lines.push("silent at " + times(said.silences));
  const time = view.trace ? view.trace.get(number) : undefined;
  if (time !== undefined) lines.push("active from " + timeWords(time, state.units) + " by the history of " + setWords(view.set));
  return lines;
}

export function nodeTip(number) {
  return nodeLines(number).join("\n");
}

// ---- colours and signs of the round

function colour() {
  const arrivals = arrivalsNow();
  for (const drawing of drawings) {
    for (const [number, group] of drawing.nodes) colourNode(group, number);
    for (const [number, group] of drawing.edges) colourEdge(group, state.graph.edges[number], arrivals.get(number));
  }
  const { marked } = state;
  if (marked && marked.node !== undefined && !shownDrawing.nodes.has(marked.node)) showDrawing(drawings[0]);
  drawLegend();
  drawMapNow();
  sayPart();
}

function colourNode(group, number) {
  const sign = signOf(view.monitors.get(number)), { hypothesis, trace } = view, isActive = trace !== null && trace.has(number);
  const [isMember, isDoubted] = ["failures", "doubts"].map(part => hypothesis !== null && hypothesis[part].includes(number));
  const classes = { alarm: sign === "alarm", silent: sign === "silent", active: isActive, member: isMember, doubted: isDoubted };
  for (const [name, isSo] of Object.entries(classes)) group.classList.toggle(name, isSo);
  group.classList.toggle("far", !(sign === "alarm" || isActive || isMember || isDoubted));
  group.classList.toggle("marked", state.marked !== null && state.marked.node === number);
  group.setAttribute("aria-label", nodeLines(number).join(", ") + (isDoubted ? ", its monitor is not believed" : ""));
  group.querySelector(".when").textContent = isActive ? shortTime(trace.get(number), state.units) : "";
  group.querySelector(".sign").textContent = (isDoubted ? "?" : "") + (SIGNS[sign] || "");
}

function colourEdge(group, edge, arrival) {
  const carried = arrival !== undefined;
  group.classList.toggle("carried", carried);
  group.classList.toggle("far", !carried);
  group.classList.toggle("off", state.log !== null && !carried && !edge.modes.has(view.mode));
  group.classList.toggle("marked", state.marked !== null && state.marked.edge === edge);
  group.setAttribute("aria-label", "edge " + edgeLines(edge, arrival).join(", "));
}

// ---- which drawing, and which part of it

function showDrawing(drawing) {
  shownDrawing = drawing;
  for (const other of drawings) other.root.classList.toggle("other", other !== drawing);
  byId("part").textContent = drawing.root.dataset.drawing === "part" ? "show the whole graph" : "show the part that matters";
  setScale(drawing, drawing.scale);
  sayPart();
}

export function showOtherDrawing() {
  if (drawings.length > 1) showDrawing(drawings.find(drawing => drawing !== shownDrawing));
}

// How much of the graph the drawing leaves out.
function sayPart() {
  if (!view.monitors) return; // nothing is shown yet
  const { graph } = state, { nodes } = shownDrawing, gone = graph.nodes.filter(node => !nodes.has(node.number)).map(node => node.number);
  const alarms = gone.filter(node => signOf(view.monitors.get(node)) === "alarm").length;
  const active = gone.filter(node => view.trace && view.trace.has(node)).length;
  const more = [active ? active + " of this history" : "", alarms ? alarms + " with an alarm" : ""].filter(Boolean).join(" and ");
  byId("part-words").hidden = !gone.length;
  byId("part-words").textContent = nodes.size + " of " + graph.nodes.length + " nodes" + (more ? "; left out are " + more : "");
}

// ---- scale: at the least one all letters can be read

function fitScale(drawing) {
  const place = byId("drawing"), { width, height, least } = drawing;
  drawing.scale = Math.min(ROOMY, Math.max(least, Math.min(place.clientWidth / width, place.clientHeight / height)));
}

function setScale(drawing, scale) {
  const { root, width, height, least } = drawing;
  drawing.scale = Math.min(GREATEST_SCALE, Math.max(least, scale));
  root.setAttribute("width", Math.floor(width * drawing.scale));
  root.setAttribute("height", Math.floor(height * drawing.scale));
  drawMapNow();
}

export function fit() {
  fitScale(shownDrawing);
  setScale(shownDrawing, shownDrawing.scale);
}

// Another scale, at which this place of the window, or else the middle, stays where it is.
function rescale(factor, event) {
  const place = byId("drawing"), box = place.getBoundingClientRect(), before = shownDrawing.scale;
  const [x, y] = event ? [event.clientX - box.left, event.clientY - box.top] : [box.width / 2, box.height / 2];
  setScale(shownDrawing, before * factor);
  const grown = shownDrawing.scale / before;
  place.scrollTo((place.scrollLeft + x) * grown - x, (place.scrollTop + y) * grown - y);
}

// With Ctrl, as the fingers on a touchpad send it, a wheel changes the scale. Without, it scrolls.
function zoomByWheel(event) {
  if (!event.ctrlKey) return;
  event.preventDefault();
  rescale(Math.exp(-event.deltaY / 300), event);
}

function prepareDrag(place) {
  let from = null;
  place.addEventListener("pointerdown", event => {
    if (event.pointerType === "mouse" && event.button === 0) from = { x: event.clientX + place.scrollLeft, y: event.clientY + place.scrollTop };
  });
  addEventListener("pointermove", event => {
    if (from && event.buttons) place.scrollTo(from.x - event.clientX, from.y - event.clientY);
  });
  addEventListener("pointerup", () => { from = null; });
}

// Scrolls so that this point of the drawing is in the middle, in units of the drawing.
function scrollTo(x, y) {
  const place = byId("drawing"), { scale } = shownDrawing;
  place.scrollTo(x * scale - place.clientWidth / 2, y * scale - place.clientHeight / 2);
}

export function nodesThatMatter() {
  return [...shownDrawing.nodes].filter(([, group]) => !group.classList.contains("far")).map(([number]) => number);
}

// The scale and the place at which these nodes are in sight, as many of them as can be read at once.
export function lookAt(numbers) {
  if (!numbers.length) return;
  if (numbers.some(number => !shownDrawing.nodes.has(number))) showDrawing(drawings[0]);
  const { picture, nodes, least } = shownDrawing, shift = picture.transform.baseVal.consolidate().matrix, place = byId("drawing");
  const boxes = numbers.map(number => boxOf(nodes.get(number)));
  const [left, right] = [Math.min(...boxes.map(box => box.left)), Math.max(...boxes.map(box => box.right))].map(x => x + shift.e);
  const [top, bottom] = [Math.min(...boxes.map(box => box.top)), Math.max(...boxes.map(box => box.bottom))].map(y => y + shift.f);
  const fitting = Math.min(place.clientWidth / (right - left + 40), place.clientHeight / (bottom - top + 40), ROOMY);
  setScale(shownDrawing, Math.max(least, fitting));
  scrollTo((left + right) / 2, (top + bottom) / 2);
}

// At first, a drawing that is larger than its place shows what is active or has an alarm, from its first node on.
export function showWhatMatters() {
  const place = byId("drawing"), { picture, nodes, scale } = shownDrawing, shift = picture.transform.baseVal.consolidate().matrix;
  const boxes = nodesThatMatter().map(number => boxOf(nodes.get(number)));
  if (!boxes.length) return;
  const middleOf = (low, high, shown) => Math.min((low + high) / 2, low + shown / scale / 2 - 12);
  const [left, right] = [Math.min(...boxes.map(box => box.left)), Math.max(...boxes.map(box => box.right))].map(x => x + shift.e);
  const [top, bottom] = [Math.min(...boxes.map(box => box.top)), Math.max(...boxes.map(box => box.bottom))].map(y => y + shift.f);
  scrollTo(middleOf(left, right, place.clientWidth), middleOf(top, bottom, place.clientHeight));
}

function drawMapNow() {
  if (shownDrawing) drawMap(shownDrawing);
}

// ---- keys: along an edge by left and right, to the next of its kind by up and down

// Moves the focus from a node or an edge, and says whether the key does so.
export function moveInDrawing(group, key) {
  const next = nextInDrawing(group, key);
  if (next === undefined) return false;
  if (next) {
    for (const some of [...shownDrawing.nodes.values(), ...shownDrawing.edges.values()]) some.setAttribute("tabindex", some === next ? "0" : "-1");
    next.focus();
  }
  return true;
}

function nextInDrawing(group, key) {
  const { nodes, edges } = shownDrawing, number = Number(group.id.slice(2)), isNode = group.classList.contains("node");
  const here = isNode ? null : state.graph.edges[number], edgeGroup = some => edges.get((some.find(edge => edges.has(edge.number)) || {}).number);
  if (key === "ArrowRight") return (isNode ? edgeGroup(state.graph.outgoing[number]) : nodes.get(here.target)) || null;
  if (key === "ArrowLeft") return (isNode ? edgeGroup(state.graph.incoming[number]) : nodes.get(here.source)) || null;
  const beside = [...(isNode ? nodes : edges).values()], place = beside.indexOf(group);
  const places = { ArrowUp: place - 1, ArrowDown: place + 1, Home: 0, End: beside.length - 1 };
  return Object.hasOwn(places, key) ? beside[places[key]] || null : undefined;
}

// ---- the drawing by itself

// The drawing as it is now, in whole, for a sheet of paper.
export function copyOfDrawing() {
  const copy = shownDrawing.root.cloneNode(true);
  for (const name of ["width", "height"]) copy.removeAttribute(name);
  for (const some of [copy, ...copy.querySelectorAll("[id], [tabindex]")]) for (const name of ["id", "tabindex"]) some.removeAttribute(name);
  return copy;
}

const STYLES = ["fill", "fill-opacity", "stroke", "stroke-width", "stroke-dasharray", "font-family", "font-size", "font-weight", "text-anchor", "opacity"];

// Saves the drawing as it is now as a file of SVG, which needs no page: the style of each part is written into it.
export function saveDrawing() {
  const copy = shownDrawing.root.cloneNode(true), parts = [shownDrawing.root, ...shownDrawing.root.querySelectorAll("*")];
  [copy, ...copy.querySelectorAll("*")].forEach((part, index) => {
    const style = getComputedStyle(parts[index]);
    for (const name of STYLES) if (part.localName !== "g") part.setAttribute(name, style.getPropertyValue(name));
  });
  copy.setAttribute("xmlns", "http://www.w3.org/2000/svg");
  const blob = new Blob([new XMLSerializer().serializeToString(copy)], { type: "image/svg+xml" });
  const link = element("a", { href: URL.createObjectURL(blob), download: "drawing.svg" });
  link.click();
  setTimeout(() => URL.revokeObjectURL(link.href), 5000);
}

// ---- legend

function sample(...shapes) {
  return drawn("svg", { viewBox: "0 0 22 14", "aria-hidden": "true" }, shapes);
}

export function legendParts() {
  const box = (kind, attributes) => drawn("rect", { class: "sample " + kind, x: 2, y: 2, width: 18, height: 10, ...attributes });
  const line = (kind, attributes) => drawn("line", { class: "sample-line " + kind, x1: 0, y1: 7, x2: 22, y2: 7, ...attributes });
  const octagon = drawn("polygon", { class: "sample", points: "6,1 16,1 21,5 21,9 16,13 6,13 1,9 1,5" });
  const whose = view.trace ? "the history of " + setWords(view.set) : "a history";
  const hasDoubts = view.hypothesis !== null && view.hypothesis.doubts.length > 0;
  const entries = [
    [box("alarm"), "▲ alarm"],
    [box("silent"), "○ asked, and silent"],
    [box("", { "stroke-dasharray": "3 2" }), "hidden"],
    [octagon, "AND: needs all its causes"],
    [box("active"), "active by " + whose],
    [line("carried"), "edge that carried"],
    [line("off"), "edge that is off in this mode"],
    [line("", { "stroke-dasharray": "4 3" }), "edge that is never forced"],
    ...(hasDoubts ? [[box("doubted"), "? monitor that is not believed"]] : [])
  ];
  return entries.map(([shape, words]) => element("span", {}, sample(shape), words));
}

function drawLegend() {
  byId("legend").replaceChildren(...legendParts());
}

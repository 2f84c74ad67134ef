// Links: to a node, an edge, a line of the log, a line of the report, or a set. One listener of the document follows them all.
import { byId, element, isolated } from "./elements.mjs";
import { charactersOf } from "../reading/texts.mjs";
import { setWords } from "../reading/sentences.mjs";
import { timeWords } from "../reading/times.mjs";
import { change, choose, markNode, state } from "./state.mjs";

function link(attributes, ...words) {
  return element("span", { class: "link", role: "link", tabindex: "0", ...attributes }, words);
}

export function nodeName(node) {
  return state.graph.nodes[node] ? state.graph.nodes[node].name : "the probe";
}

export function nodeLink(node) {
  return state.graph.nodes[node] ? link({ "data-node": nodeName(node) }, nodeName(node)) : "the probe";
}

export function edgeName(edge) {
  return nodeName(edge.source) + " to " + nodeName(edge.target);
}

export function edgeLink(edge) {
  const isOfGraph = edge.number < state.graph.edges.length;
  return isOfGraph ? link({ "data-edge": nodeName(edge.source) + " " + nodeName(edge.target) }, edgeName(edge)) : edgeName(edge);
}

export function logLink(line) {
  return link({ "data-log-line": line, title: isolated(charactersOf(state.log.lines[line - 1].text), 200) }, "line " + line);
}

export function reportLink(at) {
  return link({ "data-report-line": at, title: "line " + at + " of the report" }, "¶" + at);
}

export function setLink(hypothesis, set, tab) {
  return link({ "data-set": set, "data-hypothesis": hypothesis, "data-to": tab }, setWords(set));
}

// A sentence as plain words, for where no link can stand.
export function plainWords(sentence) {
  return sentence.map(piece => {
    if (typeof piece !== "object") return piece;
    if (piece.node !== undefined) return nodeName(piece.node);
    if (piece.time !== undefined) return timeWords(piece.time, state.units);
    if (piece.set !== undefined) return setWords(piece.set);
    if (piece.edge) return edgeName(piece.edge);
    return piece.warning || "line " + piece.logLine;
  }).join("");
}

// The words and references of a sentence, as words and links.
export function linked(sentence) {
  return sentence.map(piece => {
    if (typeof piece !== "object") return piece;
    if (piece.node !== undefined) return nodeLink(piece.node);
    if (piece.warning !== undefined) return element("span", { class: "refused" }, piece.warning);
    if (piece.time !== undefined) return timeWords(piece.time, state.units);
    if (piece.set !== undefined) return setLink(piece.hypothesis, piece.set, piece.to || "ranking");
    return piece.edge ? edgeLink(piece.edge) : logLink(piece.logLine);
  });
}

function follow(target) {
  const { node, edge, logLine, reportLine, hypothesis, to } = target.dataset;
  if (node !== undefined) markNode(node);
  else if (edge !== undefined) change({ marked: { edge: edgeOfWords(edge) }, tab: "node" });
  else if (logLine !== undefined) change({ logLine: Number(logLine), tab: "log" });
  else if (reportLine !== undefined) change({ reportLine: Number(reportLine), tab: "report" });
  else if (hypothesis !== undefined) choose(Number(hypothesis), to);
}

export function edgeOfWords(words) {
  const [source, target] = words.split(" ").map(name => state.graph.numberOf.get(name));
  return state.graph.edgeOf(source, target);
}

export function followLinks() {
  document.addEventListener("click", event => {
    const target = event.target.closest && event.target.closest(".link");
    if (!target) return;
    event.preventDefault(); // a link in a summary does not open it
    follow(target);
    lookAtPanel();
  });
}

// Brings the panel, where something was opened, into sight, and gives it the focus.
export function lookAtPanel() {
  byId("panel").focus({ preventScroll: true });
  if (matchMedia("(max-width: 900px)").matches) byId("side").scrollIntoView({ block: "start" });
}

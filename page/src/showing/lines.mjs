// The texts as they are, with line numbers.
import { element, foreign } from "./elements.mjs";
import { someLines } from "../reading/report.mjs";
import { charactersOf, linesOf, textOf } from "../reading/texts.mjs";
import { change, goTo, state, view } from "./state.mjs";

const BEFORE = 150, MOST_LINES = 400;

export function logPanel() {
  const { log, roundOfLine } = state, current = state.logLine || (view.round ? view.round.line : null);
  const first = Math.max(0, (current || 1) - BEFORE), lines = log.lines.slice(first, first + MOST_LINES);
  const shownLines = lines.map(({ number, text, refused }) => ({ number, text, refused, round: roundOfLine.get(number) }));
  return [place("line of the log", current || 1, log.lines.length, line => change({ logLine: line })),
    listOfLines("log-lines", shownLines, current)];
}

export function reportPanel() {
  const { report } = state, current = state.reportLine || (view.round ? view.round.at : 1), first = Math.max(1, current - BEFORE);
  const lines = someLines(report.text, first, MOST_LINES);
  return [place("line of the report", current, report.lineCount, line => change({ reportLine: line })),
    listOfLines("report-lines", lines, current)];
}

export function graphPanel() {
  const lines = linesOf(textOf(state.texts.graph)).map((text, index) => ({ number: index + 1, text }));
  const { marked } = state, thing = marked && (marked.edge || state.graph.nodes[marked.node]);
  return [listOfLines("graph-lines", lines, (thing && thing.line) || null)];
}

function place(label, current, count, go) {
  const take = event => go(Math.max(1, Math.min(Math.round(Number(event.target.value)) || 1, count)));
  const input = element("input", { size: 8, value: current, "aria-label": label, change: take });
  return element("p", {}, label + " ", input, " of " + count.toLocaleString("en-US") + ", as it is, byte for byte");
}

function listOfLines(id, lines, current) {
  return element("div", { id, class: "lines" }, element("code", {}, lines.map(line => lineRow(line, line.number === current))));
}

// A line that brought a round leads to it.
function lineRow({ number, text, refused, round }, isCurrent) {
  const toRound = round === undefined ? {} : { "data-round": round + 1, tabindex: "0", click: () => goTo(round) };
  return element("div", { "data-line": number, "data-refused": refused, "aria-current": isCurrent ? "true" : null, ...toRound },
    element("span", { class: "gutter" }, number), element("span", { class: refused ? "text refused" : "text" }, foreign(charactersOf(text))),
    refused ? element("span", { class: "refused" }, "  ← refused: " + refused) : null);
}

// The steps of a hypothesis or of a forecast, as data.
import { linesBetween } from "./report.mjs";

// What these lines say. `at` is the line of the first one. `round` is that by whose log the steps are judged.
export function readSteps(graph, lines, at, round) {
  const steps = [];
  lines.forEach((line, index) => {
    const [kind, ...words] = line.split(" "), here = { kind, at: at + index, round };
    if (kind === "split") steps.push({ ...here, clause: readClause(graph, words) });
    else if (kind === "cycle") steps.push({ ...here, reasons: [] });
    else if (kind === "again") steps.push(here);
    else steps[steps.length - 1].reasons.push(readReason(graph, words, at + index));
  });
  return steps;
}

function readClause(graph, [kind, ...words]) {
  const [span, horizon] = words.slice(-2).map(Number), nodes = words.slice(0, -2).map(name => graph.numberOf.get(name));
  const edge = nodes.length === 2 ? graph.edgeOf(nodes[0], nodes[1]) : null;
  return { kind, edge, node: nodes[nodes.length - 1], span, horizon };
}

function readReason(graph, [kind, ...words], at) {
  const node = name => graph.numberOf.get(name);
  if (kind === "unreached") return { kind, at, node: node(words[0]), horizon: Number(words[1]) };
  if (kind === "from" || kind === "upto") return { kind, at, event: Number(words[0]) };
  if (kind === "quiet") return { kind, at, event: Number(words[0]), node: node(words[1]) };
  if (kind === "pick") return { kind, at, split: Number(words[0]), place: Number(words[1]) };
  return { kind, at, node: node(words[0]) };
}

// The steps that were found for a hypothesis in all rounds up to this number.
export function stepsOf(graph, report, hypothesis, upTo) {
  const parts = (report.parts.get(hypothesis) || []).filter(({ round }) => round.number <= upTo);
  return parts.flatMap(part => readSteps(graph, linesBetween(report.text, part), part.at, part.round));
}

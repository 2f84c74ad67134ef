// What the page's readers say of texts, without a browser: of graphs what they have, of logs the refusals, of changed reports the first
// line with which none goes on, and of reports the sentences of their trees. The test that runs this puts it beside the modules. It reads
// one line of JSON, and writes one.
import { readFileSync } from "node:fs";
import { readGraph } from "./graph.mjs";
import { hypothesesOf } from "./hypotheses.mjs";
import { readLog } from "./log.mjs";
import { readReport } from "./report.mjs";
import { caseSentence, contradictionSentences, excludedSentence, reusedSentence, splitSentence } from "./sentences.mjs";
import { stepsOf } from "./steps.mjs";
import { chainOf, treeOf } from "./trees.mjs";

const units = { unit: "clock", start: 0 };

function plain(graph, words) {
  const edge = one => graph.nodes[one.source].name + " to " + graph.nodes[one.target].name;
  return [].concat(words).map(word => typeof word === "string" ? word : word.node !== undefined ? graph.nodes[word.node].name
    : word.edge ? edge(word.edge) : "line " + word.logLine).join("");
}

function speak(speech, node, said) {
  const put = words => said.push(plain(speech.graph, words));
  if (!node) return;
  if (node.kind === "cycle") {
    const { reasons, end } = contradictionSentences(speech, chainOf(node));
    reasons.forEach(reason => put(reason.words));
    put(end);
    return;
  }
  put(splitSentence(speech, node));
  for (const taken of node.cases) {
    put(caseSentence(speech, node, taken));
    if (taken.reused) put(reusedSentence(taken));
    else speak(speech, taken.child, said);
  }
  node.excluded.forEach(other => put(excludedSentence(speech, node, other)));
}

function sentencesOf({ graph: graphText, log: logText, report: reportText, sets }) {
  const graph = readGraph(graphText), log = readLog(graph, logText), report = readReport(graph, reportText);
  const table = hypothesesOf(graph, report.terms);
  return sets.map(([number, set]) => {
    const said = [], speech = { graph, log, units, set };
    speak(speech, treeOf(graph, log, table[number], stepsOf(graph, report, number, Infinity)).root, said);
    return said;
  });
}

// What a graph has, but for the lines in which it stands.
function contentsOf(text) {
  const { modes, nodes, edges } = readGraph(text), without = ({ line, ...thing }) => thing;
  return { modes, nodes: nodes.map(without), edges: edges.map(edge => ({ ...without(edge), modes: [...edge.modes].sort() })) };
}

// "read", or the line and the cause.
function readingOf(graph, text) {
  try {
    readReport(graph, text);
  } catch (fault) {
    if (fault.cause === undefined) throw fault;
    return [fault.line, fault.cause];
  }
  return "read";
}

const { graphs, logs, changed, reports } = JSON.parse(readFileSync(0, "utf8"));
process.stdout.write(JSON.stringify({
  graphs: graphs.map(contentsOf),
  changed: changed.map(({ graph, report }) => readingOf(readGraph(graph), report)),
  logs: logs.map(({ graph, log }) => readLog(readGraph(graph), log).lines.map(line => line.refused)),
  reports: reports.map(sentencesOf)
}));

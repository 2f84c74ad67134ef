// A graph by its text or its JSON, as it stands on a page: the script that made the page has refused all others.
import { BadText, linesOf } from "./texts.mjs";

class Graph {
  constructor() {
    Object.assign(this, { modes: [], nodes: [], edges: [], numberOf: new Map() });
  }

  addNode(name, kind, rarity, lags, line) {
    this.numberOf.set(name, this.nodes.length);
    this.nodes.push({ number: this.nodes.length, name, kind, rarity, lags, line });
  }

  // `modes` are names, or null for all.
  addEdge([source, target], least, greatest, modes, line) {
    const numbers = modes === null ? this.modes.map((_, number) => number) : modes.map(mode => this.modes.indexOf(mode));
    const ends = { source: this.numberOf.get(source), target: this.numberOf.get(target) };
    this.edges.push({ number: this.edges.length, ...ends, least, greatest, modes: new Set(numbers), line });
  }

  finish() {
    this.incoming = this.nodes.map(() => []);
    this.outgoing = this.nodes.map(() => []);
    for (const edge of this.edges) {
      this.incoming[edge.target].push(edge);
      this.outgoing[edge.source].push(edge);
    }
    this.failures = this.nodes.filter(node => node.kind === "failure").map(node => node.number);
    this.monitored = this.nodes.filter(node => node.lags).map(node => node.number);
    return this;
  }

  edgeOf(source, target) {
    return (this.incoming[target] || []).find(edge => edge.source === source) || null;
  }
}

export function readGraph(text) {
  return /^\s*\{/.test(text) ? graphOfJson(JSON.parse(text)) : graphOfLines(linesOf(text));
}

function graphOfLines(lines) {
  const graph = new Graph();
  if (lines[0] !== "tfpg 1" && lines[0] !== "tfpg 2") throw new BadText(1, "BadHeader");
  lines.forEach((line, index) => {
    if (index > 0 && line !== "" && line[0] !== "#" && line !== "end") takeLine(graph, line.split(" "), index + 1);
  });
  return graph.finish();
}

function takeLine(graph, [kind, ...words], line) {
  if (kind === "mode") graph.modes.push(words[0]);
  else if (kind === "failure") graph.addNode(words[0], kind, Number(words[1]), null, line);
  else if (kind === "edge") {
    const [source, target, least, greatest, modes] = words;
    const latest = greatest === "inf" ? null : Number(greatest), named = modes === "*" ? null : modes.split(",");
    graph.addEdge([source, target], Number(least), latest, named, line);
  } else if (kind === "or" || kind === "and") {
    const lags = words[1] === "hidden" ? null : words.length === 3 ? [0, Number(words[2])] : [Number(words[2]), Number(words[3])];
    graph.addNode(words[0], kind, 0, lags, line);
  } else throw new BadText(line, "BadLine");
}

function graphOfJson(said) {
  const graph = new Graph();
  graph.modes = said.modes;
  for (const node of said.nodes) {
    const isHidden = node.kind === "failure" || node.lag === undefined || node.lag === null;
    graph.addNode(node.name, node.kind, node.kind === "failure" ? node.rarity : 0, isHidden ? null : [node.least || 0, node.lag], null);
  }
  for (const edge of said.edges) graph.addEdge([edge.from, edge.to], edge.min, edge.max, edge.modes, null);
  return graph.finish();
}

// The graph with a probe of a node, as forecasts have it: its name, and its lags.
export function withProbe(graph, node, lags) {
  const probed = new Graph();
  let number = 0;
  while (graph.numberOf.has("probe." + number)) number++;
  probed.modes = graph.modes;
  for (const old of graph.nodes) probed.addNode(old.name, old.kind, old.rarity, old.lags, old.line);
  probed.edges = graph.edges.slice();
  probed.addNode("probe." + number, "or", 0, lags, null);
  probed.addEdge([graph.nodes[node].name, "probe." + number], 0, 0, null, null);
  return probed.finish();
}

// The nodes that these failure modes can activate at all.
export function reachOf(graph, failures) {
  const reached = new Set(failures);
  const left = [...failures];
  while (left.length) {
    for (const edge of graph.outgoing[left.pop()]) {
      const target = graph.nodes[edge.target];
      if (reached.has(target.number)) continue;
      if (target.kind === "and" && !graph.incoming[target.number].every(into => reached.has(into.source))) continue;
      reached.add(target.number);
      left.push(target.number);
    }
  }
  return reached;
}

// The table of hypotheses, and their statuses in a round.
import { reachOf } from "./graph.mjs";
import { LIMITS } from "./table.mjs";

// All hypotheses of at most `k` members, of which at most `doubt` are monitors: those with fewer members first, and then by their members.
export function hypothesesOf(graph, { k, doubt }) {
  const count = graph.failures.length + (doubt ? graph.monitored.length : 0), table = [];
  for (let size = 0; size <= Math.min(k, count) && table.length <= LIMITS.MOST_HYPOTHESES; size++) {
    addOfSize(graph, { count, doubt, size }, [], table);
  }
  return table;
}

function addOfSize(graph, limits, members, table) {
  if (members.length === limits.size) return void table.push(hypothesisOf(graph, members));
  const from = members.length ? members[members.length - 1] + 1 : 0;
  for (let member = from; member < limits.count; member++) {
    const more = [...members, member];
    if (more.filter(other => other >= graph.failures.length).length > limits.doubt) return;
    addOfSize(graph, limits, more, table);
  }
}

function hypothesisOf(graph, members) {
  const first = graph.failures.length;
  return {
    members,
    failures: members.filter(member => member < first).map(member => graph.failures[member]),
    doubts: members.filter(member => member >= first).map(member => graph.monitored[member - first])
  };
}

// The text of a set, as in a report.
export function setText(graph, { failures, doubts }) {
  const words = [...failures.map(node => graph.nodes[node].name), ...doubts.map(node => "!" + graph.nodes[node].name)];
  return words.length ? words.join(",") : "-";
}

// The hypothesis of the text of a set.
export function setOf(graph, text) {
  const words = text === "-" ? [] : text.split(","), isDoubt = word => word[0] === "!";
  return {
    failures: words.filter(word => !isDoubt(word)).map(word => graph.numberOf.get(word)),
    doubts: words.filter(isDoubt).map(word => graph.numberOf.get(word.slice(1)))
  };
}

// The status of each hypothesis in a round, but for those that are covered, which no line of a report names.
export function statusesOf(report, round) {
  const statuses = new Map();
  for (const [hypothesis, since] of report.rejections) {
    if (since.number <= round.number) statuses.set(hypothesis, { status: "rejected", since });
  }
  round.open.forEach(line => statuses.set(line.hypothesis, { status: "open", line }));
  round.ranked.forEach((line, index) => statuses.set(line.hypothesis, { status: "ranked", line, place: index + 1 }));
  return statuses;
}

export function statusOf(statuses, hypothesis) {
  return statuses.get(hypothesis) || { status: "covered" };
}

// The ranked hypotheses that are proper parts of this one.
export function coveringOf(table, round, hypothesis) {
  const whole = new Set(table[hypothesis].members);
  return round.ranked.filter(line => {
    const part = table[line.hypothesis];
    return part && part.members.length < whole.size && part.members.every(member => whole.has(member));
  });
}

// The monitored nodes in the reach of a hypothesis whose monitors it believes.
export function believedIn(graph, { failures, doubts }) {
  return [...reachOf(graph, failures)].filter(node => graph.nodes[node].lags && !doubts.includes(node)).sort((left, right) => left - right);
}

// The tree of which steps are the walk: splits with their cases, and contradictions. A step that does not fit is said, and ends the tree.
import { ZERO } from "./constraints.mjs";
import { alternativesOf, factOf } from "./clauses.mjs";
import { reachOf } from "./graph.mjs";

// `state` is closed, partial (some case is left) or broken. `present` is the case in which a partial tree goes on.
export function treeOf(graph, log, hypothesis, steps) {
  const walk = new Walk(graph, log, hypothesis);
  for (const step of steps) {
    walk.take(step);
    if (walk.complaint) break;
  }
  const state = walk.complaint ? "broken" : walk.closed ? "closed" : "partial";
  return { root: walk.root, state, complaint: walk.complaint, stepCount: steps.length };
}

// The walk of the steps of a hypothesis over its tree. It keeps the nodes of the tree, but for one that is lean.
export class Walk {
  constructor(graph, log, { failures, doubts }, isLean = false) {
    Object.assign(this, { graph, log, doubts, isLean, reach: reachOf(graph, failures), path: [], root: null, closed: false,
      complaint: null });
  }

  take(step) {
    if (this.closed) this.complain(step, "it comes after the tree is closed");
    else if (step.kind === "split") this.split(step);
    else if (step.kind === "again") this.reuse(step);
    else this.close(step);
  }

  complain(step, what) {
    this.complaint = { at: step.at, what };
  }

  put(node) {
    if (this.isLean) return;
    const top = this.path[this.path.length - 1];
    if (top) top.split.cases[top.taken].child = node;
    else this.root = node;
  }

  split(step) {
    const found = step.clause.horizon <= step.round.now ? alternativesOf(this.graph, this.log, step.clause) : null;
    if (!found) return this.complain(step, "no such choice is allowed");
    const cases = found.alternatives.map((alternative, index) => ({ ...alternative, number: index + 1, child: null, reused: null }));
    const split = { ...step, span: found.span, window: found.window, excluded: found.excluded, cases, number: this.path.length + 1 };
    this.put(split);
    this.path.push({ split, taken: 0, cited: false, reusable: false });
  }

  // The case before closed without a pick of its split, so what closed it closes this case and all later ones.
  reuse(step) {
    const top = this.path[this.path.length - 1];
    if (!top || !top.reusable) return this.complain(step, "the case before cannot be used again");
    for (const later of top.split.cases.slice(top.taken)) later.reused = { at: step.at, by: top.taken };
    this.path.pop();
    this.next();
  }

  close(step) {
    const constraints = step.reasons.map(reason => this.constraintOf(step, reason));
    if (constraints.includes(null)) return this.complain(step, "a reason of it states nothing");
    const sum = constraints.reduce((total, constraint) => total + constraint.bound, 0);
    const chains = constraints.every((constraint, index) => constraint.right === constraints[(index + 1) % constraints.length].left);
    if (!constraints.length || !chains) return this.complain(step, "its reasons do not chain");
    if (sum >= 0) return this.complain(step, "it is no contradiction");
    for (const reason of step.reasons) if (reason.kind === "pick") this.path[reason.split - 1].cited = true;
    this.put({ ...step, constraints, sum });
    this.next();
  }

  constraintOf(step, reason) {
    if (reason.event > step.round.number || (reason.kind === "unreached" && reason.horizon > step.round.now)) return null;
    if (reason.kind !== "pick") return factOf(this.graph, this.log, this.reach, this.doubts, reason);
    const place = this.path[reason.split - 1], taken = place && place.split.cases[place.taken];
    return taken && taken.constraints[reason.place - 1] ? { ...taken.constraints[reason.place - 1], split: place.split, of: taken } : null;
  }

  next() {
    const { path } = this;
    while (path.length && path[path.length - 1].taken + 1 === path[path.length - 1].split.cases.length) path.pop();
    if (!path.length) this.closed = true;
    else {
      const top = path[path.length - 1];
      Object.assign(top, { taken: top.taken + 1, reusable: !top.cited, cited: false });
    }
  }
}

// The constraints of a contradiction in the order of reading, from zero on: after each one, the bound that it gives its node.
export function chainOf(contradiction) {
  const { constraints, reasons } = contradiction, count = constraints.length;
  const start = Math.max(0, constraints.findIndex(constraint => constraint.left === ZERO));
  let least = 0;
  const links = constraints.map((_, index) => {
    const place = (start + index) % count, constraint = constraints[place];
    least = (constraint.left === ZERO ? 0 : least) - constraint.bound;
    return { constraint, reason: reasons[place], node: constraint.right, least };
  });
  return { links, throughZero: constraints[start].left === ZERO, gap: -contradiction.sum };
}

export function contradictionsIn(node, found = []) {
  if (node && node.kind === "cycle") found.push(node);
  else if (node) for (const taken of node.cases) contradictionsIn(taken.child, found);
  return found;
}

// The numbers of the events on which the contradictions rest, each with how many rest on it.
export function restsOn(contradictions) {
  const counts = new Map();
  for (const { reasons } of contradictions) {
    for (const event of new Set(reasons.flatMap(reason => reason.event || []))) counts.set(event, (counts.get(event) || 0) + 1);
  }
  return counts;
}

// Constraints `left - right <= bound` on the times of nodes, each with the form in which it is said.
import { LIMITS } from "./table.mjs";

export const ZERO = -1; // the constant zero, beside the numbers of nodes
export const NEVER = LIMITS.NEVER; // the time of a node that never becomes active

export function atMost(node, value) {
  return { left: node, right: ZERO, bound: value, form: "atMost", node, value };
}

export function atLeast(node, value) {
  return { left: ZERO, right: node, bound: value === 0 ? 0 : -value, form: "atLeast", node, value };
}

export function atMostAfter(edge, value) {
  return { left: edge.target, right: edge.source, bound: value, form: "atMostAfter", edge, value };
}

export function atLeastAfter(edge, value) {
  return { left: edge.source, right: edge.target, bound: value === 0 ? 0 : -value, form: "atLeastAfter", edge, value };
}

// All sets by status, with a filter.
import { byId, cell, element, listBox, option } from "./elements.mjs";
import { timeWords } from "../reading/times.mjs";
import { setText } from "../reading/hypotheses.mjs";
import { setWords } from "../reading/sentences.mjs";
import { choose, coveringNow, keep, state, statusNow, view } from "./state.mjs";
import { more } from "./ranking.mjs";

const MOST_LISTED = 400, STATUSES = ["ranked", "open", "rejected", "covered", "missing"];

export function setsPanel() {
  const filter = element("input", { id: "set-filter", "aria-label": "part of a name", placeholder: "part of a name", value: state.filter, input: takeFilter });
  const options = ["", ...STATUSES].map(status =>
    element("option", { value: status, selected: status === state.statusFilter ? "" : null }, status || "all"));
  const choice = element("select", { id: "status-filter", "aria-label": "status", change: takeStatus }, options);
  return [element("p", {}, filter, " ", choice, " of " + state.table.length + " sets"), element("div", { id: "sets" }, setsTable())];
}

function takeFilter(event) {
  refill({ filter: event.target.value });
}

function takeStatus(event) {
  refill({ statusFilter: event.target.value });
}

// The filters change the table alone, so that the field keeps what is being written.
function refill(values) {
  keep(values);
  byId("sets").replaceChildren(...setsTable().filter(Boolean));
}

function setsTable() {
  const wanted = state.filter.toLowerCase(), rows = [];
  let left = 0;
  for (let hypothesis = 0; view.round && hypothesis < state.table.length; hypothesis++) {
    const found = statusNow(hypothesis), set = setText(state.graph, state.table[hypothesis]);
    if (state.statusFilter && found.status !== state.statusFilter) continue;
    if (!setWords(set).toLowerCase().includes(wanted)) continue;
    if (rows.length < MOST_LISTED) rows.push(setRow(hypothesis, set, found));
    else left++;
  }
  const head = ["no.", "set", "status in round " + (view.round ? view.round.number : "-")];
  const none = rows.length ? null : element("p", { id: "no-sets" }, "No set has these words and this status.");
  return [none || listBox({}, "all sets, with their status", head, rows), more(left, "Narrow the filter.")];
}

function setRow(hypothesis, set, found) {
  const { status } = found, tab = status === "ranked" ? "ranking" : "why", words = statusWords(hypothesis, found);
  const attributes = { "data-set": set, "data-hypothesis": hypothesis, "data-status": status, click: () => choose(hypothesis, tab) };
  return option(attributes, setWords(set) + ", " + status + " " + words, state.chosen === hypothesis,
    cell("number dim", hypothesis), cell(null, setWords(set)), cell(null, element("span", { class: "status " + status }, status), " ", words));
}

function statusWords(hypothesis, { status, place, since }) {
  if (status === "ranked") return "#" + place;
  if (status === "rejected") return "since round " + since.number + ", " + timeWords(since.now, state.units);
  if (status === "open") return "the budget was spent";
  if (status === "missing") return "no line says what it is, and no part of it is ranked";
  const [first] = coveringNow(hypothesis);
  return first ? "by " + setWords(first.set) : "";
}

// The ranking of a round, and the history of the chosen set.
import { bar, cell, element, listBox, option } from "./elements.mjs";
import { believedIn, setOf } from "../reading/hypotheses.mjs";
import { timeWords } from "../reading/times.mjs";
import { activationSentence, historyTitle, setWords } from "../reading/sentences.mjs";
import { headline } from "../reading/headlines.mjs";
import { linked, nodeLink, plainWords, reportLink, setLink } from "./links.mjs";
import { choose, speechOf, state, statusNow, view, waitingNow } from "./state.mjs";

export const ONE_OF_SEVERAL = "One history of several: others with other times may explain the log too.";

const MOST_ROWS = 300, MOST_SETS = 60, MOST_ACTIVATIONS = 400, MOST_LISTED = 40;

export function rankingPanel() {
  const { round } = view;
  if (!round) return [element("p", {}, "The report has no round, so there is no ranking.")];
  const head = ["#", "explains all that was seen", "cost", "alarms raised"], label = "sets that explain all that was seen, best first";
  return [
    round.ranked.length ? listBox({ id: "ranking" }, label, head, round.ranked.slice(0, MOST_ROWS).map(rankingRow), true)
      : element("p", { id: "no-ranking" }, linked(headline(state.report.terms, round))),
    more(round.ranked.length - MOST_ROWS, "The tab sets has them all."),
    listOf(round.open, "open", "open: the budget was spent, so nobody knows"),
    listOf(round.rejected, "rejected", "rejected in this round"),
    ...historyPart()
  ];
}

export function more(count, where) {
  return count > 0 ? element("p", { class: "dim" }, "… and " + count + " more. " + where) : null;
}

// A set that can make no monitor alarm has 1/1 in a report.
function canAlarm({ monitored, set }) {
  return monitored > 1 || believedIn(state.graph, setOf(state.graph, set)).length > 0;
}

export function alarmsWords(line) {
  return canAlarm(line) ? line.alarmed + " of " + line.monitored + " alarms" : "no alarm to raise";
}

function rankingRow(line, index) {
  const { hypothesis, set, cost, alarmed, monitored } = line, isChosen = view.ranked !== null && hypothesis === view.ranked.hypothesis;
  const against = againstWords(line), attributes = { "data-set": set, "data-hypothesis": hypothesis, click: () => choose(hypothesis) };
  const name = (index + 1) + ". " + setWords(set) + ", cost " + cost + ", " + alarmsWords(line) + against;
  return option(attributes, name, isChosen,
    cell("number", index + 1), cell(null, setWords(set), against ? element("span", { class: "refused" }, against) : null),
    cell("number cost", cost), cell("alarms", canAlarm(line) ? bar(alarmed / monitored) : null, alarmsWords(line)));
}

// What speaks against a line of the ranking.
function againstWords({ at }) {
  const found = state.problems.filter(problem => problem.at === at);
  return found.length ? " ✗ does not fit: " + found.map(({ words }) => plainWords(words)).join("; ") : "";
}

function listOf(lines, status, words) {
  if (!lines.length) return null;
  const links = lines.slice(0, MOST_SETS).map(({ hypothesis, set }, index) => [index ? "; " : "", setLink(hypothesis, set, "why")]);
  const left = lines.length > MOST_SETS ? "; and " + (lines.length - MOST_SETS) + " more, which the tab sets has" : "";
  return element("p", { class: "list", "data-status": status }, element("span", { class: "status " + status }, words), ": ", links, left);
}

// ---- the history

function historyPart() {
  const { ranked, set, history } = view;
  if (!ranked) return set === null ? [] : [notRankedPart(set)];
  const rows = history.slice(0, MOST_ACTIVATIONS).map(entry => activationPart(set, entry));
  return [
    element("h2", {}, historyTitle(set), " ", reportLink(ranked.at)),
    set === "-" ? null : element("p", { class: "dim", id: "one-of-several" }, ONE_OF_SEVERAL),
    history.length ? null : element("p", {}, "Nothing became active."),
    element("ol", { id: "history" }, rows),
    more(history.length - MOST_ACTIVATIONS, "The tab report has them all."),
    waitingPart(),
    doubtsPart()
  ];
}

function notRankedPart(set) {
  const { status } = statusNow(state.chosen), is = status === "missing" ? " has no status in this round" : " is " + status + " in this round";
  return element("p", { id: "not-ranked" }, setLink(state.chosen, set, "why"), is + ", so it has no history here.");
}

export function activationPart(set, entry) {
  const words = element("span", {}, linked(activationSentence(speechOf(set), entry)));
  return element("li", { "data-node": state.graph.nodes[entry.node].name, "data-time": entry.time },
    element("b", {}, timeWords(entry.time, state.units)), " ", words);
}

function listed(nodes) {
  const left = nodes.length - MOST_LISTED;
  return nodes.slice(0, MOST_LISTED).map((node, index) => [index ? ", " : "", nodeLink(node)]).concat(left > 0 ? " and " + left + " more" : []);
}

function waitingPart() {
  const none = "This set can make no monitor alarm that it believes.", all = "All monitors that this set can make alarm have alarmed.";
  if (!canAlarm(view.ranked)) return view.set === "-" ? null : element("p", { id: "waiting" }, none);
  const waiting = waitingNow();
  return element("p", { id: "waiting" }, waiting.length ? ["Could alarm by this set, and have not: ", listed(waiting), "."] : all);
}

function doubtsPart() {
  const { doubts } = view.hypothesis;
  if (!doubts.length) return null;
  return element("p", { id: "doubts" }, "Not believed: the monitor of ", listed(doubts), ". What it said counts for nothing here.");
}

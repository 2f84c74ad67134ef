// Why a set is rejected: its refutation as nested cases. Of an open or a covered set, the steps so far.
import { byId, element } from "./elements.mjs";
import { timeWords } from "../reading/times.mjs";
import { chainOf, contradictionsIn, restsOn, treeOf } from "../reading/trees.mjs";
import { caseSentence, contradictionSentences, excludedSentence, reasonSentence, reusedSentence, setWords, splitSentence,
  trivialReason, whyNotWords } from "../reading/sentences.mjs";
import { stepsOf } from "../reading/steps.mjs";
import { linked, logLink, reportLink, setLink } from "./links.mjs";
import { coveringNow, speechOf, state, statusNow, view } from "./state.mjs";
import { setText } from "../reading/hypotheses.mjs";

const MOST_OPEN = 3000, MOST_LINES = 10, FEW = 12; // contradictions; a refutation with no more of them is shown open

// The set whose refutation is shown: the chosen one, or else the first that is rejected.
function hypothesisShown() {
  if (state.chosen !== null) return state.chosen;
  for (const [hypothesis, { status }] of view.statuses) if (status === "rejected") return hypothesis;
  return null;
}

export function whyPanel() {
  const hypothesis = hypothesisShown();
  if (!view.round || !state.table[hypothesis]) return [element("p", {}, "No set is rejected in this round. Choose one in the tab sets.")];
  const set = setText(state.graph, state.table[hypothesis]), found = statusNow(hypothesis);
  const steps = stepsOf(state.graph, state.report, hypothesis, view.round.number);
  const tree = steps.length ? treeOf(state.graph, state.log, state.table[hypothesis], steps) : null;
  const head = [element("h2", { "data-set": set, "data-status": found.status }, titleWords(set, found, tree)), meaningPart(hypothesis, found, tree)];
  if (!tree) return [...head, element("p", { class: "dim" }, "No step of it stands in the report up to this round.")];
  return [...head, ...treePart(tree, speechOf(set), reportLink)];
}

// Only a tree without a case left shows that a set is rejected.
function isShown(tree) {
  return tree !== null && tree.state === "closed";
}

function titleWords(set, { status }, tree) {
  if (status === "missing") return setWords(set) + " has no status";
  if (status !== "rejected") return setWords(set) + " is " + status;
  return isShown(tree) ? whyNotWords(set) : setWords(set) + " is said to be rejected";
}

// What the status of the set means, and whether the report shows it.
function meaningPart(hypothesis, found, tree) {
  const { status } = found, isWrong = status === "missing" || (status === "rejected" && !isShown(tree));
  return element("p", { id: "meaning", class: isWrong ? "refused" : null }, meaningWords(hypothesis, found, tree));
}

function meaningWords(hypothesis, { status, since }, tree) {
  if (status === "open") return "The budget of this round was spent, so nobody knows whether a history of it explains the log.";
  if (status === "ranked") return "It is in the ranking of this round." + (tree ? " These steps were taken on the way to its history." : "");
  if (status === "missing") return "The report says nothing of it in this round, and ranks no part of it. So the report is wrong.";
  if (status === "covered") return ["A part of it is ranked: ", coveringLinks(hypothesis),
    ". So nothing was to be done for it in this round."];
  const rejected = "Rejected since round " + since.number + ", at " + timeWords(since.now, state.units);
  if (isShown(tree)) return rejected + ": no history of it explains the log.";
  const lack = !tree ? "it has no step" : tree.state === "partial" ? "some case is left" : "a step does not fit";
  return rejected + ", the report says. It does not show it: " + lack + ". So nobody knows whether a history of it explains the log.";
}

function coveringLinks(hypothesis) {
  return coveringNow(hypothesis).map((line, index) => [index ? ", " : "", setLink(line.hypothesis, line.set, "ranking")]);
}

// The tree of a refutation, with what it rests on. `link` makes a link of the line in which a step stands.
export function treePart(tree, speech, link) {
  const contradictions = contradictionsIn(tree.root), isFew = contradictions.length <= FEW, show = { speech, link, isOpen: isFew };
  const counts = count(tree.stepCount, "step") + ", " + count(contradictions.length, "contradiction") + ".";
  const left = tree.state === "partial" ? " Some case is left, so this is no refutation so far." : "";
  return [
    tree.complaint ? complaintPart(tree.complaint, link) : null,
    element("p", { id: "rests-on" }, counts, left, restPart(speech, contradictions)),
    isFew ? null : element("p", {}, button("open-all", "open all", openAll), " ", button("close-all", "close all", closeAll)),
    element("div", { id: "refutation", "data-state": tree.state }, nodePart(tree.root, show))
  ];
}

function complaintPart({ at, what }, link) {
  return element("p", { class: "refused" }, "The steps do not fit. Of the one in line ", link(at), ": " + what + ".");
}

function button(id, words, act) {
  return element("button", { id, click: act }, words);
}

function count(number, word) {
  return number + " " + word + (number === 1 ? "" : "s");
}

// The lines of the log on which the contradictions rest, with how many rest on each.
function restPart({ log }, contradictions) {
  const counts = [...restsOn(contradictions)].sort((one, other) => other[1] - one[1] || one[0] - other[0]);
  if (!counts.length) return " It rests on no line of the log.";
  const parts = counts.slice(0, MOST_LINES).map(([number, times], index) => {
    const event = log.events[number - 1],
      words = event.line === null ? "the probe" : [logLink(event.line), " ", element("code", {}, wordsOf(event))];
    return [index ? ", " : "", element("span", { class: "rest", "data-event": number, "data-count": times }, words, " (" + times + "×)")];
  });
  return [" It rests on ", parts, counts.length > MOST_LINES ? " and " + (counts.length - MOST_LINES) + " more lines." : "."];
}

function wordsOf({ kind, node, mode }) {
  return node !== null ? kind + " " + state.graph.nodes[node].name : mode !== null ? kind + " " + state.graph.modes[mode] : kind;
}

// ---- the tree

function nodePart(node, show) {
  if (!node) return element("div", { class: "present" }, "This case is not ruled out so far.");
  return node.kind === "cycle" ? contradictionPart(node, show) : splitPart(node, show);
}

function named(words) {
  return element("span", { class: "case-name" }, words + ": ");
}

function splitPart(split, show) {
  const { speech, link } = show, sentence = linked(splitSentence(speech, split));
  const excluded = split.excluded.map((other, index) => [index ? "; " : "", linked(excludedSentence(speech, split, other))]);
  return element("div", { class: "split", "data-line": split.at },
    element("div", {}, named("choice " + split.number), sentence, " ", link(split.at)),
    split.cases.map(taken => casePart(split, taken, show)),
    excluded.length ? element("div", { class: "excluded" }, "No other way: ", excluded, ".") : null);
}

function casePart(split, taken, show) {
  const { speech, link } = show, name = named("case " + taken.number + " of " + split.cases.length);
  const words = [name, linked(caseSentence(speech, split, taken))], trivial = trivialReason(split, taken);
  if (taken.reused) return shortCase(taken, "reused", words, reusedSentence(taken), taken.reused.at, link);
  if (trivial) {
    const but = ["but ", linked(reasonSentence(speech, trivial.reason, trivial.constraint))];
    return shortCase(taken, "contradiction-line", words, but, taken.child.at, link);
  }
  const details = element("details", { class: "case", "data-case": taken.number }, element("summary", {}, words));
  return lazily(details, () => nodePart(taken.child, show), show.isOpen);
}

// A case that is closed in one line.
function shortCase({ number }, kind, words, closing, at, link) {
  const sign = element("span", { class: "closing" }, " ✕ ");
  return element("div", { class: "case short " + kind, "data-case": number, "data-line": at }, words, sign, closing, " ", link(at));
}

// What a case has inside is made when it is first opened.
function lazily(details, inside, isOpen) {
  details.fill = () => {
    if (details.childElementCount === 1) details.append(inside());
  };
  details.addEventListener("toggle", () => details.open && details.fill());
  if (isOpen) {
    details.open = true;
    details.fill();
  }
  return details;
}

function contradictionPart(contradiction, { speech, link }) {
  const { reasons, end } = contradictionSentences(speech, chainOf(contradiction));
  return element("div", { class: "contradiction", "data-line": contradiction.at },
    element("ol", {}, reasons.map(({ words, at }) => element("li", { "data-line": at }, linked(words), " ", link(at)))),
    element("div", { class: "end" }, element("span", { class: "closing" }, "✕ "), linked(end), ". ", link(contradiction.at)));
}

function openAll() {
  const waiting = [...byId("refutation").querySelectorAll("details")];
  for (let opened = 0; waiting.length && opened < MOST_OPEN; opened++) {
    const details = waiting.shift();
    details.fill();
    details.open = true;
    waiting.push(...details.querySelectorAll(":scope > :not(summary) details"));
  }
}

function closeAll() {
  for (const details of byId("refutation").querySelectorAll("details")) details.open = false;
}

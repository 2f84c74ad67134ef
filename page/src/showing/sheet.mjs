// The sheets that are printed: one page for a round, as a crew hands it over. What has no place on the page is counted.
import { byId, cell, element, foreign, table } from "./elements.mjs";
import { timeWords } from "../reading/times.mjs";
import { activationSentence, contradictionSentences, historyTitle, setWords, whyNotWords } from "../reading/sentences.mjs";
import { charactersOf } from "../reading/texts.mjs";
import { chainOf, contradictionsIn, treeOf } from "../reading/trees.mjs";
import { stepsOf } from "../reading/steps.mjs";
import { copyOfDrawing, legendParts } from "./drawing.mjs";
import { roundWords } from "./head.mjs";
import { headSentences } from "./headline.mjs";
import { linked, nodeName } from "./links.mjs";
import { ONE_OF_SEVERAL, alarmsWords } from "./ranking.mjs";
import { change, goTo, keep, speechOf, state, view, waitingNow } from "./state.mjs";

const MOST = { sets: 8, entries: 18, lines: 8, waiting: 20, reasons: 16 }, LEAST = { sets: 3, entries: 4, lines: 2, waiting: 4, reasons: 0 };
const ORDER = ["reasons", "lines", "waiting", "entries", "sets"]; // what gives way first
const MOST_SHEETS = 200, HEIGHT = 995; // of a page, in pixels

export function prepareSheets() {
  byId("print").addEventListener("click", () => print());
  byId("print-all").addEventListener("click", printAll);
  addEventListener("beforeprint", () => {
    if (!byId("sheet").childElementCount) byId("sheet").replaceChildren(sheetOfRound());
  });
  addEventListener("afterprint", () => byId("sheet").replaceChildren());
}

// The sheet of the round by its own history, also while that of a forecast is shown.
function sheetOfRound() {
  const { forecast } = state;
  if (!forecast || !view.round) return fittingSheet([]);
  change({ forecast: null });
  const made = fittingSheet([]);
  change({ forecast });
  return made;
}

// A sheet for each round, or for the last ones of a long report, of which the first says which rounds have none.
function printAll() {
  const { round: kept, report } = state, count = report ? report.rounds.length : 1, first = Math.max(0, count - MOST_SHEETS), sheets = [];
  const gone = first ? [element("p", {}, element("b", {}, "Rounds 1 to " + first + " have no sheet: these are the last " + MOST_SHEETS + " of "
    + count.toLocaleString("en-US") + "."))] : [];
  keep({ isQuiet: true });
  for (let round = first; round < count; round++) {
    goTo(round);
    sheets.push(fittingSheet(round === first ? gone : []));
  }
  goTo(kept);
  keep({ isQuiet: false });
  byId("sheet").replaceChildren(...sheets);
  print();
}

// The sheet of the round with as much as its page holds.
function fittingSheet(gone) {
  const limits = { ...MOST }, place = byId("sheet");
  let made = sheet(limits, gone);
  place.classList.add("measured");
  place.replaceChildren(made);
  for (let name = nextToGiveWay(limits); made.offsetHeight > HEIGHT && name; name = nextToGiveWay(limits)) {
    limits[name] = Math.max(LEAST[name], Math.floor(limits[name] / 2));
    made = sheet(limits, gone);
    place.replaceChildren(made);
  }
  place.classList.remove("measured");
  place.replaceChildren();
  return made;
}

function nextToGiveWay(limits) {
  return ORDER.find(name => limits[name] > LEAST[name]);
}

function sheet(limits, gone) {
  const { names } = state, { round } = view, files = [names.graph, names.log, names.report].filter(Boolean).join(", ");
  const head = [element("h1", {}, foreign(byId("title").textContent)), gone,
    element("p", {}, foreign(files), ". " + byId("badge").textContent + ". This sheet judges nothing.")];
  const drawing = [copyOfDrawing(), element("div", { class: "legend" }, legendParts())];
  const parts = round ? [element("p", {}, roundWords(round)), headPart(round), drawing, rankingPart(round, limits), historySheet(limits),
    refutationsPart(round, limits), logPart(round, limits)] : [state.report ? headPart(round) : null, drawing];
  return element("section", { class: "sheet", "data-round": round ? round.number : "" }, head, parts, digestsPart());
}

function headPart(round) {
  const { lead, rest } = headSentences(round);
  return [element("p", {}, element("b", {}, linked(lead))), element("p", {}, linked(rest))];
}

function rankingPart({ ranked, open }, { sets: most }) {
  const rows = ranked.slice(0, most).map((line, index) =>
    element("tr", {}, cell(null, index + 1), cell(null, setWords(line.set)), cell(null, "cost " + line.cost),
      cell(null, alarmsWords(line))));
  const sets = open.slice(0, most).map(({ set }) => setWords(set)).join("; ");
  return [
    rows.length ? [element("h2", {}, "What explains all that was seen"), table({}, [], rows), leftOut(ranked.length - most, "set")] : null,
    open.length ? [element("h2", {}, "What is not known"), element("p", {}, "Open, since the budget was spent: " + sets + "."),
      leftOut(open.length - most, "set")] : null
  ];
}

function leftOut(count, word) {
  return count > 0 ? element("p", { class: "left-out" }, "… and " + count + " " + word + (count > 1 ? "s" : "") + " more") : null;
}

function historySheet({ entries, waiting: most }) {
  if (!view.trace) return null;
  const rows = view.history.slice(0, entries).map(entry =>
    element("li", {}, timeWords(entry.time, state.units) + " ", linked(activationSentence(speechOf(view.set), entry))));
  const all = waitingNow(), waiting = all.slice(0, most).map(node => nodeName(node)).join(", ");
  return [
    element("h2", {}, historyTitle(view.set)),
    view.set === "-" ? null : element("p", {}, ONE_OF_SEVERAL),
    element("ol", {}, rows),
    leftOut(view.history.length - entries, "activation"),
    waiting ? element("p", {}, "Could alarm, and have not: " + waiting + ".") : null,
    leftOut(all.length - most, "monitor")
  ];
}

// Why the sets that this round rejects cannot be: what contradicts what, as far as there is place.
function refutationsPart({ rejected, number }, { sets: most, reasons }) {
  if (!rejected.length) return null;
  const parts = rejected.slice(0, most).map(({ hypothesis, set }) => refutationPart(hypothesis, set, number, reasons));
  return [element("h2", {}, "Rejected in this round"), parts, leftOut(rejected.length - most, "set")];
}

function refutationPart(hypothesis, set, number, most) {
  const { graph, log, report, table: sets } = state, steps = sets[hypothesis] ? stepsOf(graph, report, hypothesis, number) : [];
  const tree = steps.length ? treeOf(graph, log, sets[hypothesis], steps) : null;
  if (!tree || tree.state !== "closed") return element("p", { class: "refused" }, setWords(set) + ": its steps do not show it.");
  const all = contradictionsIn(tree.root), speech = speechOf(set), some = all.slice(0, most).map(one => contradictionSentences(speech, chainOf(one)));
  const rows = some.map(({ reasons, end }) => element("li", {}, reasons.map(({ words }) => [linked(words), "; "]), linked(end), "."));
  return [element("p", {}, element("b", {}, whyNotWords(set)), " " + all.length + " contradiction" + (all.length > 1 ? "s" : "") + ":"),
    element("ul", {}, rows), leftOut(all.length - most, "contradiction")];
}

// The last lines of the log up to this round.
function logPart({ line }, { lines: most }) {
  const rows = state.log.lines.slice(Math.max(0, line - most), line).map(({ number, text, event, refused }) =>
    element("tr", {}, cell(null, number), cell(null, event ? timeWords(event.time, state.units) : ""),
      cell(null, element("code", {}, foreign(charactersOf(text), 100))), cell(null, refused ? "refused: " + refused : "")));
  const title = line > most ? "The last " + most + " of " + line + " lines of the log" : "The lines of the log";
  return [element("h2", {}, title), table({}, [], rows)];
}

function digestsPart() {
  const kinds = Object.entries(state.digests).filter(([, digest]) => digest);
  return kinds.map(([kind, digest]) => element("p", { class: "digests" }, "SHA-256 of the " + kind + ": " + digest));
}

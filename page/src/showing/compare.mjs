// Another report of the same log, beside the one that is shown.
import { cell, element, foreign, listBox, option } from "./elements.mjs";
import { differencesOf } from "../reading/comparison.mjs";
import { setWords } from "../reading/sentences.mjs";
import { termsWords } from "../reading/headlines.mjs";
import { more } from "./ranking.mjs";
import { goTo, state } from "./state.mjs";

const MOST_ROWS = 400;

let compared = { report: null, other: null, differences: null };

function differencesNow() {
  const { report, other } = state;
  if (compared.report !== report || compared.other !== other) compared = { report, other, differences: differencesOf(report, other) };
  return compared.differences;
}

export function comparePanel() {
  const { report, other, names } = state, { found, lacking } = differencesNow();
  const head = ["set", "in this report", "in the other", "from round", "to round"];
  return [
    element("h2", {}, "Beside another report of this log"),
    element("p", {}, "This report: ", foreign(names.report), ". " + termsWords(report.terms)),
    element("p", {}, "The other: ", foreign(names.compare), ". " + termsWords(other.terms) + " It was not checked."),
    element("p", { id: "compared" }, comparedWords(found, lacking, report)),
    lacking ? element("p", { class: "refused" }, lacking + " of the rounds are not in the other report.") : null,
    state.otherProblems ? element("p", { class: "refused" }, "The other report does not fit together with the log: " + state.otherProblems) : null,
    found.length ? listBox({ id: "differences" }, "sets of which the reports say something else", head, found.slice(0, MOST_ROWS).map(row)) : null,
    more(found.length - MOST_ROWS, "")
  ];
}

function comparedWords(found, lacking, { rounds }) {
  if (!found.length) return "Both rank the same sets in each round" + (lacking ? " that both have" : "") + ", and leave the same sets open.";
  const [first] = found, sets = new Set(found.map(({ set }) => set)).size;
  const same = first.from === rounds[0] ? "They differ from round " + first.from.number + " on" : "They say the same up to round "
    + rounds[rounds.indexOf(first.from) - 1].number;
  return same + ". They differ in " + sets + " set" + (sets > 1 ? "s" : "") + ".";
}

function row({ set, here, there, from, to }) {
  const words = [here || "neither ranked nor open", there || "neither ranked nor open"];
  const name = setWords(set) + ", " + words[0] + " in this report, " + words[1] + " in the other, from round " + from.number + " to " + to.number;
  const click = () => goTo(state.report.rounds.indexOf(from)), isNow = state.report.rounds[state.round] === from;
  return option({ "data-set": set, "data-from": from.number, "data-to": to.number, click }, name, isNow,
    cell(null, setWords(set)), cell(null, words[0]), cell(null, words[1]), cell("number", from.number), cell("number", to.number));
}

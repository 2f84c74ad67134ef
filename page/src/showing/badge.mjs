// The badge: whether `tfpg check` accepted exactly these bytes, and how to check for oneself.
import { byId, element, foreign } from "./elements.mjs";
import { KINDS_CHECKED, verdictOf } from "../reading/verdicts.mjs";
import { hasControls } from "../reading/texts.mjs";
import { linked, reportLink } from "./links.mjs";
import { state, whenChanged } from "./state.mjs";

const MOST_WORDS = 400, MOST_LINES = 30; // of what a checker said

export function prepareBadge() {
  byId("badge").addEventListener("click", () => {
    byId("badge-words").hidden = !byId("badge-words").hidden;
    byId("badge").setAttribute("aria-expanded", String(!byId("badge-words").hidden));
  });
  whenChanged(drawBadge);
}

export function verdictNow() {
  return verdictOf(state.about.checks, state.digests, state.report && state.report.rounds.length);
}

function drawBadge() {
  const found = verdictNow();
  Object.assign(byId("badge").dataset, { verdict: found.verdict, checker: found.isTrial ? "trial" : "" });
  byId("badge").textContent = found.words;
  byId("command").replaceChildren(foreign(commandWords()));
  byId("badge-words").replaceChildren(...explanation(found));
  drawProblems(found);
}

const MEANINGS = {
  none: "There is no report here, so there is nothing to check.",
  unchecked: "Nobody ran tfpg check when this page was made, or this page does not say so.",
  other: "The check that this page knows of was made of other bytes of graph, log or report.",
  accepted: "When this page was made, tfpg check accepted exactly these bytes of graph, log and report.",
  refused: "When this page was made, tfpg check refused this report.",
  failed: "When this page was made, the command of the check ended with neither of its two answers."
};
const TRIAL = " It was a trial: the same sources as the program, but not proved.";
const ADVICE = " A file can be forged, and its badge too. To check for yourself, save the texts, build tfpg from its source, and run ";

// A name of a file as a word of a shell, whatever it has in it.
function shellWord(name) {
  const safe = name[0] === "-" ? "./" + name : name;
  if (/^[\w./+,@%=:-]+$/.test(safe)) return safe;
  if (!hasControls(safe)) return "'" + safe.replaceAll("'", "'\\''") + "'";
  const escaped = [...safe].map(one => /['\\]/.test(one) ? "\\" + one : hasControls(one) ? escapedOf(one) : one);
  return "$'" + escaped.join("") + "'";
}

function escapedOf(character) {
  return "\\U" + character.codePointAt(0).toString(16).padStart(8, "0");
}

function commandWords() {
  const { names } = state, [graph, log, report] = KINDS_CHECKED.map(kind => names[kind] ? shellWord(names[kind]) : kind.toUpperCase());
  return "./tfpg check " + graph + " " + log + " < " + report;
}

function explanation({ verdict, check, isTrial }) {
  const digests = KINDS_CHECKED.filter(kind => state.digests[kind]).map(kind => "\nSHA-256 of the " + kind + ": " + state.digests[kind]);
  const meaning = MEANINGS[verdict] + (isTrial ? TRIAL : "") + ADVICE;
  return [meaning, element("code", {}, foreign(commandWords())), ...(check ? runWordsOf(check).flat(3) : []), ...digests];
}

function runWordsOf({ command, status, output, errors }) {
  const ended = status === null ? "It did not start" : "It ended with status " + status;
  const said = (output + errors).trim().split("\n").map(line => ["\n", foreign(line, MOST_WORDS)]);
  return ["\nCommand: ", foreign(command), ". " + ended + (output + errors ? " and said:" : "."), said.slice(0, MOST_LINES),
    said.length > MOST_LINES ? "\n… and " + (said.length - MOST_LINES) + " lines more" : ""];
}

// What does not fit, and a report that was refused, stands above all else. What the page says of a report with either is not to be believed.
function drawProblems({ verdict, line, refusal }) {
  const { problems, comparedTo, notOpened } = state;
  const refused = verdict === "refused"
    ? [["tfpg check refuses this report: " + refusal + ". Believe nothing of it from ", reportLink(line), " on."]] : [];
  const compared = comparedTo === null ? [] : [["Only the rounds up to " + comparedTo + " were compared."]];
  const rows = [...notOpened.map(words => ["Not opened: ", foreign(words)]), ...refused, ...problems.map(problemWords), ...compared];
  byId("problems").hidden = !rows.length;
  byId("problems").replaceChildren(
    problems.length ? element("b", {}, "These texts do not fit together, so this page is not to be believed:") : "",
    element("ul", {}, rows.map(words => element("li", {}, words))));
}

function problemWords({ at, words }) {
  return [linked(words), at === null ? "" : [" ", reportLink(at)]];
}

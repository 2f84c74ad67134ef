// The head of the round, as that of an incident report: what explains all that was seen, what is not known, and what says so.
import { byId, element } from "./elements.mjs";
import { alarmsSentence, headline, othersWords, plural, refusedSentence, termsWords } from "../reading/headlines.mjs";
import { verdictNow } from "./badge.mjs";
import { linked } from "./links.mjs";
import { state, view, whenChanged } from "./state.mjs";

export function prepareHeadline() {
  whenChanged(drawHeadline);
}

// What stands before a sentence of a report that is refused, or that does not fit together.
export function warningWords() {
  if (verdictNow().verdict === "refused") return "The report was refused, so this is not to be believed: ";
  return state.problems.length ? "The texts do not fit together, so this is not to be believed: " : "";
}

// The sentences of a round, or of a page without one, as lists of words and references: the first says what explains the log.
export function headSentences(round) {
  if (!round) return { lead: [warningWords(), ...leadWithoutRound()], rest: refusedSentence(state.log) };
  const { terms } = state.report, { log } = state, others = othersWords(terms, round);
  const rest = [...(others.length ? [...others, " "] : []), ...alarmsSentence(view.monitors), " ", ...refusedSentence(log), " ", termsWords(terms)];
  return { lead: [warningWords(), ...headline(terms, round)], rest };
}

function drawHeadline() {
  const { round } = view, place = byId("headline");
  place.hidden = !state.log;
  if (!state.log) return;
  const { lead, rest } = headSentences(round);
  place.classList.toggle("doubtful", Boolean(warningWords()));
  place.replaceChildren(element("p", { class: "lead" }, linked(lead)), element("p", { class: "rest" }, linked(rest)));
}

function leadWithoutRound() {
  if (!state.report) return ["There is no report here, so this page shows the graph and the log alone."];
  const count = state.log.events.length;
  if (count) return ["The report has no round, and the log has " + plural(count, "accepted line") + "."];
  return ["The log has no accepted line, so the report has no round, and nothing is known."];
}

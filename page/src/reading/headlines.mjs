// The head of a round, as that of an incident report: what explains all that was seen, and what is not known. Lists of words and references.
const MOST_NAMED = 3, MOST_ALARMS = 6;

export function plural(number, word) {
  return number.toLocaleString("en-US") + " " + word + (number === 1 ? "" : "s");
}

// What sets were asked about, in words.
export function membersWords({ k, doubt }) {
  if (!doubt) return "at most " + plural(k, "failure mode");
  return "at most " + plural(k, "member") + " (failure modes, and at most " + plural(doubt, "wrong monitor") + ")";
}

function setReference({ hypothesis, set }) {
  return { hypothesis, set };
}

function listed(lines) {
  return lines.slice(0, MOST_NAMED).flatMap((line, index) =>
    [index ? ", " : "", setReference(line), line.cost === undefined ? "" : " (cost " + line.cost + ")"]);
}

function andMore(count) {
  return count > MOST_NAMED ? " and " + (count - MOST_NAMED).toLocaleString("en-US") + " more" : "";
}

// What explains all that was seen, by the lines of a round.
export function headline(terms, { ranked, open }) {
  const members = membersWords(terms);
  if (ranked.length && ranked[0].set === "-") return ["Nothing need have failed: all that was seen can be so without a failure."];
  if (ranked.length === 1) return [setReference(ranked[0]), " explains all that was seen, at cost " + ranked[0].cost + "."];
  if (ranked.length) return [plural(ranked.length, "set") + " can each explain all that was seen: ", ...listed(ranked), andMore(ranked.length), "."];
  if (open.length) return ["Not known: no set of " + members + " is shown to explain this log, and " + plural(open.length, "set") + " may."];
  return ["No set of " + members + " explains this log. Then more failed at once, a monitor was wrong, or the graph is not that of the system."];
}

// What is said of the other sets, where something is left to say.
export function othersWords(terms, { ranked, open }) {
  if (open.length) {
    const one = open.length === 1, spent = "the budget of " + plural(terms.budget, "split") + " was spent on " + (one ? "it" : "each");
    return [plural(open.length, "set") + (one ? " is" : " are") + " open: ", ...listed(open), andMore(open.length), ". There " + spent
      + ", so nobody knows whether " + (one ? "it explains" : "they explain") + " the log."];
  }
  if (!ranked.length || ranked[0].set === "-") return [];
  return ["Each other set of " + membersWords(terms) + " has " + (ranked.length === 1 ? "it" : "one of these") + " as a part, or is rejected."];
}

export function termsWords({ k, doubt, budget }) {
  return "Asked with k " + k + ", doubt " + doubt + ", budget " + budget.toLocaleString("en-US") + ".";
}

// The alarms so far, each node with the line of its first.
export function alarmsSentence(monitors) {
  const raised = [...monitors].filter(([, said]) => said.alarms.length).map(([node, said]) => ({ node, line: said.alarms[0].line }))
    .sort((one, other) => one.line - other.line);
  if (!raised.length) return ["No alarm so far."];
  const some = raised.slice(0, MOST_ALARMS).flatMap(({ node, line }, index) => [index ? ", " : "", { node }, " (", { logLine: line }, ")"]);
  const left = raised.length - MOST_ALARMS;
  return ["Alarms: ", ...some, left > 0 ? " and " + left + " more" : "", "."];
}

// How many lines of the log are refused, with a reference to the first.
export function refusedSentence(log) {
  const refused = log.lines.filter(line => line.refused);
  if (!refused.length) return ["No line of the log is refused."];
  const one = refused.length === 1;
  return [plural(refused.length, "line") + " of the log " + (one ? "is" : "are") + " refused: ", { logLine: refused[0].number },
    one ? " (" + refused[0].refused + ")." : " (" + refused[0].refused + ") is the first."];
}

// What a check says of texts, by the lines that its command wrote when the page was made.

export const KINDS_CHECKED = ["graph", "log", "report"];

// What the script was told by the checker about these very bytes: a verdict, and in words what it means. `rounds` is how many the report
// has, or null if there is none.
export function verdictOf(checks, digests, rounds) {
  if (rounds === null) return { verdict: "none", words: "no report" };
  if (!checks.length) return { verdict: "unchecked", words: "not checked" };
  const check = checks.find(some => KINDS_CHECKED.every(kind => digests[kind] !== null && digests[kind] === some.digests[kind]));
  return check ? answerOf(check, rounds) : { verdict: "other", words: "not checked: these are not the texts that were checked" };
}

// The answer is known by the form of its line, whatever stands around it. A refusal wins over all else. An acceptance is one only with its
// status, as the whole output, and of so many rounds as there are.
function answerOf(check, rounds) {
  const { status, output, errors } = check, refused = /^not accepted (\d+) \w+$/m.exec(errors + "\n" + output);
  const isTrial = /^tfpg: |: this answer is of a trial/m.test(errors), by = isTrial ? "an unproved trial of tfpg check" : "tfpg check";
  if (refused) return { verdict: "refused", words: "✗ " + refused[0] + ", by " + by, refusal: refused[0], line: Number(refused[1]), check,
    isTrial };
  const accepted = output.replace(/\n$/, "");
  if (status === 0 && accepted === "accepted " + rounds) {
    return { verdict: "accepted", words: "✓ checked by " + by + ": " + accepted, check, isTrial };
  }
  return { verdict: "failed", words: "not checked: the check did not run", check, isTrial };
}

// Two reports of one log, beside each other: which sets came and went, and from which round.

// The runs of rounds in which the reports say something else of a set: that it is ranked, that it is open, or neither. `lacking` is how
// many rounds the other report does not have.
export function differencesOf(report, other) {
  const others = new Map(other.rounds.map(round => [round.line, round])), found = [], going = new Map();
  let lacking = 0;
  for (const round of report.rounds) {
    const beside = others.get(round.line);
    if (!beside) {
      lacking++;
      continue;
    }
    const here = saidIn(round), there = saidIn(beside), now = new Set();
    for (const set of new Set([...here.keys(), ...there.keys()])) {
      const [said, saidThere] = [here.get(set) || "", there.get(set) || ""], before = going.get(set);
      if (said === saidThere) continue;
      now.add(set);
      if (before && before.here === said && before.there === saidThere) before.to = round;
      else {
        going.set(set, { set, here: said, there: saidThere, from: round, to: round });
        found.push(going.get(set));
      }
    }
    for (const set of going.keys()) if (!now.has(set)) going.delete(set);
  }
  return { found, lacking };
}

function saidIn({ ranked, open }) {
  return new Map([...ranked.map(({ set }) => [set, "ranked"]), ...open.map(({ set }) => [set, "open"])]);
}

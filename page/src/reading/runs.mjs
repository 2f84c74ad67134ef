// The places of the sets in the rankings, over the rounds.

// Collects, for each set that is ranked or open in some round, its runs: the rounds, by index, in which the same is said of it.
export class Runs {
  constructor() {
    Object.assign(this, { byHypothesis: new Map(), round: -1, place: 0, now: [], before: null, rejects: false, changes: [] });
  }

  nextRound() {
    this.round++;
    Object.assign(this, { place: 0, now: [], rejects: false });
  }

  // A round is a change if it ranks or leaves open other sets than the round before, or ranks them in another order, or rejects some.
  endRound() {
    const said = this.now.join(" ");
    if (said !== this.before || this.rejects) this.changes.push(this.round);
    this.before = said;
  }

  ranked(hypothesis, set, share) {
    this.place++;
    this.now.push(hypothesis);
    this.extend(hypothesis, set, "ranked", this.place, share);
  }

  rejected() {
    this.rejects = true;
  }

  open(hypothesis, set) {
    this.now.push("open", hypothesis);
    this.extend(hypothesis, set, "open", null, null);
  }

  extend(hypothesis, set, status, place, share) {
    if (!this.byHypothesis.has(hypothesis)) this.byHypothesis.set(hypothesis, { hypothesis, set, runs: [] });
    const { runs } = this.byHypothesis.get(hypothesis), last = runs[runs.length - 1];
    if (last && last.to === this.round - 1 && last.place === place && last.share === share) last.to = this.round;
    else runs.push({ from: this.round, to: this.round, status, place, share });
  }

  rows() {
    return [...this.byHypothesis.values()];
  }
}

export function runWords({ status, place, share }) {
  return status === "open" ? "open" : "#" + place + " " + share;
}

// The rows that a reader wants first: those ranked in this round in their order, then those that were ranked last.
export function rowsFirst(rows, round, count) {
  const places = new Map(round.ranked.map((line, place) => [line.hypothesis, place])), lastOf = row => row.runs[row.runs.length - 1].to;
  const placeOf = row => places.has(row.hypothesis) ? places.get(row.hypothesis) : places.size;
  const order = (one, other) => placeOf(one) - placeOf(other) || lastOf(other) - lastOf(one) || one.hypothesis - other.hypothesis;
  return rows.slice().sort(order).slice(0, count);
}

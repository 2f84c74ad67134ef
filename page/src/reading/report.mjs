// A report. One pass over its text keeps where its rounds and its steps stand. What a round says is read when it is asked for, since a
// report may have 65,536 rounds.
import { ReportLines, reportShapes } from "./lines.mjs";
import { Runs } from "./runs.mjs";

// What a text says, if it is a report of whole blocks. `at` is the line of the report in which a thing begins. `parts` are the steps of
// each hypothesis, `steps` all parts in their order, `rejections` the round in which each rejected one was rejected, `runs` its places in
// the rankings, and `changes` the indexes of the rounds that say something else than the round before.
export function readReport(graph, text) {
  return new Pass(graph, text).run();
}

// ---- the pass

const STEP_KINDS = new Set(["split", "again", "cycle", "why"]);

class Pass {
  constructor(graph, text) {
    Object.assign(this, { text, lines: new ReportLines(reportShapes(graph)), round: null, part: null, runs: new Runs() });
    this.report = { text, terms: null, blocks: [], rounds: [], parts: new Map(), steps: [], rejections: new Map(), runs: null,
      changes: null, lineCount: 0 };
  }

  run() {
    const { text, report } = this;
    for (let from = 0; from < text.length;) {
      const end = text.indexOf("\n", from), to = end < 0 ? text.length : end;
      report.lineCount++;
      this.take(from, to, report.lineCount);
      from = to + 1;
    }
    this.lines.end(report.lineCount + 1);
    report.runs = this.runs.rows();
    report.changes = this.runs.changes;
    return report;
  }

  take(from, to, line) {
    const text = this.text.slice(from, to), kind = this.lines.take(text, line);
    if (STEP_KINDS.has(kind)) this.part.to = to;
    else if (kind === "hyp") this.beginPart(Number(text.slice(4)), to, line);
    else if (kind !== "at" && kind !== "panel") this.takeWords(kind, text.split(" "), from, line);
    if (this.round) this.round.to = to;
  }

  beginPart(hypothesis, to, line) {
    this.part = { hypothesis, round: this.round, at: line + 1, from: to + 1, to: to + 1 };
    this.report.steps.push(this.part);
    if (!this.report.parts.has(hypothesis)) this.report.parts.set(hypothesis, []);
    this.report.parts.get(hypothesis).push(this.part);
  }

  takeWords(kind, words, from, line) {
    const { report, round } = this;
    if (kind === "report") report.terms = termsOf(words);
    else if (kind === "refused") {
      report.blocks.push({ line: Number(words[1]), refused: words.slice(2).join(" "), at: line });
      this.round = null;
    } else if (kind === "round") this.begin(words.map(Number), line, from);
    else {
      if (round.listsFrom === null) Object.assign(round, { listsFrom: from, listsAt: line });
      if (kind === "counts") this.runs.endRound();
      else this.takeSet(kind, words);
    }
  }

  begin([, number, line, now], at, from) {
    this.round = new Round(this.text, { number, line, now, at, from });
    this.report.rounds.push(this.round);
    this.report.blocks.push(this.round);
    this.runs.nextRound();
  }

  takeSet(kind, words) {
    const hypothesis = Number(words[1]), set = words[words.length - 1];
    if (kind === "ranked") this.runs.ranked(hypothesis, set, words[5]);
    else if (kind === "open") this.runs.open(hypothesis, set);
    else {
      this.runs.rejected(hypothesis);
      if (!this.report.rejections.has(hypothesis)) this.report.rejections.set(hypothesis, this.round);
    }
  }
}

function termsOf(words) {
  const after = word => words.includes(word) ? Number(words[words.indexOf(word) + 1]) : 0;
  return { k: after("k"), doubt: after("doubt"), budget: after("budget") };
}

// ---- rounds

let latest = { round: null, lists: null }; // the round that was read last

// A round, whose lists are read when they are asked for: ranked, open and rejected hypotheses, counts, and panels that were lost.
class Round {
  constructor(text, { number, line, now, at, from }) {
    Object.assign(this, { number, line, now, at, refused: null, from, to: from, listsFrom: null, listsAt: null });
    Object.defineProperty(this, "text", { value: text });
  }

  lists() {
    if (latest.round !== this) latest = { round: this, lists: listsOf(this) };
    return latest.lists;
  }

  get ranked() { return this.lists().ranked; }
  get open() { return this.lists().open; }
  get rejected() { return this.lists().rejected; }
  get counts() { return this.lists().counts; }
  get panels() { return this.lists().panels; }
}

function listsOf({ text, listsFrom, listsAt, to }) {
  const lists = { ranked: [], open: [], rejected: [], panels: [], counts: null };
  let from = listsFrom, trace = null;
  text.slice(listsFrom, to).split("\n").forEach((line, index) => {
    const [kind, ...words] = line.split(" "), numbers = words.map(Number), at = listsAt + index, end = from + line.length;
    if (kind === "ranked") lists.ranked.push(trace = { ...rankedWords(words), at, from: end + 1, to: end + 1 });
    else if (kind === "at") trace.to = end;
    else if (kind === "counts") lists.counts = { ranked: numbers[1], covered: numbers[3], rejected: numbers[5], open: numbers[7], at };
    else if (kind === "panel") lists.panels.push({ panel: numbers[0], lost: words[1], at });
    else if (kind === "open" || kind === "rejected") lists[kind].push({ hypothesis: numbers[0], set: words[2], at });
    from = end + 1;
  });
  return lists;
}

function rankedWords(words) {
  const [alarmed, monitored] = words[4].split("/").map(Number);
  return { hypothesis: Number(words[0]), cost: Number(words[2]), alarmed, monitored, set: words[6] };
}

export function linesBetween(text, { from, to }) {
  return to > from ? text.slice(from, to).split("\n") : [];
}

// The trace of a ranked hypothesis: the nodes that become active, and when.
export function traceOf(graph, report, ranked) {
  return new Map(linesBetween(report.text, ranked).map(line => {
    const [, name, time] = line.split(" ");
    return [graph.numberOf.get(name), Number(time)];
  }));
}

// The lines of a text from one number on, with their numbers.
export function someLines(text, first, count) {
  let from = 0;
  for (let line = 1; line < first && from >= 0; line++) from = text.indexOf("\n", from) + 1 || -1;
  const lines = [];
  for (let number = first; from >= 0 && from < text.length && lines.length < count; number++) {
    const end = text.indexOf("\n", from), to = end < 0 ? text.length : end;
    lines.push({ number, text: text.slice(from, to) });
    from = to + 1;
  }
  return lines;
}

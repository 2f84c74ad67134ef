// What does not fit together: between a log and a report, and within a report. Each thing has the line of the report in which it stands,
// and words. Nothing here says that a report is right: that is for `tfpg check`. It only names what cannot be right.
import { againstTrace, Seen } from "./rules.mjs";
import { believedIn, setText } from "./hypotheses.mjs";
import { linesBetween, traceOf } from "./report.mjs";
import { readSteps } from "./steps.mjs";
import { LIMITS } from "./table.mjs";
import { Walk } from "./trees.mjs";

const MOST = 40, DOUBT_COST = 1000, MOST_WORK = 4e7;

// What does not fit, the first so many, and up to which round all was compared, if that is not the last.
export function mismatchesOf(graph, table, log, report) {
  return new Comparison(graph, table, log, report).run();
}

function count(number, word) {
  return number + " " + word + (number === 1 ? "" : "s");
}

class Comparison {
  constructor(graph, table, log, report) {
    Object.assign(this, { graph, table, log, report, found: [], seen: new Seen(graph), events: 0, nextPart: 0, work: 0 });
    Object.assign(this, { walks: new Map(), closed: new Set(), believed: new Map(), alarmed: new Set(), names: new Map(), before: null, traces: [], covered: { key: null, missing: null } });
  }

  run() {
    const { report, log, table } = this;
    const most = LIMITS.MOST_HYPOTHESES;
    if (table.length > most) this.say(1, "there are more than " + most.toLocaleString("en-US") + " sets of so many members");
    let comparedTo = null;
    for (let index = 0; index < report.blocks.length && this.found.length < MOST; index++) {
      const block = report.blocks[index];
      if (this.work > MOST_WORK) return { found: this.found, comparedTo };
      this.block(block, log.lines[index]);
      if (!block.refused) comparedTo = block.number;
    }
    if (report.blocks.length < log.lines.length) {
      this.say(report.lineCount, "the log has " + log.lines.length + " lines, and the report has blocks for " + report.blocks.length
        + " of them");
    }
    return { found: this.found.slice(0, MOST), comparedTo: this.found.length < MOST ? null : comparedTo };
  }

  say(at, ...words) {
    this.found.push({ at, words });
  }

  // ---- a block

  block(block, entry) {
    if (!entry) return this.say(block.at, "the report has a block for line " + block.line + ", which the log does not have");
    if (block.line !== entry.number) {
      this.say(block.at, "this block is of line " + block.line + ", where line " + entry.number + " of the log is due");
    } else if (block.refused !== entry.refused) {
      const [said, right] = [block.refused, entry.refused].map(cause => cause ? "refused as " + cause : "accepted");
      this.say(block.at, "line " + block.line + " is " + said + " in the report, and by the log it is " + right);
    }
    for (; entry.event && this.events < entry.event.number; this.events++) this.takeEvent(this.log.events[this.events]);
    if (!block.refused) this.round(block, entry.event);
  }

  takeEvent(event) {
    this.seen.take(event);
    if (event.kind === "alarm") this.alarmed.add(event.node);
  }

  // ---- a round

  round(round, event) {
    const { table } = this, isOfTable = line => table[line.hypothesis] !== undefined;
    if (event && round.now !== event.time) {
      this.say(round.at, "round " + round.number + " is at " + round.now + ", and line " + round.line + " at " + event.time);
    }
    if (event && round.number !== event.number) this.say(round.at, "this is round " + round.number + ", where round " + event.number + " is due");
    const splits = this.parts(round), lists = this.report.text.slice(round.listsFrom, round.to);
    if (event && event.kind === "tick" && !splits.size && lists === this.before) return this.again(round);
    const { ranked, open, rejected } = round;
    Object.assign(this, { before: open.length || rejected.length ? null : lists, traces: [] });
    for (const line of [...ranked, ...open, ...rejected]) this.set(line);
    const inTable = { ranked: ranked.filter(isOfTable), open: open.filter(isOfTable) };
    this.ranking(round, inTable);
    this.rising(open, "open");
    this.rising(rejected, "rejected");
    this.openSets(inTable, splits);
    this.rejections(round, splits);
    this.statuses(round, inTable, splits);
    this.counts(round);
  }

  // A round after a tick that says what the round before said: only the time is another, so only the histories are held against it.
  again({ listsAt }) {
    for (const { hypothesis, set, trace, place } of this.traces) this.history(hypothesis, set, trace, listsAt + place);
  }

  history(hypothesis, set, trace, at) {
    const against = againstTrace(this.graph, this.log, this.seen, this.table[hypothesis], trace);
    this.work += (trace.size + 1) * (8 + this.log.modeChanges.length);
    if (against) this.say(at, "the history of " + set + " does not fit: ", ...against);
  }

  set({ hypothesis, set, at }) {
    if (!this.table[hypothesis]) this.say(at, "there is no set " + hypothesis + ", which is said to be " + set);
    else if (this.textOf(hypothesis) !== set) this.say(at, "set " + hypothesis + " is " + this.textOf(hypothesis) + ", and is said to be " + set);
  }

  rising(lines, status) {
    const wrong = lines.find((line, index) => index > 0 && lines[index - 1].hypothesis >= line.hypothesis);
    if (wrong) this.say(wrong.at, "the " + status + " sets do not stand by rising numbers");
  }

  // ---- steps

  // Takes the steps of the round. Answers how many splits each hypothesis has, and whether its tree was closed before.
  parts(round) {
    const { steps } = this.report, splits = new Map();
    let last = -1;
    for (; this.nextPart < steps.length && steps[this.nextPart].round === round; this.nextPart++) {
      const part = steps[this.nextPart], { hypothesis } = part;
      if (!this.table[hypothesis]) this.say(part.at - 1, "there is no set " + hypothesis + ", of which these steps are");
      else {
        if (hypothesis <= last) this.say(part.at - 1, "the steps of the sets do not stand by rising numbers");
        if (this.closed.has(hypothesis)) this.say(part.at - 1, "set " + hypothesis + " has steps, and was rejected before");
        splits.set(hypothesis, this.part(part));
      }
      last = hypothesis;
    }
    return splits;
  }

  part(part) {
    const { graph, log, table } = this, { hypothesis } = part;
    if (!this.walks.has(hypothesis)) this.walks.set(hypothesis, new Walk(graph, log, table[hypothesis], true));
    const walk = this.walks.get(hypothesis), steps = readSteps(graph, linesBetween(this.report.text, part), part.at, part.round);
    for (const step of walk.complaint ? [] : steps) {
      walk.take(step);
      this.work += 4;
      if (!walk.complaint) continue;
      this.say(step.at, "a step of " + this.nameOf(hypothesis) + " does not fit: " + walk.complaint.what);
      break;
    }
    return steps.filter(step => step.kind === "split").length;
  }

  textOf(hypothesis) {
    if (!this.names.has(hypothesis)) this.names.set(hypothesis, setText(this.graph, this.table[hypothesis]));
    return this.names.get(hypothesis);
  }

  nameOf(hypothesis) {
    return "set " + hypothesis + " (" + this.textOf(hypothesis) + ")";
  }

  // The trees that are closed by now, without one that has a step which does not fit.
  isClosed(hypothesis) {
    const walk = this.walks.get(hypothesis);
    return walk !== undefined && walk.closed && !walk.complaint;
  }

  rejections({ rejected }, splits) {
    for (const { hypothesis, at } of rejected) {
      if (!this.table[hypothesis]) continue;
      const name = this.nameOf(hypothesis);
      if (this.closed.has(hypothesis)) this.say(at, name + " is rejected a second time");
      else if (!splits.has(hypothesis)) this.say(at, name + " is rejected, and no step of this round shows it");
      else if (!this.isClosed(hypothesis)) this.say(at, name + " is rejected, and some case of its steps is left");
    }
    for (const { hypothesis } of rejected) this.closed.add(hypothesis);
    for (const hypothesis of splits.keys()) {
      if (!this.isClosed(hypothesis) || this.closed.has(hypothesis)) continue;
      this.say(this.partLine(hypothesis), "the steps of " + this.nameOf(hypothesis) + " leave no case, and no line says that it is rejected");
      this.closed.add(hypothesis);
    }
  }

  partLine(hypothesis) {
    const parts = this.report.steps;
    for (let index = this.nextPart - 1; index >= 0; index--) if (parts[index].hypothesis === hypothesis) return parts[index].at - 1;
    return null;
  }

  // ---- the ranking

  ranking({ ranked: lines, listsAt }, { ranked }) {
    let before = null;
    for (const line of ranked) {
      this.rankedLine(line, listsAt);
      if (before && !isBefore(before, line)) this.say(line.at, line.set + " does not stand in the order of cost, alarms and numbers");
      const part = ranked.find(other => this.isProperPart(other.hypothesis, line.hypothesis));
      if (part) this.say(line.at, line.set + " is ranked beside its part " + part.set);
      before = line;
    }
    this.work += lines.length * (lines.length + 1);
  }

  rankedLine(line, listsAt) {
    const { graph, table, report } = this, hypothesis = table[line.hypothesis], { at, set, cost, alarmed, monitored } = line;
    const right = hypothesis.failures.reduce((sum, node) => sum + graph.nodes[node].rarity, DOUBT_COST * hypothesis.doubts.length);
    if (cost !== right) this.say(at, "the cost of " + set + " is said to be " + cost + ", and its members cost " + right);
    const believed = this.believedOf(line.hypothesis), raised = believed.filter(node => this.alarmed.has(node)).length;
    const [most, few] = believed.length ? [believed.length, raised] : [1, 1];
    if (monitored !== most || alarmed !== few) {
      this.say(at, set + " is said to have " + alarmed + " of " + monitored + " alarms, and by the log it has " + few + " of " + most);
    }
    if (this.closed.has(line.hypothesis)) this.say(at, set + " is ranked, and was rejected before");
    else if (this.isClosed(line.hypothesis)) this.say(at, set + " is ranked, and its steps leave no case");
    const trace = traceOf(graph, report, line);
    this.traces.push({ hypothesis: line.hypothesis, set, trace, place: at - listsAt });
    this.history(line.hypothesis, set, trace, at);
  }

  believedOf(hypothesis) {
    if (!this.believed.has(hypothesis)) this.believed.set(hypothesis, believedIn(this.graph, this.table[hypothesis]));
    return this.believed.get(hypothesis);
  }

  isProperPart(part, whole) {
    const { members } = this.table[whole], some = this.table[part].members;
    return some.length < members.length && some.every(member => members.includes(member));
  }

  // ---- statuses

  openSets({ ranked, open }, splits) {
    const { budget } = this.report.terms;
    for (const { hypothesis, at } of open) {
      const name = this.nameOf(hypothesis), spent = splits.get(hypothesis) || 0;
      if (this.closed.has(hypothesis) || this.isClosed(hypothesis)) this.say(at, name + " is open, and is rejected");
      if (ranked.some(other => other.hypothesis === hypothesis)) this.say(at, name + " is open, and is ranked");
      if (ranked.some(other => this.isProperPart(other.hypothesis, hypothesis))) this.say(at, name + " is open, and a part of it is ranked");
      if (spent !== budget) this.say(at, name + " is open, and has " + count(spent, "split") + " in this round, where the budget is " + budget);
    }
  }

  // Each set that is neither ranked, open nor rejected has a ranked part, and no steps.
  statuses(round, { ranked, open }, splits) {
    const named = new Set([...ranked, ...open].map(line => line.hypothesis));
    const key = [...named].join(" ") + ";" + ranked.length + ";" + this.closed.size;
    if (this.covered.key !== key) this.covered = { key, missing: this.missing(ranked, named) };
    const at = round.counts.at, { missing } = this.covered;
    if (missing.length) {
      this.say(at, this.nameOf(missing[0]) + (missing.length > 1 ? " and " + (missing.length - 1) + " more" : "")
        + (missing.length > 1 ? " are" : " is") + " neither ranked, open nor rejected, and no part of it is ranked");
    }
    for (const hypothesis of splits.keys()) {
      if (this.closed.has(hypothesis) || named.has(hypothesis) || missing.includes(hypothesis)) continue;
      this.say(at, this.nameOf(hypothesis) + " has steps in this round, and no line says what came of them");
    }
  }

  missing(ranked, named) {
    this.work += this.table.length * (1 + ranked.length);
    const isLeft = (_, hypothesis) => !named.has(hypothesis) && !this.closed.has(hypothesis)
      && !ranked.some(line => this.isProperPart(line.hypothesis, hypothesis));
    return [...this.table.keys()].filter(hypothesis => isLeft(null, hypothesis));
  }

  counts({ ranked, open, counts }) {
    const right = { ranked: ranked.length, rejected: this.closed.size, open: open.length };
    right.covered = this.table.length - right.ranked - right.rejected - right.open;
    for (const status of ["ranked", "covered", "rejected", "open"]) {
      if (counts[status] === right[status]) continue;
      this.say(counts.at, "the round is said to have " + counts[status] + " sets that are " + status + ", and by its lines it has "
        + right[status]);
    }
  }
}

// Whether one line stands before another: by rising cost, then by falling share of alarms, then by number.
function isBefore(one, other) {
  if (one.cost !== other.cost) return one.cost < other.cost;
  const [left, right] = [one.alarmed * other.monitored, other.alarmed * one.monitored];
  return left === right ? one.hypothesis < other.hypothesis : left > right;
}

// The lines of reports and answers, by the one table of their shapes, which the script that makes the page writes into it.
import { LIMITS, TABLE } from "./table.mjs";
import { BadText } from "./texts.mjs";

const NAME = /^[A-Za-z][A-Za-z0-9_.-]*$/, NUMBER = /^(0|[1-9][0-9]*)$/, CAUSE = "BadAnswer";

// Whether a number is at most another one, by their digits: some are larger than a number of a script may be.
function isAtMost(word, greatest) {
  return word.length < greatest.length || (word.length === greatest.length && word <= greatest);
}

function isNumber(word, kind) {
  const [least, greatest] = TABLE.numbers[kind];
  return NUMBER.test(word) && isAtMost(least, word) && isAtMost(word, greatest);
}

function isShare(word) {
  const slash = word.indexOf("/");
  return slash > 0 && isNumber(word.slice(0, slash), "<number>") && isNumber(word.slice(slash + 1), "<number>");
}

function isRising(numbers) {
  return numbers.every((number, index) => index === 0 || numbers[index - 1] < number);
}

// Whether a word is the text of a set: failure modes, and then monitors with a mark, each by rising numbers.
function isSet(graph, word) {
  const members = word === "-" ? [] : word.split(","), count = members.filter(member => member[0] !== "!").length;
  if (!members.slice(count).every(member => member[0] === "!")) return false;
  const number = name => graph.numberOf.has(name) ? graph.numberOf.get(name) : -1;
  const failures = members.slice(0, count).map(number), doubts = members.slice(count).map(member => number(member.slice(1)));
  return failures.every(node => node >= 0 && graph.nodes[node].kind === "failure") && isRising(failures)
    && doubts.every(node => node >= 0 && graph.nodes[node].lags) && isRising(doubts);
}

// Some of the shapes. A line has a kind, which is its first word, or it is none.
export class Shapes {
  constructor(graph, shapes) {
    Object.assign(this, { graph, kinds: new Map(), shapes: new Map() });
    for (const shape of shapes) {
      const words = shape.split(" "), key = words[0] + " " + words.length;
      if (!this.shapes.has(key)) this.shapes.set(key, []);
      this.shapes.get(key).push({ words, source: words.indexOf("<source>"), target: words.indexOf("<target>") });
    }
  }

  // The kind of a line, or null. Most lines of a report stand in it many times, so what was found is kept.
  kind(line) {
    let kind = this.kinds.get(line);
    if (kind === undefined) this.kinds.set(line, kind = this.find(line));
    return kind;
  }

  find(line) {
    const words = line.split(" "), some = line.length > LIMITS.LONGEST_LINE ? [] : this.shapes.get(words[0] + " " + words.length) || [];
    return some.some(shape => this.has(words, shape)) ? words[0] : null;
  }

  has(words, { words: shape, source, target }) {
    if (!shape.every((kind, index) => kind[0] === "<" ? this.isValue(words[index], kind) : kind === words[index])) return false;
    const number = place => this.graph.numberOf.get(words[place]);
    return source < 0 || this.graph.edgeOf(number(source), number(target)) !== null;
  }

  isValue(word, kind) {
    if (Object.hasOwn(TABLE.numbers, kind)) return isNumber(word, kind);
    if (kind === "<share>") return isShare(word);
    if (kind === "<set>") return isSet(this.graph, word);
    if (kind === "<cause>") return TABLE.causes.includes(word);
    return kind === "<name>" ? NAME.test(word) && word.length <= LIMITS.LONGEST_NAME : this.graph.numberOf.has(word);
  }
}

export function reportShapes(graph) {
  return new Shapes(graph, TABLE.shapes.report);
}

export function fleetShapes(graph) {
  return new Shapes(graph, [...TABLE.shapes.fleet, ...TABLE.shapes.report]);
}

const AFTER = new Map(Object.entries(TABLE.after).map(([kind, kinds]) => [kind, new Set(kinds)]));

// Takes the lines of a report one by one, and refuses the first with which no report goes on.
export class ReportLines {
  constructor(shapes) {
    Object.assign(this, { shapes, last: "", owed: 0, number: 0 });
  }

  // The kind of a line, which is its first word.
  take(line, number) {
    const kind = this.shapes.kind(line), rises = kind === "at" || kind === "panel";
    if (kind === null || !this.goesOn(kind) || (rises && !this.rises(kind, line))) throw new BadText(number, "BadReport");
    this.owed = kind === "cycle" ? Number(line.slice(6)) : kind === "why" ? this.owed - 1 : this.owed;
    this.last = kind;
    return kind;
  }

  goesOn(kind) {
    return (kind === "why") === this.owed > 0 && AFTER.get(this.last).has(kind);
  }

  // Whether the number of a node or a panel is greater than that of such a line directly before.
  rises(kind, line) {
    const word = line.split(" ")[1], number = kind === "at" ? this.shapes.graph.numberOf.get(word) : BigInt(word);
    const isGreater = this.last !== kind || number > this.number;
    this.number = number;
    return isGreater;
  }

  end(number) {
    if (this.owed || !TABLE.last.includes(this.last)) throw new BadText(number, "EndsEarly");
  }
}

// Refuses lines of an answer of which the first has not the first shape, or another one has none of the others. Answers the kinds.
export function needAnswer(graph, lines, name) {
  const [head, ...others] = TABLE.shapes[name], rest = new Shapes(graph, others);
  if (!lines.length || new Shapes(graph, [head]).kind(lines[0]) === null) throw new BadText(1, CAUSE);
  return lines.slice(1).map((line, index) => rest.kind(line) || refuse(index + 2));
}

function refuse(line) {
  throw new BadText(line, CAUSE);
}

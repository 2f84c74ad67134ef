// The texts of the page: those that it carries, those that are opened on it, and saving them as they are.
import { byId, element } from "./elements.mjs";
import { kindOf, linesOf, notKnown, textOf } from "../reading/texts.mjs";
import { fleetMismatch } from "../reading/answermismatches.mjs";
import { readAsk, readFleet, readPredict, ownLines } from "../reading/answers.mjs";
import { readGraph } from "../reading/graph.mjs";
import { readLog } from "../reading/log.mjs";
import { readReport } from "../reading/report.mjs";
import { hypothesesOf } from "../reading/hypotheses.mjs";
import { mismatchesOf } from "../reading/mismatches.mjs";
import { verdictOf } from "../reading/verdicts.mjs";
import { plainWords } from "./links.mjs";
import { change, keep, state } from "./state.mjs";

// ---- bytes

async function unpacked(text) {
  const packed = atob(text), bytes = new Uint8Array(packed.length);
  for (let place = 0; place < packed.length; place++) bytes[place] = packed.charCodeAt(place);
  return new Uint8Array(await new Response(new Blob([bytes]).stream().pipeThrough(new DecompressionStream("gzip"))).arrayBuffer());
}

// The SHA-256 of bytes, or null where the browser has none for this page.
async function digestOf(bytes) {
  if (!bytes || !globalThis.crypto || !crypto.subtle) return null;
  return [...new Uint8Array(await crypto.subtle.digest("SHA-256", bytes))].map(byte => byte.toString(16).padStart(2, "0")).join("");
}

async function digestsOf(texts) {
  const kinds = ["graph", "log", "report"], digests = await Promise.all(kinds.map(kind => digestOf(texts[kind])));
  return Object.fromEntries(kinds.map((kind, index) => [kind, digests[index]]));
}

// ---- reading

// What the texts say. A text that is none is an error with the name of its file.
function read(texts, names) {
  const of = (kind, reader) => texts[kind] ? named(names[kind], () => reader(textOf(texts[kind]))) : null;
  const { graph } = state, log = of("log", text => readLog(graph, text)), report = of("report", text => readReport(graph, text));
  const ask = of("ask", text => readAsk(graph, text)), places = Object.keys(texts).filter(place => place.startsWith("predict"));
  const predictions = places.map(place => of(place, text => readPredict(graph, text)));
  const table = report ? hypothesesOf(graph, report.terms) : [], rounds = report ? report.rounds : [];
  const found = { log: log || (report ? readLog(graph, "") : null), report, table, ask, predictions };
  const roundOfLine = new Map(rounds.map((round, index) => [round.line, index]));
  const other = report ? of("compare", text => readReport(graph, text)) : null;
  return { ...found, roundOfLine, ...problemsOf(table, log, report), other, otherProblems: other && log ? firstProblem(log, other) : "" };
}

// What does not fit first in a report that is held beside another, in a word with its line.
function firstProblem(log, other) {
  const [first] = mismatchesOf(state.graph, hypothesesOf(state.graph, other.terms), log, other).found;
  return first ? "line " + first.at + ": " + plainWords(first.words) + "." : "";
}

function problemsOf(table, log, report) {
  if (!report) return { problems: [], comparedTo: null };
  if (!log) return { problems: [{ at: null, words: ["The report is about a log that is not here. Open the log too."] }], comparedTo: null };
  const { found, comparedTo } = mismatchesOf(state.graph, table, log, report);
  return { problems: found, comparedTo };
}

function named(name, reader) {
  try {
    return reader();
  } catch (fault) {
    throw new Error(name + " " + fault.message);
  }
}

async function showTexts(texts, names, more) {
  const found = read(texts, names), digests = await digestsOf(texts);
  const round = found.report ? Math.max(0, found.report.rounds.length - 1) : 0;
  const fresh = { round, chosen: null, forecast: null, marked: null, logLine: null, reportLine: null, notOpened: [] };
  change({ ...found, texts, names, digests, ...fresh, ...more });
}

// ---- carried texts

export async function readCarried() {
  const about = JSON.parse(byId("about").textContent), texts = {}, { names } = about;
  for (const carried of document.querySelectorAll("script.carried")) {
    texts[carried.dataset.kind] = await unpacked(carried.textContent);
    carried.remove();
  }
  keep({ about, graph: readGraph(textOf(texts.graph)) });
  return { texts, names: { ...names } };
}

export async function showCarried({ texts, names }) {
  if (texts.fleet) await showFleet(texts, names);
  else await showTexts(texts, names, {});
}

// ---- fleets

// The output of a fleet, and the stream of its lines in the place of a log. The first vehicle is opened.
async function showFleet(texts, names) {
  const fleet = named(names.fleet, () => readFleet(state.graph, textOf(texts.fleet)));
  fleet.mismatch = fleetMismatch(state.graph, linesOf(textOf(texts.log)), fleet);
  fleet.summaries = new Map();
  for (const name of fleet.vehicles.keys()) fleet.summaries.set(name, await summaryOf(fleet, texts, names, name));
  const streamed = from => ({ graph: from.graph, stream: from.log, fleet: from.fleet });
  await showVehicle({ fleet, texts: streamed(texts), names: streamed(names) }, fleet.vehicles.keys().next().value, "fleet");
}

// What the list of vehicles says of one: its last round, how many alarms it has, what was checked, and whether its texts fit together.
async function summaryOf(fleet, texts, names, name) {
  const own = ownTexts(fleet, texts.log, name), { graph, about } = state;
  const report = named(names.fleet + ", vehicle " + name + ",", () => readReport(graph, own.report)), { rounds, terms } = report;
  const log = readLog(graph, own.log), digests = await digestsOf({ graph: texts.graph, log: bytesOf(own.log), report: bytesOf(own.report) });
  const last = rounds.length ? rounds[rounds.length - 1] : null, problems = mismatchesOf(graph, hypothesesOf(graph, terms), log, report).found;
  const verdict = verdictOf(about.checks, digests, rounds.length);
  return { rounds: rounds.length, last, terms, alarms: log.firstAlarm.size, verdict, problems: problems.length };
}

function ownTexts(fleet, stream, name) {
  return { log: ownText(ownLines(textOf(stream), name)), report: ownText(fleet.vehicles.get(name)) };
}

function ownText(lines) {
  return lines.map(line => line + "\n").join("");
}

function bytesOf(text) {
  return Uint8Array.from(text, character => character.charCodeAt(0));
}

export async function openVehicle(name, tab) {
  await showVehicle(state, name, tab);
}

// Shows a vehicle of a fleet, with the texts that the whole fleet has.
async function showVehicle({ fleet, texts, names }, name, tab) {
  const { log, report } = ownTexts(fleet, texts.stream, name), own = { log: bytesOf(log), report: bytesOf(report) };
  const ownNames = { log: name + ".log", report: name + ".report" };
  await showTexts({ ...texts, ...own }, { ...names, ...ownNames }, { fleet, vehicle: name, tab });
}

// ---- opened and saved texts

// Opens files on the page. What they are is known by their first lines. Another graph is refused, and so is a text that is none.
export async function openFiles(files) {
  delete document.documentElement.dataset.ready;
  try {
    const opened = await Promise.all(files.map(async file => {
      const bytes = new Uint8Array(await file.arrayBuffer()), text = textOf(bytes), kind = kindOf(text);
      if (!kind) throw new Error(file.name + " " + notKnown(text));
      return { name: file.name, bytes, kind };
    }));
    await takeOpened(opened);
  } catch (fault) {
    change({ notOpened: [fault.message] });
  }
  document.documentElement.dataset.ready = "yes";
}

async function takeOpened(opened) {
  const kinds = new Set(opened.map(({ kind }) => kind)), texts = { ...state.texts }, names = { ...state.names };
  for (const kind of leftOut(kinds, Object.keys(texts))) {
    delete texts[kind];
    delete names[kind];
  }
  let count = 0;
  for (const { kind, name, bytes } of opened) {
    if (kind === "graph") await needSameGraph(name, bytes);
    const place = kind === "predict" ? "predict" + ++count : kind;
    texts[place] = bytes;
    names[place] = name;
  }
  const counts = opened.map(({ kind }) => kind).filter(kind => kind !== "predict");
  const twice = counts.find((kind, index) => counts.indexOf(kind) < index);
  if (twice) throw new Error("there are two files of the kind " + twice + ", and this page shows one");
  if (kinds.has("fleet")) {
    if (!kinds.has("log")) takeStream(texts, names);
    await showFleet(texts, names);
  } else await showTexts(texts, names, { fleet: null, vehicle: null });
}

// The stream of the page for the output of a fleet that is opened alone, in place of the own log of the vehicle that is shown.
function takeStream(texts, names) {
  const { stream } = state.texts;
  if (stream) [texts.log, names.log] = [stream, state.names.stream];
  if (!texts.log) throw new Error(names.fleet + " is about a stream that is not here. Open both together");
}

async function needSameGraph(name, bytes) {
  if (await digestOf(bytes) === state.about.graph) return;
  const advice = " is another. Make a page for it with tfpg-page";
  throw new Error("this page is laid out for the graph " + state.names.graph + ", and " + name + advice);
}

// The places whose texts are no longer of use: another log has another report and other answers.
function leftOut(kinds, places) {
  const gone = places.filter(place => place === "stream" || place === "fleet");
  if (kinds.has("log")) gone.push(...places.filter(place => place === "report" || place === "compare" || place === "ask" || place.startsWith("predict")));
  if (kinds.has("predict")) gone.push(...places.filter(place => place.startsWith("predict")));
  return gone;
}

// Saves each text under its name, byte for byte.
export function saveTexts() {
  for (const [place, bytes] of Object.entries(state.texts)) {
    const blob = new Blob([bytes], { type: "application/octet-stream" });
    const link = element("a", { href: URL.createObjectURL(blob), download: state.names[place] });
    link.click();
    setTimeout(() => URL.revokeObjectURL(link.href), 5000);
  }
}

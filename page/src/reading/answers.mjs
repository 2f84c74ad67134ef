// What `ask`, `predict` and `fleet` write.
import { LIMITS } from "./table.mjs";
import { BadText, linesOf } from "./texts.mjs";
import { fleetShapes, needAnswer } from "./lines.mjs";
import { withProbe } from "./graph.mjs";

const CAUSE = "BadAnswer"; // of a line that none of them writes
const BEGINS = ["vehicle", "stray", "mode"];

// The questions, the most useful first: how many sets each answer rules out.
export function readAsk(graph, text) {
  const [first, ...lines] = linesOf(text);
  needAnswer(graph, linesOf(text), "ask");
  const words = first.split(" "), isFull = lines.includes("refused LogFull");
  const questions = lines.filter(line => line.startsWith("ask ")).map(line => {
    const [, name, , silent, , alarm, , unknown] = line.split(" ");
    return { node: graph.numberOf.get(name), silent: Number(silent), alarm: Number(alarm), unknown: Number(unknown) };
  });
  return { now: Number(words[2]), ranked: Number(words[4]), open: Number(words[6]), isFull, questions };
}

// The forecasts for a node, each with the lines of its steps, which are read when they are asked for. Their steps may name the probe.
export function readPredict(graph, text) {
  const lines = linesOf(text), [, name, , now, , to] = (lines[0] || "").split(" "), isKnown = graph.numberOf.has(name);
  const kinds = needAnswer(isKnown ? withProbe(graph, graph.numberOf.get(name), [0, 0]) : graph, lines, "predict");
  const prediction = { node: graph.numberOf.get(name), now: Number(now), to: Number(to), forecasts: [], text };
  let owed = 0;
  kinds.forEach((kind, index) => {
    const line = lines[index + 1];
    if ((!index && kind !== "forecast") || (kind === "why") !== owed > 0) throw new BadText(index + 2, CAUSE);
    owed = kind === "cycle" ? Number(line.slice(6)) : kind === "why" ? owed - 1 : owed;
    takeForecastLine(graph, prediction, kind, line, index + 2);
  });
  if (owed) throw new BadText(lines.length + 1, CAUSE);
  return prediction;
}

function takeForecastLine(graph, prediction, kind, line, at) {
  const words = line.split(" "), { forecasts } = prediction, last = forecasts[forecasts.length - 1];
  if (kind === "forecast") forecasts.push(forecastOf(prediction, words, at));
  else if (kind === "at") {
    last.trace.set(graph.numberOf.get(words[1]), Number(words[2]));
    last.stepsAt = at + 1;
  } else last.steps.push(line);
}

function forecastOf({ node, now, to }, [, hypothesis, , set, outlook, time], at) {
  const said = { hypothesis: Number(hypothesis), set, outlook, time: time === undefined ? null : Number(time) };
  return { ...said, trace: new Map(), steps: [], at, stepsAt: at + 1, node, now, to };
}

// The report of each vehicle, as a text, and for each failure mode how many vehicles may have it. `parts` are the lines of a vehicle, a stray
// line or a failure mode, each with the kinds of the lines after it.
export function readFleet(graph, text) {
  const lines = linesOf(text), shapes = fleetShapes(graph), fleet = { vehicles: new Map(), strays: [], modes: [], parts: [] };
  let taking = null;
  if (!lines.length || shapes.kind(lines[0]) !== "vehicle") throw new BadText(1, CAUSE);
  lines.forEach((line, index) => {
    const words = line.split(" "), kind = shapes.kind(line);
    if (kind === null) throw new BadText(index + 1, CAUSE);
    if (!BEGINS.includes(kind)) {
      fleet.parts[fleet.parts.length - 1].kinds.push(kind);
      if (taking) taking.push(line);
      return;
    }
    fleet.parts.push({ at: index + 1, begin: kind + " " + words[1], kinds: [] });
    if (kind === "vehicle" && !fleet.vehicles.has(words[1])) fleet.vehicles.set(words[1], []);
    else if (kind === "stray") fleet.strays.push(Number(words[1]));
    else if (kind === "mode") fleet.modes.push({ node: graph.numberOf.get(words[1]), vehicles: Number(words[3]) });
    taking = kind === "vehicle" ? fleet.vehicles.get(words[1]) : null;
  });
  return fleet;
}

// The own lines of a vehicle: what stands after its name and a space in the lines of the stream that belong to it.
export function ownLines(stream, name) {
  const own = linesOf(stream).filter(line => line.startsWith(name + " ") && line.length <= LIMITS.LONGEST_LINE);
  return own.map(line => line.slice(name.length + 1));
}

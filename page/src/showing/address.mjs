// The address: round, set, tab and times stand after its #, so that a reload, a bookmark and the keys of the browser bring them back.
import { byId } from "./elements.mjs";
import { clockWords, startOf } from "../reading/times.mjs";
import { openVehicle } from "./files.mjs";
import { setText } from "../reading/hypotheses.mjs";
import { tabShown } from "./head.mjs";
import { change, state, whenChanged } from "./state.mjs";

let reads = false; // whether the page takes over what the address says, and so leaves it alone
let written = { text: null, rest: null }; // the address that was written last, and the same without its round

export async function prepareAddress() {
  await readAddress();
  whenChanged(writeAddress);
  writeAddress();
  addEventListener("popstate", readAddress);
}

function saidNow() {
  const { chosen, units, table, graph, vehicle, marked, report } = state, said = new URLSearchParams();
  if (vehicle) said.set("vehicle", vehicle);
  if (report && report.rounds.length) said.set("round", state.round + 1);
  if (chosen !== null && table[chosen]) said.set("set", setText(graph, table[chosen]));
  said.set("tab", tabShown());
  if (marked && marked.node !== undefined) said.set("node", graph.nodes[marked.node].name);
  if (units.start) said.set("start", clockWords(units.start));
  if (units.unit !== "clock") said.set("times", units.unit);
  return said;
}

// A run of rounds is one entry of the history of the browser, so that one step back leaves it.
function writeAddress() {
  if (reads || state.isQuiet) return;
  const said = saidNow(), text = "#" + said;
  said.delete("round");
  const rest = String(said), isSame = text === location.hash, isRun = written.rest === rest && written.wasRun, isFirst = written.text === null;
  if (!isSame) history[isFirst || isRun ? "replaceState" : "pushState"](null, "", text);
  written = { text, rest, wasRun: written.rest === rest && !isFirst };
}

async function readAddress() {
  const said = new URLSearchParams(location.hash.slice(1));
  if (location.hash.length < 2) return;
  reads = true;
  const vehicle = said.get("vehicle");
  if (state.fleet && vehicle !== state.vehicle && state.fleet.vehicles.has(vehicle)) await openVehicle(vehicle, said.get("tab"));
  change(valuesOf(said));
  byId("unit").value = state.units.unit;
  byId("start").value = state.units.start ? clockWords(state.units.start) : "";
  reads = false;
  written = { text: location.hash, rest: null };
}

// The values that the address says. What it does not say, or what is none, is as at first.
function valuesOf(said) {
  const { report, table, graph } = state, rounds = report ? report.rounds.length : 0, number = Number(said.get("round"));
  const round = Number.isInteger(number) && number >= 1 && number <= rounds ? number - 1 : Math.max(0, rounds - 1);
  const chosen = said.has("set") ? table.findIndex(hypothesis => setText(graph, hypothesis) === said.get("set")) : -1;
  const node = graph.numberOf.get(said.get("node")), start = startOf(said.get("start") || "0:00");
  const units = { unit: said.get("times") === "milliseconds" ? "milliseconds" : "clock", start: start === null ? 0 : start };
  return { round, chosen: chosen < 0 ? null : chosen, tab: said.get("tab") || state.tab, marked: node === undefined ? null : { node }, units,
    forecast: null };
}

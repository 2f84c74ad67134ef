// The title, the slider over the rounds, and the tabs.
import { byId, element, foreign, isolated } from "./elements.mjs";
import { timeWords } from "../reading/times.mjs";
import { charactersOf } from "../reading/texts.mjs";
import { startOf } from "../reading/times.mjs";
import { askPanel, fleetPanel, predictPanel } from "./answerpanels.mjs";
import { comparePanel } from "./compare.mjs";
import { graphPanel, logPanel, reportPanel } from "./lines.mjs";
import { logLink } from "./links.mjs";
import { nodePanel } from "./node.mjs";
import { rankingPanel } from "./ranking.mjs";
import { setsPanel } from "./sets.mjs";
import { whyPanel } from "./why.mjs";
import { change, goTo, show, state, view, whenChanged } from "./state.mjs";

const TABS = {
  fleet: { panel: fleetPanel, isThere: () => state.fleet },
  ranking: { panel: rankingPanel, isThere: () => state.report },
  why: { panel: whyPanel, title: "why not", isThere: () => state.report },
  sets: { panel: setsPanel, isThere: () => state.report },
  compare: { panel: comparePanel, isThere: () => state.report && state.other },
  ask: { panel: askPanel, isThere: () => state.ask },
  predict: { panel: predictPanel, isThere: () => state.predictions.length },
  node: { panel: nodePanel, title: "nodes", isThere: () => true },
  log: { panel: logPanel, isThere: () => state.log },
  report: { panel: reportPanel, isThere: () => state.report },
  graph: { panel: graphPanel, isThere: () => true }
};

export function prepareHead() {
  byId("round").addEventListener("input", event => goTo(Number(event.target.value) - 1));
  byId("back").addEventListener("click", () => goTo(state.round - 1));
  byId("forth").addEventListener("click", () => goTo(state.round + 1));
  byId("last-change").addEventListener("click", () => goToChange(-1));
  byId("next-change").addEventListener("click", () => goToChange(1));
  byId("unit").addEventListener("change", event => change({ units: { ...state.units, unit: event.target.value } }));
  byId("start").addEventListener("change", takeStart);
  whenChanged(drawHead);
  whenChanged(drawPanel);
}

function takeStart(event) {
  const text = event.target.value, start = text.trim() === "" ? 0 : startOf(text);
  event.target.setCustomValidity(start === null ? "a time of day, such as 6:00" : "");
  if (start === null) event.target.reportValidity();
  else change({ units: { ...state.units, start } });
}

export function tabsThere() {
  return Object.keys(TABS).filter(tab => TABS[tab].isThere());
}

export function tabShown() {
  const tabs = tabsThere();
  return tabs.includes(state.tab) ? state.tab : tabs[0];
}

// ---- the round

// The nearest round before or after this one that says something else than the round before it, or undefined.
function changeBeside(step) {
  const { report, round } = state, changes = report ? report.changes : [];
  return step > 0 ? changes.find(index => index > round) : changes.findLast(index => index < round);
}

export function goToChange(step) {
  const index = changeBeside(step);
  if (index !== undefined) goTo(index);
}

export function roundWords(round) {
  const { graph, log, report, units } = state, entry = log.lines[round.line - 1], { ranked, covered, rejected, open } = round.counts;
  const lost = round.panels.map(panel => "panel " + panel.panel + (panel.lost === "lost" ? " was lost" : " ran out of memory"));
  return [
    element("b", {}, "round " + round.number + " of " + report.rounds.length),
    " · " + timeWords(round.now, units) + " · ",
    entry ? [logLink(round.line), " ", element("code", {}, foreign(charactersOf(entry.text), 80))] : "line " + round.line,
    graph.modes.length > 1 ? " · mode " + graph.modes[view.mode] : "",
    " · ranked " + ranked + ", covered " + covered + ", rejected " + rejected + ", open " + open,
    lost.length ? " · " + lost.join(", ") : ""
  ];
}

// What a slider says of its value: the round, its time, and its line of the log.
function valueText(round) {
  const entry = state.log.lines[round.line - 1], said = entry ? ", " + isolated(charactersOf(entry.text), 80) : "";
  return "round " + round.number + " of " + state.report.rounds.length + ", " + timeWords(round.now, state.units) + said;
}

export function titleWords() {
  const { names, vehicle } = state;
  return vehicle ? "vehicle " + vehicle : names.report || names.log || names.graph;
}

function drawHead() {
  const { report } = state, { round } = view;
  byId("title").replaceChildren(foreign(titleWords()));
  document.title = isolated(titleWords()) + " – tfpg";
  byId("rounds").hidden = !round;
  if (round) drawSlider(report.rounds.length, round);
  byId("round-words").replaceChildren(...(round ? [element("span", {}, roundWords(round))] : []));
  const main = document.querySelector("main");
  main.classList.toggle("without-log", !state.log);
  Object.assign(main.dataset, { round: round ? round.number : "", set: view.set === null ? "" : view.set, tab: tabShown() });
}

function drawSlider(count, round) {
  const slider = byId("round");
  Object.assign(slider, { min: 1, max: count, value: state.round + 1 });
  slider.setAttribute("aria-valuetext", valueText(round));
  byId("back").disabled = state.round === 0;
  byId("forth").disabled = state.round === count - 1;
  byId("last-change").disabled = changeBeside(-1) === undefined;
  byId("next-change").disabled = changeBeside(1) === undefined;
}

// ---- the tabs

function drawPanel() {
  const chosen = tabShown(), panel = byId("panel"), isSame = panel.dataset.tab === chosen;
  const top = isSame ? panel.scrollTop : 0, hadFocus = panel.contains(document.activeElement), focused = isSame ? focusedRow(panel) : null;
  drawTabs(chosen);
  panel.replaceChildren(...TABS[chosen].panel().flat(Infinity).filter(Boolean));
  panel.dataset.tab = chosen;
  panel.setAttribute("aria-labelledby", "tab-" + chosen);
  panel.scrollTop = top;
  showCurrent(panel, focused);
  if (hadFocus && !panel.contains(document.activeElement)) panel.focus({ preventScroll: true });
}

// The tabs stay the same elements as long as they are the same, so that they keep the focus.
function drawTabs(chosen) {
  const tabs = tabsThere(), shown = [...byId("tabs").children];
  if (shown.map(tab => tab.dataset.tab).join() !== tabs.join()) byId("tabs").replaceChildren(...tabs.map(tabPart));
  for (const part of byId("tabs").children) {
    part.setAttribute("aria-selected", String(part.dataset.tab === chosen));
    part.tabIndex = part.dataset.tab === chosen ? 0 : -1;
  }
}

function tabPart(tab, index) {
  const attributes = { role: "tab", id: "tab-" + tab, "data-tab": tab, "aria-controls": "panel" };
  const title = index < 9 ? "key " + (index + 1) : null;
  return element("button", { ...attributes, title, click: () => show(tab) }, TABS[tab].title || tab);
}

// The row of the panel that has the focus, by what tells it from others, so that it has it again when the panel is drawn anew.
function focusedRow(panel) {
  const row = document.activeElement;
  if (!panel.contains(row) || !row.matches("[data-hypothesis], [data-vehicle], [data-line]")) return null;
  const [name] = ["data-hypothesis", "data-vehicle", "data-line"].filter(attribute => row.hasAttribute(attribute));
  return row.localName + "[" + name + "=" + CSS.escape(row.getAttribute(name)) + "]";
}

function showCurrent(panel, focused) {
  const line = panel.querySelector(".lines [aria-current=true]"), row = panel.querySelector("tr[aria-selected=true]");
  if (line) panel.scrollTop = line.offsetTop - panel.offsetTop - panel.clientHeight / 3;
  if (row && row.offsetParent) panel.scrollTop = scrollFor(panel, row);
  const again = focused && panel.querySelector(focused);
  if (again) again.focus({ preventScroll: true });
}

// Where the panel is scrolled to, so that a row is in it. The page itself is not scrolled.
function scrollFor(panel, row) {
  const [place, here] = [panel, row].map(one => one.getBoundingClientRect());
  if (here.top < place.top) return panel.scrollTop + here.top - place.top;
  return here.bottom > place.bottom ? panel.scrollTop + here.bottom - place.bottom : panel.scrollTop;
}

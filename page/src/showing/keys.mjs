// What keys, buttons and files do.
import { byId } from "./elements.mjs";
import { fit, lookAt, moveInDrawing, nodesThatMatter, saveDrawing, showOtherDrawing } from "./drawing.mjs";
import { openFiles, saveTexts } from "./files.mjs";
import { goToChange, tabsThere } from "./head.mjs";
import { lookAtPanel } from "./links.mjs";
import { choose, goTo, markNode, show, state, view } from "./state.mjs";
import { scrollTracks } from "./tracks.mjs";

const ACTIONS = {
  ArrowLeft: () => goTo(state.round - 1),
  ArrowRight: () => goTo(state.round + 1),
  Home: () => goTo(0),
  End: () => goTo(Infinity),
  ArrowUp: () => chooseBeside(-1),
  ArrowDown: () => chooseBeside(1),
  n: () => goToChange(1),
  p: () => goToChange(-1),
  "/": () => byId("find").focus(),
  f: fit,
  a: () => lookAt(nodesThatMatter())
};

export function prepareKeys() {
  document.addEventListener("keydown", takeKey);
  byId("fit").addEventListener("click", fit);
  byId("part").addEventListener("click", showOtherDrawing);
  byId("save-drawing").addEventListener("click", saveDrawing);
  byId("near").addEventListener("click", () => lookAt(nodesThatMatter()));
  byId("only").addEventListener("change", event => byId("drawing").classList.toggle("only", event.target.checked));
  byId("find").addEventListener("change", event => find(event.target.value.trim()));
  byId("open").addEventListener("change", event => openFiles([...event.target.files]));
  byId("save").addEventListener("click", saveTexts);
  addEventListener("dragover", event => event.preventDefault());
  addEventListener("drop", event => {
    event.preventDefault();
    openFiles([...event.dataTransfer.files]);
  });
}

function takeKey(event) {
  const { target, key } = event;
  if (event.ctrlKey || event.altKey || event.metaKey) return;
  if (key === "Escape") target.blur();
  else if (takesInside(target, key)) return event.preventDefault();
  else if (isActivated(target, key)) target.dispatchEvent(new MouseEvent("click", { bubbles: true }));
  else if ((key === "Enter" || key === " ") && target.classList.contains("button")) byId("open").click();
  else if (/^(INPUT|SELECT|TEXTAREA)$/.test(target.tagName)) return;
  else if (Object.hasOwn(ACTIONS, key) && !scrolls(target, key)) ACTIONS[key]();
  else if (/^[1-9]$/.test(key) && tabsThere()[key - 1]) show(tabsThere()[key - 1]);
  else return;
  event.preventDefault();
}

function isActivated(target, key) {
  if (key === "Enter") return target.matches(".link, [role=option], .lines [data-round], #drawing .node, #drawing .edge");
  return key === " " && target.matches("[role=option], #drawing .node, #drawing .edge");
}

// Whether a key moves the focus within the tabs, a list box or the drawing, or scrolls the tracks.
function takesInside(target, key) {
  if (target.matches("[role=tab]")) return moveAmong([...byId("tabs").children], target, key, ["ArrowLeft", "ArrowRight"], tab => tab.click());
  if (target.matches("[role=option]")) {
    const options = [...target.parentElement.children], follows = target.parentElement.dataset.follows;
    return moveAmong(options, target, key, ["ArrowUp", "ArrowDown"], row => { if (follows) row.click(); });
  }
  if (target.id === "tracks") return scrollTracks(key);
  return target.matches("#drawing .node, #drawing .edge") && moveInDrawing(target, key);
}

// Moves the focus to the part before or after, or to the first or the last, and says whether the key does so.
function moveAmong(parts, here, key, [back, forth], act) {
  const place = parts.indexOf(here), last = parts.length - 1;
  const places = { [back]: Math.max(0, place - 1), [forth]: Math.min(last, place + 1), Home: 0, End: last };
  if (!Object.hasOwn(places, key)) return false;
  const next = parts[places[key]];
  here.tabIndex = -1;
  next.tabIndex = 0;
  next.focus();
  act(next);
  return true;
}

// In a text that is longer than its place, up and down go through the text.
function scrolls(target, key) {
  return /^(ArrowUp|ArrowDown|Home|End)$/.test(key) && target.id === "panel" && state.tab !== "ranking";
}

function chooseBeside(step) {
  if (!view.round || !view.round.ranked.length) return;
  const { ranked } = view.round, place = ranked.indexOf(view.ranked);
  const next = place < 0 ? 0 : Math.max(0, Math.min(place + step, ranked.length - 1));
  choose(ranked[next].hypothesis);
}

// The node of this name, or the first whose name has this part.
function find(words) {
  const { graph } = state, part = words.toLowerCase(), said = byId("found");
  const node = graph.nodes.find(({ name }) => name === words) || graph.nodes.find(({ name }) => name.toLowerCase().includes(part));
  said.textContent = words && !node ? "no node has “" + words + "” in its name" : "";
  if (!words || !node) return;
  markNode(node.name);
  lookAt([node.number]);
  lookAtPanel();
}

// Makes elements of the document. All words become text, never markup.
import { shown } from "../reading/texts.mjs";

const SVG = "http://www.w3.org/2000/svg";
const NUMBERS = new Set(["#", "no.", "cost", "rounds", "ranked", "vehicles"]); // columns of numbers stand to the right

export function byId(id) {
  return document.getElementById(id);
}

// An element with attributes, and with children, which are words, numbers, elements, or lists of these. What is null or false is left out.
export function element(tag, attributes, ...children) {
  return filled(document.createElement(tag), attributes, children);
}

export function drawn(tag, attributes, ...children) {
  return filled(document.createElementNS(SVG, tag), attributes, children);
}

function isThere(value) {
  return value !== null && value !== undefined && value !== false;
}

function filled(made, attributes, children) {
  for (const [name, value] of Object.entries(attributes || {})) {
    if (!isThere(value)) continue;
    if (typeof value === "function") made.addEventListener(name, value);
    else made.setAttribute(name, value);
  }
  made.append(...children.flat(Infinity).filter(isThere).map(child => child instanceof Node ? child : String(child)));
  return made;
}

// Characters that are not the page's own, such as a line of a log or the name of a file: their direction touches nothing around them.
export function foreign(text, most = Infinity) {
  return element("bdi", {}, cut(shown(text), most));
}

// The same for where only a text can stand, as in a title.
export function isolated(text, most = Infinity) {
  return "\u2068" + cut(shown(text), most) + "\u2069";
}

function cut(text, most) {
  return text.length > most ? text.slice(0, most) + "… (" + (text.length - most) + " characters more)" : text;
}

// A cell of a table, of a kind if that is not null.
export function cell(kind, ...words) {
  return element("td", { class: kind }, words);
}

function headOf(head, attributes) {
  const names = head.map(name => element("th", { class: NUMBERS.has(name) ? "number" : null, scope: "col" }, name));
  return head.length ? element("thead", attributes, element("tr", {}, names)) : null;
}

export function table(attributes, head, rows) {
  return element("table", attributes, headOf(head, {}), element("tbody", {}, rows));
}

// A table of which one row is chosen, as a list box: one row is in the order of the keys, and arrows go to the others. The rows are made by
// `option`. If arrows are to choose at once, `follows` is true.
export function listBox(attributes, label, head, rows, follows = false) {
  const chosen = rows.find(row => row.getAttribute("aria-selected") === "true") || rows[0];
  if (chosen) chosen.tabIndex = 0;
  const list = { role: "listbox", "aria-label": label, "data-follows": follows ? "yes" : null };
  return element("table", { role: "none", ...attributes }, headOf(head, { "aria-hidden": "true" }), element("tbody", list, rows));
}

// A row of a list box, with the name that is read out.
export function option(attributes, name, isChosen, ...cells) {
  return element("tr", { role: "option", tabindex: "-1", "aria-selected": String(isChosen), "aria-label": name, ...attributes }, cells);
}

// A bar that is filled to a share.
export function bar(share, kind) {
  const inside = element("i", {});
  inside.style.width = Math.max(0, Math.min(100, Math.round(100 * share))) + "%";
  return element("span", { class: kind ? "bar " + kind : "bar", "aria-hidden": "true" }, inside);
}

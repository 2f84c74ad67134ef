// The map of a drawing that is larger than its place: small boxes for the nodes, and a frame round what is in sight.
import { byId, drawn } from "./elements.mjs";

const WIDE = 150, HIGH = 84; // pixels

let shown = { drawing: null, width: 0, height: 0 };

// A press on the map goes there.
export function prepareMap(go) {
  const take = event => {
    if (!event.buttons) return;
    const box = byId("map").getBoundingClientRect(), { drawing } = shown;
    go((event.clientX - box.left) / box.width * drawing.width, (event.clientY - box.top) / box.height * drawing.height);
  };
  byId("map").addEventListener("pointerdown", take);
  byId("map").addEventListener("pointermove", take);
}

// The box of the shape of a node, by its numbers: a drawing that is not shown has no box of its own.
export function boxOf(group) {
  const shape = group.querySelector("polygon, path"), words = shape.getAttribute("points") || shape.getAttribute("d");
  const numbers = words.match(/-?[\d.]+/g).map(Number), xs = numbers.filter((_, index) => index % 2 === 0), ys = numbers.filter((_, index) => index % 2);
  return { left: Math.min(...xs), right: Math.max(...xs), top: Math.min(...ys), bottom: Math.max(...ys) };
}

export function drawMap(drawing) {
  const place = byId("drawing"), map = byId("map"), { width, height, scale, nodes, picture } = drawing;
  const isLarger = place.scrollWidth > place.clientWidth + 2 || place.scrollHeight > place.clientHeight + 2;
  map.toggleAttribute("hidden", !isLarger);
  if (!isLarger) return;
  const unit = Math.min(WIDE / width, HIGH / height), shift = picture.transform.baseVal.consolidate().matrix;
  for (const [name, value] of Object.entries({ width: width * unit, height: height * unit, viewBox: "0 0 " + width + " " + height })) {
    map.setAttribute(name, value);
  }
  shown = { drawing, width, height };
  const boxes = [...nodes.values()].map(group => {
    const { left, right, top, bottom } = boxOf(group), kinds = ["alarm", "silent", "active"].filter(kind => group.classList.contains(kind));
    return drawn("rect", { class: kinds.join(" "), x: left + shift.e, y: top + shift.f, width: right - left, height: bottom - top });
  });
  const frame = { x: place.scrollLeft / scale, y: place.scrollTop / scale, width: place.clientWidth / scale, height: place.clientHeight / scale };
  map.replaceChildren(...boxes, drawn("rect", { class: "frame", ...frame, "stroke-width": 2 / unit }));
}

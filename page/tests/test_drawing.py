"""What can be read: letters of a least size, times within their boxes, colours that stand out, at several sizes and in the dark."""

from pages import ARRAY, GAUGE, PUMP, RELAY

SIZES = ((1400, 900), (2560, 1440), (390, 844))
LEAST = 11  # pixels
SMALLEST = """
const root = [...document.querySelectorAll("#drawing > svg")].find(one => getComputedStyle(one).display !== "none");
const scale = root.getBoundingClientRect().width / root.viewBox.baseVal.width;
const sizes = [...root.querySelectorAll("text")].filter(one => one.textContent.trim()).map(one => parseFloat(getComputedStyle(one).fontSize) * scale);
return [sizes.length, Math.min(...sizes)];
"""
OVERFLOWING = """
const root = [...document.querySelectorAll("#drawing > svg")].find(one => getComputedStyle(one).display !== "none"), bad = [];
let count = 0;
for (const group of root.querySelectorAll("g.node")) {
  const box = group.querySelector("polygon, ellipse, path").getBBox();
  for (const text of [...group.querySelectorAll("text")].filter(one => one.textContent.trim())) {
    const here = text.getBBox();
    count++;
    if (here.x < box.x - 0.5 || here.x + here.width > box.x + box.width + 0.5) bad.push(group.dataset.node + ": " + text.textContent);
  }
}
return [count, bad];
"""
# The contrast of each text that is seen, against what is painted below it. A ground that is partly seen through is mixed with the one below.
FAINT = r"""
const numbers = text => text.match(/[\d.]+/g).map(Number);
const mixed = (over, under) => over.slice(0, 3).map((value, index) => value * over[3] + under[index] * (1 - over[3]));
const opaque = (colour, opacity) => { const [r, g, b, a = 1] = numbers(colour); return [r, g, b, a * opacity]; };
const light = colour => {
  const [r, g, b] = colour.map(value => value / 255).map(value => value <= 0.04045 ? value / 12.92 : ((value + 0.055) / 1.055) ** 2.4);
  return 0.2126 * r + 0.7152 * g + 0.0722 * b;
};
const opacityOf = one => { let all = 1; for (let part = one; part; part = part.parentElement) all *= Number(getComputedStyle(part).opacity); return all; };
const groundOf = (one, x, y) => {
  const layers = document.elementsFromPoint(x, y), painted = [];
  for (const layer of layers) {
    if (layer === one || one.contains(layer) || layer.closest("#map, #tip") || layer instanceof SVGLineElement) continue;
    const style = getComputedStyle(layer), isShape = layer instanceof SVGGeometryElement;
    const colour = isShape ? style.fill : layer instanceof SVGElement ? "none" : style.backgroundColor;
    if (colour !== "none" && colour !== "transparent") painted.push(opaque(colour, opacityOf(layer)));
  }
  const canvas = numbers(getComputedStyle(document.body).backgroundColor);
  return painted.reverse().reduce((under, over) => mixed(over, under), canvas.slice(0, 3));
};
const walker = document.createTreeWalker(document.body, NodeFilter.SHOW_TEXT), found = [];
let count = 0;
for (let text = walker.nextNode(); text; text = walker.nextNode()) {
  const one = text.parentElement;
  if (!text.data.trim() || one.closest("script, style, template, noscript, datalist, option, title, #sheet, [disabled]")) continue;
  const range = document.createRange();
  range.selectNodeContents(text);
  const box = range.getBoundingClientRect(), x = box.x + box.width / 2, y = box.y + box.height / 2;
  if (!box.width || x < 0 || y < 0 || x > innerWidth || y > innerHeight) continue;
  const style = getComputedStyle(one), top = document.elementFromPoint(x, y);
  if (style.visibility === "hidden" || !top) continue;
  const isClear = top === one || one.contains(top) || top.contains(one) || style.pointerEvents === "none" || one instanceof SVGElement;
  if (!isClear) continue;
  if (one instanceof SVGElement && !one.ownerSVGElement.contains(top) && top !== one.ownerSVGElement) continue;
  const hasHalo = style.paintOrder.startsWith("stroke") && style.stroke !== "none"; // a sign that has its own ground round it
  const ground = hasHalo ? opaque(style.stroke, 1).slice(0, 3) : groundOf(one, x, y), ink = mixed(opaque(one instanceof SVGElement ? style.fill : style.color, opacityOf(one)), ground);
  const [high, low] = [light(ink), light(ground)].sort((a, b) => b - a), contrast = (high + 0.05) / (low + 0.05);
  count++;
  if (contrast < 4.5) found.push(contrast.toFixed(2) + " " + text.data.trim().slice(0, 40));
}
return [count, [...new Set(found)]];
"""


def letters_of_the_drawing_can_be_read(view):
    try:
        for width, height in SIZES:
            for files in (PUMP, RELAY):
                view.at_size(width, height)
                view.show(*files)
                count, smallest = view.run(SMALLEST)
                view.same((count > 20, smallest >= LEAST - 0.05), (True, True), f"{files[2].name} at {width} x {height}: {count} texts, the smallest {smallest} px")
                for _ in range(5):
                    view.click("#smaller")
                view.click("#fit")
                view.same(view.run(SMALLEST)[1] >= LEAST - 0.05, True, f"the smallest text of {files[2].name} after it was made smaller")
    finally:
        view.as_usual()


def a_drawing_that_is_larger_than_its_place_has_a_map(view):
    try:
        view.at_size(390, 844)
        view.show(*RELAY)
        view.same(view.run("return [...document.querySelectorAll('#map rect:not(.frame)')].length"), len(view.values("#drawing > svg:not(.other) g.node", "node")), "the boxes of the map")
        view.same(view.count("#map rect.alarm"), 2, "boxes of alarms")
        high = view.run("return document.querySelector('#drawing').getBoundingClientRect().height")
        view.same(high >= 400, True, f"how high the place of the graph is on a phone: {high} px")
        view.run("document.querySelector('#drawing').scrollTo(0, 0)")
        view.wait("return document.querySelector('#map .frame').getAttribute('y') === '0'")
        view.run("document.querySelector('#drawing').scrollTo(0, 9999)")
        view.wait("return Number(document.querySelector('#map .frame').getAttribute('y')) > 20")
        view.at_size(2560, 1440)
        view.show(*PUMP)
        view.same(view.run("return document.querySelector('#map').hasAttribute('hidden')"), True, "the map of a drawing that is whole in sight")
    finally:
        view.as_usual()


def what_is_active_is_in_sight_at_first(view):
    inside = """
    const place = document.querySelector("#drawing").getBoundingClientRect(), node = document.querySelector("#drawing > svg:not(.other) g.node.active").getBoundingClientRect();
    return node.right > place.left && node.left < place.right && node.bottom > place.top && node.top < place.bottom;
    """
    try:
        for width, height in SIZES:
            view.at_size(width, height)
            view.show(*RELAY)
            view.same(view.run(inside), True, f"an active node is in sight at {width} x {height}")
    finally:
        view.as_usual()


def times_stand_within_their_boxes(view):
    """Also as a time of day that is that of the next day, and in milliseconds."""
    for files in (PUMP, RELAY, ARRAY):
        view.show(*files)
        for start, unit in (("0:00", "clock"), ("23:59:59", "clock"), ("0:00", "milliseconds")):
            view.fill("#start", start)
            view.fill("#unit", unit)
            count, overflowing = view.run(OVERFLOWING)
            view.same((count > 15, overflowing), (True, []), f"texts over their boxes in {files[2].name} with {start} and {unit}")


def all_text_stands_out_from_its_ground(view):
    try:
        for scheme in ("light", "dark"):
            view.in_scheme(scheme)
            for files in (PUMP, RELAY, GAUGE):
                view.at_size(2560, 1440)
                view.show(*files)
                for tab in view.values("[role=tab]", "tab"):
                    view.open_tab(tab)
                    count, faint = view.run(FAINT)
                    view.same((count > 60, faint), (True, []), f"faint texts of {files[2].name}, tab {tab}, {scheme}")
    finally:
        view.as_usual()


def the_dark_scheme_is_dark(view):
    try:
        view.show(*PUMP)
        view.in_scheme("dark")
        view.same(view.run("return getComputedStyle(document.body).backgroundColor"), "rgb(21, 24, 28)", "the ground in the dark")
        view.in_scheme("dark", "print")
        view.same(view.run("return getComputedStyle(document.body).backgroundColor"), "rgb(255, 255, 255)", "the ground of paper")
    finally:
        view.as_usual()

"""What a reader of a page sees and does. All names that the tests read on a page stand here."""

import base64
import re
import time

from selenium.webdriver.common.keys import Keys

from browser import Browser
from expecting import Expecting
from pages import Maker

KEYS = {
    "left": Keys.ARROW_LEFT, "right": Keys.ARROW_RIGHT, "up": Keys.ARROW_UP, "down": Keys.ARROW_DOWN, "Home": Keys.HOME, "End": Keys.END,
    "Enter": Keys.ENTER, "Tab": Keys.TAB, "Escape": Keys.ESCAPE,
}  # fmt: skip
TEXTS = "return [...document.querySelectorAll(arguments[0])].map(e => e.textContent)"
VALUES = "return [...document.querySelectorAll(arguments[0])].map(e => e.dataset[arguments[1]])"
SHOWN = """
const drawings = [...document.querySelectorAll("#drawing > svg")];
return drawings.filter(one => getComputedStyle(one).display !== "none").map(one => one.dataset.drawing);
"""
CLICK = """
const one = document.querySelectorAll(arguments[0])[arguments[1]];
if (!one) throw new Error("nothing to click: " + arguments[0]);
one.scrollIntoView({block: "center"});
one.dispatchEvent(new MouseEvent("click", {bubbles: true}));
"""
FILL = """
const one = document.querySelector(arguments[0]);
one.value = arguments[1];
for (const kind of ["input", "change"]) one.dispatchEvent(new Event(kind, {bubbles: true}));
"""
MARK = """
window.marked = document.querySelector("#panel").firstChild;
return document.querySelector("#problems").textContent;
"""
CHANGED = """
const problems = document.querySelector("#problems").textContent;
return document.querySelector("#panel").firstChild !== window.marked || problems !== arguments[0];
"""


def plain(text):
    """The text with one space for each run of blanks."""
    return re.sub(r"\s+", " ", text or "").strip()


class View(Browser, Expecting):
    def __init__(self, script, folder):
        saved = folder / "saved"
        saved.mkdir()
        self.maker = Maker(script, folder)
        Browser.__init__(self, saved)
        Expecting.__init__(self)

    def show(self, *words):
        """Shows the page that the script makes of these words, and its last round."""
        self.faults()
        self.load_right(self.maker.page(*words))

    def load_right(self, page):
        self.same(self.load(page), True, "the page has read its texts")

    # ---- what stands there

    def text(self, selector):
        return plain(self.run("const e = document.querySelector(arguments[0]); return e && e.textContent", selector))

    def texts(self, selector):
        return [plain(text) for text in self.run(TEXTS, selector)]

    def values(self, selector, key):
        return self.run(VALUES, selector, key)

    def count(self, selector):
        return len(self.run(TEXTS, selector))

    def nodes(self, sign):
        """The nodes of the drawing that is shown with this class, sorted."""
        return sorted(self.values(f"{self.drawing()} g.node.{sign}", "node"))

    def edges(self, sign):
        return sorted(self.values(f"{self.drawing()} g.edge.{sign}", "edge"))

    def drawing(self):
        return f"#drawing > svg[data-drawing={self.shown_drawings()[0]}]"

    def shown_drawings(self):
        """The drawings of the graph that are shown, of the whole or of a part."""
        return self.run(SHOWN)

    def main(self, key):
        return self.values("main", key)[0]

    def ranking(self):
        """The ranked sets with cost and alarms."""
        columns = self.values("#ranking tr[data-set]", "set"), self.texts("#ranking .cost"), self.texts("#ranking .alarms")
        return list(zip(*(column[-len(columns[0]) :] for column in columns)))

    def history(self):
        """What the history of the chosen set says of each node."""
        return dict(zip(self.values("#history li[data-node]", "node"), self.texts("#history li[data-node]")))

    def address(self):
        """What stands after the # of the address."""
        return self.run("return decodeURIComponent(location.hash)")

    def ready(self):
        """Waits until a page that is loaded anew has read its texts."""
        self.wait("return document.documentElement.dataset.ready === 'yes'")

    def accessible(self, role):
        """The parts of this role, as the browser says them to a screen reader: the name and the properties of each."""
        said = lambda node, key: node.get(key, {}).get("value", "")
        properties = lambda node: {one["name"]: one["value"].get("value") for one in node.get("properties", [])}
        nodes = self.command("Accessibility.getFullAXTree")["nodes"]
        return [(said(node, "name"), properties(node)) for node in nodes if not node.get("ignored") and said(node, "role") == role]

    def verdict(self):
        return self.values("#badge", "verdict")[0]

    def statuses(self):
        """The status of each set, of all that the panel of sets lists."""
        return dict(zip(self.values("#sets tr[data-set]", "set"), self.values("#sets tr[data-set]", "status")))

    def contradictions(self):
        """What each contradiction says, in one line with its case or by itself, by its line of the report."""
        both = "#refutation .contradiction, #refutation .contradiction-line"
        found = zip(self.values(both, "line"), self.texts(both))
        return {int(line): text for line, text in found}

    # ---- what one does

    def click(self, selector, number=0):
        self.run(CLICK, selector, number)

    def fill(self, selector, value):
        self.run(FILL, selector, value)

    def press(self, *keys):
        body = self.driver.find_element("tag name", "body")
        for key in keys:
            body.send_keys(KEYS.get(key, key))

    def press_there(self, *keys):
        """Presses keys where the focus is."""
        for key in keys:
            self.driver.switch_to.active_element.send_keys(KEYS.get(key, key))

    def focus(self, selector):
        self.run("document.querySelector(arguments[0]).focus()", selector)

    def at_size(self, width, height):
        """Another size of the window, as that of a phone if it is narrow."""
        self.command("Emulation.setDeviceMetricsOverride", width=width, height=height, deviceScaleFactor=1, mobile=width < 600)

    def in_scheme(self, scheme, media=""):
        self.command("Emulation.setEmulatedMedia", media=media, features=[{"name": "prefers-color-scheme", "value": scheme}])

    def as_usual(self):
        """The usual size and colours of the window."""
        self.command("Emulation.setEmulatedMedia", media="", features=[])
        self.command("Emulation.clearDeviceMetricsOverride")

    def go_to(self, number):
        """Goes to the round of this number."""
        self.run("Page.goTo(Page.state.report.rounds.findIndex(round => round.number === arguments[0]))", number)
        self.same(self.main("round"), str(number), "the chosen round")

    def open_tab(self, tab):
        self.click(f"[role=tab][data-tab={tab}]")
        self.same(self.main("tab"), tab, "the chosen tab")

    def choose(self, text):
        """Chooses the set that a report writes so."""
        self.open_tab("sets")
        self.fill("#set-filter", "")
        self.click(f"#sets tr[data-set='{text}']")
        self.same(self.main("set"), text, "the chosen set")

    def why_not(self, text):
        """Opens all that the refutation of the set says."""
        self.choose(text)
        self.open_tab("why")
        self.open_all()

    def open_all(self):
        """Opens all cases, if they are so many that they are not open at first."""
        self.run("const all = document.querySelector('#open-all'); if (all) all.click()")

    def quiet(self):
        self.same(self.faults(), [], "what the console says")

    # ---- files

    def open_files(self, *paths):
        """Chooses these files in the dialog."""
        self.changing(lambda: self.driver.find_element("css selector", "#open").send_keys("\n".join(map(str, paths))))

    def open_texts(self, texts):
        """Opens texts by name, as if they were files that were chosen."""
        files = "arguments[0].map(([name, text]) => new File([Uint8Array.from(atob(text), c => c.charCodeAt(0))], name))"
        packed = [[name, base64.b64encode(text).decode()] for name, text in texts]
        self.driver.execute_async_script(f"Page.open({files}).then(arguments[1], arguments[1])", packed)

    def drop(self, *paths):
        """Drops these files on the page, as a file manager does."""
        data = {"items": [], "files": list(map(str, paths)), "dragOperationsMask": 1}
        self.changing(lambda: [
            self.command("Input.dispatchDragEvent", type=kind, x=500, y=400, data=data) for kind in ("dragEnter", "dragOver", "drop")
        ])  # fmt: skip

    def changing(self, act):
        """Acts, and waits until what the page carries or says of it has changed."""
        before = self.run(MARK)
        act()
        self.wait(CHANGED, before)
        self.wait("return document.documentElement.dataset.ready === 'yes'")

    def until(self, holds, seconds=20):
        """Waits until something holds, for so many seconds at most."""
        begun = time.monotonic()
        while not holds() and time.monotonic() < begun + seconds:
            time.sleep(0.02)

    def saved_texts(self, names):
        """Saves all texts, and reads those of these names."""
        for path in self.saved.iterdir():
            path.unlink()
        self.click("#save")
        self.until(lambda: {path.name for path in self.saved.iterdir()} == set(names))
        return [(self.saved / name).read_bytes() if (self.saved / name).exists() else None for name in names]

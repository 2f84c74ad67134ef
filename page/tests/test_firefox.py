"""The main things of the page in Firefox, where it is there."""

from firefox import Firefox
from pages import CHECK, PUMP, RELAY
from test_forged import forged_report, named
from tools import FIREFOX
from view import plain

TEXT = "return document.querySelector(arguments[0]).textContent"
VALUES = "return [...document.querySelectorAll(arguments[0])].map(e => e.dataset[arguments[1]])"
KEY = "document.activeElement.dispatchEvent(new KeyboardEvent('keydown', {key: arguments[0], bubbles: true, cancelable: true}))"
SMALLEST = """
const root = [...document.querySelectorAll("#drawing > svg")].find(one => getComputedStyle(one).display !== "none");
const scale = root.getBoundingClientRect().width / root.viewBox.baseVal.width;
return Math.min(...[...root.querySelectorAll("text")].map(one => parseFloat(getComputedStyle(one).fontSize) * scale));
"""


def pages_work_in_firefox(view):
    if not FIREFOX:
        view.leave_out("pages in Firefox: firefox-esr is not there")
        return
    firefox = Firefox(view.maker.folder)
    text = lambda selector: plain(firefox.run(TEXT, selector))
    try:
        view.same(firefox.load(view.maker.page(*RELAY, "--check", CHECK)), True, "the page has read its texts")
        view.same(firefox.run(VALUES, "#ranking tr[data-set]", "set"), ["RelayStuck"], "the ranking")
        view.same(firefox.run(VALUES, "#badge", "verdict"), ["accepted"], "the badge")
        view.same((text("#headline .lead"), text("#problems")), ("RelayStuck explains all that was seen, at cost 7.", ""), "the head")
        view.same(firefox.run(SMALLEST) >= 10.9, True, "the smallest letters of the drawing")
        firefox.run("document.querySelector('#tab-ranking').focus()")
        firefox.run(KEY, "ArrowRight")
        view.same(firefox.run("return document.activeElement.id"), "tab-why", "the focus after a key on a tab")
        firefox.run("document.activeElement.blur()")
        firefox.run(KEY, "p")
        view.same(firefox.run(VALUES, "main", "round"), ["7"], "the round at which something changed")
        view.has(firefox.run("return location.hash"), ["round=7", "tab=why"], "the address")
        view.same(firefox.load(view.maker.page(*PUMP), "#round=3&set=ValveStuck&tab=why"), True, "the page of the pump is ready")
        view.same(firefox.run(VALUES, "main", "set"), ["ValveStuck"], "the set of the address")
        forged = view.maker.page(*PUMP[:2], forged_report(view.maker, named("the best set is cut out")))
        view.same(firefox.load(forged), True, "the page of a forged report is ready")
        view.has(text("#problems"), ["do not fit together", "set 1 (FilterClogged)"], "what does not fit")
    finally:
        firefox.quit()

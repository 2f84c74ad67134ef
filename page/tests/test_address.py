"""The address keeps the round, the set, the tab and the start of the times, over a reload and for the keys of the browser."""

from pages import DATA, EXAMPLES, PUMP, RELAY


def a_reload_shows_what_was_chosen(view):
    view.show(*PUMP)
    view.go_to(4)
    view.choose("ValveStuck")
    view.open_tab("why")
    view.fill("#start", "6:00")
    view.has(view.address(), ["round=4", "set=ValveStuck", "tab=why", "start=6:00:00"], "the address")
    view.driver.refresh()
    view.ready()
    view.same([view.main(key) for key in ("round", "set", "tab")], ["4", "ValveStuck", "why"], "round, set and tab after a reload")
    view.has(view.text("#round-words"), "6:55:00", "the time of day after a reload")
    view.same(view.run("return document.querySelector('#start').value"), "6:00:00", "the field of the start")
    view.quiet()


def back_goes_to_what_was_shown_before(view):
    view.show(*PUMP)
    view.open_tab("log")
    view.open_tab("report")
    view.driver.back()
    view.same(view.main("tab"), "log", "the tab after one step back")
    view.driver.back()
    view.same(view.main("tab"), "ranking", "the tab after two steps back")
    view.driver.forward()
    view.same(view.main("tab"), "log", "the tab after a step forward")
    view.same(view.run("return document.documentElement.dataset.ready"), "yes", "the page is still there")


def a_run_of_rounds_is_one_step_back(view):
    view.show(*RELAY)
    view.open_tab("sets")
    view.press("Home", "right", "right", "right")
    view.same(view.main("round"), "4", "the round after four keys")
    view.driver.back()
    view.same((view.main("round"), view.main("tab")), ("10", "sets"), "the round and the tab before the run")


def an_address_may_be_written_by_hand(view):
    page = view.maker.page(*PUMP)
    view.driver.get(page.as_uri() + "#round=3&set=MotorBearing&tab=ranking&times=milliseconds")
    view.driver.refresh()
    view.ready()
    view.same([view.main(key) for key in ("round", "set", "tab")], ["3", "MotorBearing", "ranking"], "round, set and tab")
    view.has(view.text("#round-words"), "2,715,000 ms", "the unit")
    for words in ("round=99&set=Nobody&tab=nowhere&start=99:99", "round=-1&set=%00&node=x", "%E0%A4%A", "=&&&"):
        view.driver.get(page.as_uri() + "#" + words)
        view.driver.refresh()
        view.ready()
        view.same((view.main("round"), view.main("set")), ("6", "FilterClogged"), f"what an address shows that is none: {words}")
    view.quiet()


def a_vehicle_is_in_the_address(view):
    view.show(EXAMPLES / "pump.tfpg", EXAMPLES / "pumps.log", "--fleet", DATA / "pumps.fleet")
    view.click("#vehicles tr[data-vehicle=east]")
    view.wait("return Page.state.vehicle === 'east' && document.documentElement.dataset.ready === 'yes'")
    view.has(view.address(), "vehicle=east", "the address")
    view.driver.refresh()
    view.ready()
    view.same((view.text("#title"), view.main("set")), ("vehicle east", "ValveStuck"), "the vehicle after a reload")


def keys_and_buttons_go_to_the_next_change(view):
    """The pump says something else in round 3 than before, and then stays with the same sets. The satellite's first round is a change,
    and so are the alarm of round 4 and the silence of round 7."""
    view.show(*RELAY)
    view.same(view.run("return Page.state.report.changes.map(index => index + 1)"), [1, 4, 7], "the rounds at which something changes")
    rounds = []
    for key in ("p", "p", "p", "p", "n", "n", "n"):
        view.press(key)
        rounds.append(view.main("round"))
    view.same(rounds, ["7", "4", "1", "1", "4", "7", "7"], "the rounds by keys")
    view.click("#last-change")
    view.same(view.main("round"), "4", "the round of the button")
    view.click("#next-change")
    view.same(view.main("round"), "7", "the round of the other button")
    view.same(view.run("return document.querySelector('#next-change').disabled"), True, "there is no later change")
    view.show(*PUMP)
    view.same(view.run("return Page.state.report.changes.map(index => index + 1)"), [1, 3], "the rounds of the pump")

"""A gauge that lies: facts of the pump's second log, with one monitor that may be doubted, worked out by hand."""

from pages import GAUGE


def two_hypotheses_each_doubt_one_monitor(view):
    view.show(*GAUGE)
    wanted = [("!HighPressure", "1000", "no alarm to raise"), ("ValveStuck,!LowFlow", "1003", "1 of 3 alarms")]
    view.same(view.ranking(), wanted, "the ranking")
    view.has(view.text("#ranking tr[data-set='!HighPressure']"), ["HighPressure"], "the first set in words")
    view.same(view.nodes("doubted"), ["HighPressure"], "what the first set does not believe")
    view.same(view.nodes("active"), [], "what became active, if the gauge lies")
    view.choose("ValveStuck,!LowFlow")
    view.same(view.nodes("doubted"), ["LowFlow"], "what the second set does not believe")
    view.quiet()


def doubts_stand_in_the_list_of_sets(view):
    view.show(*GAUGE)
    view.open_tab("sets")
    statuses = view.statuses()
    view.same(len(statuses), 31, "the number of sets")
    view.same([name for name, status in statuses.items() if status == "covered"],
              ["FilterClogged,!HighPressure", "ValveStuck,!HighPressure", "MotorBearing,!HighPressure", "LevelWiring,!HighPressure"],
              "what a lying gauge covers")  # fmt: skip
    view.same(sum(status == "rejected" for status in statuses.values()), 25, "how many are rejected")


def the_valve_falls_with_the_silence_of_the_flow(view):
    view.show(*GAUGE)
    view.go_to(2)
    wanted = [("ValveStuck", "3", "1 of 4 alarms"), ("!HighPressure", "1000", "no alarm to raise")]
    view.same(view.ranking(), wanted, "the ranking before the silence")
    view.go_to(3)
    view.why_not("ValveStuck")
    view.has(view.text("#rests-on"), ["line 2", "line 3"], "what the rejection rests on")

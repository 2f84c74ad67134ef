"""Facts of the pump, worked out by hand from its graph, its log and its report."""

from pages import PUMP

# Members by rising positions: the filter 0, the valve 1, the bearing 2, the wiring 3. So the six pairs have the numbers 5 to 10.
SINGLES = ["FilterClogged", "ValveStuck", "MotorBearing"]


def nothing_failed_before_the_first_alarm(view):
    view.show(*PUMP)
    for number in (1, 2):
        view.go_to(number)
        view.same(view.values("#ranking tr[data-set]", "set"), ["-"], f"what is ranked in round {number}")
        view.same([view.nodes("alarm"), view.nodes("active"), view.edges("carried")], [[], [], []], f"the graph in round {number}")
        view.open_tab("sets")
        view.same(set(list(view.statuses().values())[1:]), {"covered"}, f"the statuses of all sets but the empty one in round {number}")
        view.open_tab("ranking")
    view.quiet()


def the_first_alarm_leaves_three_sets(view):
    view.show(*PUMP)
    view.go_to(3)
    view.has(view.text("#round-words"), ["0:45:15", "2715000 alarm LowFlow"], "the round")
    wanted = [("FilterClogged", "2", "1 of 3 alarms"), ("ValveStuck", "3", "1 of 4 alarms"), ("MotorBearing", "4", "1 of 3 alarms")]
    view.same(view.ranking(), wanted, "the ranking")
    view.same(view.nodes("alarm"), ["LowFlow"], "what has an alarm")
    view.same(view.nodes("active"), ["FilterClogged", "LowFlow", "WeakSuction"], "what is active by a clogged filter")
    view.same(view.edges("carried"), ["FilterClogged WeakSuction", "WeakSuction LowFlow"], "what carried")
    view.open_tab("sets")
    pairs = ["FilterClogged,ValveStuck", "FilterClogged,MotorBearing", "FilterClogged,LevelWiring", "ValveStuck,MotorBearing"]
    wanted = dict.fromkeys(["-", *SINGLES, "LevelWiring", *pairs, "ValveStuck,LevelWiring", "MotorBearing,LevelWiring"], "covered")
    wanted |= dict.fromkeys(SINGLES, "ranked") | dict.fromkeys(["-", "LevelWiring"], "rejected")
    view.same(view.statuses(), wanted, "the statuses")
    view.quiet()


def a_covered_set_names_what_covers_it(view):
    view.show(*PUMP)
    view.open_tab("sets")
    view.has(view.text("#sets tr[data-set='ValveStuck,LevelWiring']"), ["covered", "by ValveStuck"], "the pair with the valve")
    view.choose("MotorBearing,LevelWiring")
    view.open_tab("why")
    view.has(view.text("#panel"), ["MotorBearing"], "why the pair with the bearing is covered")
    view.same(view.count("#refutation .contradiction"), 0, "contradictions of a covered set")


def a_history_says_how_old_each_edge_was(view):
    view.show(*PUMP)
    view.go_to(6)
    history = view.history()
    nodes = ["FilterClogged", "WeakSuction", "LowFlow", "MotorStrain", "MotorHot", "LowLevel"]
    view.same(list(history), nodes, "the history of a clogged filter, by time")
    view.has(history["FilterClogged"], "0:44:14", "the filter")
    view.has(history["WeakSuction"], ["0:45:14", "1 min", "of 1 min to 10 min"], "the suction")
    view.has(history["LowFlow"], ["0:45:15", "WeakSuction", "after 1 s, of 1 s to 20 s", "line 3"], "the flow")
    view.lacks(history["LowFlow"], "MotorStrain", "the flow, which fell before the motor was strained")
    view.has(history["MotorStrain"], ["0:53:00", "after 7 min 46 s, of at least 30 s"], "the motor")
    view.has(history["MotorHot"], ["0:55:00", "after 2 min, of 2 min to 15 min", "line 4"], "the heat")
    view.has(history["LowLevel"], ["1:15:00", "after 29 min 45 s, of 5 min to 40 min", "line 6"], "the level")
    view.same(view.values("#waiting .link", "node"), [], "monitors that could alarm and have not: it reaches no other")


def the_valve_waits_for_the_pressure(view):
    view.show(*PUMP)
    view.choose("ValveStuck")
    view.open_tab("ranking")
    view.same(view.ranking()[1], ("ValveStuck", "3", "3 of 4 alarms"), "the valve's place")
    view.same(view.values("#waiting .link", "node"), ["HighPressure"], "the monitors that could alarm and have not")
    carried = ["HighPressure MotorStrain", "LowFlow LowLevel", "MotorStrain MotorHot", "ValveStuck HighPressure", "ValveStuck LowFlow"]
    view.same(view.edges("carried"), carried, "what carried")
    view.has(view.history()["HighPressure"], ["0:45:19.500", "after 5 s, of 500 ms to 5 s"], "the pressure")


def a_wire_never_lowers_the_flow(view):
    view.show(*PUMP)
    view.go_to(3)
    view.why_not("LevelWiring")
    view.same(list(view.contradictions()), [76], "lines of the contradictions")
    wanted = "Both cannot hold: LowFlow not before 0:45:15.001, and by 0:45:15 (gap 1 ms)"
    view.has(view.contradictions()[76], wanted, "the contradiction")
    view.has(view.text("#rests-on"), ["line 3", "LowFlow"], "what the rejection rests on")
    view.click("#refutation .link[data-log-line='3']")
    view.same(view.main("tab"), "log", "the tab after a link to the log")
    view.quiet()


def a_refused_line_is_marked_with_its_cause(view):
    view.show(*PUMP)
    view.open_tab("log")
    view.same(view.values("#log-lines [data-refused]", "refused"), ["TimeBack 3300000"], "refused lines")
    view.has(view.text("#log-lines [data-line='5']"), "3290000 tick", "the fifth line")
    view.same(view.values("#tracks [data-track=log] .mark", "logLine"), [str(line) for line in range(1, 8)], "the marks of the log")


def no_step_is_spoken_of_where_there_is_none(view):
    view.show(*PUMP)
    view.go_to(1)
    view.choose("-")
    view.open_tab("why")
    view.same(view.text("#meaning"), "It is in the ranking of this round.", "what is said of a ranked set without a step")
    view.has(view.text("#panel"), "No step of it stands in the report up to this round.", "what is said of its steps")

"""Facts of the two mornings of the satellite, worked out by hand from the graph, the logs and the reports."""

from pages import ARRAY, RELAY

NOT_IN_SAVING = ["ArrayLow ChargeLow", "ArrayLow SourcesLow", "BatteryLow BusLow", "BatteryLow SourcesLow", "BusLow PayloadOff",
                 "ChargeLow BatteryLow", "HeaterOn ChargeLow", "RelayStuck BusLow", "SourcesLow BusLow"]  # fmt: skip
NOT_IN_ECLIPSE = ["ArrayLow ChargeLow", "ArrayLow SourcesLow", "BatteryLow SourcesLow", "ChargerOff ChargeLow", "SourcesLow BusLow",
                  "StringOpen ArrayLow"]  # fmt: skip
NOT_IN_SUN = ["BatteryLow BusLow", "ChargeLow BatteryLow", "RelayStuck BusLow"]


def a_relay_that_sticks(view):
    view.show(*RELAY)
    view.same(view.ranking(), [("RelayStuck", "7", "2 of 2 alarms")], "the ranking of the last round")
    history = view.history()
    view.same(list(history), ["RelayStuck", "BusLow", "PayloadOff"], "the history, causes first")
    view.has(history["RelayStuck"], "0:35:00.150", "the relay")
    view.has(history["BusLow"], ["0:35:00.150", "of 0 ms to 200 ms", "Eclipse"], "the bus")
    view.has(history["BusLow"], ["line 4", "line 5", "750 ms"], "the bus, whose alarm chatters")
    view.has(history["PayloadOff"], ["0:35:00.800", "after 650 ms in mode Eclipse, of 0 ms to 2 s", "line 6", "200 ms"], "the payload")
    view.same(view.values("#waiting .link", "node"), [], "monitors that could alarm and have not")
    view.quiet()


def two_causes_meet_at_one_instant(view):
    """Before the silence of round 7 a second set explains the log: array and battery low at the end of the sunlight."""
    view.show(*RELAY)
    view.go_to(6)
    wanted = [("RelayStuck", "7", "2 of 2 alarms"), ("StringOpen,CellShort", "9", "2 of 4 alarms")]
    view.same(view.ranking(), wanted, "the ranking of round 6")
    view.choose("StringOpen,CellShort")
    view.open_tab("ranking")
    history = view.history()
    view.has(history["CellShort"], "0:34:58.900", "the cell")
    view.has(history["BatteryLow"], ["0:34:59.900", "after 1 s, of 1 s to 5 min"], "the battery")
    view.has(history["SourcesLow"], ["ArrayLow", "BatteryLow", " and ", "Sun"], "the sources, which need both")
    view.has(history["BusLow"], ["0:35:00", "after 100 ms in mode Sun, of 100 ms to 5 s"], "the bus")
    wanted = ["0:35:00.800", "after 800 ms in mode Sun and Eclipse, of 0 ms to 2 s"]
    view.has(history["PayloadOff"], wanted, "an edge that stays active over the change of mode")
    view.same(view.values("#waiting .link", "node"), ["ArrayLow", "BatteryLow"], "monitors that could alarm and have not")
    sources = ["ArrayLow SourcesLow", "BatteryLow SourcesLow", "BusLow PayloadOff", "CellShort BatteryLow"]
    view.same(view.edges("carried"), [*sources, "SourcesLow BusLow", "StringOpen ArrayLow"], "what carried")


def a_change_of_mode_holds_from_the_next_instant(view):
    view.show(*RELAY)
    for number, wanted, mode in ((3, NOT_IN_SUN, "Sun"), (4, NOT_IN_ECLIPSE, "Eclipse"), (9, NOT_IN_ECLIPSE, "Eclipse")):
        view.go_to(number)
        view.same(view.edges("off"), wanted, f"edges that are off in round {number}")
        view.has(view.text("#round-words"), mode, f"the mode of round {number}")
    view.go_to(10)
    view.same(sorted({*view.edges("off"), *view.edges("carried")}), NOT_IN_SAVING, "edges that are off in round 10, or carried before")


def a_rejected_set_has_its_tree_of_cases(view):
    """StringOpen with CellShort in round 7: six splits, thirteen contradictions, of three lines of the log."""
    view.show(*RELAY)
    view.go_to(7)
    view.why_not("StringOpen,CellShort")
    lines = [211, 214, 218, 221, 226, 229, 235, 238, 243, 246, 537, 542, 545]
    view.same(sorted(view.contradictions()), lines, "lines of the contradictions")
    view.has(view.text("#panel"), ["19 steps", "13 contradictions"], "how large it is")
    view.same(sorted(map(int, view.values("#refutation .split", "line"))), [209, 210, 217, 225, 234, 242], "lines of the splits")
    view.has(view.text("#refutation"), ["case 2 of 3: SourcesLow not active by 0:35:00"], "a case in words")
    said = view.contradictions()
    view.has(said[221], "Both cannot hold: BusLow not before 0:35:00.101, and by 0:35:00 (gap 101 ms)", "late sources")
    wanted = ["BatteryLow", "line 7", "Both cannot hold: BusLow not before 0:35:10.101, and by 0:35:00 (gap 10.101 s)"]
    view.has(said[537], wanted, "the silence of the battery")
    view.has(said[545], ["RelayStuck", "Both cannot hold: BusLow not before 0:35:10.001, and by 0:35:00.150 (gap 9.851 s)"], "no relay")
    rests = view.values("#rests-on .link[data-log-line]", "logLine")
    view.same(sorted(rests), ["2", "4", "7"], "the lines of the log on which all of it rests")
    view.quiet()


def a_rejection_has_the_round_of_its_last_step(view):
    view.show(*RELAY)
    view.open_tab("sets")
    row = "#sets tr[data-set='StringOpen,CellShort']"
    view.has(view.text(row), ["rejected", "round 7", "0:35:10"], "the set that the silence of the battery rejects")
    view.go_to(6)
    view.same(view.values(row, "status"), ["ranked"], "its status in the round before")
    view.same(view.values("#sets tr[data-set='RelayStuck,HoldupWorn']", "status"), ["covered"], "the status of a pair with the relay")


def a_string_that_comes_open_in_the_dark(view):
    view.show(*ARRAY)
    view.same(view.ranking(), [("StringOpen", "3", "2 of 4 alarms")], "the ranking of the last round")
    history = view.history()
    view.has(history["ArrayLow"], ["1:10:03", "StringOpen", "of 0 ms to 1 s", "line 6"], "the array")
    view.has(history["ChargeLow"], ["1:30:03", "after 20 min in mode Sun, of 1 min to 20 min"], "the charge")
    view.same(view.values("#waiting .link", "node"), ["BusLow", "PayloadOff"], "monitors that could alarm and have not")
    view.quiet()


def an_age_starts_anew_with_the_window(view):
    """The battery is low at 2:35:00. The edge is active in the shadow alone, which came at 2:10:00.001."""
    view.show(*ARRAY)
    said = view.history()["BatteryLow"]
    view.has(said, ["2:35:00", "after 24 min 59.999 s in mode Eclipse, of 10 min to 50 min", "line 10"], "the battery")
    view.lacks(said, "1 h 4 min", "the time since its source")


def each_silence_is_marked(view):
    """Five by the first sweep, one of the bus, four by the second sweep, one of the bus, three by the third."""
    view.show(*ARRAY)
    by_node = {"ArrayLow": 1, "BatteryLow": 2, "BusLow": 5, "PayloadOff": 3, "RadioOff": 3}
    nodes = view.values("#tracks .silence", "node")
    view.same({node: nodes.count(node) for node in sorted(set(nodes))}, by_node, "the silences")
    view.same(view.nodes("alarm"), ["ArrayLow", "BatteryLow"], "what has an alarm")
    view.same(view.nodes("silent"), ["BusLow", "PayloadOff", "RadioOff"], "what was asked and is silent")
    view.open_tab("log")
    view.same(view.values("#log-lines [data-refused]", "refused"), ["TimeBack 4203000", "NotAMode"], "refused lines")


def an_interval_of_an_alarm_ends_at_its_least_lag(view):
    """The switch of the payload reports 0.2 to 1 s late: by the alarm at 0:35:01 it opened from 0:35:00 to 0:35:00.800."""
    view.show(*RELAY)
    view.has(" ".join(view.texts("#tracks .interval[data-node=PayloadOff]")), ["0:35:00", "0:35:00.800"], "the interval of the alarm")
    view.same(view.count("#tracks .interval[data-node=BusLow]"), 2, "the intervals of a monitor that chatters")

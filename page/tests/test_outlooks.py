"""Facts of one `ask`, one `predict` and one `fleet`, worked out by hand for the pump."""

from pages import CHECK, DATA, EXAMPLES
from probed import constraints_of_forecasts
from test_reading import FORECASTS, read

GRAPH = EXAMPLES / "pump.tfpg"
ASK = (GRAPH, DATA / "pump-early.log", DATA / "pump-early.report", "--ask", DATA / "pump-early.ask")
PREDICT = (GRAPH, DATA / "pump-first.log", DATA / "pump-first.report", "--predict", DATA / "pump-first.predict")
FLEET = (GRAPH, EXAMPLES / "pumps.log", "--fleet", DATA / "pumps.fleet")


def the_pressure_is_the_best_question(view):
    """A silence of the pressure rules out the valve, and an alarm all three sets; heat and level would rule out nothing yet."""
    view.show(*ASK)
    view.open_tab("ask")
    view.same(view.values("#questions tr[data-node]", "node"), ["HighPressure", "MotorHot", "LowLevel"], "the questions, best first")
    view.same(view.texts("#questions td.silent"), ["1", "0", "0"], "what a silence rules out")
    view.same(view.texts("#questions td.alarm"), ["3", "0", "0"], "what an alarm rules out")
    view.has(view.text("#panel"), ["0:53:20", "3"], "of how many sets it is, and when")
    view.quiet()


def questions_of_another_log_are_named(view):
    """Their time is that of the last event; then there is one for each monitor without an alarm, in the order of use."""
    text, unfit = ASK[4].read_bytes(), "✗ This does not fit together with the log. "
    best = b"ask HighPressure silent 1 alarm 3 unknown 0\n"
    forged = {
        "earlier": (DATA / "pump-first.ask").read_bytes(), "less": text.replace(best, b""), "last": text.replace(best, b"") + best,
        "again": text.replace(best, best + b"ask LowFlow silent 0 alarm 0 unknown 0\n"), "more": text.replace(b"silent 1 alarm 3", b"silent 1 alarm 4"),
        "full": text.split(b"\n")[0] + b"\nrefused LogFull\n",
    }  # fmt: skip
    says = {
        "earlier": "This was made at 0:45:15, and the last event of the log is at 0:53:20.",
        "less": "HighPressure has no alarm, and there is no question about it.", "last": "The question about HighPressure does not stand in its place.",
        "again": "After this log there is no such question about LowFlow.", "more": "The question about HighPressure speaks of more sets than there are.",
    }  # fmt: skip
    for name, words in says.items():
        view.show(*ASK[:4], view.maker.write(f"{name}.ask", forged[name]))
        view.open_tab("ask")
        view.same(view.texts("#panel .refused"), [unfit + words], f"what is red of the questions called {name}")
    view.show(*ASK[:4], view.maker.write("full.ask", forged["full"]))
    view.open_tab("ask")
    view.has(" ".join(view.texts("#panel .refused")), unfit + "The log is not full.", "what is red of questions that are not asked")
    view.show(*ASK)
    view.open_tab("ask")
    view.same(view.texts("#panel .refused"), [], "what is red of the right questions")


def a_prediction_of_another_time_is_named(view):
    view.show(*PREDICT[:4], view.maker.write("late.predict", PREDICT[4].read_bytes().replace(b"now 2715000 to", b"now 2715001 to")))
    view.open_tab("predict")
    wanted = "✗ This does not fit together with the log. This was made at 0:45:15.001, and the last event of the log is at 0:45:15."
    view.same(view.texts("#panel .refused"), [wanted], "what is red of the prediction")


def the_motor_is_hot_when_the_suction_was_weakest(view):
    """The alarm at 0:45:15 leaves the flow five seconds. By the filter, the suction is weak up to 20 s before that. The motor is strained
    30 s after the suction is weak, and hot two minutes later: not before 0:47:20."""
    view.show(*PREDICT)
    view.open_tab("predict")
    view.same(view.values("#forecasts tr[data-set]", "set"), ["FilterClogged", "ValveStuck", "MotorBearing"], "the forecasts, as in the ranking")
    rows = view.texts("#forecasts tr[data-set]")
    view.has(rows[0], ["0:47:20", "2 min 5 s"], "by a clogged filter")
    view.has(rows[1], ["0:47:26.500", "2 min 11.5 s"], "by a stuck valve")
    view.has(rows[2], ["0:42:10", "3 min 5 s"], "by a dry bearing, which may have made it hot already")
    view.quiet()


def a_forecast_has_its_trace_and_its_refutation(view):
    view.show(*PREDICT)
    view.open_tab("predict")
    view.click("#forecasts tr[data-set=FilterClogged]")
    active = ["FilterClogged", "LowFlow", "LowLevel", "MotorHot", "MotorStrain", "WeakSuction"]
    view.same(view.nodes("active"), active, "what is active by the trace that attains it: the level must fall in the hour ahead")
    times = dict(zip(view.values("#history li", "node"), view.texts("#history li b")))
    wanted = {"WeakSuction": "0:44:50", "LowFlow": "0:45:10", "MotorStrain": "0:45:20", "MotorHot": "0:47:20"}
    view.same({node: times[node] for node in wanted}, wanted, "the history that attains it")
    view.lacks(view.text("#panel"), "probe.0", "the name of the probe, in words for readers")
    view.has(view.text("#panel"), ["0:47:20", "line 3"], "the evidence names the line of the log")
    view.quiet()


def a_forecast_is_of_the_last_round(view):
    """In the first round there is no alarm, and nothing need have failed; the forecasts are made after the alarm of line 3."""
    view.show(*PREDICT)
    view.go_to(1)
    view.open_tab("predict")
    view.click("#forecasts tr[data-set=FilterClogged]")
    view.same(view.main("round"), "3", "the chosen round")
    view.has(view.text("#headline"), ["3 sets can each explain all that was seen", "Alarms: LowFlow (line 3)."], "the head of the round")


def a_sheet_has_the_history_of_the_round_and_not_of_a_forecast(view):
    """By 0:45:15 a clogged filter has made the flow low, and neither the motor nor the tank shows it yet; by the forecast both will."""
    view.show(*PREDICT)
    view.open_tab("predict")
    view.click("#forecasts tr[data-set=FilterClogged]")
    view.run("dispatchEvent(new Event('beforeprint'))")
    said = view.text("#sheet ol")
    view.has(said, ["FilterClogged fails", "LowFlow active"], "the history that is printed")
    view.lacks(said, "0:47:20", "the history that is printed: the time at which the motor may get hot")
    view.run("dispatchEvent(new Event('afterprint'))")
    view.same(view.values("#history li[data-node=MotorHot]", "time"), ["2840000"], "the forecast after the print")


def show_forged_forecast(view, name, text):
    view.show(*PREDICT[:4], view.maker.write(f"{name}.predict", text))
    view.open_tab("predict")


def a_forecast_without_its_evidence_is_named(view):
    """The first one says `never`, and has lost its history and its steps; or a time that its history does not attain."""
    text = PREDICT[4].read_bytes()
    second = text.index(b"forecast 2 ")
    show_forged_forecast(view, "never", text.split(b"\n")[0] + b"\nforecast 1 set FilterClogged never\n" + text[second:])
    rows = view.texts("#forecasts tr[data-set] .refused")
    view.same(rows, ["no step shows it"], "the forecasts that are not shown, in red")
    show_forged_forecast(view, "other-time", text.replace(b"FilterClogged earliest 2840000", b"FilterClogged earliest 2840001"))
    view.same(view.texts("#forecasts tr[data-set] .refused"), ["no history attains it"], "a time that no history attains, in red")
    show_forged_forecast(view, "right", text)
    view.same(view.texts("#panel .refused"), [], "what is red of the right prediction")


def a_forecast_that_is_not_shown_is_not_said_to_be(view):
    """The steps of the third one end in its first choice. The strain of the first one begins a millisecond before its edge can carry."""
    text = PREDICT[4].read_bytes()
    third = text.index(b"split ", text.index(b"forecast 3 "))
    show_forged_forecast(view, "cut", text[: text.index(b"\n", third) + 1])
    view.click("#forecasts tr[data-set=MotorBearing]")
    wanted = "The prediction says that it is not active by 0:42:09.999, and does not show it"
    view.has(view.text("#panel"), wanted, "the title of steps that are cut off")
    view.lacks(view.text("#panel"), "Why not by", "the title of steps that are cut off")
    show_forged_forecast(view, "strain", text.replace(b"at MotorStrain 2720000", b"at MotorStrain 2719999"))
    view.click("#forecasts tr[data-set=FilterClogged]")
    wanted = "This history does not fit: MotorStrain is active at 0:45:19.999, and nothing had arrived over an edge by then."
    view.has(" ".join(view.texts("#panel .refused")), wanted, "what speaks against the history, in red")
    for name in ("FilterClogged", "ValveStuck", "MotorBearing"):
        show_forged_forecast(view, "right", text)
        view.click(f"#forecasts tr[data-set={name}]")
        view.has(view.text("#panel"), "Why not by", f"the title of the right forecast of {name}")
        view.same(view.texts("#panel .refused"), [], f"what is red of the right forecast of {name}")


def three_vehicles_and_a_stray_line(view):
    """East is left with the valve alone, north with three sets, and south with none failed; line 7 belongs to none."""
    view.show(*FLEET)
    view.open_tab("fleet")
    view.same(view.values("#vehicles tr[data-vehicle]", "vehicle"), ["east", "north", "south"], "the vehicles, the one with the most alarms first")
    rows = dict(zip(view.values("#vehicles tr[data-vehicle]", "vehicle"), view.texts("#vehicles tr[data-vehicle]")))
    view.has(rows["north"], ["FilterClogged"], "the best set of the first")
    view.has(rows["east"], ["ValveStuck"], "the best set of the third")
    counts = dict(zip(view.values("#modes tr[data-mode]", "mode"), view.texts("#modes td.number")))
    view.same(counts, {"FilterClogged": "1", "ValveStuck": "2", "MotorBearing": "1", "LevelWiring": "0"}, "vehicles by failure mode")
    view.has(view.text("#panel"), ["Stray lines of the stream: 7"], "the line that belongs to none")
    view.quiet()


def a_wrong_number_of_vehicles_is_named(view):
    """The valve stands in the last ranking of north and in that of east."""
    text = FLEET[3].read_bytes()
    assert text.count(b"mode ValveStuck vehicles 2\n") == 1
    forged = view.maker.write("stock.fleet", text.replace(b"mode ValveStuck vehicles 2\n", b"mode ValveStuck vehicles 0\n"))
    view.show(*FLEET[:3], forged)
    view.open_tab("fleet")
    view.same(view.texts("#modes .refused"), ["✗ by the last rounds it is 2"], "what is red of the numbers of vehicles")
    view.has(view.text("#modes tr[data-mode=ValveStuck]"), "0 ✗ by the last rounds it is 2", "the row of the valve")
    view.show(*FLEET)
    view.open_tab("fleet")
    view.same(view.texts("#modes .refused"), [], "what is red of the right numbers")


def an_output_that_is_not_of_its_stream_is_named(view):
    """Line 7 of the stream is stray, and line 8 is of north. Line 143 of the output has the first, and its last four are the failure modes."""
    text = FLEET[3].read_bytes()
    forged = {
        (b"stray 7\n", b"stray 8\n"): "Line 143 of the output is “stray 8”, where “stray 7” is due.",
        (b"stray 7\n", b""): "Line 143 of the output is “vehicle north”, where “stray 7” is due.",
        (b"stray 7\n", b"stray 7\nstray 12\n"): "Line 144 of the output is “stray 12”, where “vehicle north” is due.",
        (b"stray 7\n", b"stray 7\npanel 1 lost\n"): "Line 143 of the output is “stray 7”, and what stands after it is not what it begins.",
        (b"mode FilterClogged vehicles 1\n", b"mode LowFlow vehicles 0\n"):
            "Line 217 of the output is “mode LowFlow”, where “mode FilterClogged” is due.",
        (b"mode LevelWiring vehicles 0\n", b""): "The output has no more lines, where “mode LevelWiring” is due.",
        (b"mode LevelWiring vehicles 0\n", b"mode LevelWiring vehicles 0\nmode LevelWiring vehicles 0\n"):
            "Line 221 of the output is “mode LevelWiring”, where no line is due.",
    }  # fmt: skip
    for number, ((old, new), words) in enumerate(forged.items()):
        assert text.count(old) == 1
        view.show(*FLEET[:3], view.maker.write(f"unfit-{number}.fleet", text.replace(old, new)))
        view.open_tab("fleet")
        view.same(view.texts("#panel p.refused"), ["✗ The output does not fit together with the stream. " + words], f"what is red with {new}")
    view.show(*FLEET[:3], view.maker.write("running.fleet", text[: text.index(b"mode ")]))
    view.open_tab("fleet")
    view.same(view.texts("#panel .refused"), [], "what is red while the stream goes on")


def a_vehicle_may_be_called_as_a_line_begins(view):
    """Also where the stream begins with it."""
    stream, output = (EXAMPLES / "pumps.log").read_bytes(), FLEET[3].read_bytes()
    for name in (b"vehicle", b"stray", b"mode", b"report"):
        files = [view.maker.write("called.log", stream.replace(b"north ", name + b" ")),
                 view.maker.write("called.fleet", output.replace(b"vehicle north\n", b"vehicle " + name + b"\n"))]
        view.show(GRAPH, files[0], "--fleet", files[1], "--check", CHECK)
        view.open_tab("fleet")
        view.same(view.values("#vehicles tr[data-vehicle]", "vehicle"), ["east", name.decode(), "south"], "the vehicles")
        view.same(view.texts("#panel .refused"), [], f"what is red of the vehicle {name}")
        view.has(view.text(f"#vehicles tr[data-vehicle={name.decode()}]"), ["FilterClogged", "accepted 3"], f"the line of the vehicle {name}")
        view.show(GRAPH)
        view.open_files(*files)
        view.open_tab("fleet")
        view.same(view.values("#vehicles tr[data-vehicle]", "vehicle"), ["east", name.decode(), "south"], "the vehicles of files that are opened")
    view.quiet()


def a_vehicle_opens_its_own_report(view):
    view.show(*FLEET)
    view.open_tab("fleet")
    view.click("#vehicles tr[data-vehicle=east]")
    view.same(view.values("#ranking tr[data-set]", "set"), ["ValveStuck"], "the ranking of the third vehicle")
    view.same(view.nodes("alarm"), ["HighPressure", "LowFlow"], "its alarms")
    view.open_tab("log")
    view.same(view.values("#log-lines [data-refused]", "refused"), ["TimeBack 2720000"], "its own refused line")
    view.has(view.text("#log-lines [data-line='3']"), "2710000 tick", "its lines have numbers of their own")
    view.quiet()


def the_report_of_each_vehicle_is_checked(view):
    view.show(*FLEET, "--check", CHECK)
    view.open_tab("fleet")
    for vehicle in ("east", "north", "south"):
        view.open_tab("fleet")
        view.click(f"#vehicles tr[data-vehicle={vehicle}]")
        view.wait("return document.documentElement.dataset.ready === 'yes' && Page.state.vehicle === arguments[0]", vehicle)
        view.same((view.verdict(), "accepted 3" in view.text("#badge")), ("accepted", True), f"the badge of {vehicle}")


def a_vehicle_whose_name_begins_that_of_another(view):
    """South is called north2 here. A line of the stream is of the vehicle whose whole name it begins with, so north has three of its own."""
    stream, output = (EXAMPLES / "pumps.log").read_bytes(), (DATA / "pumps.fleet").read_bytes()
    files = [view.maker.write("norths.log", stream.replace(b"south ", b"north2 ")),
             view.maker.write("norths.fleet", output.replace(b"vehicle south\n", b"vehicle north2\n"))]
    view.show(GRAPH, files[0], "--fleet", files[1], "--check", CHECK)
    own = {"north": ["600000 tick", "2715000 alarm LowFlow", "3300000 alarm MotorHot"],
           "north2": ["600000 tick", "2716000 tick", "3600000 sweep"]}
    for vehicle, lines in own.items():
        view.open_tab("fleet")
        view.click(f"#vehicles tr[data-vehicle={vehicle}]")
        view.wait("return document.documentElement.dataset.ready === 'yes' && Page.state.vehicle === arguments[0]", vehicle)
        view.same(view.run("return Page.state.log.lines.map(line => line.text)"), lines, f"the own lines of {vehicle}")
        view.same((view.verdict(), "accepted 3" in view.text("#badge")), ("accepted", True), f"the badge of {vehicle}")
    view.quiet()


def each_reason_of_a_forecast_states_what_the_judge_says(view):
    view.show(*PREDICT)
    texts = [PREDICT[number].read_bytes() for number in (0, 1, 2, 4)]
    found = {int(line): constraints for line, constraints in read(view, FORECASTS, texts).items()}
    view.same(found, constraints_of_forecasts(texts[0], texts[1], texts[3]), "the reasons of the prediction of the pump")

"""Texts that are opened and dropped on a page, and saved from it byte for byte."""

import os
import subprocess

from pages import ARRAY, DATA, EXAMPLES, GAUGE, PUMP, RELAY


def another_log_and_report_of_the_graph_are_opened(view):
    view.show(*PUMP)
    view.open_files(*GAUGE[1:])
    view.same(view.values("#ranking tr[data-set]", "set"), ["!HighPressure", "ValveStuck,!LowFlow"], "the ranking")
    view.same(view.text("#problems"), "", "what does not fit")
    view.same(view.nodes("alarm"), ["HighPressure"], "what has an alarm")
    view.quiet()


def files_are_known_by_what_they_say(view):
    """The report before the log, and names that say nothing."""
    view.show(*PUMP)
    report, log = view.maker.write("one", GAUGE[2].read_bytes()), view.maker.write("two", GAUGE[1].read_bytes())
    view.open_files(report, log)
    view.same(view.values("#ranking tr[data-set]", "set"), ["!HighPressure", "ValveStuck,!LowFlow"], "the ranking")


def a_log_alone_takes_the_report_away(view):
    view.show(*PUMP)
    view.open_files(GAUGE[1])
    view.same(view.values("#badge", "verdict"), ["none"], "the badge")
    view.same(view.count("#ranking tr[data-set]"), 0, "sets of a report that is of another log")
    view.quiet()


def files_are_dropped_on_a_page(view):
    view.show(RELAY[0])
    view.drop(*RELAY[1:])
    view.same(view.values("#ranking tr[data-set]", "set"), ["RelayStuck"], "the ranking of the dropped report")
    view.drop(*ARRAY[1:])
    view.same(view.values("#ranking tr[data-set]", "set"), ["StringOpen"], "the ranking of the report dropped next")
    view.quiet()


def the_output_of_a_fleet_is_opened_beside_its_stream(view):
    """On the page of a fleet the stream stays; on one without a log nothing says what the lines of the vehicles are."""
    fleet = DATA / "pumps.fleet"
    view.show(PUMP[0], EXAMPLES / "pumps.log", "--fleet", fleet)
    view.open_files(fleet)
    view.same(view.text("#problems"), "", "what does not fit")
    view.open_tab("fleet")
    view.same(view.values("#vehicles tr[data-vehicle]", "vehicle"), ["east", "north", "south"], "the vehicles")
    view.lacks(view.text("#vehicles"), "do not fit", "the vehicles")
    view.show(PUMP[0])
    view.open_files(fleet)
    view.has(view.text("#problems"), "pumps.fleet is about a stream that is not here. Open both together", "what is said without a stream")
    view.quiet()


def another_graph_is_refused(view):
    view.show(*PUMP)
    view.open_files(EXAMPLES / "satellite.tfpg")
    view.has(view.text("#problems"), ["satellite.tfpg"], "what is said of another graph")
    view.same(view.values("#ranking tr[data-set]", "set"), ["FilterClogged", "ValveStuck", "MotorBearing"], "the ranking, as before")
    view.same(view.count("g.node"), 10, "the nodes, as before")


def a_report_of_another_log_is_said_not_to_fit(view):
    view.show(*PUMP)
    log = view.maker.write("later.log", PUMP[1].read_bytes().replace(b"4500000", b"4500001"))
    view.open_files(log, PUMP[2])
    view.has(view.text("#problems"), ["5", "4500000", "4500001"], "the round, its time and that of the line")


def a_file_that_is_none_is_refused_with_its_line(view):
    view.show(*PUMP)
    bad = view.maker.write("bad.report", PUMP[2].read_bytes().replace(b"round 3 3 2715000", b"round 3 three 2715000"))
    view.open_files(bad)
    view.has(view.text("#problems"), ["bad.report", "8"], "the file and the line of what is none")
    view.same(view.values("#ranking tr[data-set]", "set"), ["FilterClogged", "ValveStuck", "MotorBearing"], "the ranking, as before")


def all_texts_are_saved_as_they_were(view):
    view.show(*RELAY)
    view.same(view.saved_texts([path.name for path in RELAY]), [path.read_bytes() for path in RELAY], "what is saved")


def questions_and_predictions_are_saved_too(view):
    files = (PUMP[0], DATA / "pump-first.log", DATA / "pump-first.report", DATA / "pump-first.ask", DATA / "pump-first.predict")
    view.show(*files[:3], "--ask", files[3], "--predict", files[4])
    view.same(view.saved_texts([path.name for path in files]), [path.read_bytes() for path in files], "what is saved")


def same_inputs_same_bytes_in_each_locale(view):
    """Also where texts are no UTF-8 by default. Python takes the locale C as such alone if it is told so."""
    ascii_only = {**os.environ, "LC_ALL": "C", "PYTHONUTF8": "0", "PYTHONCOERCECLOCALE": "0"}
    ran = subprocess.run([view.maker.script, *RELAY], env=ascii_only, capture_output=True)
    view.same((ran.returncode, ran.stdout == view.maker.run(*RELAY)[1]), (0, True), "the status, and that the page is the same")


def same_inputs_same_bytes(view):
    pages = [view.maker.run(*RELAY)[1] for _ in range(2)]
    view.same(pages[0] == pages[1], True, "two pages of the same texts")

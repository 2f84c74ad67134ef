"""Files that are none of the page's texts: it says what they are not, and keeps what it shows."""

from pages import GAUGE, PUMP

RANKED = ["FilterClogged", "ValveStuck", "MotorBearing"]
WRONG = {
    "empty.report": (b"", "empty.report is empty"),
    "program": (b"\x7fELF\x02\x01\x01\0\0\0\0\0", "program has the byte 0"),
    "marked.report": (b"\xef\xbb\xbf" + PUMP[2].read_bytes(), "marked.report begins with a byte order mark"),
    "wide.log": ("600000 tick\n".encode("utf-16"), "wide.log begins with a byte order mark"),
    "letter.txt": (b"Dear pump,\nhow are you?\n", "letter.txt is none of the texts that tfpg reads or writes"),
    "binary": (bytes(range(1, 256)), "binary is none of the texts"),
}


def a_file_that_is_no_text_of_tfpg_is_said_to_be_none(view):
    view.show(*PUMP)
    for name, (text, said) in WRONG.items():
        view.open_texts([(name, text)])
        view.has(view.text("#problems"), ["Not opened", said], f"what is said of {name}")
        view.same(view.values("#ranking tr[data-set]", "set"), RANKED, f"the ranking after {name}")
        view.same((view.text("#title"), view.text("#command")), ("pump.report", "./tfpg check pump.tfpg pump.log < pump.report"), f"the names after {name}")
    view.quiet()


def another_log_takes_the_name_of_the_report_away(view):
    view.show(*PUMP)
    view.open_files(GAUGE[1])
    view.same(view.text("#title"), "pump-gauge.log", "the title")
    view.has(view.run("return document.title"), "pump-gauge.log", "the title of the window")
    view.same(view.text("#command"), "./tfpg check pump.tfpg pump-gauge.log < REPORT", "the command at the foot")
    view.open_files(GAUGE[2])
    view.has(view.run("return document.title"), "pump-gauge.report", "the title of the window with a report")
    view.same(view.text("#command"), "./tfpg check pump.tfpg pump-gauge.log < pump-gauge.report", "the command with a report")


def two_files_of_one_kind_are_too_many(view):
    view.show(*PUMP)
    view.open_files(PUMP[1], GAUGE[1])
    view.has(view.text("#problems"), "there are two files of the kind log", "what is said")
    view.same(view.text("#title"), "pump.report", "the title, as before")


def a_right_file_takes_the_word_away(view):
    view.show(*PUMP)
    view.open_texts([("letter.txt", b"Dear pump\n")])
    view.open_files(*GAUGE[1:])
    view.same(view.text("#problems"), "", "what does not fit")


def a_maker_refuses_a_text_with_a_byte_order_mark(view):
    for words, name in (((PUMP[0], "marked.log"), "marked.log"), ((*PUMP[:2], "marked.report"), "marked.report")):
        text = PUMP[1 if name.endswith("log") else 2].read_bytes()
        view.maker.write(name, b"\xef\xbb\xbf" + text)
        status, page, said = view.maker.run(*words)
        view.same((status, page), (1, b""), f"status and page of {name}")
        view.has(said, [f"{name} line 1", "byte order mark" if name.endswith("log") else "BadReport"], f"what is said of {name}")

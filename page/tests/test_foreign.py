"""Words that are not the page's own: they stand by themselves, show their control characters by name, and are quoted for a shell."""

import shlex
import subprocess

from pages import PUMP

OVERRIDE = "\u202e"
LOG = (OVERRIDE + "kcit 0 desufer ton si enil siht\n").encode() + b"600000 tick\n\x1b[31m red \x00 \x7f\r\n" + "\u200b\u2066\u0085\ufeff é ☃\n".encode()
# What surrounds each text that is not the page's own.
ISOLATED = """
const walker = document.createTreeWalker(document.body, NodeFilter.SHOW_TEXT), bad = [];
for (let text = walker.nextNode(); text; text = walker.nextNode()) {
  if (!/[\\u202a-\\u202e\\u2066-\\u2069\\u200e\\u200f]/.test(text.data) || text.parentElement.closest("script, style, title")) continue;
  bad.push(text.data);
}
return bad;
"""
TITLES = "return [...document.querySelectorAll('[title], svg title')].map(e => e.getAttribute('title') || e.textContent)"


def control_characters_are_shown_by_name(view):
    log = view.maker.write("controls.log", LOG)
    view.show(PUMP[0], log)
    view.open_tab("log")
    lines = view.texts("#log-lines .text")
    view.has(lines[0], "⟨U+202E right-to-left override⟩kcit 0", "the line that turns its words round")
    view.has(lines[2], ["⟨ESC⟩[31m red ⟨NUL⟩ ⟨DEL⟩⟨CR⟩"], "the line with controls")
    view.has(lines[3], ["⟨U+200B zero width space⟩⟨U+2066 left-to-right isolate⟩⟨U+0085⟩⟨U+FEFF byte order mark⟩ é ☃"], "the line of unseen signs")
    view.same(view.run(ISOLATED), [], "texts that turn the words of the page round")
    for title in view.run(TITLES):
        view.lacks(title, OVERRIDE, "a title with an override")
    view.quiet()


def lines_of_a_log_are_isolated(view):
    """Letters that are written from the right, too, touch nothing of the page."""
    hebrew = "\u05d0\u05d1\u05d2 600000"
    view.show(PUMP[0], view.maker.write("hebrew.log", hebrew.encode() + b"\n600000 tick\n"))
    view.open_tab("log")
    bidi = "return getComputedStyle([...document.querySelectorAll('#log-lines bdi')].find(e => e.textContent.includes('600000'))).unicodeBidi"
    view.same(view.run(bidi), "isolate", "how the line stands on the page")
    view.has(view.text("#log-lines [data-line='1']"), hebrew, "the line")
    marks = [title for title in view.run(TITLES) if "\u05d0" in title]
    view.same(len(marks) > 0 and all("\u2068\u05d0\u05d1\u05d2 600000\u2069" in title for title in marks), True, f"titles of marks: {marks}")


def the_name_of_a_file_is_isolated_and_quoted(view):
    """The command at the foot is one that a shell takes as it is meant."""
    names = ["it's a log; rm -rf $HOME.log", "-rf.log", f"{OVERRIDE}gol.pmup", "tab\there.log", "schön.log"]
    for name in names:
        view.show(PUMP[0], view.maker.write(name, PUMP[1].read_bytes()), view.maker.write("r.report", PUMP[2].read_bytes()))
        command = view.run("return document.querySelector('#command').textContent")
        said = subprocess.run(["bash", "-c", f"printf '%s\\n' {command.replace('< ', '')}"], capture_output=True, env={"LC_ALL": "C.UTF-8"}).stdout.decode()
        wanted = "./" + name if name[0] == "-" else name
        view.same(said.split("\n")[:5], ["./tfpg", "check", "pump.tfpg", wanted, "r.report"], f"the words of the command {command}")
        view.same(view.run(ISOLATED), [], f"texts that turn the words round, with the name {name!r}")
    view.show(*PUMP)
    view.same(shlex.split(view.text("#command")), ["./tfpg", "check", "pump.tfpg", "pump.log", "<", "pump.report"], "plain names")


def a_name_that_is_no_text_makes_a_page(view):
    name = b"\xff\xfe.log"
    path = str(view.maker.folder).encode() + b"/" + name
    with open(path, "wb") as file:
        file.write(PUMP[1].read_bytes())
    ran = subprocess.run([view.maker.script, PUMP[0], path], capture_output=True)
    view.same((ran.returncode, ran.stderr), (0, b""), "the page of a file whose name is no UTF-8")
    view.load_right(view.maker.write("no-utf8.html", ran.stdout))
    view.has(view.text("#title"), "\ufffd\ufffd.log", "the title")
    view.quiet()

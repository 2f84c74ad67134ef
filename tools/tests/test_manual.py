"""The manual and the texts of help, beside docs/formats.md and beside what the program says."""

import os
import re
import shutil
import subprocess
import sys
import tempfile
import unittest
from pathlib import Path
from typing import Dict, List, Tuple

TOP = Path(__file__).resolve().parents[2]
sys.path.insert(0, str(TOP / "tools"))

import manual  # noqa: E402
from program import needs_program, run  # noqa: E402

FORMATS = (TOP / "docs" / "formats.md").read_text(encoding="utf-8")
COMMANDS = dict(re.findall(r"^tfpg ([a-z]+) ?(.*)$", FORMATS.split("## Words of the command line", 1)[1], re.M))
OPTIONS = {name: tuple(numbers) for name, *numbers in re.findall(r"^\| `--(\w+)` \| (\d+) to (\S+) \| (\d+) \|$", FORMATS, re.M)}
STATUSES = dict(re.findall(r"^\| (\d) \| (`[^`]+`|none) \|", FORMATS.split("## How a run ends", 1)[1], re.M))


def page(name: str) -> Dict[str, str]:
    return manual.sections_of((TOP / "docs" / "man" / f"{name}.1.md").read_text(encoding="ascii"))


def options_said(name: str) -> Dict[str, Tuple[str, str, str]]:
    """What a page says of each option with a number: the least and the greatest, and the number without it."""
    said = {}
    for term, meaning in manual.entries_of(page(f"tfpg-{name}").get("OPTIONS", "")):
        if re.fullmatch(r"--\w+ N", term):
            said[term[2:-2]] = re.fullmatch(r".*: (\d+) to (\S+); without it (\d+)", meaning).groups()
    return said


def statuses_said(name: str) -> Dict[str, str]:
    """What a page says of each status, up to the colon."""
    return {number: meaning.split(":")[0] for number, meaning in manual.entries_of(page(name)["EXIT STATUS"])}


class Formats(unittest.TestCase):
    """What the pages say is what docs/formats.md says."""

    def test_formats_was_read(self):
        self.assertEqual((len(COMMANDS), len(OPTIONS), len(STATUSES)), (9, 6, 9))

    def test_each_command_has_a_page_and_each_page_a_command(self):
        self.assertEqual({one.name[5:-5] for one in (TOP / "docs/man").glob("tfpg-*.1.md")} - {"page"}, set(COMMANDS))
        self.assertEqual([term for term, _ in manual.entries_of(page("tfpg")["COMMANDS"])], [
            "diagnose", "check", "explain", "simulate", "generate", "convert", "ask", "predict", "fleet"])
        self.assertEqual({term for term, _ in manual.entries_of(page("tfpg")["COMMANDS"])}, set(COMMANDS))

    def test_the_name_of_a_page_is_what_the_first_page_says_of_the_command(self):
        for name, meaning in manual.entries_of(page("tfpg")["COMMANDS"]):
            said = page(f"tfpg-{name}")["NAME"]
            self.assertEqual(said if name != "diagnose" else said.replace("sets of faults", "sets"), f"tfpg-{name} - {meaning}")

    def test_words(self):
        for name, words in COMMANDS.items():
            said = manual.plain(page(f"tfpg-{name}")["SYNOPSIS"]).split(" < ")[0]
            self.assertEqual(said, f"tfpg {name} {words}".strip())

    def test_each_option_with_its_limits_and_its_default(self):
        for name, words in COMMANDS.items():
            own = re.findall(r"\[--(\w+) N\]", words)
            self.assertEqual(options_said(name), {option: OPTIONS[option] for option in own}, name)

    def test_options_without_a_number(self):
        for name, words in COMMANDS.items():
            terms = [term for term, _ in manual.entries_of(page(f"tfpg-{name}").get("OPTIONS", "")) if re.fullmatch(r"--\w+", term)]
            self.assertEqual(terms, re.findall(r"\[(--\w+)\]", words), name)

    def test_lines_of_statuses(self):
        """A page says of a status the line that docs/formats.md has for it."""
        for name in ["tfpg", *(f"tfpg-{command}" for command in COMMANDS)]:
            for number, line in statuses_said(name).items():
                self.assertEqual(line, STATUSES[number].strip("`").replace("none", "done"), name)
        self.assertEqual(set(statuses_said("tfpg")), set(STATUSES))

    def test_other_limits(self):
        """Each number of the pages that is a limit stands in the row of docs/formats.md that says so."""
        known = {"hypotheses; those of all vehicles of a fleet": ["4,096", "8,192"], "the input": ["2^32"], "a file": ["2^24"],
                 "vehicles": ["64"]}
        rows = dict(re.findall(r"^\| ([^|]+) \| ([^|]+) \|", FORMATS.split("\n## Limits", 1)[1], re.M))
        for what, numbers in known.items():
            self.assertEqual(re.findall(r"2\^\d+|[\d,]+", rows[what]), numbers)
        for name in ["tfpg", *(f"tfpg-{command}" for command in COMMANDS)]:
            said = page(name)["EXIT STATUS"]
            self.assertLessEqual(set(re.findall(r"\d,\d+|2\^\d+", said)), {"4,096", "8,192", "2^32", "2^24"}, name)
        self.assertIn("1 to 64 vehicles", page("tfpg-fleet")["OPTIONS"])

    def test_the_options_of_the_maker_of_pages(self):
        """Its page has those that it names itself."""
        said = [term for term, _ in manual.entries_of(page("tfpg-page")["OPTIONS"])]
        own = subprocess.run([sys.executable, "-B", TOP / "page" / "tfpg-page", "--help"], capture_output=True, text=True, check=True).stdout
        self.assertEqual(said, re.findall(r"^  (--\w+ [A-Z]+)", own, re.M))

    def test_tfpg_5_is_docs_formats(self):
        self.assertTrue(manual.page_text("tfpg.5").endswith(FORMATS.split("\n", 1)[1]))


class Help(unittest.TestCase):
    """The texts of help are those that docs/man makes."""

    def test_they_are_as_they_are_made(self):
        with tempfile.TemporaryDirectory() as folder:
            manual.write_help(Path(folder))
            made = {path.name: path.read_text() for path in Path(folder).iterdir()}
        kept = {path.name: path.read_text() for path in (TOP / "docs/man/help").iterdir()}
        self.assertEqual(set(made), {"tfpg.txt", *(f"tfpg-{name}.txt" for name in COMMANDS)})
        self.assertEqual(kept, made, "make them anew: tools/manual.py help docs/man/help")

    def test_each_is_one_screen(self):
        for path in (TOP / "docs/man/help").iterdir():
            lines = path.read_text().splitlines()
            self.assertLessEqual(len(lines), 23, path.name)
            self.assertLessEqual(max(map(len, lines)), 80, path.name)

    def test_each_says_all_that_is_asked_of_it(self):
        """Words, options with limits and defaults, statuses, an example, and where to read on."""
        for name, words in COMMANDS.items():
            text = (TOP / "docs/man/help" / f"tfpg-{name}.txt").read_text()
            flat = " ".join(text.split())
            self.assertTrue(flat.startswith(f"Usage: tfpg {name} {words}".strip()), name)
            for option in re.findall(r"\[--(\w+) N\]", words):
                least, greatest, default = OPTIONS[option]
                self.assertRegex(flat, rf"--{option} N [^:]*: {least} to {re.escape(greatest)}; without it {default} ")
            fixed = [f"{number} {re.sub(' [A-Z]+', '', line)}" for number, line in statuses_said(f"tfpg-{name}").items()]
            self.assertIn("Status: " + ", ".join(fixed), flat)
            self.assertRegex(text, r"(?m)^[$>] .*tfpg " + name)
            self.assertIn("Read on: tfpg(1)", flat)

    def test_the_script_answers_with_them(self):
        answers = {("--help",): "tfpg", ("-h",): "tfpg", ("help",): "tfpg", **{("help", one): f"tfpg-{one}" for one in COMMANDS}}
        for words, name in answers.items():
            ran = subprocess.run([TOP / "tfpg", *words], capture_output=True, stdin=subprocess.DEVNULL, check=False)
            self.assertEqual((ran.returncode, ran.stderr), (0, b""), words)
            self.assertEqual(ran.stdout, (TOP / "docs/man/help" / f"{name}.txt").read_bytes())

    def test_the_version(self):
        ran = subprocess.run([TOP / "tfpg", "--version"], capture_output=True, text=True, check=True)
        self.assertEqual(ran.stdout, f"tfpg {(TOP / 'VERSION').read_text()}")

    def test_a_full_disk(self):
        with open("/dev/full", "wb") as full:
            for words in (["--help"], ["--version"]):
                self.assertEqual(subprocess.run([TOP / "tfpg", *words], stdout=full, stderr=subprocess.DEVNULL, check=False).returncode, 6)


@unittest.skipUnless(shutil.which("pandoc"), "there is no pandoc, which makes manual pages")
class Pages(unittest.TestCase):
    @classmethod
    def setUpClass(cls):
        cls.folder = tempfile.TemporaryDirectory()
        subprocess.run([sys.executable, TOP / "tools/manual.py", "pages", cls.folder.name], check=True)

    @classmethod
    def tearDownClass(cls):
        cls.folder.cleanup()

    def shown(self, name: str) -> str:
        """A page as `man` shows it, in one line."""
        words = ["man", "-l", str(Path(self.folder.name) / f"man{name[-1]}" / name)]
        environment = {**os.environ, "MANWIDTH": "80", "LC_ALL": "C.UTF-8", "MAN_KEEP_FORMATTING": "", "MANPAGER": "cat"}
        ran = subprocess.run(words, capture_output=True, text=True, env=environment, check=True)
        return " ".join(ran.stdout.replace("\u2010\n", "-\n").split())

    def test_there_is_a_page_for_each_source(self):
        made = {str(path.relative_to(self.folder.name)) for path in Path(self.folder.name).rglob("*.[135]")}
        self.assertEqual(made, {f"man{name[-1]}/{name}" for name in manual.page_names()})
        self.assertEqual(len(made), 13)

    @unittest.skipUnless(shutil.which("man"), "there is no man")
    def test_man_shows_what_the_sources_say(self):
        for name in COMMANDS:
            said = self.shown(f"tfpg-{name}.1")
            for heading in ("NAME", "SYNOPSIS", "DESCRIPTION", "EXIT STATUS", "EXAMPLE", "SEE ALSO"):
                self.assertIn(heading, said)
            for option, (least, greatest, default) in options_said(name).items():
                self.assertIn(f": {least} to {greatest}; without it {default}", said)
            self.assertIn(f"tfpg {(TOP / 'VERSION').read_text().strip()}", said)

    @unittest.skipUnless(shutil.which("man"), "there is no man")
    def test_man_3_has_each_call_and_each_number_of_the_header(self):
        header = (TOP / "include/tfpg.h").read_text(encoding="ascii")
        page = (Path(self.folder.name) / "man3/tfpg.3").read_text().replace("\\f[V]", "").replace("\\f[R]", "").replace("\\[u2010]", "-")
        calls = set(re.findall(r"^(?:tfpg_answer|void) (tfpg_\w+)\(", header, re.M))
        self.assertEqual(len(calls), 14)
        self.assertLessEqual(calls, set(re.findall(r"^\.SS (tfpg_\w+)$", page, re.M)))
        numbers = re.findall(r"\bTFPG_\w+ = \d+", header)
        self.assertGreater(len(numbers), 60)
        self.assertEqual([one for one in numbers if one not in page], [])

    @unittest.skipUnless(shutil.which("groff"), "there is no groff")
    def test_groff_has_nothing_to_say_against_them(self):
        for path in Path(self.folder.name).rglob("*.[135]"):
            words = ["groff", "-man", "-t", "-K", "utf8", "-Tutf8", "-ww", "-z", str(path)]
            ran = subprocess.run(words, capture_output=True, text=True, check=True)
            self.assertEqual(ran.stderr, "", path.name)


class Examples(unittest.TestCase):
    """Each example of a page writes what the page shows."""

    @needs_program
    def test_each_example(self):
        tried = 0
        for source in sorted((TOP / "docs/man").glob("tfpg*.1.md")):
            if source.name == "tfpg-page.1.md" and not shutil.which("dot"):
                continue
            for command, shown in runs_of(manual.sections_of(source.read_text())["EXAMPLE"]):
                tried += 1
                written = written_by(command)
                pattern = "".join(r"(?:.*\n)*" if line == "..." else re.escape(line) + "\n" for line in shown)
                self.assertRegex(written, rf"\A{pattern}\Z", command)
        self.assertGreaterEqual(tried, 12)


def runs_of(body: str) -> List[Tuple[str, List[str]]]:
    """The commands of an example, each with the lines that it shows."""
    runs: List[Tuple[str, List[str]]] = []
    for line in (line[4:] for line in body.split("\n") if line.startswith("    ")):
        if line.startswith("$ "):
            runs.append((line[2:], []))
        elif line.startswith("> ") and not runs[-1][1]:
            runs[-1] = (runs[-1][0] + "\n" + line[2:], [])
        else:
            runs[-1][1].append(line)
    return runs


def written_by(command: str) -> str:
    environment = {**os.environ, "PATH": f"{TOP}:{TOP / 'page'}:{os.environ['PATH']}", "TFPG_QUIET": "1"}
    ran = subprocess.run(["bash", "-c", command], cwd=TOP, env=environment, capture_output=True, text=True, check=False)
    return ran.stdout + ran.stderr


class Program(unittest.TestCase):
    """What the pages say of options and statuses is what the program does."""

    @classmethod
    def setUpClass(cls):
        cls.folder = tempfile.TemporaryDirectory()
        make_files(Path(cls.folder.name))

    @classmethod
    def tearDownClass(cls):
        cls.folder.cleanup()

    WORDS = {"diagnose": ["pump"], "ask": ["pump", "early"], "fleet": ["pump", "north"], "predict": ["pump", "early", "LowFlow"],
             "simulate": ["pump", "script"], "generate": []}
    INPUTS = {"diagnose": "early", "fleet": "stream", "check": "report", "explain": "map"}

    def ran(self, command: str, *words: str) -> Tuple[int, bytes, str]:
        return run([command, *words], Path(self.folder.name), self.INPUTS.get(command, "/dev/null"))

    @needs_program
    def test_the_limits_of_each_option(self):
        """The least and the greatest number are taken, and those beside them are out of range."""
        tried = 0
        for command, words in self.WORDS.items():
            for option, (least, greatest, _) in options_said(command).items():
                low, high = int(least), power(greatest)
                for number in (low, high) if option not in ("k", "budget") else (low,):
                    self.assertEqual(self.ran(command, f"--{option}={number}", *words)[0], 0, (command, option, number))
                for number in [high + 1] + [low - 1] * (low > 0):
                    status, output, line = self.ran(command, f"--{option}={number}", *words)
                    self.assertEqual((status, output, line), (2, b"", "usage OutOfRange"), (command, option, number))
                status, _, line = self.ran(command, f"--{option}={high}", "absent", *words[1:])
                self.assertNotEqual(line, "usage OutOfRange", (command, option, high))
                tried += 1
        self.assertEqual(tried, 16)

    @needs_program
    def test_the_default_of_each_option(self):
        """With the number of the page the answer is the one without the option; with another one, where that shows, another."""
        for command, words in self.WORDS.items():
            without = self.ran(command, *words)
            self.assertEqual(without[0], 0, command)
            for option, (_, _, default) in options_said(command).items():
                self.assertEqual(self.ran(command, f"--{option}", default, *words), without, (command, option))
                other = str(int(default) + 1)
                if command in ("diagnose", "fleet", "generate") or option in ("draw", "ahead"):
                    self.assertNotEqual(self.ran(command, f"--{option}", other, *words)[1], without[1], (command, option))

    @needs_program
    def test_an_option_that_a_page_does_not_have_is_refused(self):
        names = [*(f"--{name}=1" for name in OPTIONS), "--trace", "--json"]
        for command, words in COMMANDS.items():
            for name in names:
                if name.split("=")[0] not in words:
                    line = self.ran(command, name, *self.WORDS.get(command, ["pump", "early"]))[2]
                    self.assertEqual(line, "usage BadWords", (command, name))

    ENDS = {
        "diagnose": {2: "pump top:", 3: "bad", 4: "--k=3 wide", 5: "absent", 7: "long"},
        "check": {1: "pump early", 2: "pump", 3: "bad early", 4: "wide early", 5: "pump absent", 7: "pump long"},
        "explain": {1: "pump early", 2: "pump", 3: "bad early", 5: "pump absent", 7: "long early"},
        "simulate": {1: "pump early", 2: "pump", 3: "bad script", 5: "pump absent", 7: "pump long"},
        "generate": {2: "one"},
        "convert": {2: "", 3: "bad", 5: "absent", 7: "long"},
        "ask": {2: "pump", 3: "bad early", 4: "--k 3 wide early", 5: "pump absent", 7: "pump long"},
        "predict": {2: "pump early Nothing", 3: "bad early N", 4: "--k 3 wide early N0", 5: "pump absent N", 7: "long early N"},
        "fleet": {2: "pump one,one", 3: "bad one", 4: "--k 3 wide one", 5: "absent one", 7: "long one"},
    }
    GIVEN = {("check", 1): "forged", ("check", 4): "wide-report", ("explain", 1): "early"}

    @needs_program
    def test_each_status_of_a_page(self):
        """The program ends with it and its line. 6 comes of a full disk; 0 is above, and 8 below."""
        for command, ends in self.ENDS.items():
            said = statuses_said(f"tfpg-{command}")
            self.assertEqual(set(map(int, said)), {0, 6, 8} | set(ends), command)
            for status, words in ends.items():
                given = self.GIVEN.get((command, status), self.INPUTS.get(command, "/dev/null"))
                ended, _, line = run([command, *words.split()], Path(self.folder.name), given)
                fixed = re.sub(" [A-Z]+", "", said[str(status)])
                self.assertEqual((ended, line[:len(fixed)]), (status, fixed), (command, words))
            words = {"check": ["pump", "log"], "explain": ["pump", "log"], "convert": ["pump"]}.get(command, self.WORDS.get(command))
            ended, _, line = run([command, *words], Path(self.folder.name), self.INPUTS.get(command, "/dev/null"), output="/dev/full")
            self.assertEqual((ended, line), (6, "write fault"), command)

    @needs_program
    def test_the_two_kinds_of_too_many_of_a_fleet(self):
        names = ",".join(f"V{number}" for number in range(64))
        status, _, line = run(["fleet", "--k", "2", "wide", names], Path(self.folder.name), "/dev/null")
        self.assertEqual((status, line), (4, f"too many hypotheses {64 * (1 + 64 + 64 * 63 // 2)}"))


def power(text: str) -> int:
    base, _, exponent = text.partition("^")
    return int(base) ** int(exponent or 1)


def make_files(folder: Path) -> None:
    """The files that the words of the tests name."""
    examples = TOP / "examples"
    for name, source in {"pump": "pump.tfpg", "log": "pump.log", "report": "pump.report", "map": "pump-filter.map"}.items():
        shutil.copy(examples / source, folder / name)
    log = (examples / "pump.log").read_text().splitlines(True)
    (folder / "early").write_text("".join(log[:3]))
    (folder / "stream").write_text("".join("north " + line for line in log[:3]))
    (folder / "script").write_text("900000 start ValveStuck\n3600000 stop\n")
    (folder / "bad").write_text("tfpg 1\nend\n")
    (folder / "forged").write_text((examples / "pump.report").read_text().replace("cost 2", "cost 1"))
    nodes = "".join(f"failure N{number} 1\n" for number in range(64))
    (folder / "wide").write_text(f"tfpg 1\nmode M\n{nodes}end\n")
    (folder / "wide-report").write_text("report 2 k 3 doubt 0 budget 1\n")
    with open(folder / "long", "wb") as long:
        long.truncate((1 << 24) + 1)

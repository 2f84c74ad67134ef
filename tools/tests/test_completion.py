"""Completion for bash, zsh and fish: each offers the commands and options that docs/formats.md has, and what fits the place."""

import re
import shutil
import subprocess
import tempfile
import unittest
from pathlib import Path
from typing import List, Optional

TOP = Path(__file__).resolve().parents[2]
COMPLETION = TOP / "tools" / "completion"
BASH_COMPLETION = Path("/usr/share/bash-completion/bash_completion")
WORDS = (TOP / "docs" / "formats.md").read_text(encoding="utf-8").split("## Words of the command line", 1)[1]
COMMANDS = dict(re.findall(r"^tfpg ([a-z]+) ?(.*)$", WORDS, re.M))
TABLE = {name: (least, greatest) for name, least, greatest in re.findall(r"^\| `--(\w+)` \| (\d+) to (\S+) \|", WORDS, re.M)}
GRAPH = "tfpg 1\nmode Run\nfailure Leak 2\nor Wet watch 5\nand Damp hidden\nedge Leak Wet 0 9 *\nend\n"


def options_of(command: str) -> List[str]:
    return sorted(re.findall(r"--\w+", COMMANDS[command]))


class Shell(unittest.TestCase):
    """What a shell offers after some words, in a folder with a graph, a log, JSON, a folder and another file."""

    def setUp(self) -> None:
        held = tempfile.TemporaryDirectory()
        self.addCleanup(held.cleanup)
        self.folder = Path(held.name)
        for name, text in {"pump.tfpg": GRAPH, "pump.log": "", "pump.json": "", "other": ""}.items():
            (self.folder / name).write_text(text)
        (self.folder / "deep").mkdir()

    def offered(self, *words: str) -> List[str]:
        raise NotImplementedError

    def ran(self, words: List[str], given: Optional[str] = None) -> List[str]:
        ran = subprocess.run(words, cwd=self.folder, input=given, capture_output=True, text=True, timeout=60, check=False)
        self.assertEqual(ran.stderr, "", words)
        return sorted(line for line in ran.stdout.split("\n") if line)

    def try_commands_and_options(self) -> None:
        self.assertEqual(len(COMMANDS), 9)
        self.assertLessEqual(set(COMMANDS) | {"help"}, set(self.offered("")))
        self.assertEqual(self.offered("help", ""), sorted(COMMANDS))
        for command in COMMANDS:
            self.assertEqual(self.offered(command, "--"), options_of(command), command)

    def try_limits(self, source: str) -> None:
        """Each limit that the file of a shell names is that of docs/formats.md."""
        for option, (least, greatest) in TABLE.items():
            said = re.findall(rf"(?:--{option}=|-l {option} ).*?(\d+) to (\S+?)[\]']", source)
            self.assertGreater(len(said), 0, option)
            self.assertEqual(set(said), {(least, greatest)}, option)


@unittest.skipUnless(BASH_COMPLETION.exists() and shutil.which("bash"), "bash-completion is not installed")
class Bash(Shell):
    """By bash itself: the function is called as bash calls it."""

    def offered(self, *words: str) -> List[str]:
        line = "tfpg " + " ".join(words)
        script = f"""
            . {BASH_COMPLETION}; . {COMPLETION / 'tfpg.bash'}
            compopt() {{ :; }}
            COMP_LINE=$1; COMP_POINT=${{#1}}; shift
            COMP_WORDS=("$@"); COMP_CWORD=$(($# - 1))
            _tfpg
            printf '%s\\n' "${{COMPREPLY[@]}}"
        """
        broken = [piece for word in ("tfpg", *words) for piece in (re.findall(r"[:=]|[^:=]+", word) or [""])]
        return self.ran(["bash", "-c", script, "bash", line, *broken])

    def test_commands_and_options(self):
        self.try_commands_and_options()
        self.assertEqual(self.offered("di"), ["diagnose"])
        self.assertEqual(self.offered("--v"), ["--version"])
        self.assertEqual(self.offered("predict", "--a"), ["--ahead"])

    def test_files_by_place(self):
        self.assertEqual(self.offered("diagnose", ""), ["deep", "pump.tfpg"])
        self.assertEqual(self.offered("diagnose", "--k", "3", ""), ["deep", "pump.tfpg"])
        self.assertEqual(self.offered("convert", "--json", ""), ["deep", "pump.json"])
        for command in ("check", "explain", "ask", "predict"):
            self.assertEqual(self.offered(command, "pump.tfpg", ""), ["deep", "pump.log"], command)
        self.assertEqual(self.offered("ask", "pump.tfpg", "o"), ["other"])
        self.assertEqual(self.offered("simulate", "--draw=7", "pump.tfpg", "--trace", ""),
                         ["deep", "other", "pump.json", "pump.log", "pump.tfpg"])

    def test_no_word_where_none_can_stand(self):
        for words in (["ask", "--k", ""], ["generate", ""], ["fleet", "pump.tfpg", ""], ["check", "a", "b", ""], ["help", "ask", ""]):
            self.assertEqual(self.offered(*words), [], words)

    def test_after_the_end_of_options(self):
        (self.folder / "-graph").write_text("")
        self.assertEqual(self.offered("diagnose", "--", "-"), ["-graph"])

    def test_panels(self):
        self.assertEqual(self.offered("diagnose", "pump.tfpg", ""), ["count:", "json:", "top:"])
        self.assertEqual(self.offered("diagnose", "pump.tfpg", "top:pump.j"), ["pump.json"])

    def test_nodes_of_the_graph(self):
        self.assertEqual(self.offered("predict", "--ahead", "9", "pump.tfpg", "pump.log", ""), ["Damp", "Leak", "Wet"])
        self.assertEqual(self.offered("predict", "pump.tfpg", "pump.log", "W"), ["Wet"])

    def test_whatever_the_graph_is_called(self):
        """Also as what awk takes for a variable, and as the completion itself calls what it waits for."""
        for name in ("k=3.tfpg", "value.tfpg"):
            (self.folder / name).write_text(GRAPH)
            self.assertEqual(self.offered("check", name, "pump.l"), ["pump.log"], name)
            self.assertEqual(self.offered("predict", name, "pump.log", ""), ["Damp", "Leak", "Wet"], name)

    def test_a_graph_of_somebody_else_runs_nothing(self):
        """bash expands the words that it chooses from, as `$(touch made)`. What is no name is none of them."""
        commands = "failure $(touch${IFS}made) 1\nfailure `touch${IFS}made` 1\nor ~ hidden\nor {a,b} hidden\n"
        (self.folder / "pump.tfpg").write_text(GRAPH.replace("failure Leak", commands + "failure Leak"))
        self.assertEqual(self.offered("predict", "pump.tfpg", "pump.log", ""), ["Damp", "Leak", "Wet"])
        self.assertFalse((self.folder / "made").exists())

    def test_the_loader_finds_it_by_its_name(self):
        """bash-completion loads `completions/tfpg` once tfpg is typed."""
        places = self.folder / "data" / "bash-completion" / "completions"
        places.mkdir(parents=True)
        shutil.copy(COMPLETION / "tfpg.bash", places / "tfpg")
        said = self.ran(["bash", "-c", f"BASH_COMPLETION_USER_DIR={self.folder}/data/bash-completion; . {BASH_COMPLETION}; "
                         "_completion_loader tfpg; complete -p tfpg"])
        self.assertEqual(said, ["complete -F _tfpg tfpg"])


@unittest.skipUnless(shutil.which("fish"), "there is no fish")
class Fish(Shell):
    def offered(self, *words: str) -> List[str]:
        said = self.ran(["fish", "--no-config", "-c", f"source {COMPLETION / 'tfpg.fish'}; complete -C 'tfpg {' '.join(words)}'"])
        return sorted({line.split("\t")[0] for line in said})

    def test_commands_and_options(self):
        self.try_commands_and_options()

    def test_limits(self):
        self.try_limits((COMPLETION / "tfpg.fish").read_text())

    def test_what_fits_the_place(self):
        self.assertIn("pump.tfpg", self.offered("diagnose", ""))
        self.assertEqual(self.offered("diagnose", "pump.tfpg", ""), ["count:", "json:", "top:"])
        self.assertEqual(self.offered("predict", "--k", "1", "pump.tfpg", "pump.log", ""), ["Damp", "Leak", "Wet"])
        self.assertEqual(self.offered("fleet", "pump.tfpg", ""), [])

    def test_after_the_end_of_options(self):
        """Also a graph whose name begins as an option does, or is that of one."""
        for name in ("-graph", "--k"):
            (self.folder / name).write_text(GRAPH)
            self.assertEqual(self.offered("diagnose", "--", name, ""), ["count:", "json:", "top:"], name)
            self.assertEqual(self.offered("predict", "--", name, "pump.log", ""), ["Damp", "Leak", "Wet"], name)
        self.assertEqual(self.offered("diagnose", "--k", "--", "pump.tfpg", ""), ["count:", "json:", "top:"])


@unittest.skipUnless(shutil.which("zsh"), "there is no zsh")
class Zsh(Shell):
    """The functions that zsh completes with print what they are given."""

    def said(self, *words: str) -> List[str]:
        script = f"""
            _arguments() {{ print -rl -- "$@" }}
            _describe() {{ print -rl -- ${{(P)4}} }}
            _tfpg() {{ {(COMPLETION / '_tfpg').read_text()} }}
            words=("$@"); CURRENT=$#
            _tfpg
        """
        return self.ran(["zsh", "-f", "-c", script, "zsh", "tfpg", *words])

    def offered(self, *words: str) -> List[str]:
        return sorted({re.match(r"-*\w+", line)[0] for line in self.said(*words) if words[-1] != "--" or line.startswith("--")})

    def test_commands_and_options(self):
        self.try_commands_and_options()

    def test_limits(self):
        self.try_limits((COMPLETION / "_tfpg").read_text())

    def test_what_fits_the_place(self):
        self.assertIn("*:panel:_tfpg_panels", self.said("diagnose", ""))
        for command, words in COMMANDS.items():
            places = [f"{number}:{name.lower()}" for number, name in enumerate(re.findall(r"(?<![-\w])[A-Z]{2,}(?=\s|$)", words), 1)]
            self.assertEqual([":".join(line.split(":")[:2]) for line in self.said(command, "") if line[0].isdigit()], places, command)

    def test_after_the_end_of_options(self):
        """By -S no word after -- is an option."""
        self.assertEqual([command for command in COMMANDS if "-S" not in self.said(command, "")], [])

    def test_it_is_read_by_the_completion_of_zsh(self):
        folder = self.folder / "functions"
        folder.mkdir()
        shutil.copy(COMPLETION / "_tfpg", folder)
        said = self.ran(["zsh", "-f", "-c", f"fpath=({folder} $fpath); autoload -U compinit; compinit -D; print $_comps[tfpg]"])
        self.assertEqual(said, ["_tfpg"])


del Shell

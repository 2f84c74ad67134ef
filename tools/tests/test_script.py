"""The script `tfpg`: when the program answers and when a trial, what it says of it, and that all else is the program's."""

import os
import subprocess
import time
import unittest
from pathlib import Path
from typing import List

from checkout import Checkout, on_terminal


class ScriptCase(unittest.TestCase):
    def setUp(self) -> None:
        self.checkout = Checkout()
        self.addCleanup(self.checkout.close)

    def who_answers(self, **more: str) -> str:
        return self.checkout.run("tfpg", "ask", **more).stdout.split(" ")[0]


class Currency(ScriptCase):
    """A program answers only as long as its code and its definitions are those that it was made of."""

    SOURCE = "crates/tfpg_graph/src/deep/low.rt"

    def setUp(self) -> None:
        super().setUp()
        self.checkout.put_program()
        self.assertEqual(self.who_answers(), "built")

    def build(self) -> None:
        """Has `./build` make the program, which notes what it is made of."""
        self.checkout.program.unlink()
        self.assertEqual(self.checkout.run("build").returncode, 0)
        self.assertEqual(self.who_answers(), "built")

    def edited(self, change) -> str:
        """Who answers after this change of a source."""
        self.checkout.wait_for_clock()
        change(self.checkout.top / self.SOURCE)
        return self.who_answers()

    def test_an_edit_in_place(self):
        self.assertEqual(self.edited(lambda file: file.write_text("changed\n")), "tried")

    def test_an_edit_of_a_definition(self):
        self.assertEqual(self.edited(lambda file: (file.parents[2] / "specs/Notion.antt").write_text("changed\n")), "tried")

    def test_a_file_that_came(self):
        self.assertEqual(self.edited(lambda file: (file.parent / "more.rt").write_text("more\n")), "tried")

    def test_a_file_that_is_gone(self):
        self.assertEqual(self.edited(lambda file: file.unlink()), "tried")

    def test_a_file_with_an_older_time_that_was_moved_to_its_place(self):
        def move(file: Path) -> None:
            other = self.checkout.folder / "older"
            other.write_text("older\n")
            os.utime(other, (1, 1))
            other.rename(file)
        self.assertEqual(self.edited(move), "tried")

    def test_a_copy_in_place_that_keeps_an_older_time(self):
        """The sums of a built program show it, and the time of the change that anything should be looked at."""
        self.build()

        def copy(file: Path) -> None:
            other = self.checkout.folder / "older"
            other.write_text("older\n")
            os.utime(other, (1, 1))
            subprocess.run(["cp", "-p", other, file], check=True)
            os.utime(file.parent, (1, 1))
        self.assertEqual(self.edited(copy), "tried")

    def test_the_list_of_crates(self):
        def change(file: Path) -> None:
            with open(self.checkout.top / "crates.txt", "a", encoding="ascii") as crates:
                crates.write("# more\n")
        self.assertEqual(self.edited(change), "tried")

    def test_what_the_program_is_not_made_of(self):
        """Proofs, edits that must fail, what was made, and crates of tests alone leave the program as it is."""
        top = self.checkout.top / "crates"
        for path in ("tfpg_graph/proofs/lemmas/fact.antt", "tfpg_graph/must-fail/slip.edit", "tfpg_graph/out/made", "tfpg_rows/src/lib.rt",
                     "tfpg_embed/src/lib.rt"):
            with self.subTest(path=path):
                self.checkout.wait_for_clock()
                (top / path).parent.mkdir(exist_ok=True)
                (top / path).write_text("changed\n")
                self.assertEqual(self.who_answers(), "built")

    def test_a_change_that_is_taken_back(self):
        """What `./build` noted of the contents shows that they are as they were."""
        self.build()
        source = self.checkout.top / self.SOURCE
        before = source.read_text()
        self.assertEqual(self.edited(lambda file: file.write_text("changed\n")), "tried")
        self.assertEqual(self.edited(lambda file: file.write_text(before)), "built")

    def test_a_copy_of_the_checkout(self):
        """The times of change are new in a copy, and the contents are not."""
        self.build()
        copy = self.checkout.folder / "copy"
        subprocess.run(["cp", "-a", self.checkout.top, copy], check=True)
        ran = subprocess.run([copy / "tfpg", "ask"], env=self.checkout.environment(), capture_output=True, text=True, check=True)
        self.assertEqual(ran.stdout, "built ask\n")

    def test_an_edit_while_it_is_built(self):
        """What is edited after the build has read its sources is newer than the program."""
        (self.checkout.says / "on-run").write_text(f'echo changed > "$RT_SAYS/../a checkout/{self.SOURCE}"\n')
        self.checkout.wait_for_clock()
        (self.checkout.top / self.SOURCE).write_text("first\n")
        self.checkout.program.unlink()
        self.assertEqual(self.checkout.run("build").returncode, 0)
        self.assertEqual(self.who_answers(), "tried")


class Words(ScriptCase):
    """All words but those of help are the program's, byte for byte, with its input, output and status."""

    def test_words_input_output_and_status(self):
        self.checkout.put_program(status=3)
        self.checkout.program.write_text("#!/bin/sh\nprintf '%s|' \"$@\"\ncat\nprintf 'line' >&2\nexit 3\n")
        os.utime(self.checkout.program)
        words = ["diagnose", "", "two words", "--k=1", "*", "-", "--", "\\n", "$HOME", "--help"]
        ran = subprocess.run([self.checkout.top / "tfpg", *words], input=b"in\0put\xff", capture_output=True, check=False)
        self.assertEqual(ran.stdout, "".join(word + "|" for word in words).encode() + b"in\0put\xff")
        self.assertEqual((ran.returncode, ran.stderr), (3, b"line"))

    def test_from_another_folder_and_through_a_link(self):
        self.checkout.put_program()
        link = self.checkout.folder / "link"
        link.symlink_to(self.checkout.top / "tfpg")
        ran = subprocess.run([link, "ask"], cwd="/", capture_output=True, text=True, check=True)
        self.assertEqual(ran.stdout, "built ask\n")
        ran = subprocess.run(["sh", "tfpg", "ask"], cwd=self.checkout.top, capture_output=True, text=True, check=True)
        self.assertEqual(ran.stdout, "built ask\n")

    def test_the_program_runs_in_the_place_of_the_script(self):
        """So a signal to the script is one to the program."""
        self.checkout.put_program()
        self.checkout.program.write_text("#!/bin/sh\necho $$\n")
        os.utime(self.checkout.program)
        running = subprocess.Popen([self.checkout.top / "tfpg", "ask"], stdout=subprocess.PIPE, text=True)
        self.assertEqual(running.communicate(timeout=20)[0], f"{running.pid}\n")

    def test_nothing_of_the_script_is_left_beside_the_program(self):
        """What looked through the sources has ended, and is no child of the program, also if it was slow."""
        self.checkout.put_program()
        slow = self.checkout.folder / "bin" / "find"
        slow.write_text("#!/bin/sh\ncase $1 in */specs) sleep 0.5 ;; esac\nPATH=/usr/bin:/bin exec find \"$@\"\n")
        slow.chmod(0o755)
        self.checkout.program.write_text("#!/bin/sh\necho $$\nread line\n")
        os.utime(self.checkout.program)
        with subprocess.Popen([self.checkout.top / "tfpg", "ask"], env=self.checkout.environment(), stdin=subprocess.PIPE,
                              stdout=subprocess.PIPE, text=True) as running:
            number = running.stdout.readline().strip()
            self.assertEqual(children_of(number), [])
            running.communicate("end\n", timeout=20)

    def test_the_program_has_the_environment_of_the_user(self):
        self.checkout.put_program()
        self.checkout.program.write_text("#!/bin/sh\necho \"$LC_ALL\"\n")
        os.utime(self.checkout.program)
        self.assertEqual(self.checkout.run("tfpg", "ask", LC_ALL="C.UTF-8").stdout, "C.UTF-8\n")

    def test_files_that_a_trial_makes_have_the_mode_that_the_user_wants(self):
        (self.checkout.says / "tried").write_text("#!/bin/sh\numask\n" + "#" * (2 << 20) + "\n")
        ran = self.checkout.bash("umask 027; ./tfpg ask; ./tfpg ask")
        self.assertEqual(ran.stdout, "0027\n0027\n")


class Trial(ScriptCase):
    """A trial answers where no program does. It is compiled once, and says at its end what it is."""

    def test_it_is_compiled_once(self):
        for _ in range(2):
            ran = self.checkout.run("tfpg", "ask", "GRAPH")
            self.assertEqual((ran.stdout, ran.returncode), ("tried ask GRAPH\n", 0))
        self.assertEqual([call.split(" ")[0] for call in self.checkout.calls()], ["try"])

    def test_one_notice_at_the_end(self):
        self.checkout.run("tfpg", "ask")
        for _ in range(2):
            said = self.checkout.run("tfpg", "ask").stderr.splitlines()
            self.assertEqual(said[0], "the line of the program")
            self.assertEqual(len(said), 2)
            self.assertRegex(said[1], "^tfpg: a trial answered, since the program is not built here: .*not proved")

    def test_the_notice_says_that_sources_are_newer(self):
        self.checkout.put_program()
        self.checkout.wait_for_clock()
        (self.checkout.top / Currency.SOURCE).write_text("changed\n")
        self.assertIn("since sources are newer than the built program", self.checkout.run("tfpg", "ask").stderr)

    def test_no_notice_if_it_is_not_wanted(self):
        for quiet, lines in (("1", 1), ("0", 2), ("", 2)):
            self.assertEqual(len(self.checkout.run("tfpg", "ask", TFPG_QUIET=quiet).stderr.splitlines()), lines)

    def test_who_can_read_the_checkout_can_run_it(self):
        """`rt` leaves a program that only its owner may run."""
        self.checkout.bash("umask 077; ./tfpg ask")
        for path in (self.checkout.trial, self.checkout.trial.parent, self.checkout.program.parent):
            self.assertEqual(path.stat().st_mode & 0o555, 0o555, path)
        if os.geteuid() == 0:
            self.checkout.folder.chmod(0o755)
            self.checkout.says.chmod(0o755)
            ran = subprocess.run(["setpriv", "--reuid=65534", "--clear-groups", self.checkout.top / "tfpg", "ask"], cwd="/",
                                 env=self.checkout.environment(), capture_output=True, text=True, check=False)
            self.assertEqual((ran.returncode, ran.stdout), (0, "tried ask\n"), ran.stderr)

    @unittest.skipIf(os.geteuid() != 0, "only root can try it as another user")
    def test_who_may_not_make_one_is_told(self):
        self.checkout.folder.chmod(0o755)
        self.checkout.says.chmod(0o755)
        ran = subprocess.run(["setpriv", "--reuid=65534", "--clear-groups", self.checkout.top / "tfpg", "ask"], cwd="/",
                             env=self.checkout.environment(), capture_output=True, text=True, check=False)
        self.assertEqual(ran.returncode, 70)
        self.assertRegex(ran.stderr, "^tfpg: there is no trial, and this user may not make one: .*\n$")

    def test_a_copy_that_was_stopped_is_no_trial(self):
        """`rt` ends before the copy is whole."""
        (self.checkout.says / "on-try").write_text(
            'mkdir "$TMPDIR/made"; cp "$RT_SAYS/tried" "$TMPDIR/made/program"; chmod 700 "$TMPDIR/made/program"\n'
            'exec 4< "${@: -1}"\nwhile [ ! -e "$RT_SAYS/copying" ]; do sleep 0.05; done\nexit 1\n')
        slow = self.checkout.folder / "bin" / "cp"
        slow.write_text('#!/bin/sh\ncase $1 in\n*/made/program) head -c 1500000 "$1" > "$2"; touch "$RT_SAYS/copying"; sleep 4 ;;\n'
                        '*) exec /bin/cp "$@" ;;\nesac\n')
        slow.chmod(0o755)
        ran = self.checkout.run("tfpg", "ask")
        self.assertEqual((ran.returncode, ran.stdout), (70, ""))
        self.assertFalse(self.checkout.trial.exists())

    def test_a_stop_while_it_is_compiled_leaves_nothing_running(self):
        (self.checkout.says / "on-try").write_text('echo $$ > "$RT_SAYS/worker"; exec sleep 60\n')
        running = subprocess.Popen([self.checkout.top / "tfpg", "ask"], env=self.checkout.environment(), stderr=subprocess.DEVNULL)
        for _ in range(200):
            if (self.checkout.says / "worker").exists() and (self.checkout.says / "worker").read_text():
                break
            time.sleep(0.05)
        worker = int((self.checkout.says / "worker").read_text())
        self.addCleanup(end_process, worker)
        running.terminate()
        self.assertEqual(running.wait(timeout=20), 130)
        self.assertFalse(is_running(worker))

    def test_without_linux(self):
        for words in (["tfpg", "ask"], ["build"]):
            ran = self.checkout.run(*words, OSTYPE="darwin22")
            self.assertEqual(ran.returncode, 70)
            self.assertEqual(ran.stderr, f"{words[0]}: this needs Linux, and here is darwin22\n")

    def test_a_trial_that_stops_by_itself(self):
        (self.checkout.says / "tried").write_text("#!/bin/sh\nkill -6 $$\n" + "#" * (2 << 20) + "\n")
        ran = self.checkout.run("tfpg", "ask", TFPG_QUIET="1")
        self.assertEqual(ran.returncode, 70)
        self.assertIn("tfpg: the trial stopped by itself (134): this needs the built program", ran.stderr)

    def test_a_terminal_shows_how_far_the_compiler_is(self):
        (self.checkout.says / "on-try").write_text("sleep 3\n")
        status, said = self.checkout.run_on_terminal("tfpg", "ask")
        self.assertEqual(status, 0)
        self.assertIn("\rtfpg: compiling a trial, which takes about two minutes: 1 seconds so far", said)
        self.assertTrue(said.split("\r\033[K", 1)[1].startswith("tried ask\n"), said)


class Ends(ScriptCase):
    """After a failure on a terminal, and only there, a line says where to look."""

    def after(self, status: int, *words: str) -> str:
        """The last line after an end with this status on a terminal. Off a terminal it is the program's."""
        self.checkout.put_program(status=status)
        away = self.checkout.run("tfpg", *words)
        self.assertEqual((away.returncode, away.stderr), (status, "the line of the program\n"))
        ended, said = self.checkout.run_on_terminal("tfpg", *words)
        self.assertEqual(ended, status)
        first, *more = said.splitlines()[1:]
        self.assertEqual(first, "the line of the program")
        self.assertLessEqual(len(more), 1)
        return more[0] if more else ""

    def lint(self) -> str:
        return f"tfpg: PYTHONPATH='{self.checkout.top}/python' python3 -m tfpg lint"

    def test_no_line_after_a_run_that_ends_well(self):
        self.assertEqual(self.after(0, "ask", "absent"), "")

    def test_words(self):
        self.assertEqual(self.after(2, "diagnose", "--k", "x", "it's", ""),
                         f"{self.lint()} --words diagnose --k x 'it'\\''s' '' says why")

    def test_too_many_hypotheses(self):
        self.assertEqual(self.after(4, "ask", "--k=9", "g", "l"), f"{self.lint()} --words ask --k=9 g l says why")

    def test_a_graph(self):
        self.assertEqual(self.after(3, "predict", "--ahead", "9", "my graph", "log", "N"), f"{self.lint()} 'my graph' says why")
        self.assertEqual(self.after(3, "diagnose", "--", "-graph"), f"{self.lint()} ./-graph says why")
        self.assertEqual(self.after(3, "convert", "--json", "graph"), "")

    def test_files(self):
        top = self.checkout.top
        (top / "there").write_text("x")
        (top / "large").write_bytes(b"x" * 16777217)
        self.assertEqual(self.after(5, "check", "there", "absent"), "tfpg: absent is not there")
        self.assertEqual(self.after(5, "fleet", "--budget", "9", "crates", "A,B"), "tfpg: crates is a folder")
        self.assertEqual(self.after(7, "explain", "there", "large"),
                         "tfpg: large has more than 16,777,216 bytes, which is the limit of a file")
        self.assertEqual(self.after(5, "diagnose", "there", "top:absent"), "tfpg: the input could not be read")

    @unittest.skipIf(os.geteuid() != 0, "only root can try it as another user")
    def test_a_file_that_may_not_be_read(self):
        secret = self.checkout.top / "secret"
        secret.write_text("x")
        secret.chmod(0)
        self.checkout.folder.chmod(0o755)
        self.checkout.put_program(status=5)
        words = ["setpriv", "--reuid=65534", "--clear-groups", str(self.checkout.top / "tfpg"), "convert", "secret"]
        _, said = on_terminal(words, self.checkout.top, self.checkout.environment())
        self.assertEqual(said.splitlines()[-1], "tfpg: secret may not be read by this user")

    def test_other_ends_have_no_line(self):
        for status in (1, 6, 8):
            self.assertEqual(self.after(status, "check", "a", "b"), "")

    def test_a_trial_says_it_before_its_notice(self):
        self.checkout.run("tfpg", "ask")
        (self.checkout.trial.parent / "status").write_text("5\n")
        _, said = self.checkout.run_on_terminal("tfpg", "convert", "absent")
        self.assertRegex(said, "the line of the program\ntfpg: absent is not there\ntfpg: a trial answered")


class Help(ScriptCase):
    """`./build` says what it does, and begins nothing."""

    def test_what_it_says(self):
        for words, said in (([], "Proves the crates"), (["install"], "Installs what is built"), (["uninstall"], "Installs what is built"),
                            (["deb"], "Makes packages for Debian")):
            with self.subTest(words=words):
                ran = self.checkout.run("build", *words, "--help")
                self.assertEqual((ran.returncode, ran.stderr, ran.stdout[:len(said)]), (0, "", said))
        self.assertEqual(self.checkout.calls(), [])


class Putting(ScriptCase):
    """What is made takes its place whole, or not at all."""

    def test_a_stopped_copy_leaves_what_is_there(self):
        """Between two file systems `mv` is a copy, which may be cut. So what takes the place is beside it already."""
        done = self.checkout.bash("""
            top=$PWD; . tools/sources.sh
            mkdir other; echo made > other/made; echo old > target; touch start
            cp() { printf m > "$2"; return 1; }
            mv() { [ "$(dirname "$1")" = "$(dirname "$2")" ] && command mv "$@" || { printf m > "$2"; return 1; }; }
            put_in_place other/made "$PWD/target" start
            cat target""")
        self.assertEqual(done.stdout, "old\n")

    def test_it_is_for_whoever_can_read_the_checkout(self):
        self.checkout.bash("umask 077; ./build")
        self.assertEqual(self.checkout.program.stat().st_mode & 0o777, 0o755)
        self.assertEqual(Path(str(self.checkout.program) + ".sums").stat().st_mode & 0o444, 0o444)


class Build(ScriptCase):
    def test_it_builds_once(self):
        self.assertEqual(self.checkout.run("build").returncode, 0)
        count = len(self.checkout.calls())
        said = self.checkout.run("build").stderr
        self.assertIn("is built of the sources as they stand", said)
        self.assertEqual(len(self.checkout.calls()), count)

    def test_an_edit_of_a_proof_is_proved_again(self):
        self.checkout.run("build")
        self.checkout.wait_for_clock()
        (self.checkout.top / "crates/tfpg_graph/proofs/lemmas/fact.antt").write_text("changed\n")
        count = len(self.checkout.calls())
        self.checkout.run("build")
        self.assertGreater(len(self.checkout.calls()), count)

    def test_a_stop_at_its_first_moment_leaves_no_work(self):
        """A signal comes after the work was started, and before the script knows its number."""
        (self.checkout.says / "on-check").write_text('echo $$ > "$RT_SAYS/worker"; exec sleep 60\n')
        hook = self.checkout.folder / "hook"
        hook.write_text('set -T\ntrap \'if [ "$BASH_COMMAND" = "work=\\$!" ]; then while [ ! -s "$RT_SAYS/worker" ]; do sleep 0.05; done; '
                        'kill -TERM $$; fi\' DEBUG\n')
        ran = self.checkout.run("build", BASH_ENV=str(hook))
        worker = int((self.checkout.says / "worker").read_text())
        self.addCleanup(end_process, worker)
        self.assertEqual(ran.returncode, 130, ran.stderr)
        self.assertFalse(is_running(worker))


def children_of(number: str) -> List[str]:
    """What the kernel says of each process whose parent is this one, also if it has ended."""
    found = []
    for path in Path("/proc").glob("[0-9]*/stat"):
        try:
            said = path.read_text(encoding="utf-8", errors="replace")
        except OSError:
            continue
        if said.rsplit(") ", 1)[1].split(" ")[1] == number:
            found.append(said)
    return found


def is_running(number: int) -> bool:
    for _ in range(40):
        try:
            os.kill(number, 0)
            with open(f"/proc/{number}/stat", encoding="ascii") as stat:
                if stat.read().split(") ")[1].startswith("Z"):
                    return False
        except (ProcessLookupError, FileNotFoundError):
            return False
        time.sleep(0.05)
    return True


def end_process(number: int) -> None:
    if is_running(number):
        os.kill(number, 9)

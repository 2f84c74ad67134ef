"""Whole logs of many vehicles: by the program, a loop, a pool, Dask and MPI the same reports, byte for byte, and what is left where something
fails. Each test that needs a scheduler or workers has them as processes on the loopback address.

TFPG_SLIPS says how many random vehicles there are, 200 if it says nothing. With TFPG_LARGE there are 10,000, and 100,000 of 20 lines.
"""

import concurrent.futures
import contextlib
import errno
import gzip
import hashlib
import json
import os
import random
import signal
import sqlite3
import subprocess
import sys
import unittest
from pathlib import Path
from unittest import mock

import engines
from engines import LARGE, dask_worker, environment, folder, missing, process, pump, random_log, scheduler, tfpg_words, until
from support import EXAMPLES, TOP, run
from tfpg.program import run_program
from tfpg.reading import reports
from tfpg.reading.texts import text_of

import tfpg
import tfpg.fleet
from tfpg.fleet import command, spreading, tasks
from tfpg.fleet.folder import Folder
from tfpg.fleet.logs import logs_of
from tfpg.fleet.results import Result

VEHICLES = 10000 if LARGE else int(os.environ.get("TFPG_SLIPS", "200"))
MANY = 100000 if LARGE else 2000  # of 20 lines
LONG = 4000000 if LARGE else 100000  # lines of the vehicle that takes long: a minute, or some seconds
PUMP = str(EXAMPLES / "pump.tfpg")
NEEDED = missing()


def fleet_of(count, seed, least=1, most=12):
    """Random logs by the names of their vehicles."""
    draw, graph = random.Random(seed), pump()
    return {f"car{number}": random_log(draw, graph, least, most) for number in range(count)}


def written(place, logs):
    """The logs as files of a folder."""
    place.mkdir(parents=True, exist_ok=True)
    for name, log in logs.items():
        (place / f"{name}.log").write_bytes(log)
    return place


def by_program(log):
    """The report of the program."""
    ended = run_program(["diagnose", PUMP], log)
    assert ended.status == 0, ended.line
    return ended.output


def by_loop(graph, log):
    """The report of a session."""
    with tfpg.Session(graph) as session:
        lines = log.split(b"\n")
        blocks = [session.block for _ in session.rounds(lines if lines[-1] else lines[:-1])]
    return (session.head + "".join(blocks)).encode("ascii")


def said_of(report):
    """What a report says of a vehicle, read from its text alone."""
    read = reports.read_report(text_of(report), pump().declared)
    rounds, refused = read.rounds, read.refused
    runs, first, since, order = {}, {}, None, None
    for one in rounds:
        sets = [ranked.set for ranked in one.ranked]
        runs = {name: runs.get(name, one.now) for name in sets}
        for name in sets:
            first.setdefault(name, one.now)
        since, order = (one.now, sets) if sets != order else (since, order)
    last = rounds[-1] if rounds else None
    ranked = [(one.set, one.cost, one.alarmed, one.monitored, first[one.set], runs[one.set], min((when for _, when in one.trace), default=None))
              for one in last.ranked] if last else []
    causes = {}
    for one in refused:
        causes[one.cause] = causes.get(one.cause, 0) + 1
    counts = last.counts[1:] if last else (0, 0, 0)
    return (len(rounds) + len(refused), len(rounds), causes, refused[0].line if refused else None, last.now if last else None, since, ranked, *counts)


def numbers(result):
    """The same of a result."""
    ranked = [(one.set, one.cost, one.alarmed, one.monitored, one.first, one.since, one.began) for one in result.ranked]
    return (result.lines, result.accepted, result.refused, result.first_refused, result.now, result.since, ranked, result.covered,
            result.rejected, result.open)


def report_of(result):
    return gzip.decompress(result.compressed)


class Counting(concurrent.futures.Executor):
    """An executor that does each task at once, and keeps what it was given."""

    def __init__(self):
        self.given = []

    def submit(self, call, *words):
        self.given.append((call, words))
        future = concurrent.futures.Future()
        future.set_result(call(*words))
        return future


@unittest.skipIf(NEEDED, NEEDED)
class Answers(unittest.TestCase):
    maxDiff = 2000

    @classmethod
    def setUpClass(cls):
        cls.graph, cls.logs = pump(), {**fleet_of(VEHICLES, 1), "one line": b"600000 tick", "return": b"600000 tick\r", "nothing": b""}
        stack = contextlib.ExitStack()
        cls.addClassCleanup(stack.close)
        place = stack.enter_context(folder())
        cls.paths = {path.stem: path for path in written(place, cls.logs).iterdir()}
        cls.wanted = {name: by_loop(cls.graph, log) for name, log in cls.logs.items()}

    def hold(self, results):
        """Holds the results against the reports of a loop, byte for byte, and against what is read from these."""
        found = {one.vehicle: one for one in results}
        self.assertEqual(set(found), set(self.logs))
        for name, one in found.items():
            self.assertEqual(report_of(one), self.wanted[name], name)
            self.assertEqual(one.report, hashlib.sha256(self.wanted[name]).hexdigest())
            self.assertEqual(one.log, hashlib.sha256(self.logs[name]).hexdigest())
            self.assertEqual(numbers(one), said_of(self.wanted[name]), name)
            self.assertEqual(one.fault, "")

    def test_the_program(self):
        for name, log in self.logs.items():
            self.assertEqual(by_program(log), self.wanted[name], name)

    def test_the_pool(self):
        self.hold(tfpg.fleet.diagnose(self.graph, self.paths, workers=2, reports=True))

    def test_a_caller_may_take_any_executor(self):
        with concurrent.futures.ThreadPoolExecutor(2) as executor:
            self.hold(tfpg.fleet.diagnose(self.graph, iter(self.paths.items()), executor=executor, reports=True))
        self.hold(tfpg.fleet.diagnose(self.graph, self.paths, executor=Counting(), reports=True))

    @unittest.skipIf(missing("distributed"), missing("distributed"))
    def test_dask(self):
        from distributed import Client

        with scheduler() as head, dask_worker(head.address), dask_worker(head.address):
            with contextlib.closing(Client(head.address, set_as_default=False)) as client:
                client.wait_for_workers(2, timeout=120)
                self.hold(tfpg.fleet.diagnose(self.graph, self.paths, executor=client.get_executor(pure=False), reports=True))
                results = list(tfpg.fleet.diagnose(self.graph, self.paths, executor=client.get_executor(), check=True))
        self.assertEqual({one.vehicle: one.checked for one in results},
                         {name: said_of(report)[1] for name, report in self.wanted.items()})

    @unittest.skipIf(missing("mpi4py", "mpiexec"), missing("mpi4py", "mpiexec"))
    def test_mpi(self):
        with folder() as place:
            logs = next(iter(self.paths.values())).parent
            (place / "spread.py").write_text(MPI, encoding="utf-8")
            words = ["mpiexec", "--allow-run-as-root", "--oversubscribe", "-n", "3", sys.executable, "-m", "mpi4py.futures",
                     str(place / "spread.py"), PUMP, str(logs)]
            ended = subprocess.run(words, env=environment(), stdout=subprocess.PIPE, stderr=subprocess.PIPE, text=True, check=False, timeout=300)
        self.assertEqual(ended.returncode, 0, ended.stderr)
        self.assertEqual(json.loads(ended.stdout), {name: hashlib.sha256(report).hexdigest() for name, report in self.wanted.items()})


MPI = """\
import json, sys
from pathlib import Path
from mpi4py.futures import MPIPoolExecutor
import tfpg, tfpg.fleet

if __name__ == "__main__":
    logs = {path.stem: path for path in Path(sys.argv[2]).iterdir()}
    with MPIPoolExecutor() as executor:
        print(json.dumps({one.vehicle: one.report for one in tfpg.fleet.diagnose(tfpg.Graph.load(sys.argv[1]), logs, executor=executor)}))
"""


@unittest.skipIf(NEEDED, NEEDED)
class Tasks(unittest.TestCase):
    def test_small_logs_go_in_bundles(self):
        class Steady(Counting):
            def submit(self, call, *words):
                future = super().submit(call, *words)
                steady = future.result()._replace(seconds=spreading.weight_of(words[1]) / 1e6)
                future = concurrent.futures.Future()
                future.set_result(steady)
                return future
        executor, logs = Steady(), fleet_of(600, 2, 20, 20)
        list(tfpg.fleet.diagnose(pump(), logs, executor=executor))
        bundles = [bundle for _, (_, bundle) in executor.given]
        self.assertEqual([name for bundle in bundles for name, _ in bundle.logs], list(logs))
        weights = list(map(spreading.weight_of, bundles))
        self.assertGreaterEqual(min(weights[:-1]), spreading.FIRST_WEIGHT)
        later = weights[spreading.FIRST_TASKS:-1]  # made after the first were back, at a million in a second
        self.assertGreater(len(later), 1)
        self.assertGreaterEqual(min(later), 1e6 * spreading.SECONDS)
        self.assertGreaterEqual(spreading.SECONDS, 0.1)

    def test_the_next_bundles_take_as_long_as_is_wanted(self):
        spread = spreading.Spread(Counting(), b"", spreading.Terms(), False, False, 8)
        self.assertEqual(spread.fitting(), spreading.FIRST_WEIGHT)
        spread.weights.extend([1000.0, 10.0, 2000.0])  # one vehicle that takes long moves nothing
        self.assertEqual(spread.fitting(), 1000 * spreading.SECONDS)
        spread.weights.extend([1e12] * 9)
        self.assertEqual(spread.fitting(), spreading.MOST_WEIGHT)

    def test_the_graph_goes_once_to_each_worker(self):
        graph = pump()
        with spreading.engine(None, graph, 1) as (pool, text):
            self.assertIsNone(text)
            self.assertEqual(pool.submit(held_graph).result(), graph.text)
        self.assertEqual(spreading.held_by_dask(Counting(), graph.text), graph.text)

    def test_no_more_is_out_than_the_caller_says(self):
        class Late(Counting):
            def submit(self, call, *words):
                future = concurrent.futures.Future()
                self.given.append((future, call, words))
                if len(self.given) == 4:
                    for one, call, words in self.given:
                        one.set_result(call(*words))
                return future
        executor = Late()
        taken = []

        def logs():
            for name, log in fleet_of(200, 3, 60, 60).items():
                taken.append(name)
                yield name, log
        with contextlib.closing(tfpg.fleet.diagnose(pump(), logs(), executor=executor, tasks=4)) as results:
            next(results)
            self.assertEqual(len(executor.given), 4)
            self.assertLess(len(taken), 200)

    def test_a_vehicle_that_comes_twice(self):
        with self.assertRaisesRegex(ValueError, "the vehicle 'car1' comes twice"):
            list(tfpg.fleet.diagnose(pump(), [("car1", "5 tick\n"), ("car1", "6 tick\n")], executor=Counting()))

    def test_a_log_that_cannot_be_read(self):
        with folder() as place:
            results = list(tfpg.fleet.diagnose(pump(), {"gone": place / "gone.log", "here": "5 tick\n"}, executor=Counting()))
        self.assertEqual({one.vehicle: one.fault for one in results}, {"gone": "its log is not read: No such file or directory", "here": ""})

    def test_errors_of_graph_and_terms_come_before_any_work(self):
        for error, graph, terms in ((tfpg.BadGraph, tfpg.Graph("tfpg 1\nend\n"), {}), (tfpg.OutOfRange, pump(), {"k": 65})):
            executor = Counting()
            with self.assertRaises(error):
                list(tfpg.fleet.diagnose(graph, {"car": "5 tick\n"}, executor=executor, **terms))
            self.assertEqual(executor.given, [])

    def test_a_result_as_json(self):
        one = tasks.result_of(pump(), "car", (EXAMPLES / "pump.log").read_bytes(), spreading.Terms(), True)
        said = json.loads(json.dumps(one.to_dict()))
        self.assertEqual((said["vehicle"], said["lines"], said["accepted"], said["refused"], said["first_refused"], said["now"]),
                         ("car", 7, 6, {"TimeBack": 1}, 5, 5400000))
        self.assertEqual([(each["set"], each["cost"], each["alarmed"], each["monitored"]) for each in said["ranked"]],
                         [("FilterClogged", 2, 3, 3), ("ValveStuck", 3, 3, 4), ("MotorBearing", 4, 3, 3)])
        self.assertEqual((said["ranked"][0]["first"], said["ranked"][0]["since"], said["ranked"][0]["began"]), (2715000, 2715000, 2654000))
        self.assertNotIn("compressed", said)


def held_graph():
    return tasks.held[0]


@unittest.skipIf(NEEDED, NEEDED)
class Judging(unittest.TestCase):
    def test_each_report_is_judged(self):
        logs = fleet_of(40, 4)
        results = list(tfpg.fleet.diagnose(pump(), logs, workers=2, check=True))
        self.assertEqual({one.vehicle: (one.checked, one.compressed) for one in results},
                         {name: (said_of(by_loop(pump(), log))[1], b"") for name, log in logs.items()})

    def test_another_process_judges(self):
        graph, bundle = pump(), tasks.Bundle((("car", b"5 tick\n"),), spreading.Terms(), True)
        made = tasks.diagnose_bundle(graph.text, bundle)
        judge = tasks.judged
        try:
            tasks.judged = self.fail  # in this process
            self.assertEqual(tasks.judge_bundle(graph.text, bundle, made).results[0].checked, 1)
        finally:
            tasks.judged = judge
        elsewhere = made._replace(maker="other 1")
        self.assertEqual(tasks.judge_bundle(graph.text, bundle, elsewhere).results[0].checked, 1)

    def test_a_forged_report_is_refused(self):
        log = (EXAMPLES / "pump.log").read_bytes()
        forged = (EXAMPLES / "pump.report").read_bytes().replace(b"ranked 1 cost 2", b"ranked 1 cost 1", 1)
        one = tasks.verdict(pump(), log, Result("car", compressed=gzip.compress(forged)))
        self.assertIsNone(one.checked)
        self.assertRegex(one.fault, "its report is not accepted: line 79: WrongRanked")


def badness(said, name):
    """Where a vehicle stands among those of a fleet, the worst first, by what its report says."""
    lines, rounds, causes, _, _, _, ranked, _, _, is_open = said
    if not rounds:
        return (2 if lines else 5), 0, 0, 0, name
    if not ranked:
        return (1 if is_open else 0), 0, 0, -sum(causes.values()), name
    best, cost = ranked[0][:2]
    return (4 if best == "-" else 3), -len(best.split(",")), -cost, -sum(causes.values()), name


class WithFolder(unittest.TestCase):
    """Tests of the command, with a folder for what it writes."""

    maxDiff = 3000

    def setUp(self):
        stack = contextlib.ExitStack()
        self.addCleanup(stack.close)
        self.place = stack.enter_context(folder())
        self.out = self.place / "out"

    def lines(self):
        """The lines of the summary by their vehicles, each there once."""
        lines = [json.loads(line) for line in (self.out / "summary.jsonl").read_text(encoding="utf-8").splitlines()]
        self.assertEqual(len({line["vehicle"] for line in lines}), len(lines))
        return {line["vehicle"]: line for line in lines}

    def hold(self, logs, checked=False):
        """Holds what the folder has against what the reports of these logs say, and the database against the lines."""
        lines, graph = self.lines(), pump()
        self.assertEqual(set(lines), set(logs))
        for name, log in logs.items():
            report = by_loop(graph, log)
            self.assertEqual(gzip.decompress((self.out / "reports" / f"{name}.report.gz").read_bytes()), report)
            self.assertEqual((lines[name]["report"], lines[name]["log"]), (hashlib.sha256(report).hexdigest(), hashlib.sha256(log).hexdigest()))
            self.assertEqual(lines[name]["checked"], said_of(report)[1] if checked else None)
        self.assertEqual({path.name for path in (self.out / "reports").iterdir()}, {f"{name}.report.gz" for name in logs})
        self.assertEqual(dict(self.query("select vehicle, line from vehicles")), {name: json.dumps(line) for name, line in lines.items()})

    def query(self, text):
        with contextlib.closing(sqlite3.connect(str(self.out / "summary.sqlite"))) as base:
            return base.execute(text).fetchall()


class Results(WithFolder):
    """What a run makes of results, whoever made these."""

    def test_a_table_that_nobody_reads_to_its_end(self):
        run = command.Run(command.parser().parse_args([PUMP, "car.log", "--out", str(self.out)]), pump(), {"car": Path("car.log")})
        self.addCleanup(run.folder.close)
        run.kept()
        run.take(Result("car", 1, 1, log="sum", report="sum"))
        with mock.patch("builtins.print", side_effect=BrokenPipeError), self.assertRaises(BrokenPipeError):
            run.tell()
        self.assertEqual(self.query("select vehicle from vehicles"), [("car",)])

    def test_a_report_that_is_not_whole_is_made_again(self):
        report = b"report 2 k 2 doubt 0 budget 1000\n"
        packed = gzip.compress(report)
        made = Folder(self.out, {"k": 2}, resume=False)
        made.begin([])
        made.add(Result("car", log="sum", report=hashlib.sha256(report).hexdigest(), compressed=packed))
        made.close()
        resumed = Folder(self.out, {"k": 2}, resume=True)
        for content in (packed, packed[:-9], b"", gzip.compress(report[:5]), b"no report"):
            made.report("car").write_bytes(content)
            self.assertEqual(resumed.kept("car", "sum", False) is not None, content == packed, content)
        made.report("car").unlink()
        self.assertIsNone(resumed.kept("car", "sum", False))

    def test_a_summary_that_is_damaged(self):
        """A line that is none says nothing, also if it is no UTF-8, as what a disk has after a loss of power."""
        self.out.mkdir()
        (self.out / "summary.jsonl").write_bytes(b'{"vehicle": "car"}\n\xff\xfe\0\n{"vehicle": "van"}\n')
        self.assertEqual(set(Folder(self.out, {}, resume=True).before), {"car", "van"})


class Lost(unittest.TestCase):
    def test_a_judge_that_ended_by_itself(self):
        """As where memory ran out: it is a process that a worker began."""
        bundle = tasks.Bundle((("car", b"5 tick\n"),), spreading.Terms(), True)
        with mock.patch.object(tasks.sys, "executable", "/bin/false"), concurrent.futures.ThreadPoolExecutor(1) as executor:
            future = executor.submit(tasks.judged_elsewhere, b"", bundle.logs, [])
            with self.assertRaisesRegex(tfpg.fleet.WorkersLost, "a worker process ended by itself; not done are car and all"):
                spreading.answer_of(future, bundle)


class Words(WithFolder):
    """Which logs words name. None is left out in silence."""

    def test_what_is_resumed_is_a_folder(self):
        for more in ([], ["--out", ""]):
            status, said = run("fleet", PUMP, str(self.place), "--resume", *more)
            self.assertEqual((status, said.splitlines()[-1]), (2, "tfpg fleet: error: --resume goes on with a folder: say --out FOLDER"))

    def test_a_folder_that_cannot_be_read(self):
        written(self.place / "logs", {"open": b""})
        closed = written(self.place / "logs" / "closed", {"lost": b""})
        self.assertEqual(list(logs_of([str(self.place)])), ["lost", "open"])
        scandir = os.scandir

        def refuse(path="."):
            if os.fspath(path) == str(closed):
                raise PermissionError(errno.EACCES, "Permission denied", str(closed))
            return scandir(path)

        with mock.patch("os.scandir", refuse), self.assertRaisesRegex(PermissionError, "closed"):
            logs_of([str(self.place)])

    def test_a_list_whose_names_have_zeros_between(self):
        """As `find -print0` writes it."""
        (self.place / "list").write_bytes(b"one.log\0other.log\0")
        status, said = run("fleet", PUMP, f"@{self.place / 'list'}")
        self.assertEqual(status, 2)
        self.assertEqual(said, "tfpg fleet: no file has such a name: 'one.log\\x00other.log\\x00'; a list has one name in each line\n")

    def test_a_list_with_a_name_that_is_no_utf_8(self):
        place = written(self.place / os.fsdecode(b"caf\xe9"), {"car": b""})
        given = self.place / "list"
        given.write_bytes(os.fsencode(place / "car.log") + b"\n")
        with open(given, encoding="utf-8") as stdin, mock.patch("sys.stdin", stdin):
            self.assertEqual(logs_of(["-", f"@{given}", "-"]), {"car": place / "car.log"})
        self.assertEqual(logs_of([f"@{given}"]), {"car": place / "car.log"})


@unittest.skipIf(NEEDED, NEEDED)
class Command(WithFolder):
    def test_a_folder_of_logs(self):
        logs = fleet_of(60, 5)
        ended = engines.tfpg("fleet", PUMP, written(self.place / "logs", logs), "--workers", 2, "--out", self.out, "--check")
        self.assertEqual((ended.returncode, ended.stderr), (0, ""))
        self.hold(logs, checked=True)
        lost = [said_of(by_loop(pump(), log)) for log in logs.values()]
        self.assertIn(f"60 vehicles: 0 with a fault, {sum(bool(one[2]) for one in lost)} lost {sum(sum(one[2].values()) for one in lost)} lines",
                      ended.stdout)
        self.assertIn("60 reports accepted by check", ended.stdout)

    def test_the_questions_of_a_crew(self):
        logs = {"blank": b"", "dry": b"0 tick\n900000 alarm MotorHot\n", "quiet": b"5 tick\n", "noise": b"\xff\xfe\n\n5 alarm Nobody\n", "odd": b"0 alarm LowFlow\n",
                "late": b"600000 tick\n2715000 alarm LowFlow\nbad\n2715001 sweep\n"}
        ended = engines.tfpg("fleet", PUMP, written(self.place / "logs", logs), "--workers", 1, "--out", self.out)
        self.assertEqual((ended.returncode, ended.stderr), (0, ""))
        wanted = {name: said_of(by_loop(pump(), log)) for name, log in logs.items()}
        ranked = [(one[0], name, place, one[1], one[5], one[4], one[6]) for name, said in wanted.items() for place, one in enumerate(said[6], 1)]
        self.assertEqual(sorted(self.query("select * from vehicles_by_set")), sorted(ranked))
        sets = {one[0] for one in ranked}
        self.assertEqual({row[:3] for row in self.query("select * from sets")},
                         {(name, sum(one[0] == name for one in ranked), sum(one[0] == name and one[2] == 1 for one in ranked)) for name in sets})
        self.assertEqual(self.query("select * from lost_lines"), [("noise", "BadLine", 2, 1, 3), ("noise", "UnknownName", 1, 1, 3),
                                                                  ("late", "BadLine", 1, 3, 4)])
        self.assertEqual(self.query("select vehicle from unexplained"), [(name,) for name, said in sorted(wanted.items()) if said[1] and not said[6]])
        self.assertEqual(self.query("select * from open_vehicles"), [])
        worst = [row[0] for row in self.query("select vehicle from worst")]
        self.assertEqual(worst, sorted(logs, key=lambda name: badness(wanted[name], name)))
        self.assertEqual((worst[0], worst[-2:]), ("odd", ["quiet", "blank"]))
        self.assertRegex(ended.stdout, r"\nnoise +3 +3 +0 +0  no line is accepted")

    def test_open_hypotheses_are_said(self):
        logs = {"car": (EXAMPLES / "satellite-relay.log").read_bytes()}
        ended = engines.tfpg("fleet", EXAMPLES / "satellite.tfpg", written(self.place / "logs", logs), "--budget", 1, "--out", self.out)
        self.assertEqual(ended.returncode, 0, ended.stderr)
        with tfpg.Session(tfpg.Graph.load(EXAMPLES / "satellite.tfpg"), budget=1) as session:
            last = [answer for answer in session.rounds(logs["car"]) if isinstance(answer, tfpg.Round)][-1]
        self.assertEqual(self.query("select vehicle, open from open_vehicles"), [("car", last.open)] if last.open else [])

    def test_json(self):
        logs = fleet_of(10, 6)
        ended = engines.tfpg("fleet", PUMP, written(self.place / "logs", logs), "--workers", 1, "--json", "--out", self.out)
        *vehicles, sets = map(json.loads, ended.stdout.splitlines())
        self.assertEqual({one["vehicle"]: one for one in vehicles}, self.lines())
        self.assertEqual([one["vehicle"] for one in vehicles], [row[0] for row in self.query("select vehicle from worst")])
        self.assertEqual([tuple(one.values()) for one in sets["sets"]], self.query('select "set", vehicles, best_of, cost, since from sets'))

    def on_terminal(self, **more):
        """What a run says on a terminal."""
        leader, follower = os.openpty()
        log = written(self.place / "logs", {"car": b"5 tick\n"})
        ended = subprocess.run(tfpg_words("fleet", PUMP, log, "--workers", 1), stdout=subprocess.DEVNULL, stderr=follower, check=False,
                               env=environment(**more))
        os.close(follower)
        said = os.read(leader, 100000).decode()
        os.close(leader)
        self.assertEqual(ended.returncode, 0, said)
        return said

    def test_progress_on_a_terminal(self):
        if missing("tqdm"):
            self.skipTest(missing("tqdm"))
        self.assertRegex(self.on_terminal(), r"100% 1/1 .* vehicles")

    def test_no_progress_without_its_module(self):
        (self.place / "tqdm.py").write_text("raise ImportError('none')\n", encoding="utf-8")
        said = self.on_terminal(PYTHONPATH=os.pathsep.join([str(self.place), str(TOP / "python")]))
        self.assertIn("there is no bar of progress, since the module tqdm is missing: on Debian it is the package python3-tqdm", said)

    def test_words_for_logs(self):
        logs = fleet_of(6, 7)
        place = written(self.place / "logs" / "monday", {name: logs[name] for name in ("car0", "car1", "car2")})
        (place / "notes.txt").write_text("no log\n", encoding="utf-8")
        written(self.place / "more", {name: logs[name] for name in ("car3", "car4", "car5")})
        (self.place / "list").write_text(f"{self.place / 'more' / 'car4.log'}\n\n{self.place / 'logs'}\n", encoding="utf-8")
        ended = engines.tfpg("fleet", PUMP, self.place / "more" / "car3.log", f"@{self.place / 'list'}", "-", "--out", self.out, "--workers", 1,
                             given=f"{self.place / 'more' / 'car5.log'}\n")
        self.assertEqual(ended.returncode, 0, ended.stderr)
        self.hold(logs)
        written(self.place / "other", {"car0": b"5 tick\n"})
        for words, status, said in (([place, self.place / "other"], 2, "two logs are of the vehicle car0"), ([self.out], 2, "no log is named"),
                                    ([f"@{self.place / 'none'}"], 5, "none: No such file"),
                                    ([place, "--out", self.out], 2, "has a summary already: --resume goes on with it")):
            ended = engines.tfpg("fleet", PUMP, *words)
            self.assertEqual((ended.returncode, ended.stdout), (status, ""), ended.stderr)
            self.assertIn(said, ended.stderr)

    def test_refused_graphs_and_terms(self):
        bad = self.place / "bad.tfpg"
        bad.write_text("tfpg 1\nend\n", encoding="utf-8")
        log = written(self.place / "logs", {"car": b"5 tick\n"})
        for words, status in (([bad, log], 3), ([PUMP, log, "--k", 65], 2), ([PUMP, log, "--budget", 0], 2), ([self.place / "gone", log], 5)):
            ended = engines.tfpg("fleet", *words)
            self.assertEqual((ended.returncode, ended.stdout), (status, ""), ended.stderr)
            self.assertNotIn("Traceback", ended.stderr)

    def test_resume_does_what_is_missing_or_changed(self):
        logs = fleet_of(30, 8)
        place = written(self.place / "logs", logs)
        words = ["fleet", PUMP, place, "--workers", 1, "--out", self.out]
        engines.tfpg(*words)
        self.hold(logs)
        before = {path.name: path.stat().st_mtime_ns for path in (self.out / "reports").iterdir()}
        logs["car1"], logs["car30"] = b"7 tick\n", b"8 tick\n"
        written(place, logs)
        (self.out / "reports" / "car2.report.gz").unlink()
        with open(self.out / "summary.jsonl", "a", encoding="utf-8") as file:
            file.write('{"vehicle": "car3", "li')  # as a write that was cut off
        ended = engines.tfpg(*words, "--resume")
        self.assertEqual((ended.returncode, ended.stderr), (0, ""))
        self.hold(logs)
        after = {path.name: path.stat().st_mtime_ns for path in (self.out / "reports").iterdir()}
        self.assertEqual({name for name, time in after.items() if before.get(name) != time}, {f"car{number}.report.gz" for number in (1, 2, 30)})
        engines.tfpg(*words, "--resume", "--check")
        self.hold(logs, checked=True)

    def test_resume_with_another_graph_or_other_terms_does_all(self):
        logs = fleet_of(10, 9)
        place = written(self.place / "logs", logs)
        words = ["fleet", PUMP, place, "--workers", 1, "--out", self.out]
        engines.tfpg(*words)
        changed = self.place / "changed.tfpg"
        changed.write_text(Path(PUMP).read_text(encoding="utf-8").replace("failure FilterClogged 2", "failure FilterClogged 5"), encoding="utf-8")
        for more, graph in ((["--k", 1], PUMP), ([], str(changed))):
            ended = engines.tfpg("fleet", graph, *words[2:], *more, "--resume")
            self.assertEqual(ended.returncode, 0, ended.stderr)
            said = {(line["graph"], line["k"]) for line in self.lines().values()}
            self.assertEqual(said, {(hashlib.sha256(Path(graph).read_bytes()).hexdigest(), 1 if more else 2)})
        self.assertEqual({row[0] for row in self.query('select cost from ranked where "set" = \'FilterClogged\'')} - {5}, set())

    def test_dask(self):
        if missing("distributed"):
            self.skipTest(missing("distributed"))
        logs = fleet_of(30, 10)
        with scheduler() as head, dask_worker(head.address):
            ended = engines.tfpg("fleet", PUMP, written(self.place / "logs", logs), "--scheduler", head.address, "--out", self.out, "--check")
        self.assertEqual(ended.returncode, 0, ended.stderr)
        self.hold(logs, checked=True)

    def test_no_scheduler(self):
        if missing("distributed"):
            self.skipTest(missing("distributed"))
        ended = engines.tfpg("fleet", PUMP, written(self.place / "logs", {"car": b"5 tick\n"}), "--scheduler",
                             f"tcp://127.0.0.1:{engines.free_port()}")
        self.assertEqual(ended.returncode, 70)
        self.assertRegex(ended.stderr, "tfpg fleet: no scheduler answers at tcp://127.0.0.1")
        self.assertNotIn("Traceback", ended.stderr)


@unittest.skipIf(NEEDED, NEEDED)
class Faults(WithFolder):
    """What is left where something fails, and what `--resume` makes of it. Some tests have vehicles whose logs take long."""

    def begin(self, logs, *more):
        """A run of the command over these logs, as a process."""
        words = tfpg_words("fleet", PUMP, written(self.place / "logs", logs), "--out", self.out, *more)
        return process(words, stdout=subprocess.PIPE, stderr=subprocess.PIPE)

    def some_lines(self, least=1):
        path = self.out / "summary.jsonl"
        return path.exists() and path.read_text(encoding="utf-8").count("\n") >= least

    def begun(self):
        """Which file the summary is. A run begins it anew."""
        path = self.out / "summary.jsonl"
        return path.stat().st_ino if path.exists() else None

    def finish(self, logs):
        """Resumes, and holds that all is done then."""
        ended = engines.tfpg("fleet", PUMP, self.place / "logs", "--workers", 2, "--out", self.out, "--resume")
        self.assertEqual(ended.returncode, 0, ended.stderr)
        self.hold(logs)

    def long_fleet(self, seed):
        """A fleet with two vehicles whose logs take long, beside which others are soon done."""
        long = b"no line\n" * LONG
        return {**fleet_of(150, seed, 20, 20), "long0": long, "long1": long}

    def test_a_worker_killed_in_a_task(self):
        logs = self.long_fleet(20)
        with self.begin(logs, "--workers", "2") as run:
            until(self.some_lines, "a vehicle is done")
            until(lambda: kill_one(run.pid), "a worker is there")
            said = run.communicate(timeout=300)[1]
        self.assertEqual(run.returncode, 70)
        self.assertRegex(said, r"tfpg fleet: a worker process ended by itself; not done are .*; \d+ of 152 vehicles are done; --resume goes on")
        self.assertNotIn("Traceback", said)
        self.assertGreater(len(self.lines()), 0)
        self.finish(logs)

    def test_a_worker_of_dask_killed_in_a_task(self):
        if missing("distributed"):
            self.skipTest(missing("distributed"))
        logs = self.long_fleet(21)
        with scheduler() as head, dask_worker(head.address) as one, dask_worker(head.address):
            with self.begin(logs, "--scheduler", head.address) as run:
                until(self.some_lines, "a vehicle is done")
                one.kill()
                said = run.communicate(timeout=300)[1]
        self.assertEqual(run.returncode, 0, said)
        self.hold(logs)

    def test_the_scheduler_gone(self):
        if missing("distributed"):
            self.skipTest(missing("distributed"))
        logs = self.long_fleet(22)
        with scheduler() as head, dask_worker(head.address), self.begin(logs, "--scheduler", head.address) as run:
            until(self.some_lines, "a vehicle is done")
            head.kill()
            said = run.communicate(timeout=300)[1]
        self.assertEqual(run.returncode, 70)
        self.assertRegex(said, r"tfpg fleet: the scheduler or its workers are gone; not done are .* of 152 vehicles are done; --resume goes on")
        self.finish(logs)

    def test_an_interrupt_leaves_what_is_done(self):
        logs = self.long_fleet(23)
        for sent, more in ((signal.SIGINT, []), (signal.SIGTERM, ["--resume"])):
            before, wanted = self.begun(), 8 + (len(self.lines()) if more else 0)  # by then both workers are there
            with self.subTest(signal=sent), self.begin(logs, "--workers", "2", *more) as run:
                until(lambda: self.begun() != before and self.some_lines(wanted), "some vehicles are done")
                run.send_signal(sent)
                output, said = run.communicate(timeout=300)
                self.assertEqual(run.returncode, 130)
                self.assertRegex(said, r"tfpg fleet: stopped; \d+ of 152 vehicles are done; --resume goes on")
                self.assertNotIn("Traceback", said)
                self.assertIn("vehicles: ", output)
                self.assertEqual(len(self.query("select * from vehicles")), len(self.lines()))
        self.finish(logs)

    def test_a_log_that_is_no_log(self):
        draw = random.Random(24)
        logs = {**fleet_of(5, 24), "noise": draw.randbytes(50000), "graph": Path(PUMP).read_bytes(), "empty": b""}
        ended = engines.tfpg("fleet", PUMP, written(self.place / "logs", logs), "--workers", 1, "--out", self.out)
        self.assertEqual((ended.returncode, ended.stderr), (0, ""))
        self.hold(logs)
        lines = self.lines()
        for name in ("noise", "graph"):
            self.assertEqual((lines[name]["accepted"], sum(lines[name]["refused"].values())), (0, lines[name]["lines"]))
            self.assertRegex(ended.stdout, rf"\n{name} .* no line is accepted")

    def test_a_file_that_is_not_read(self):
        logs = fleet_of(5, 25)
        place = written(self.place / "logs", logs)
        ended = engines.tfpg("fleet", PUMP, place, self.place / "gone.log", "--workers", 1, "--out", self.out)
        self.assertEqual(ended.returncode, 5)
        self.assertIn("tfpg fleet: gone: its log is not read: No such file or directory", ended.stderr)
        self.assertEqual(self.query("select * from faults"), [("gone", "its log is not read: No such file or directory")])
        (self.place / "gone.log").write_bytes(b"5 tick\n")
        ended = engines.tfpg("fleet", PUMP, place, self.place / "gone.log", "--workers", 1, "--out", self.out, "--resume")
        self.assertEqual(ended.returncode, 0, ended.stderr)
        self.hold({**logs, "gone": b"5 tick\n"})

    def test_one_vehicle_that_takes_long_holds_up_no_other(self):
        logs = {"long": b"no line\n" * LONG, **fleet_of(100, 26, 1, 3)}  # its log alone is a bundle
        order = [one.vehicle for one in tfpg.fleet.diagnose(pump(), logs, workers=2)]
        self.assertEqual(order[-1], "long")
        self.assertEqual(sorted(order), sorted(logs))

    def test_a_disk_that_is_full(self):
        self.out.mkdir()
        mounted = subprocess.run(["mount", "-t", "tmpfs", "-o", "size=200k", "none", str(self.out)], stderr=subprocess.PIPE, text=True, check=False)
        if mounted.returncode != 0:
            self.skipTest(f"a small disk cannot be made here: {mounted.stderr.strip()}")
        self.addCleanup(subprocess.run, ["umount", "-l", str(self.out)], check=False)
        logs = fleet_of(300, 27, 20, 20)
        ended = engines.tfpg("fleet", PUMP, written(self.place / "logs", logs), "--workers", 1, "--out", self.out)
        self.assertEqual(ended.returncode, 6)
        self.assertRegex(ended.stderr, r"tfpg fleet: .*(No space left on device|disk is full); \d+ of 300 vehicles are done; --resume goes on")
        self.assertNotIn("Traceback", ended.stderr)
        subprocess.run(["mount", "-o", "remount,size=32m", str(self.out)], check=True)
        self.finish(logs)

    def test_many_vehicles(self):
        logs = fleet_of(MANY, 28, 20, 20)
        ended = engines.tfpg("fleet", PUMP, written(self.place / "logs", logs), "--out", self.out, timeout=3000)
        self.assertEqual((ended.returncode, ended.stderr), (0, ""))
        self.assertIn(f"{MANY:,} vehicles: 0 with a fault", ended.stdout)
        self.assertEqual(len(self.lines()), MANY)
        wanted = sum(len(log.split(b"\n")) - (log.endswith(b"\n") or not log) for log in logs.values())
        self.assertEqual(sum(line["lines"] for line in self.lines().values()), wanted)


def kill_one(parent):
    """Ends a worker of the pool that this process began, and says whether there was one. It is a child of the server of forks."""
    for child in children(parent):
        for worker in children(child):
            os.kill(worker, signal.SIGKILL)
            return True
    return False


def children(parent):
    """The processes that a process began."""
    found = []
    for task in Path(f"/proc/{parent}/task").glob("*/children"):
        found += map(int, task.read_text(encoding="ascii").split())
    return found


class WithoutModules(unittest.TestCase):
    @unittest.skipIf(NEEDED, NEEDED)
    def test_a_sentence_says_which_package_is_missing(self):
        with folder() as place:
            (place / "distributed.py").write_text("raise ImportError('none')\n", encoding="utf-8")
            log = written(place / "logs", {"car": b"5 tick\n"})
            path = os.pathsep.join([str(place), str(TOP / "python")])
            ended = subprocess.run(tfpg_words("fleet", PUMP, log, "--scheduler", "tcp://127.0.0.1:1"), stderr=subprocess.PIPE, text=True,
                                   stdout=subprocess.DEVNULL, env={**os.environ, "PYTHONPATH": path}, check=False)
        self.assertEqual(ended.returncode, 70)
        self.assertIn("tfpg fleet: --scheduler needs the module distributed: on Debian it is the package python3-distributed", ended.stderr)


if __name__ == "__main__":
    unittest.main()

"""Growing logs on Redis Streams: each vehicle's lines reach its own session in their order, and each change is written once, whatever ends
when. Each test has a server of Redis and workers as processes.

TFPG_SLIPS says how many random vehicles there are, 200 if it says nothing. With TFPG_LARGE there are 10,000.
"""

import contextlib
import importlib.util
import json
import os
import random
import signal
import subprocess
import sys
import unittest
from pathlib import Path
from unittest import mock

import engines
from engines import LARGE, Redis, environment, folder, missing, process, random_log, tfpg_words, until
from support import EXAMPLES, TOP, files, run

import tfpg
from tfpg.calls.taking import Taking

VEHICLES = 10000 if LARGE else int(os.environ.get("TFPG_SLIPS", "200"))
PUMP = str(EXAMPLES / "pump.tfpg")
KILLED = str(TOP / "python" / "tests" / "killed_worker.py")
NEEDED = missing("redis", "redis-server")

if not NEEDED:
    import redis
    from tfpg.stream import Part, part_of, send

HAS_REDIS = importlib.util.find_spec("redis") is not None


def told(answer):
    """What a change says of an answer."""
    if isinstance(answer, tfpg.Refused):
        return {"refused": answer.cause}
    sets = [{"alarmed": one.alarmed, "cost": one.cost, "monitored": one.monitored, "set": one.set.split(",") if one.set != "-" else []}
            for one in answer.ranked]
    counts = {"covered": answer.covered, "open": answer.open, "ranked": len(sets), "rejected": answer.rejected}
    return {"ranking": {"counts": counts, "now": answer.now, "ranked": sets}}


# A worker that is told to stop where it comes to a call. It reads ten lines at once again.
TOLD = """
import os, signal, sys
from tfpg.stream import command, entries, worker

*module, name = sys.argv[1].split(".")
owner = {"command": command, "worker": worker}[module[0]]
owner = getattr(owner, module[1]) if module[1:] else owner
call = getattr(owner, name)

def told(*words):
    os.kill(os.getpid(), signal.SIGTERM)
    return call(*words)

setattr(owner, name, told)
entries.PAGE = 10
sys.exit(command.stream(sys.argv[3:]))
"""


class Fleet:
    """Lines of vehicles, sent in a random order, and what has to come of them by one session for each vehicle."""

    def __init__(self, client, parts, seed, vehicles=20, least=1, most=12, name="tfpg", graph=PUMP):
        self.client, self.parts, self.name, self.path, self.graph = client, parts, name, graph, tfpg.Graph.load(graph)
        self.draw = random.Random(seed)
        self.logs = {f"car{number}": random_log(self.draw, self.graph, least, most) for number in range(vehicles)}
        self.waiting = {vehicle: log.split(b"\n")[:-1] if log.endswith(b"\n") else log.split(b"\n") for vehicle, log in self.logs.items()}
        self.sent = []  # the id, the vehicle and the line of each entry

    def send(self, count=10**9):
        """Sends so many of the lines that are left, each vehicle's in their order."""
        names = [name for name, lines in self.waiting.items() for _ in lines]
        self.draw.shuffle(names)
        for name in names[:count]:
            line = self.waiting[name].pop(0)
            self.sent.append((part_of(name, self.parts), send(self.client, name, line, self.parts, self.name), name, line))

    def wanted(self):
        """By part, the entries of the stream of changes, and by vehicle the report."""
        changes, sessions, order, reports = {part: [] for part in range(self.parts)}, {}, {}, {}
        for part, one, name, line in self.sent:
            if name not in sessions:
                sessions[name] = tfpg.Session(self.graph)
                reports[name] = sessions[name].head
            answer = sessions[name].line(line)
            reports[name] += sessions[name].block
            key = None if isinstance(answer, tfpg.Refused) else ([ranked.set for ranked in answer.ranked], answer.open > 0)
            if key is None or key != order.get(name):
                changes[part].append((one, {"vehicle": name, **told(answer)}))
                order[name] = key or order.get(name)
        return changes, reports

    def found(self):
        """The same, as it stands in Redis."""
        changes, reports = {}, {}
        for part in range(self.parts):
            key = Part(part, self.parts, self.name)
            changes[part] = [(one, {name.decode(): json.loads(value) if name == b"ranking" else value.decode() for name, value in fields.items()})
                             for one, fields in self.client.xrange(key.changes)]
            for _, fields in self.client.xrange(key.blocks):
                name = fields[b"vehicle"].decode()
                reports[name] = reports.get(name, "") + fields[b"block"].decode()
        return changes, reports

    def words(self, part, *more):
        """The words of the worker of a part."""
        return ["stream", self.path, "--redis", f"redis://127.0.0.1:{self.port}", "--part", f"{part}/{self.parts}", "--name", self.name, *map(str, more)]

    @property
    def port(self):
        return self.client.connection_pool.connection_kwargs["port"]

    def work(self, *more, status=0):
        """Has a worker for each part do what waits."""
        for part in range(self.parts):
            ended = engines.tfpg(*self.words(part, "--once", *more))
            assert ended.returncode == status, (ended.returncode, ended.stderr)

    def killed(self, step, count, part, *more):
        """Has a worker end itself at a step. Returns whether it came to that."""
        words = [sys.executable, KILLED, step, str(count), *self.words(part, "--once", *more)[1:]]
        ended = subprocess.run(words, env=environment(), stdout=subprocess.PIPE, stderr=subprocess.PIPE, text=True, check=False, timeout=300)
        assert ended.returncode in (0, -signal.SIGKILL), ended.stderr
        return ended.returncode != 0


class WithRedis(unittest.TestCase):
    """Tests with a server."""

    maxDiff = 2000

    def setUp(self):
        stack = contextlib.ExitStack()
        self.addCleanup(stack.close)
        self.place = stack.enter_context(folder())
        self.redis = stack.enter_context(Redis(self.place))
        self.client = self.redis.client

    def hold(self, fleet):
        """Holds what stands in Redis against what has to come of the lines."""
        changes, reports = fleet.wanted()
        found, blocks = fleet.found()
        self.assertEqual(found, changes)
        self.assertGreater(sum(map(len, changes.values())), 0)
        return reports, blocks


@unittest.skipIf(NEEDED, NEEDED)
class Lines(WithRedis):
    def test_each_vehicle_has_its_own_session(self):
        fleet = Fleet(self.client, 3, seed=1, vehicles=VEHICLES)
        fleet.send()
        fleet.work("--blocks")
        reports, blocks = self.hold(fleet)
        self.assertEqual(blocks, reports)
        self.assertEqual(len(reports), VEHICLES)
        for part in range(3):
            self.assertEqual(self.client.xpending(Part(part, 3).lines, "tfpg")["pending"], 0)

    def test_lines_as_they_come(self):
        fleet = Fleet(self.client, 2, seed=2)
        with contextlib.ExitStack() as stack:
            for part in range(2):
                stack.enter_context(process(tfpg_words(*fleet.words(part)), stderr=subprocess.DEVNULL))
            for _ in range(10):
                fleet.send(10)
                changes, _ = fleet.wanted()
                until(lambda: fleet.found()[0] == changes, "the changes are written")
            self.hold(fleet)

    def test_a_worker_that_is_told_to_stop_finishes(self):
        fleet = Fleet(self.client, 1, seed=3)
        fleet.send(50)
        with process(tfpg_words(*fleet.words(0)), stderr=subprocess.DEVNULL) as worker:
            until(lambda: fleet.found()[0][0], "a change is written")
            worker.send_signal(signal.SIGTERM)
            self.assertEqual(worker.wait(300), 0)
        fleet.send()
        fleet.work()
        self.hold(fleet)

    def test_a_worker_that_is_told_to_stop_while_it_begins(self):
        """By a signal that comes while it opens its first session, while it asks for its group, and while it feeds lines again."""
        fleet = Fleet(self.client, 1, seed=22)
        fleet.send(60)
        fleet.work()
        for place, again in (("command.Session", None), ("worker.Worker.hold_terms", 0), ("worker.Worker.feed", 10)):
            with self.subTest(place=place):
                ended = subprocess.run([sys.executable, "-c", TOLD, place, *fleet.words(0)], env=environment(), stdout=subprocess.PIPE,
                                       stderr=subprocess.PIPE, text=True, timeout=300, check=False)
                said = "" if again is None else f"tfpg stream: {Part(0, 1).lines}: {again} lines were read again\n"
                self.assertEqual((ended.returncode, ended.stdout, ended.stderr), (0, "", said))
        fleet.send()
        fleet.work()
        self.hold(fleet)

    def test_a_worker_that_is_told_to_stop_while_it_waits(self):
        """For the first line, and for a server that does not answer, also where its patience ends meanwhile."""
        fleet = Fleet(self.client, 1, seed=23)
        with process(tfpg_words(*fleet.words(0)), stderr=subprocess.PIPE) as worker:
            self.assertEqual(worker.stderr.readline(), f"tfpg stream: {Part(0, 1).lines}: 0 lines were read again\n")
            worker.send_signal(signal.SIGTERM)
            self.assertEqual((worker.communicate(timeout=300)[1], worker.returncode), ("", 0))
        self.redis.kill()
        place = "command.connected"
        ended = subprocess.run([sys.executable, "-c", TOLD, place, *fleet.words(0, "--patience", 0)], env=environment(),
                               stderr=subprocess.PIPE, text=True, timeout=300, check=False)
        self.assertEqual((ended.returncode, ended.stderr), (0, ""))

    def test_an_entry_without_a_field_is_said(self):
        self.client.xadd(Part(0, 1).lines, {"vehicle": "car1"})
        self.client.xadd(Part(0, 1).lines, {"line": "5 tick"})
        fleet = Fleet(self.client, 1, seed=4, vehicles=1)
        fleet.work()
        self.assertEqual([fields for _, fields in fleet.found()[0][0]], [{"stray": "there is no field line"}, {"stray": "there is no field vehicle"}])

    def test_parts_are_the_same_in_each_process(self):
        self.assertEqual(part_of("123456789", 2**32), 0xCBF43926)  # the check value of CRC-32
        self.assertEqual(part_of(b"123456789", 8), 0xCBF43926 % 8)
        said = {subprocess.run([sys.executable, "-c", "from tfpg.stream import part_of; print([part_of(f'car{n}', 7) for n in range(50)])"],
                               env=environment(PYTHONHASHSEED=str(seed)), stdout=subprocess.PIPE, check=True).stdout for seed in (1, 2)}
        self.assertEqual(len(said), 1)
        self.assertEqual({part_of(f"car{number}", 7) for number in range(50)}, set(range(7)))


@unittest.skipIf(NEEDED, NEEDED)
class Deaths(WithRedis):
    def test_a_worker_killed_at_each_step(self):
        from killed_worker import STEPS

        for number, step in enumerate(STEPS):
            with self.subTest(step=step):
                fleet = Fleet(self.client, 1, seed=number, name=f"step{number}", most=8)
                fleet.send(60)
                self.assertTrue(fleet.killed(step, 1, 0, "--blocks", "--span", 30))
                fleet.send(30)
                fleet.killed(step, 2, 0, "--blocks", "--span", 30)  # after the lines that are fed again, or while they are
                fleet.send()
                fleet.work("--blocks", "--span", 30)
                self.hold(fleet)

    def test_a_worker_killed_at_random(self):
        for number in range(3):
            fleet = Fleet(self.client, 1, seed=100 + number, name=f"random{number}", most=30, vehicles=40)
            with self.subTest(number=number):
                for _ in range(4):
                    with process(tfpg_words(*fleet.words(0, "--span", 50)), stderr=subprocess.DEVNULL):
                        before = len(fleet.found()[0][0])
                        fleet.send(100)
                        until(lambda: len(fleet.found()[0][0]) > before, "the next change is written")
                fleet.send()
                fleet.work("--span", 50)
                self.hold(fleet)

    def test_redis_killed_and_started_again(self):
        fleet = Fleet(self.client, 1, seed=5, vehicles=40)
        with process(tfpg_words(*fleet.words(0)), stderr=subprocess.DEVNULL) as worker:
            for _ in range(2):
                fleet.send(100)
                until(lambda: fleet.found()[0][0], "a change is written")
                self.redis.kill()
                self.redis.start()
                fleet.send(50)
            fleet.send()
            changes, _ = fleet.wanted()
            until(lambda: fleet.found()[0] == changes, "all changes are written")
            self.assertIsNone(worker.poll())
        self.hold(fleet)

    def test_redis_gone_for_good(self):
        fleet = Fleet(self.client, 1, seed=6)
        fleet.send(50)
        with process(tfpg_words(*fleet.words(0, "--patience", 1)), stderr=subprocess.PIPE) as worker:
            until(lambda: fleet.found()[0][0], "a change is written")
            self.redis.kill()
            _, said = worker.communicate(timeout=300)
        self.assertEqual(worker.returncode, 70)
        self.assertRegex(said.splitlines()[-1], "^tfpg stream: Redis does not answer")
        self.assertNotIn("Traceback", said)
        self.redis.start()
        fleet.send()
        fleet.work()
        self.hold(fleet)

    def test_two_workers_of_one_part(self):
        fleet = Fleet(self.client, 1, seed=7, vehicles=60, most=20)
        with process(tfpg_words(*fleet.words(0)), stderr=subprocess.PIPE) as one, \
                process(tfpg_words(*fleet.words(0)), stderr=subprocess.PIPE) as other:
            def ended():
                if fleet.waiting:
                    fleet.send(5)
                return one.poll() is not None or other.poll() is not None
            until(ended, "one of the workers ends")
            loser, winner = (one, other) if one.poll() is not None else (other, one)
            self.assertEqual(loser.returncode, 1)
            self.assertRegex(loser.stderr.read(), "another worker took lines of .*: only one may have this part")
            fleet.send(20)
            changes, _ = fleet.wanted()
            until(lambda: fleet.found()[0] == changes, "the other one goes on")
            self.assertIsNone(winner.poll())
        fleet.send()
        fleet.work()
        self.hold(fleet)


@unittest.skipIf(NEEDED, NEEDED)
class Gaps(WithRedis):
    def refused(self, fleet, pattern, *more):
        """Holds that a worker does not go on, and says why."""
        ended = engines.tfpg(*fleet.words(0, "--once", *more))
        self.assertEqual((ended.returncode, ended.stdout), (1, ""), ended.stderr)
        self.assertRegex(ended.stderr, pattern)
        self.assertNotIn("Traceback", ended.stderr)

    def test_lines_trimmed_before_a_worker_read_them(self):
        fleet = Fleet(self.client, 1, seed=8)
        fleet.send(50)
        self.client.xtrim(Part(0, 1).lines, maxlen=40, approximate=False)
        self.refused(fleet, r"\{tfpg:0/1\}:lines has lost 10 lines before they were read: those after 0-0; the first that is left is \d+-\d+")
        self.assertEqual(fleet.found()[0][0], [])

    def test_lines_trimmed_between_two_workers(self):
        for count, pattern in ((60, r"has lost 10 lines before they were read: those after 0-0"), (20, "has lost 50 lines"), (0, "nothing is left")):
            fleet = Fleet(self.client, 1, seed=9, name=f"left{count}")
            fleet.send(50)
            fleet.work()
            written = fleet.found()
            fleet.send(20)
            self.client.xtrim(Part(0, 1, fleet.name).lines, maxlen=count, approximate=False)
            with self.subTest(count=count):
                self.refused(fleet, pattern)
                self.assertEqual(fleet.found(), written)

    def test_lines_trimmed_under_a_worker(self):
        fleet = Fleet(self.client, 1, seed=10)
        fleet.send(50)
        with process(tfpg_words(*fleet.words(0)), stderr=subprocess.PIPE) as worker:
            changes, _ = fleet.wanted()
            until(lambda: fleet.found()[0] == changes and not self.client.xpending(Part(0, 1).lines, "tfpg")["pending"], "all is done")
            worker.send_signal(signal.SIGSTOP)
            fleet.send(30)
            before = fleet.found()
            self.client.xtrim(Part(0, 1).lines, maxlen=25, approximate=False)
            worker.send_signal(signal.SIGCONT)
            said = worker.communicate(timeout=300)[1]
        self.assertEqual(worker.returncode, 1)
        self.assertRegex(said, "has lost 5 lines before they were read")
        self.assertEqual(fleet.found(), before)

    def test_a_group_that_was_removed(self):
        """Under a worker that has taken lines, under one that waits for its first line, and while one begins."""
        from tfpg.stream.entries import FIRST, Lines, Place
        from tfpg.stream.faults import MissingLines

        for count in (50, 0):
            fleet = Fleet(self.client, 1, seed=21, name=f"group{count}")
            fleet.send(count)
            lines = Part(0, 1, fleet.name).lines
            with self.subTest(count=count), process(tfpg_words(*fleet.words(0)), stderr=subprocess.PIPE) as worker:
                self.assertRegex(worker.stderr.readline(), "0 lines were read again")
                changes, _ = fleet.wanted()
                until(lambda: fleet.found()[0] == changes and not self.client.xpending(lines, "tfpg")["pending"], "all is done")
                self.client.xgroup_destroy(lines, "tfpg")
                said = worker.communicate(timeout=300)[1]
                self.assertEqual(worker.returncode, 1)
                self.assertEqual(said, f"tfpg stream: {lines} has no group of workers `tfpg` any more: somebody removed it\n")
        with self.assertRaisesRegex(MissingLines, "has no group of workers"):
            Lines(self.client, Part(0, 1, "group50"), Place(FIRST, 0)).taken()

    def test_a_line_that_was_deleted(self):
        fleet = Fleet(self.client, 1, seed=11)
        fleet.send(50)
        self.client.xdel(Part(0, 1).lines, fleet.sent[20][1])
        self.refused(fleet, f"the entry {fleet.sent[20][1].decode()} was deleted, and this worker has read up to 0-0")

    def test_a_stream_that_was_made_anew(self):
        fleet = Fleet(self.client, 1, seed=12)
        fleet.send(50)
        fleet.work("--span", 10)
        self.client.delete(Part(0, 1).lines)
        fleet.send(20)
        self.refused(fleet, "is not the stream that it was", "--span", 10)

    def test_another_graph(self):
        fleet = Fleet(self.client, 1, seed=13)
        fleet.send(50)
        fleet.work()
        changed = self.place / "changed.tfpg"
        changed.write_text(Path(PUMP).read_text(encoding="utf-8").replace("failure FilterClogged 2", "failure FilterClogged 3"), encoding="utf-8")
        words = fleet.words(0, "--once")
        words[1] = str(changed)
        ended = engines.tfpg(*words)
        self.assertEqual(ended.returncode, 1)
        self.assertRegex(ended.stderr, r"was begun on other terms: graph was [0-9a-f]{64}, and is [0-9a-f]{64}")
        self.refused(fleet, "was begun on other terms: k was 2, and is 1", "--k", 1)
        fleet.send()
        fleet.work()
        self.hold(fleet)

    def test_something_else_under_the_id_of_a_line(self):
        fleet = Fleet(self.client, 1, seed=14)
        fleet.send(20)
        self.client.xadd(Part(0, 1).changes, {"vehicle": "car1", "ranking": "{}"}, id=fleet.sent[0][1])
        self.refused(fleet, "has under .* something else than what this line changes")

    def test_something_above_the_id_of_a_line(self):
        fleet = Fleet(self.client, 1, seed=14)
        fleet.send(20)
        low, _ = fleet.sent[0][1].split(b"-")
        self.client.xadd(Part(0, 1).changes, {"stray": "1"}, id=f"{int(low) - 1}-0")
        self.client.xadd(Part(0, 1).changes, {"stray": "1"}, id=f"{int(low) + 10**6}-0")
        self.refused(fleet, "has nothing under .*, where this line changes something")


@unittest.skipIf(NEEDED, NEEDED)
class Marks(WithRedis):
    def test_a_restart_reads_no_more_than_the_span(self):
        fleet = Fleet(self.client, 1, seed=15, most=60)
        fleet.send(400)
        fleet.work("--span", 100, "--trim")
        self.assertLess(self.client.xlen(Part(0, 1).lines), 300)
        fleet.send(20)
        ended = engines.tfpg(*fleet.words(0, "--once", "--span", 100, "--trim"))
        self.assertLessEqual(int(ended.stderr.split(": ")[-1].split(" ")[0]), 100)
        fleet.send()
        fleet.work("--span", 100, "--trim")
        self.hold(fleet)

    def test_sessions_that_are_made_anew_say_the_same(self):
        for events, span in ((1, 10**6), (3, 10**6), (10**4, 1), (5, 7)):
            with self.subTest(events=events, span=span):
                fleet = Fleet(self.client, 1, seed=16, name=f"anew{events}.{span}", most=30)
                for _ in range(3):
                    fleet.send(len(fleet.logs) * 5)
                    fleet.work("--events", events, "--span", span)
                fleet.send()
                fleet.work("--events", events, "--span", span)
                self.hold(fleet)

    def test_a_log_with_too_many_changes_of_mode(self):
        path, modes = EXAMPLES / "satellite.tfpg", tfpg.Graph.load(EXAMPLES / "satellite.tfpg").modes
        for name, lines, refused in (("full", [f"{time} mode {modes[(time + 1) % 2]}" for time in range(1028)] + ["2000 tick"], 5),
                                     ("same", [f"{time} mode {modes[0]}" for time in range(1100)] + ["2000 tick"], 0)):
            fleet = Fleet(self.client, 1, seed=20, vehicles=0, name=name, graph=str(path))
            for line in lines:
                send(self.client, "car", line, 1, name)
            for _ in range(2):
                fleet.work()
            send(self.client, "car", "3000 tick", 1, name)
            fleet.work()
            said = [fields for _, fields in fleet.found()[0][0] if "refused" in fields]
            self.assertEqual(said, [{"vehicle": "car", "refused": "ModesFull"}] * (refused + (refused > 0)))


class Taken(Taking):
    """In place of a session: it keeps what it is given, and refuses it."""

    def __init__(self):
        self.lines = []

    def _line(self, content):
        self.lines.append(content)
        return tfpg.Refused(len(self.lines), "BadLine", "", None, None, 0)


@unittest.skipUnless(HAS_REDIS, "the module redis is missing")
class WithoutServer(unittest.TestCase):
    def test_one_line_end_is_taken_away(self):
        """A second one is a byte of the line. A line that is taken without it would be kept with it, as one of another kind or node."""
        from tfpg.stream import vehicles
        from tfpg.stream.entries import FIRST, Entry, Place
        from tfpg.stream.terms import StreamTerms

        session = Taken()
        with mock.patch.object(vehicles, "Session", lambda *_: session):
            part = vehicles.Vehicles(tfpg.Graph.load(PUMP), StreamTerms(), {})
            for number, line in enumerate((b"5 tick", b"5 tick\n", b"5 tick\n\n"), 1):
                part.take(Entry((number, 0), {b"vehicle": b"car", b"line": line}), Place(FIRST, number - 1))
        self.assertEqual(session.lines, [b"5 tick", b"5 tick", b"5 tick\n"])

    def test_what_is_sent_are_bytes(self):
        """Names and lines that are no UTF-8 too. The part of a vehicle is that of its bytes."""
        from tfpg.stream import Part, part_of, send

        for vehicle, line in (("car", "5 tick"), ("caf\udce9", "5 alarm \udcff"), ("\ud800", "5 alarm \ud800"), (b"caf\xe9", b"5 tick")):
            client = mock.Mock()
            send(client, vehicle, line, 8)
            (key, fields), _ = client.xadd.call_args
            self.assertEqual({type(text) for text in fields.values()}, {bytes})
            self.assertEqual(key, Part(part_of(fields["vehicle"], 8), 8).lines)

    def test_a_password_that_is_none(self):
        """What cannot be read, or is empty, is refused before any server is asked."""
        words = ["stream", PUMP, "--part", "0/1", "--redis", "redis://127.0.0.1:1"]
        with files(empty="", blank="\nsesame\n", noise=b"\xff\xfe\n"):
            for name, said in (("gone", "gone: No such file or directory"), (".", ".: Is a directory"), ("noise", "noise is no UTF-8"),
                               ("empty", "empty has an empty first line, and so no password"), ("blank", "blank has an empty first line")):
                with self.subTest(name=name):
                    status, told = run(*words, "--password-file", name)
                    self.assertEqual(status, 2)
                    self.assertTrue(told.startswith(f"tfpg stream: --password-file: {said}"), told)
        for value, said in (("", "is empty, and so no password"), (os.fsdecode(b"\xff"), "is no UTF-8")):
            with mock.patch.dict(os.environ, {"TFPG_REDIS_PASSWORD": value}):
                self.assertEqual(run(*words), (2, f"tfpg stream: TFPG_REDIS_PASSWORD {said}\n"))

    def test_slips_in_a_url(self):
        for url, said in (("redis://[::1", "Invalid IPv6 URL"), ("redis://store:abc", "'abc'"), ("redis://store?db=first", "`db`"),
                          ("redis://store?nonsense=1", "'nonsense'"), ("http://store", "it begins with redis://")):
            status, told = run("stream", PUMP, "--part", "0/1", "--redis", url)
            self.assertEqual(status, 2)
            self.assertRegex(told, f"^tfpg stream: --redis: .*{said}")
        from tfpg.stream.connecting import fault_of_url

        for url in ("redis://store:6379/1?socket_timeout=5", "rediss://store?ssl_ca_certs=FILE", "unix:///run/redis.sock?db=1"):
            self.assertEqual(fault_of_url(url), "")


@unittest.skipIf(NEEDED, NEEDED)
class Servers(unittest.TestCase):
    def test_a_password_comes_from_the_environment_or_a_file(self):
        with folder() as place, Redis(place, "--requirepass", "sesame") as server:
            words = ["stream", PUMP, "--part", "0/1", "--once", "--patience", "0", "--redis"]
            ended = engines.tfpg(*words, server.url)
            self.assertEqual(ended.returncode, 70)
            self.assertIn("Redis does not let this worker in", ended.stderr)
            self.assertEqual(engines.tfpg(*words, server.url, TFPG_REDIS_PASSWORD="sesame").returncode, 0)
            (place / "password").write_text("sesame\n", encoding="utf-8")
            self.assertEqual(engines.tfpg(*words, server.url, "--password-file", place / "password").returncode, 0)
            for url in (f"redis://:sesame@127.0.0.1:{server.port}", f"{server.url}?password=sesame"):
                ended = engines.tfpg(*words, url)
                self.assertEqual(ended.returncode, 2)
                self.assertIn("a password is not given in the words", ended.stderr)

    @unittest.skipIf(missing("openssl"), missing("openssl"))
    def test_a_server_with_tls(self):
        with folder() as place:
            subprocess.run(["openssl", "req", "-x509", "-newkey", "rsa:2048", "-nodes", "-days", "2", "-subj", "/CN=127.0.0.1", "-addext",
                            "subjectAltName=IP:127.0.0.1", "-keyout", place / "key", "-out", place / "certificate"], check=True,
                           stderr=subprocess.DEVNULL)
            port = engines.free_port()
            with Redis(place, "--tls-port", str(port), "--tls-cert-file", str(place / "certificate"), "--tls-key-file", str(place / "key"),
                       "--tls-auth-clients", "no"):
                url = f"rediss://127.0.0.1:{port}"
                words = ["stream", PUMP, "--part", "0/1", "--once", "--patience", "0", "--redis"]
                ended = engines.tfpg(*words, f"{url}?ssl_ca_certs={place / 'certificate'}")
                self.assertEqual(ended.returncode, 0, ended.stderr)
                ended = engines.tfpg(*words, url)
                self.assertEqual(ended.returncode, 70)
                self.assertRegex(ended.stderr, "certificate verify failed")

    def test_a_cluster(self):
        with folder() as place, Redis(place, "--cluster-enabled", "yes") as server:
            server.client.execute_command("CLUSTER", "ADDSLOTSRANGE", 0, 16383)
            until(lambda: server.client.execute_command("CLUSTER INFO")["cluster_state"] == "ok", "the cluster is ready")
            fleet = Fleet(server.client, 3, seed=18)
            fleet.send()
            fleet.work()
            changes, _ = fleet.wanted()
            self.assertEqual(fleet.found()[0], changes)

    def test_a_disk_that_is_full(self):
        with folder() as place:
            mounted = subprocess.run(["mount", "-t", "tmpfs", "-o", "size=1m", "none", str(place)], stderr=subprocess.PIPE, text=True, check=False)
            if mounted.returncode != 0:
                self.skipTest(f"a small disk cannot be made here: {mounted.stderr.strip()}")
            with contextlib.ExitStack() as stack:
                stack.callback(subprocess.run, ["umount", "-l", str(place)], check=False)
                server = stack.enter_context(Redis(place, "--appendfsync", "everysec", "--no-appendfsync-on-rewrite", "yes"))
                fleet = Fleet(server.client, 1, seed=19, vehicles=60)
                fleet.send(100)
                with process(tfpg_words(*fleet.words(0, "--blocks", "--patience", 60)), stderr=subprocess.DEVNULL) as worker:
                    until(lambda: fleet.found()[0][0], "a change is written")
                    with self.assertRaisesRegex(redis.ResponseError, "MISCONF"):
                        while True:
                            server.client.set("filling", "x" * 100000)
                    until(lambda: "err" in server.client.info("persistence")["aof_last_write_status"], "the disk is full")
                    subprocess.run(["mount", "-o", "remount,size=16m", str(place)], check=True)
                    until(lambda: server.client.info("persistence")["aof_last_write_status"] == "ok", "the disk has room")
                    fleet.send()
                    changes, _ = fleet.wanted()
                    until(lambda: fleet.found()[0] == changes, "all changes are written")
                    self.assertIsNone(worker.poll())


class WithoutModule(unittest.TestCase):
    def test_a_sentence_says_which_package_is_missing(self):
        with folder() as place:
            (place / "redis.py").write_text("raise ImportError('none')\n", encoding="utf-8")
            path = os.pathsep.join([str(place), str(TOP / "python")])
            ended = subprocess.run(tfpg_words("stream", PUMP, "--redis", "redis://127.0.0.1", "--part", "0/1"), stderr=subprocess.PIPE, text=True,
                                   env={**os.environ, "PYTHONPATH": path}, check=False)
        self.assertEqual(ended.returncode, 70)
        self.assertEqual(ended.stderr, "tfpg stream: the module redis is missing; on Debian it is the package python3-redis, for "
                         "/usr/bin/python3\n")


if __name__ == "__main__":
    unittest.main()

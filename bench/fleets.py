#!/usr/bin/python3
"""Times fleets: whole logs by a loop, a pool, Dask and `parallel`, and growing logs on Redis Streams.

    bench/fleets.py [logs] [stream] [--part N] [--only ROW]

`logs`: vehicles a second, for logs of 20, 200 and 2,000 lines of the pump and of a graph of 60 nodes: by a loop over sessions in one
process, by the pool with a process for each processor, by Dask with 1, 2 and 4 workers, and by `parallel tfpg diagnose` over files. All
ways have the same logs, which stand in files; `parallel` has the first 200. With `--part N` there is an N-th of them; without it there are 10,000 of 20 lines, 2,000 of
200 and 400 of 2,000. The ratio is that to the loop; the cost is what a vehicle takes longer than the loop's time over the processes.
Processes are started before the clock is.

`stream`: lines a second that one worker takes, feeds and acknowledges, with 1,000 and 20,000 sessions of the pump, and the memory of a
session; the time from a line to the change that it brings, while 1,000 lines a second come; and that from a worker's death to the next
change.

The clock is that of the wall, since what is measured is how work is spread. So it says how busy the machine is before and after. It needs the library and the built program, python3-distributed, python3-redis,
redis-server and parallel, and starts all servers itself, on the loopback address.
"""

import argparse
import contextlib
import os
import random
import statistics
import subprocess
import sys
import tempfile
import time
from pathlib import Path

from lib import PACKAGE, TOP
from lib.graphs import script_text
from lib.program import PROGRAM, simulated

sys.path.insert(0, str(PACKAGE / "tests"))
os.environ["PYTHONPATH"] = os.pathsep.join([str(PACKAGE), os.environ.get("PYTHONPATH", "")])

import engines  # noqa: E402
import tfpg  # noqa: E402
import tfpg.fleet  # noqa: E402
from tfpg.calls.endings import Terms  # noqa: E402
from tfpg.fleet import spreading, tasks  # noqa: E402
from tfpg.fleet.one_log import result_of  # noqa: E402
from tfpg.stream import Part, send  # noqa: E402

PUMP = TOP / "examples" / "pump.tfpg"
FLEETS = ((10000, 20), (2000, 200), (400, 2000))  # how many vehicles, and lines of each
KINDS = 25  # of different logs of a length
PARALLEL = 200  # logs of which each has a process of its own
PROCESSORS = os.cpu_count()


def graph_of_60_nodes():
    """A graph of 10 failure modes and 50 discrepancies in five layers, half of them monitored. Each has one to three causes."""
    draw, layers = random.Random(60), [[f"F{number}" for number in range(10)]]
    nodes, edges = [f"failure F{number} {draw.randrange(1, 9)}" for number in range(10)], []
    for layer in range(5):
        layers.append([f"D{layer}.{number}" for number in range(10)])
        for name in layers[-1]:
            nodes.append(f"or {name} " + ("watch 5000" if draw.random() < 0.5 else "hidden"))
            edges += [f"edge {cause} {name} {draw.randrange(1, 60) * 1000} {draw.randrange(60, 600) * 1000} *"
                      for cause in draw.sample(layers[-2], draw.randrange(1, 4))]
    return "".join(line + "\n" for line in ["tfpg 1", "mode Run", *nodes, *edges, "end"])


def log_of(graph, lines, seed):
    """A log of so many lines: ticks and sweeps, and the alarms of one failure mode that fails early."""
    draw = random.Random(seed)
    failing = draw.choice(tfpg.Graph(graph.read_bytes()).failures)
    timed = [(3000, f"start {failing}")]
    timed += [(60000 * number, "sweep" if number % 10 == 0 else "tick") for number in range(1, lines + 1)]
    with tempfile.NamedTemporaryFile("w", suffix=".script") as file:
        file.write(script_text(timed, 60000 * lines + 1))
        file.flush()
        return b"".join(simulated(PROGRAM, seed, graph, file.name).splitlines(keepends=True)[:lines])


def clocked(work):
    start = time.perf_counter()
    work()
    return time.perf_counter() - start


def ways(graph, text, logs, folder, clients):
    """The name of each way, how many processes it has, and what does the work by it."""
    def spread(**words):
        return lambda: count(tfpg.fleet.diagnose(graph, logs, **words), len(logs))

    def loop():
        for vehicle, path in logs.items():
            result_of(graph, vehicle, path.read_bytes(), Terms(), False)

    yield "loop", 1, loop
    yield "pool", PROCESSORS, None
    for workers, client in clients:
        yield f"Dask, {workers}", workers, spread(executor=client.get_executor(pure=False))
    command = f"find {folder} -name '*.log' | head -n {PARALLEL} | parallel -j {PROCESSORS} '{PROGRAM} diagnose {text} < {{}} > /dev/null'"
    yield "parallel", PROCESSORS, lambda: subprocess.run(["bash", "-c", command], check=True)


def count(results, wanted):
    assert sum(1 for one in results if not one.fault) == wanted


def pool_time(graph, logs):
    """The time of the pool, whose processes are there and have the library before the clock starts."""
    with spreading.engine(None, graph, PROCESSORS) as (pool, text):
        spread = spreading.Spread(pool, text, Terms(), False, False, 256)
        warm = {f"warm{number}": b"5 tick\n" * 100 for number in range(8 * PROCESSORS)}
        bundles = [tasks.Bundle((log,), Terms(), False) for log in warm.items()]
        for one in [pool.submit(tasks.diagnose_bundle, text, bundle) for bundle in bundles]:
            one.result()
        return clocked(lambda: count(spread.results(logs), len(logs)))


@contextlib.contextmanager
def dask():
    """Clients of schedulers with 1, 2 and 4 workers, of which one works at a time."""
    from distributed import Client

    with contextlib.ExitStack() as stack:
        clients = []
        for workers in (1, 2, 4):
            head = stack.enter_context(engines.scheduler())
            for _ in range(workers):
                stack.enter_context(engines.dask_worker(head.address))
            client = stack.enter_context(contextlib.closing(Client(head.address, set_as_default=False)))
            client.wait_for_workers(workers, timeout=120)
            clients.append((workers, client))
        yield clients


def measure_logs(part, only):
    print(f"| Graph | Logs | {' | '.join(['Loop', 'Pool', 'Dask, 1', 'Dask, 2', 'Dask, 4', 'parallel'])} |")
    print("|---" * 8 + "|")
    with tempfile.TemporaryDirectory(prefix="tfpg-bench-") as top, dask() as clients:
        text = Path(top, "sixty.tfpg")
        text.write_text(graph_of_60_nodes(), encoding="ascii")
        for name, file in (("pump", PUMP), ("60 nodes", text)):
            graph = tfpg.Graph.load(file)
            for vehicles, lines in FLEETS:
                if only not in (None, f"{name} {lines}"):
                    continue
                folder = Path(top, f"{name}{lines}".replace(" ", ""))
                folder.mkdir()
                kinds = [log_of(file, lines, seed) for seed in range(1, KINDS + 1)]
                logs = {f"car{number}": folder / f"car{number}.log" for number in range(max(vehicles // part, KINDS))}
                for number, path in enumerate(logs.values()):
                    path.write_bytes(kinds[number % KINDS])
                row, loop = [], 0.0
                for way, processes, work in ways(graph, file, logs, folder, clients):
                    took = pool_time(graph, logs) if work is None else clocked(work)
                    each = took / (min(PARALLEL, len(logs)) if way == "parallel" else len(logs))
                    loop = loop or each
                    cost = (each - loop / processes) * 1000
                    row.append(f"{1 / each:,.0f}" + (f" ({loop / each:.2f}, {cost:.2f} ms)" if way != "loop" else ""))
                print(f"| {name} | {len(logs):,} of {lines:,} lines | {' | '.join(row)} |", flush=True)


def resident():
    """The memory of this process, in bytes."""
    return int(Path("/proc/self/statm").read_text().split()[1]) * os.sysconf("SC_PAGE_SIZE")


def lines_for(sessions, count, start=0):
    """Lines of so many vehicles in turn, mostly ticks. Each vehicle has an alarm once."""
    for number in range(count):
        turn, vehicle = divmod(start + number, sessions)
        alarm = turn == 3 + vehicle % 5
        yield f"car{vehicle}", f"{(turn + 1) * 60000} " + ("alarm LowFlow" if alarm else "tick")


def fill(client, lines, name):
    """Sends lines in large batches."""
    with client.pipeline(transaction=False) as sends:
        for number, (vehicle, line) in enumerate(lines, 1):
            send(sends, vehicle, line, 1, name)
            if number % 2000 == 0:
                sends.execute()
        sends.execute()


def measure_rate(server, sessions, count):
    """Lines a second, and the memory of a session."""
    from tfpg.stream.terms import StreamTerms
    from tfpg.stream.worker import Worker

    name = f"rate{sessions}"
    fill(server.client, lines_for(sessions, sessions, 0), name)
    worker = Worker(server.client, Part(0, 1, name), tfpg.Graph.load(PUMP), StreamTerms())
    worker.begin()
    before = resident()
    while worker.turn(0):
        pass
    memory = (resident() - before) / sessions
    fill(server.client, lines_for(sessions, count, sessions), name)

    def work():
        while worker.turn(0):
            pass
    took = clocked(work)
    worker.vehicles.close()
    print(f"- {sessions:,} sessions: {count / took:,.0f} lines a second; a session takes {memory / 1000:,.0f} KB of memory", flush=True)


def measure_latency(server, sessions, rate, seconds):
    """The time from a line to the change that it brings, while so many lines a second come."""
    import redis

    name, times = "late", {}
    words = ["stream", PUMP, "--redis", server.url, "--part", "0/1", "--name", name]
    changes, sender = Part(0, 1, name).changes, redis.Redis(port=server.port)
    with engines.process(engines.tfpg_words(*words), stderr=subprocess.DEVNULL):
        fill(sender, lines_for(sessions, sessions), name)
        engines.until(lambda: sender.xlen(changes) >= sessions, "all vehicles are there")
        seen, last = {}, sender.xrevrange(changes, count=1)[0][0]

        def look(milliseconds):
            """Notes which changes came by now, or come within this time."""
            nonlocal last
            for _, found in server.client.xread({changes: last}, block=milliseconds) or []:
                last = found[-1][0]
                seen.update((one, time.perf_counter()) for one, _ in found)

        begin = time.perf_counter()
        for number, (vehicle, line) in enumerate(lines_for(sessions, rate * seconds, sessions)):
            due = begin + number / rate
            while time.perf_counter() < due:
                look(1)
            sent = time.perf_counter()
            times[send(sender, vehicle, line, 1, name)] = sent
        end = time.perf_counter() + 5
        while time.perf_counter() < end:
            look(100)
    late = sorted((seen[one] - times[one]) * 1000 for one in seen if one in times)
    print(f"- from a line to its change, {sessions:,} sessions, {rate:,} lines a second, {len(late):,} changes: "
          f"{statistics.median(late):.1f} ms at the median, {late[len(late) * 99 // 100]:.1f} for the 99th of 100, {late[-1]:.1f} at worst",
          flush=True)


def measure_restart(server, sessions, count):
    """The time from a worker's death until a line has its change."""
    name = "again"
    words = engines.tfpg_words("stream", PUMP, "--redis", server.url, "--part", "0/1", "--name", name)
    part, client = Part(0, 1, name), server.client
    fill(client, lines_for(sessions, count), name)
    with engines.process(words, stderr=subprocess.DEVNULL) as worker:
        newest = client.xinfo_stream(part.lines)["last-generated-id"]
        engines.until(lambda: [one["last-delivered-id"] for one in client.xinfo_groups(part.lines)] == [newest], "all is read", 300)
        worker.kill()
        start = time.perf_counter()
    sent = send(client, "one more", "5 tick", 1, name)
    with engines.process(words, stderr=subprocess.DEVNULL):
        engines.until(lambda: client.xrange(part.changes, sent, sent), "the next change is written", 300)
    print(f"- after a worker's death: {time.perf_counter() - start:.1f} s until the next change, with {count:,} lines of {sessions:,} "
          "vehicles to read again", flush=True)


def measure_stream(part, _):
    with tempfile.TemporaryDirectory(prefix="tfpg-bench-") as folder, engines.Redis(Path(folder), "--appendfsync", "everysec") as server:
        measure_rate(server, 1000, 60000 // part)
        measure_rate(server, 20000, 60000 // part)
        server.client.flushall()
        measure_latency(server, 1000, 1000, max(10 // part, 4))
        measure_restart(server, 20000, 100000 // part)


def main():
    parser = argparse.ArgumentParser(description=__doc__, formatter_class=argparse.RawDescriptionHelpFormatter)
    parser.add_argument("what", nargs="*", help="what is measured, logs or stream; without a word both")
    parser.add_argument("--part", type=int, default=1, help="measure an N-th of the logs and lines")
    parser.add_argument("--only", metavar="ROW", help="measure one row of the logs, as 'pump 20'")
    said = parser.parse_args()
    if not {"logs", "stream"}.issuperset(said.what):
        parser.error("what is measured is logs or stream")
    print(f"{PROCESSORS} processors, load {os.getloadavg()[0]:.1f}")
    start = time.perf_counter()
    for what, measure in (("logs", measure_logs), ("stream", measure_stream)):
        if not said.what or what in said.what:
            measure(said.part, said.only)
    print(f"load {os.getloadavg()[0]:.1f} after {time.perf_counter() - start:.0f} s")


if __name__ == "__main__":
    main()

"""The engines of the tests of fleets: servers and workers as processes on the loopback address, each ended in the end, and random logs."""

from __future__ import annotations

import contextlib
import ctypes
import importlib
import os
import random
import shutil
import signal
import socket
import subprocess
import sys
import tempfile
import time
from pathlib import Path
from typing import Callable, Dict, Iterator, List, Sequence

from support import EXAMPLES, TOP, library_words

PACKAGES = {"redis": "python3-redis", "distributed": "python3-distributed", "mpi4py": "python3-mpi4py", "paho.mqtt.client": "python3-paho-mqtt",
            "tqdm": "python3-tqdm"}
PROGRAMS = {"redis-server": "redis-server", "mosquitto": "mosquitto", "mpiexec": "openmpi-bin", "openssl": "openssl"}
LARGE = os.environ.get("TFPG_LARGE", "") != ""  # the large runs: as many vehicles as an operator has
WRONG = ["", "5", "x tick", "{} tock", "{} alarm Nobody", "{} silent {failure}", "{} alarm", "{} mode Nowhere", "{} tick ", "{} tick\r", "-{} tick",
         "1000000000001 tick", "3 tick", "{} alarm " + "x" * 4096]


def missing(*needed: str) -> str:
    """Which of these modules and programs is missing, or the library, or nothing."""
    if library_words():
        return library_words()
    for name in needed:
        if name in PACKAGES:
            try:
                importlib.import_module(name)
            except ImportError:
                return f"{sys.executable} has no module {name}: on Debian it is the package {PACKAGES[name]}, for /usr/bin/python3"
        elif shutil.which(name) is None:
            return f"there is no {name}: on Debian it is in the package {PROGRAMS[name]}"
    return ""


def random_log(draw: random.Random, graph, least: int = 1, most: int = 12) -> bytes:
    """A log of a graph. Some of its lines are refused, and its last may have no line end."""
    lines, time = [], 0
    for _ in range(draw.randint(least, most)):
        time += draw.choice((0, 1, 500, 60000, 600000, 3000000))
        event = draw.choice(["alarm", "alarm", "alarm", "silent", "sweep", "tick", "mode", "wrong"])
        names = {"alarm": graph.monitored, "silent": graph.monitored, "mode": graph.modes}.get(event)
        if event == "wrong":
            lines.append(draw.choice(WRONG).replace("{}", str(time)).format(failure=graph.failures[0]))
        else:
            lines.append(f"{time} {event}" + (f" {draw.choice(names)}" if names else ""))
    return ("\n".join(lines) + draw.choice(("\n", "\n", ""))).encode()


def environment(**more: str) -> Dict[str, str]:
    """The environment of a process that finds the package."""
    path = os.pathsep.join([str(TOP / "python"), str(TOP / "python" / "tests"), *filter(None, [os.environ.get("PYTHONPATH")])])
    return {**os.environ, "PYTHONPATH": path, "PYTHONDONTWRITEBYTECODE": "1", **more}


def tfpg_words(*words: object) -> List[str]:
    """A command of the package."""
    return [sys.executable, "-m", "tfpg", *map(str, words)]


def tfpg(*words: object, timeout: float = 300, given: str = "", **more: str) -> "subprocess.CompletedProcess[str]":
    """Runs a command of the package as a process of its own."""
    return subprocess.run(tfpg_words(*words), env=environment(**more), input=given, stdout=subprocess.PIPE, stderr=subprocess.PIPE, text=True,
                          timeout=timeout, check=False)


@contextlib.contextmanager
def process(words: Sequence[str], **options) -> Iterator["subprocess.Popen[str]"]:
    """A process with all that it starts, which is ended in the end, and with the tests if someone kills them."""
    started = subprocess.Popen(words, env=options.pop("env", environment()), text=True, start_new_session=True, preexec_fn=end_with_parent,
                               **options)
    try:
        yield started
    finally:
        with contextlib.suppress(ProcessLookupError):
            os.killpg(started.pid, signal.SIGKILL)
        started.wait()
        for stream in (started.stdout, started.stderr):
            if stream is not None:
                stream.close()


def end_with_parent() -> None:
    """Has the kernel end this process once the one that began it is gone."""
    ctypes.CDLL(None).prctl(1, signal.SIGKILL)


def free_port() -> int:
    """A port of the loopback address that nobody has, and that the system gives to no client: one that tries a port again and again, while
    its server is gone, may be given this very port, and then holds it."""
    while True:
        port = random.SystemRandom().randrange(20000, 32000)
        with socket.socket() as one, contextlib.suppress(OSError):
            one.bind(("127.0.0.1", port))
            return port


def until(holds: Callable[[], object], what: str, seconds: float = 240) -> None:
    """Waits until something holds."""
    end = time.monotonic() + seconds
    while not holds():
        if time.monotonic() > end:
            raise AssertionError(f"after {seconds} seconds there is no sign that {what}")
        time.sleep(0.02)


@contextlib.contextmanager
def folder() -> Iterator[Path]:
    """A folder of its own."""
    with tempfile.TemporaryDirectory(prefix="tfpg-fleet-") as made:
        yield Path(made)


class Redis:
    """A server of Redis on a port of its own, with a file to which it appends each write before it answers."""

    def __init__(self, place: Path, *words: str) -> None:
        self.port, self.place, self.words = free_port(), place, words
        self.url = f"redis://127.0.0.1:{self.port}"

    def __enter__(self) -> "Redis":
        self.start()
        return self

    def __exit__(self, *_: object) -> None:
        self.kill()

    def start(self) -> None:
        """Starts it on the files that it left, and waits until it answers."""
        import redis

        words = ["redis-server", "--port", str(self.port), "--bind", "127.0.0.1", "--dir", str(self.place), "--save", "", "--appendonly", "yes",
                 "--appendfsync", "always", *self.words]
        self.server = subprocess.Popen(words, stdout=subprocess.DEVNULL, stderr=subprocess.DEVNULL, preexec_fn=end_with_parent)
        self.client = redis.Redis(port=self.port)
        until(self.answers, "Redis answers")

    def answers(self) -> bool:
        import redis

        try:
            return bool(self.client.ping())
        except redis.AuthenticationError:
            return True
        except redis.RedisError:
            return False

    def kill(self) -> None:
        """Ends it at once, as a loss of power does."""
        self.server.kill()
        self.server.wait()


@contextlib.contextmanager
def scheduler() -> Iterator["subprocess.Popen[str]"]:
    """A scheduler of Dask. Its `address` is that for workers and clients."""
    port = free_port()
    words = [sys.executable, "-m", "distributed.cli.dask_scheduler", "--host", "127.0.0.1", "--port", str(port), "--no-dashboard"]
    with process(words, stdout=subprocess.DEVNULL, stderr=subprocess.DEVNULL) as started:
        started.address = f"tcp://127.0.0.1:{port}"
        until(lambda: is_open(port), "the scheduler listens")
        yield started


@contextlib.contextmanager
def dask_worker(address: str) -> Iterator["subprocess.Popen[str]"]:
    """A worker of Dask, one process with one thread."""
    words = [sys.executable, "-m", "distributed.cli.dask_worker", address, "--nthreads", "1", "--no-nanny", "--no-dashboard", "--host",
             "127.0.0.1"]
    with folder() as place, process(words, stdout=subprocess.DEVNULL, stderr=subprocess.DEVNULL, cwd=place) as started:
        yield started


def is_open(port: int) -> bool:
    with socket.socket() as one:
        return one.connect_ex(("127.0.0.1", port)) == 0


def pump():
    """The graph of the pump."""
    from tfpg import Graph

    return Graph.load(EXAMPLES / "pump.tfpg")

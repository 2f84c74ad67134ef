"""One clock for all that is timed: seconds of a processor, of the system and the user together. They hardly tell whether others work too."""

import os
import resource
import subprocess
from dataclasses import dataclass


@dataclass(frozen=True)
class Ran:
    """How a run ended: its status, what it wrote, what it wrote to standard error, its seconds, and if it was asked for its peak memory in
    KB."""

    status: int
    output: bytes
    said: bytes
    seconds: float
    peak: int = 0


def spent(whose=resource.RUSAGE_CHILDREN):
    """The seconds that all runs so far took, or with RUSAGE_SELF this process."""
    usage = resource.getrusage(whose)
    return usage.ru_utime + usage.ru_stime


def measured(work, whose=resource.RUSAGE_CHILDREN):
    """What some work comes to, and its seconds: those of all runs in it, or with RUSAGE_SELF those of this process."""
    before = spent(whose)
    found = work()
    return found, spent(whose) - before


def with_peak(words):
    """The words by which GNU time runs a command, and says its peak memory in the last line of standard error. Python's own does not add."""
    return ["/usr/bin/time", "-q", "-f", "%M", *words]


def run(words, given=b"", peak=False, **streams):
    """Runs a command on some bytes, or on a file by its path."""
    timed = with_peak(words) if peak else [*words]
    how = {"stdout": subprocess.PIPE, "stderr": subprocess.PIPE, "check": False, **streams}
    if isinstance(given, os.PathLike):
        with open(given, "rb") as lines:
            return ended(lambda: subprocess.run(timed, stdin=lines, **how), peak)
    return ended(lambda: subprocess.run(timed, input=given, **how), peak)


def ended(start, peak):
    """How a run ended that this starts, by the words of `with_peak` if its peak memory is asked for."""
    done, seconds = measured(start)
    said, kilobytes = done.stderr or b"", 0
    if peak:
        *lines, last = said.rstrip(b"\n").split(b"\n")
        said, kilobytes = b"".join(line + b"\n" for line in lines), int(last)
    return Ran(done.returncode, done.stdout or b"", said, seconds, kilobytes)


def shortest(words, given=b"", runs=3, status=0, **how):
    """The shortest of some runs, which all have to end with this status if there is one."""
    found = [run(words, given, **how) for _ in range(runs)]
    for one in found:
        if status not in (None, one.status):
            raise SystemExit(f"{' '.join(map(str, words))}: status {one.status}: {one.said.decode(errors='replace')}")
    return min(found, key=lambda one: one.seconds)

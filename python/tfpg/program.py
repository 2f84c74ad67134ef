"""Finds the program and runs it. All verdicts are the program's own."""

from __future__ import annotations

import os
import shutil
import subprocess
from dataclasses import dataclass
from pathlib import Path
from typing import List, Optional, Sequence, Tuple

from .faults import NoProgram
from .portable import Portable

VARIABLE = "TFPG_PROGRAM"
OWN_LINE = b"tfpg: "  # begins what the script `tfpg` itself says beside the program
NO_TRIAL = 70
LOST_LINES = 9  # no status of the program: that of a strict command of this package, if the log refused lines


class NoReport(Portable):
    """The program ended without a report, with this status and line."""

    def __init__(self, status: int, line: str) -> None:
        super().__init__(f"the program wrote no report, and says: {line}. `lint` says more")
        self.status = status


@dataclass(frozen=True)
class Ended:
    """How a run ended: its status, what it wrote, and its line on standard error."""

    status: int
    output: bytes
    line: str

    @property
    def cause(self) -> Tuple[int, str]:
        """The number of the line that is refused, and the cause. The number is 0 if the line names none."""
        words = self.line.split(" ")
        return (int(words[-2]) if len(words) > 2 and words[-2].isdigit() else 0), words[-1]


def checkout() -> Optional[Path]:
    """The top of the repository in which this package stands, if it stands in one."""
    top = Path(__file__).resolve().parents[2]
    return top if (top / "tfpg").is_file() and (top / "crates.txt").is_file() else None


def find_program() -> str:
    """TFPG_PROGRAM, or ./tfpg of the checkout, or `tfpg` on the PATH, in this order."""
    named = os.environ.get(VARIABLE)
    if named:
        return named
    top = checkout()
    found = str(top / "tfpg") if top is not None else shutil.which("tfpg")
    if found is None:
        raise NoProgram(f"there is no program: set {VARIABLE} to it, or put it on the PATH as tfpg")
    return found


def run_program(words: Sequence[str], given: bytes = b"") -> Ended:
    """Runs the program on these words with this input. Beside the program's own ends there is only NoProgram."""
    program = find_program()
    try:
        ran = subprocess.run([program, *words], input=given, stdout=subprocess.PIPE, stderr=subprocess.PIPE, check=False)
    except (OSError, ValueError) as fault:
        raise NoProgram(f"{program} does not run: {getattr(fault, 'strerror', None) or fault}") from None
    lines = [line for line in ran.stderr.split(b"\n") if line and not line.startswith(OWN_LINE)]
    if ran.returncode < 0 or ran.returncode >= NO_TRIAL:
        said = ran.stderr.decode("utf-8", "replace").strip().split("\n")[-1]
        raise NoProgram(f"{program} did not answer, and ended with {ran.returncode}: {said}")
    return Ended(ran.returncode, ran.stdout, lines[-1].decode("utf-8", "replace") if lines else "")


def file_words(*names: str) -> List[str]:
    """Names of files as words that are no options."""
    return [os.path.join(".", name) if name.startswith("-") else name for name in names]

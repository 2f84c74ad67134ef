"""Runs the checker on a report, and keeps what it said beside the digests of the bytes that it was given."""

import hashlib
import os
import shlex
import subprocess
import tempfile
from pathlib import Path


def digest(text):
    return hashlib.sha256(text).hexdigest()


def outcome(command, texts):
    """The status, the output and the errors of a check of these texts. It reads copies, so these are the bytes that the page carries. A
    trial is not kept from saying that it is one."""
    environment = {name: value for name, value in os.environ.items() if name != "TFPG_QUIET"}
    with tempfile.TemporaryDirectory() as folder:
        graph, log = Path(folder) / "graph", Path(folder) / "log"
        graph.write_bytes(texts["graph"])
        log.write_bytes(texts["log"])
        try:
            words = [*shlex.split(command), "check", graph, log]
            ran = subprocess.run(words, input=texts["report"], capture_output=True, env=environment)
        except (OSError, ValueError) as fault:
            return None, "", getattr(fault, "strerror", None) or "the command is no command"
    return ran.returncode, ran.stdout.decode(errors="replace"), ran.stderr.decode(errors="replace")


def checked(command, texts):
    """A check of a report, as the page carries it. What it means is for the page to say."""
    status, output, errors = outcome(command, texts)
    digests = {kind: digest(texts[kind]) for kind in ("graph", "log", "report")}
    return {"command": command, "digests": digests, "errors": errors, "output": output, "status": status}

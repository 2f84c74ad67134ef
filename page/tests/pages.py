"""Makes pages by the script `tfpg-page`, each once for the same words and texts."""

import hashlib
import importlib
import subprocess
import sys
import threading
from pathlib import Path

TOP = Path(__file__).resolve().parents[2]
EXAMPLES, DATA = TOP / "examples", Path(__file__).resolve().parent / "data"
CHECK = str(Path(__file__).resolve().parent / "slow_check")

PUMP = (EXAMPLES / "pump.tfpg", EXAMPLES / "pump.log", EXAMPLES / "pump.report")
RELAY = (EXAMPLES / "satellite.tfpg", EXAMPLES / "satellite-relay.log", EXAMPLES / "satellite-relay.report")
ARRAY = (EXAMPLES / "satellite.tfpg", EXAMPLES / "satellite-array.log", EXAMPLES / "satellite-array.report")
GAUGE = (EXAMPLES / "pump.tfpg", EXAMPLES / "pump-gauge.log", DATA / "pump-gauge.report")


class Maker:
    def __init__(self, script, folder):
        self.script, self.folder, self.made, self.lock = script, Path(folder), {}, threading.Lock()

    def run(self, *words):
        """The status, the page and what was said, of a run of the script."""
        ran = subprocess.run([self.script, *map(str, words)], capture_output=True, cwd=self.folder)
        return ran.returncode, ran.stdout, ran.stderr.decode(errors="replace")

    def module(self, name):
        """A module of the maker that is tested."""
        folder = Path(self.script).parent
        if str(folder) not in sys.path:
            sys.path[:0] = [str(folder), str(folder.parent / "python")]
        return importlib.import_module(f"making.{name}")

    def page(self, *words):
        """The file of the page that the script makes of these words, and of what their files have now."""
        files = [path for path in (self.folder / word for word in words) if path.is_file()]
        made_of = (words, *(hashlib.sha256(path.read_bytes()).digest() for path in files))
        with self.lock:
            if made_of not in self.made:
                status, page, said = self.run(*words)
                if status != 0:
                    raise RuntimeError(f"no page of {words}: status {status}, {said}")
                self.made[made_of] = self.write(f"page-{len(self.made)}.html", page)
            return self.made[made_of]

    def write(self, name, text):
        path = self.folder / name
        path.write_bytes(text if isinstance(text, bytes) else text.encode())
        return path

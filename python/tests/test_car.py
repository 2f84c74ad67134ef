"""The car of the examples: the log that its records make, the account of them, and what a warning says of each way to get it wrong."""

import json
import os
import unittest
from pathlib import Path

from support import EXAMPLES, TOP, files, run

CAR = "examples/car"
RECORDS = [f"{CAR}/car.tfpg", f"{CAR}/body.csv", f"{CAR}/engine.csv", "--names", f"{CAR}/names.csv", "--offset", "engine=1764573000000"]


class Car(unittest.TestCase):
    def setUp(self):
        self.addCleanup(os.chdir, os.getcwd())
        os.chdir(TOP)

    def made(self, *words):
        """The log of the records."""
        said = run("records", *RECORDS, *words)
        self.assertEqual(said[0], 0)
        return said[1].split("tfpg records: ")[0]

    def test_the_log_and_the_account(self):
        with files() as folder:
            os.chdir(TOP)
            log = self.made("--before", "24h", "--account", str(folder / "account"))
            account = (folder / "account").read_text(encoding="utf-8")
        self.assertEqual(log, (EXAMPLES / "car" / "car.log").read_text(encoding="ascii"))
        self.assertEqual(account, (EXAMPLES / "car" / "account.csv").read_text(encoding="utf-8"))

    def test_the_report(self):
        """By hand: first nothing need have failed, then lamp and cell explain a low battery, and a cool battery is none of the cell's."""
        said = run("brief", "--changes", "--json", f"{CAR}/car.tfpg", f"{CAR}/car.log", f"{CAR}/car.report")[1]
        self.assertEqual([(one["line"], one["ranked"], list(one["went"])) for one in map(json.loads, said.splitlines())],
                         [(1, ["-"], []), (3, ["LampOn", "CellShort"], ["-"]), (6, ["LampOn"], ["CellShort"])])

    def warned(self, log):
        with files(log=log) as folder:
            os.chdir(TOP)
            found = json.loads(run("lint", "--json", f"{CAR}/car.tfpg", str(Path(folder, "log")))[1])
        self.assertEqual((found["status"], found["refused"]), (0, []))
        return [(one["line"], one["cause"]) for one in found["warnings"]]

    def test_the_warnings(self):
        log = (EXAMPLES / "car" / "car.log").read_text()
        lines = log.splitlines(keepends=True)
        self.assertEqual(self.warned(log), [])
        self.assertEqual(self.warned("".join([*lines[:4], "91900000 alarm LampsDim\n", *lines[4:]])), [(5, "SecondAlarm")])
        self.assertEqual(self.warned("".join([*lines[:14], "96015000 silent NoStart\n", *lines[14:]])), [(15, "SilenceAfterAlarm")])
        self.assertEqual(self.warned("".join([*lines[:3], "91800000 silent LowBattery\n", *lines[3:]])), [(4, "AlarmAndSilence")])
        self.assertEqual(self.warned(self.made("--origin", "2025-12-01T04:30:00Z")), [(3, "EarlyAlarm")])


if __name__ == "__main__":
    unittest.main()

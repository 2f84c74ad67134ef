"""Random records beside a second, slow and simple reading of the rules; what is written is accepted line for line.

Five cases of 100 records are tried for each of TFPG_SLIPS, which is 200 if it says nothing: 100,000 records. They are the same each time.
"""

import os
import random
import unittest
from datetime import datetime, timedelta, timezone
from fractions import Fraction

import tfpg
from support import EXAMPLES, files, library_words, text
from tfpg.program import run_program

CASES, RECORDS = 5 * int(os.environ.get("TFPG_SLIPS", "200")), 100
SYSTEMS = ["pump", "satellite"]
BEGIN = 1764468000000
EPOCH = datetime(1970, 1, 1, tzinfo=timezone.utc)
FORMS = ["milliseconds", "seconds", "date"]


def written(time, form):
    """A time as a box of this form writes it."""
    if form == "milliseconds":
        return str(time)
    if form == "seconds":
        return f"{time // 1000}.{time % 1000:03}" if time % 1000 else f"{time // 1000}.0"
    return (EPOCH + timedelta(milliseconds=time)).isoformat()


def read(said):
    """The same time again, by fractions and by the calendar of Python."""
    if "T" in said:
        return (datetime.fromisoformat(said) - EPOCH) // timedelta(milliseconds=1)
    return int(Fraction(said) * 1000) if "." in said else int(said)


def drawn(draw, graph):
    """Records of some boxes, each with a form and an offset of its own, and the offsets. Many times are equal."""
    boxes = {f"box{number}": (draw.choice(FORMS), draw.choice((0, 0, -1500, 7, 3600000))) for number in range(draw.randrange(1, 4))}
    unmonitored = [node.name for node in graph.nodes if node.lags is None]
    begin, spread = draw.choice((0, 5, BEGIN)), draw.choice((3, 50, 10**4, 10**8))
    found = []
    for _ in range(RECORDS):
        box = draw.choice(list(boxes))
        time = begin + 10**7 + draw.randrange(spread)
        name = draw.choice([*graph.monitored, "mode", "mode", *(["Nobody", draw.choice(unmonitored)] if draw.random() < 0.1 else [])])
        value = draw.choice(graph.modes) if name == "mode" else draw.choice(("raised", "cleared", "on", "off", "off"))
        found.append((written(time, boxes[box][0]), name, value, box))
    return found, {box: offset for box, (_, offset) in boxes.items() if offset}


class Slow:
    """The rules again, each record beside all others. A record is its time from the origin, its name and its value."""

    def __init__(self, graph, records, begin):
        self.graph, self.records, self.begin = graph, records, begin

    def rule(self, number):
        time, name, value = self.records[number]
        if name == "mode":
            return self.mode_rule(number, time, value)
        if name not in self.graph.monitored:
            return "no-monitor" if name in [node.name for node in self.graph.nodes] else "unknown-name"
        alarms = [(when, other) for other, (when, who, what) in enumerate(self.records) if who == name and what in ("raised", "on")]
        first = min(alarms)[0] if alarms else None
        if value in ("raised", "on"):
            return "alarm" if (time, number) == min(alarms) else "repeat"
        if value == "cleared":
            return "clear" if first is not None and first <= time else "clear-before-alarm"
        if first is not None and time >= first:
            return "off-at-alarm" if time == first else "off-after-alarm"
        later = [other for other, (when, who, what) in enumerate(self.records)
                 if (who, what) == (name, "off") and (first is None or when < first) and (when, other) > (time, number)]
        return "earlier-off" if later else "silence"

    def mode_rule(self, number, time, value):
        if any(who == "mode" and when == time and other > number for other, (when, who, _) in enumerate(self.records)):
            return "overruled-mode"
        before = [(when, other) for other, (when, who, _) in enumerate(self.records) if who == "mode" and when < time]
        return "same-mode" if value == (self.records[max(before)[1]][2] if before else self.begin) else "mode"

    def lines(self, rules):
        order = {"mode": 0, "silence": 1, "alarm": 2}
        places = {name: place for place, name in enumerate([*self.graph.modes, *(node.name for node in self.graph.nodes)])}
        found = []
        for (time, name, value), rule in zip(self.records, rules):
            if rule in order:
                named = value if rule == "mode" else name
                found.append((time, order[rule], places[named], f"{time} {rule.replace('silence', 'silent')} {named}"))
        lines = [line for *_, line in sorted(found)]
        is_begun = self.begin == self.graph.modes[0] or any(line.startswith("0 mode ") for line in lines)
        return lines if is_begun else [f"0 mode {self.begin}", *lines]


def slowly(graph, records, offsets, before, begin):
    """The lines and the rules of records."""
    times = [read(time) + offsets.get(box, 0) for time, _, _, box in records]
    known = [time for time, (_, name, _, _) in zip(times, records) if name == "mode" or name in graph.monitored]
    origin = min(known) - before
    slow = Slow(graph, [(time - origin, name, value) for time, (_, name, value, _) in zip(times, records)], begin)
    rules = [slow.rule(number) for number in range(len(records))]
    return slow.lines(rules), rules


def refused(graph, lines):
    """The causes of lines that are refused, by a strict session, or by the program, which is slower, if there is no library."""
    if not library_words():
        with tfpg.Session(graph, k=0, strict=True) as session:
            return [] if len(list(session.rounds(lines))) == len(lines) else ["lost"]
    with files(graph=graph.text):
        ended = run_program(["diagnose", "--k", "0", "--budget", "1", "graph"], text(lines).encode())
    rounds = ended.output.count(b"\ncounts ")
    return [line for line in ended.output.decode().split("\n") if line.startswith("refused ")] or ([] if rounds == len(lines) else ["lost"])


class RandomRecords(unittest.TestCase):
    def test_the_rules_and_the_lines(self):
        tried, seen = 0, set()
        for number in range(CASES):
            draw = random.Random(number)
            graph = tfpg.Graph.load(EXAMPLES / f"{draw.choice(SYSTEMS)}.tfpg")
            records, offsets = drawn(draw, graph)
            offsets = {box: offset for box, offset in offsets.items() if any(record[3] == box for record in records)}
            before, begin = draw.choice((0, 1, 28800000)), draw.choice(graph.modes)
            log = tfpg.records(graph, records, offsets=offsets, before=before, mode=begin, leave_out=True)
            lines, rules = slowly(graph, records, offsets, before, begin)
            with self.subTest(number=number):
                self.assertEqual((list(log.lines), [entry.rule for entry in log.entries]), (lines, rules))
                if number % 5 == 0 or not library_words():
                    self.assertEqual(refused(graph, log.lines), [])
            tried, seen = tried + len(records), seen | set(rules)
        self.assertEqual(tried, CASES * RECORDS)
        self.assertEqual(len(seen), 13)

    def test_the_account_is_whole(self):
        """Each line of the log has one record, but for a mode in the beginning, and each other record a rule by which it is none."""
        for number in range(min(CASES, 20)):
            draw = random.Random(-1 - number)
            graph = tfpg.Graph.load(EXAMPLES / "satellite.tfpg")
            records, offsets = drawn(draw, graph)
            offsets = {box: offset for box, offset in offsets.items() if any(record[3] == box for record in records)}
            log = tfpg.records(graph, records, offsets=offsets, before=5, leave_out=True)
            became = [entry.line for entry in log.entries if entry.line is not None]
            self.assertEqual(sorted(became), list(range(1, len(log.lines) + 1)))
            self.assertEqual(sum(log.counts.values()), len(records))


if __name__ == "__main__":
    unittest.main()

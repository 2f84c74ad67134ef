#!/usr/bin/env python3
"""Forges reports, and holds what `check` says of them against a slow judge.

    bench/forge.py [--seconds N] [--seed N] [--each N] [--one SEED] [--keep FOLDER] [--program FILE]

Right reports come from `diagnose`: of the examples, and of small random graphs with logs that are random or simulated. Each is changed
in one to four places. Numbers, words, bytes and sets are changed; lines, steps, parts and blocks are dropped, doubled, swapped,
moved and replaced; lines are put in, cycles turned, steps wrapped in a further split or reused, traces given other times, statuses changed,
and counts mended after it. The judge, `bench/slow_judge.py`, says what must come: `accepted N`, the first cause and its line, or too
many hypotheses.

Each forgery has a seed of its own. Where program and judge differ, the seed, the edits and both answers are printed, and graph, log
and report are kept. `--one SEED` makes that forgery again. The last lines count the answers by cause, and say how much processor
time the slowest run took. Ends with status 1 where something differs.
"""

import random
import re
import subprocess
import sys
import tempfile
import time
from collections import Counter
from dataclasses import dataclass
from pathlib import Path

from lib import TOP
from lib.program import built_program, folder_for, word_reader
from lib.timing import measured
from slow_judge import LONG, MOST_TIME, NUMBER, REFUSALS, SMALL, Graph, Judge, Log, NotSo, line_said

WITHIN = (b"hyp", b"split", b"cycle", b"why", b"again", b"ranked", b"at", b"open", b"rejected", b"counts")  # the lines of a round


# ---- right reports


@dataclass
class Source:
    """A graph, a log, and a right report of them."""

    graph: bytes
    log: bytes
    report: bytes


def small_graph(draws):
    modes = draws.choice([1, 1, 2, 2, 3])
    failures = 13 if draws.random() < 0.03 else draws.randint(1, 4)
    return drawn_graph(draws, modes, failures, draws.randint(1, 5))


def drawn_graph(draws, mode_count, failure_count, other_count):
    """A graph of so many modes, failure modes and discrepancies. It may have one that nothing enters, or a cycle that takes no time."""
    modes = [f"M{number}" for number in range(mode_count)]
    failures = [f"F{number}" for number in range(failure_count)]
    others = [f"D{number}" for number in range(other_count)]
    version = draws.choice([1, 2, 2])
    lines = [f"tfpg {version}", *[f"mode {mode}" for mode in modes]]
    nodes = [f"failure {name} {draws.choice([0, 1, 2, 3, 7, 1000])}" for name in failures]
    for name in others:
        least = draws.randint(0, 3)
        lags = f"{least} {least + draws.randint(0, 3)}" if version == 2 else draws.choice([0, 0, 1, 4])
        nodes.append(f"{draws.choice(['or', 'and'])} {name} {f'watch {lags}' if draws.random() < 0.8 else 'hidden'}")
    if draws.random() < 0.3:
        draws.shuffle(nodes)
    lines += nodes
    for place, name in enumerate(others):
        before = failures + others[:place]
        sources = set(draws.sample(before, min(len(before), draws.randint(1, 3))))
        if draws.random() < 0.2:
            sources.add(draws.choice(others))
        for source in sorted(sources - {name}):
            least = draws.randint(0 if source in before else 1, 4)
            greatest = "inf" if draws.random() < 0.2 else least + draws.choice([0, 1, 2, 6])
            active = "*" if draws.random() < 0.5 else ",".join(draws.sample(modes, draws.randint(1, len(modes))))
            lines.append(f"edge {source} {name} {least} {greatest} {active}")
    return "\n".join([*lines, "end"]) + "\n"


def random_log(draws, graph):
    modes, nodes = [name.decode() for name in graph.modes], [node.name.decode() for node in graph.nodes]
    watched = [graph.nodes[number].name.decode() for number in graph.monitored] or nodes
    now, lines = 0, []
    for _ in range(draws.randint(1, 7)):
        now += draws.choice([0, 1, 1, 2, 3, 6])
        what = draws.choices(["alarm", "silent", "sweep", "tick", "mode", "other"], [8, 5, 2, 2, 4, 2])[0]
        if what in ("alarm", "silent"):
            lines.append(f"{now} {what} {draws.choice(watched)}")
        elif what == "mode":
            lines.append(f"{now} mode {draws.choice(modes)}")
        elif what == "other":
            lines.append(draws.choice(["x", f"{max(0, now - 1)} tick", f"{now} alarm {nodes[0]}", f"0{now} tick", f"{now} mode X"]))
        else:
            lines.append(f"{now} {what}")
    return "\n".join(lines) + "\n"


def random_script(draws, graph):
    now, lines = 0, []
    for failure in draws.sample(graph.failures, draws.randint(0, min(2, len(graph.failures)))):
        now += draws.randint(0, 3)
        lines.append(f"{now} start {graph.nodes[failure].name.decode()}")
    for _ in range(draws.randint(0, 4)):
        now += draws.randint(0, 5)
        lines.append(f"{now} {draws.choice(['sweep', 'tick', 'mode ' + draws.choice(graph.modes).decode()])}")
    return "\n".join([*lines, f"{now + draws.randint(0, 9)} stop"]) + "\n"


class Program:
    def __init__(self, program, folder):
        self.program, self.folder = str(program), folder

    def write(self, name, text):
        (self.folder / name).write_bytes(text if isinstance(text, bytes) else text.encode())

    def run(self, *words, text=b""):
        """The status, what was written, and what was said of the end."""
        self.write("input", text)
        with open(self.folder / "input", "rb") as stream:
            done = subprocess.run([self.program, *words], stdin=stream, capture_output=True, cwd=self.folder, close_fds=False)
        return done.returncode, done.stdout, done.stderr

    def source(self, seed):
        """The right report of a seed."""
        draws = random.Random(f"source {seed}")
        while True:
            if draws.random() < 0.06:
                name = draws.choice(["pump", "satellite-array", "satellite-relay"])
                graph, log = (TOP / "examples" / file for file in (f"{name.split('-')[0]}.tfpg", f"{name}.log"))
                graph, log = graph.read_bytes(), log.read_bytes()
                words = ["--k", str(draws.randint(0, 2)), "--doubt", str(draws.randint(0, 1)), "--budget", draws.choice(["2", "1000"])]
            else:
                graph = small_graph(draws).encode()
                self.write("graph", graph)
                if self.run("diagnose", "graph")[0] != 0:
                    continue  # a node that nothing enters, or a cycle that takes no time
                log = self.log_of(draws, Graph(graph))
                words = ["--k", str(draws.choice([0, 1, 1, 2, 2, 3])), "--doubt", str(draws.choice([0, 0, 1, 2]))]
                words += ["--budget", draws.choice(["1", "2", "3", "1000", "1000"])]
            self.write("graph", graph)
            status, report, _ = self.run("diagnose", *words, "graph", text=log)
            if status == 0 and len(report) <= (200_000 if draws.random() < 0.01 else 20_000):
                return Source(graph, log, report)

    def log_of(self, draws, graph):
        if draws.random() < 0.5:
            return random_log(draws, graph).encode()
        self.write("script", random_script(draws, graph))
        log = self.run("simulate", "--draw", str(draws.randint(0, 99)), "graph", "script")[1]
        if draws.random() < 0.3:
            lines = log.split(b"\n")
            lines.insert(draws.randint(0, len(lines) - 1), random_log(draws, graph).encode().split(b"\n")[0])
            log = b"\n".join(lines)
        return log


# ---- edits


class Forger:
    """Edits of the lines of a report. Each answers what it did, in words."""

    def __init__(self, draws, source, lines):
        self.draws, self.graph, self.lines, self.log = draws, Graph(source.graph), lines, Log(Graph(source.graph))
        for line in log_lines(source.log):
            self.log.offer(line)
        self.names = [node.name for node in self.graph.nodes]
        self.edits = [
            (self.change_number, 10),
            (self.change_word, 4),
            (self.change_byte, 2),
            (self.change_set, 2),
            (self.drop, 5),
            (self.double, 4),
            (self.swap, 4),
            (self.move, 5),
            (self.replace, 5),
            (self.put_in, 6),
            (self.turn, 3),
            (self.wrap, 5),
            (self.reuse, 3),
            (self.retime, 6),
            (self.other_reason, 6),
            (self.spend, 6),
            (self.restate, 7),
            (self.cut, 1),
            (self.other_head, 2),
        ]

    def edit(self):
        if not self.lines:
            return self.put_in()
        edits, weights = zip(*self.edits)
        return self.draws.choices(edits, weights)[0]()

    def some_line(self, beginning=b""):
        """The index of some line that begins so."""
        found = [index for index, line in enumerate(self.lines) if line.startswith(beginning)]
        return self.draws.choice(found) if found else None

    def any_number(self):
        edges = [0, 1, 2, 64, 65, SMALL, SMALL + 1, MOST_TIME, MOST_TIME + 1, LONG, LONG + 1, 2**64 - 1, 2**64, 10**30]
        present = [int(word) for word in NUMBER.findall(self.draws.choice(self.lines))] if self.lines else []
        return self.draws.choice(edges if self.draws.random() < 0.4 or not present else present)

    def change_number(self):
        index = self.some_line()
        found = list(re.finditer(rb"[0-9]+", self.lines[index]))
        if not found:
            return f"no number in line {index + 1}"
        here = self.draws.choice(found)
        value = int(here[0])
        new = self.draws.choice([value + 1, max(0, value - 1), value + 1, max(0, value - 1), self.any_number(), self.any_number()])
        word = b"%d" % new
        if self.draws.random() < 0.08:
            word = self.draws.choice([b"0" + word, b"0" + word, b"+" + word, b"-" + word, b"", word + b".0", b"x"])
        return self.set_line(index, self.lines[index][: here.start()] + word + self.lines[index][here.end() :])

    def set_line(self, index, line):
        self.lines[index] = line
        return f"line {index + 1} becomes {line[:80]!r}"

    def change_word(self):
        index = self.some_line()
        words = self.lines[index].split(b" ")
        place = self.draws.randrange(len(words))
        alike = [line.split(b" ") for line in self.lines if line.split(b" ")[0] == words[0]]
        others = [line[place] for line in alike if place < len(line)] if self.draws.random() < 0.6 else self.names
        if self.draws.random() < 0.1:
            others = self.draws.choice(self.lines).split(b" ")
        chance = self.draws.random()
        if chance < 0.9:
            words[place] = self.draws.choice(others)
        elif chance < 0.95:
            del words[place]
        else:
            words.insert(place, self.draws.choice(others))
        return self.set_line(index, b" ".join(words))

    def change_byte(self):
        index = self.some_line()
        line = bytearray(self.lines[index])
        place = self.draws.randrange(len(line) + 1)
        byte = self.draws.choice([self.draws.randrange(256), *b" -,!/0019\r\t\0\xff"])
        if byte == 10:
            byte = 11
        chance = self.draws.random()
        if chance < 0.05:
            line[place:place] = bytes([byte]) * self.draws.choice([4090, 4096, 4097, 5000])
        elif chance < 0.4 or place == len(line):
            line.insert(place, byte)
        elif chance < 0.7:
            line[place] = byte
        else:
            del line[place]
        return self.set_line(index, bytes(line))

    def change_set(self):
        index = self.some_line(self.draws.choice([b"ranked", b"open", b"rejected"]))
        if index is None:
            return "no set"
        front, _, word = self.lines[index].rpartition(b" ")
        members = [] if word == b"-" else word.split(b",")
        chance = self.draws.random()
        if members and chance < 0.4:
            del members[self.draws.randrange(len(members))]
        elif chance < 0.8:
            members.insert(self.draws.randint(0, len(members)), self.draws.choice([b"", b"!"]) + self.draws.choice(self.names))
        else:
            self.draws.shuffle(members)
        return self.set_line(index, front + b" " + (b",".join(members) or b"-"))

    def unit_at(self, index):
        """A run of lines that belong together, by its first and the one after its last: some lines, a step, a part, or a block."""
        chance = self.draws.random()
        if chance < 0.2:
            return index, min(len(self.lines), index + self.draws.choice([1, 1, 1, 2, 3, 5]))
        if chance < 0.65:
            begins, goes_on = (b"cycle", b"ranked"), (b"why", b"at")
        elif chance < 0.85:
            begins, goes_on = (b"hyp", b"ranked"), (b"split", b"cycle", b"why", b"again", b"at")
        else:
            begins, goes_on = (b"round",), WITHIN
        word = lambda place: self.lines[place].split(b" ")[0]
        first = index
        while first > 0 and word(first) in goes_on and word(first) not in begins:
            first -= 1
        last = first + 1
        while last < len(self.lines) and word(first) in begins and word(last) in goes_on:
            last += 1
        return first, last

    def some_unit(self, beginning=b""):
        index = self.some_line(beginning)
        return self.unit_at(self.some_line() if index is None else index)

    def drop(self):
        first, last = self.some_unit()
        del self.lines[first:last]
        return f"lines {first + 1} to {last} are dropped"

    def double(self):
        first, last = self.some_unit()
        self.lines[last:last] = self.lines[first:last]
        return f"lines {first + 1} to {last} stand twice"

    def swap(self):
        one = self.some_unit()
        word = self.lines[one[0]].split(b" ")[0]
        other = self.unit_at(one[1]) if self.draws.random() < 0.5 and one[1] < len(self.lines) else self.some_unit(word)
        one, other = sorted([one, other])
        if one[1] > other[0]:
            return "no two units"
        lines = self.lines
        lines[one[0] : other[1]] = lines[other[0] : other[1]] + lines[one[1] : other[0]] + lines[one[0] : one[1]]
        return f"lines {one[0] + 1} to {one[1]} and {other[0] + 1} to {other[1]} are swapped"

    def move(self):
        first, last = self.some_unit()
        taken = self.lines[first:last]
        stays = self.draws.random() < 0.4
        if not stays:
            del self.lines[first:last]
        beside = self.some_line(taken[0].split(b" ")[0] if self.draws.random() < 0.8 else b"")
        place = self.draws.randint(0, len(self.lines)) if beside is None else beside + self.draws.randint(0, 1)
        self.lines[place:place] = taken
        return f"lines {first + 1} to {last} {'also ' if stays else ''}stand before line {place + 1}"

    def replace(self):
        first, last = self.some_unit()
        other = self.some_unit(self.lines[first].split(b" ")[0])
        self.lines[first:last] = self.lines[other[0] : other[1]]
        return f"lines {other[0] + 1} to {other[1]} stand in place of lines {first + 1} to {last}"

    def some_set(self):
        members = self.draws.sample(self.names, self.draws.randint(0, min(2, len(self.names))))
        return b",".join(sorted(members, key=self.names.index)) or b"-"

    def some_clause(self):
        horizons = [int(line.split(b" ")[-1]) for line in self.lines if re.fullmatch(rb"round \d+ \d+ \d{1,13}", line)] or [0]
        place, horizon = self.draws.choice([0, 0, 0, 1, 2]), self.draws.choice(horizons)
        edge = self.draws.choice(self.graph.edges)
        names = b"%s %s" % (self.names[edge.source], self.names[edge.target])
        node = self.names[edge.target]
        is_or = self.graph.nodes[edge.target].kind == b"or"
        about = self.draws.choice([b"ormay " + node, b"ormust " + names] if is_or else [b"andmay " + names, b"andmust " + node])
        return b"split %s %d %d" % (about, place, horizon)

    def some_text(self):
        value, name = self.any_number(), self.draws.choice(self.names)
        return self.draws.choice(
            [
                b"again",
                b"again",
                b"cycle %d" % self.draws.choice([0, 1, 2, value]),
                b"why zero " + name,
                b"why top " + name,
                b"why from %d" % value,
                b"why upto %d" % value,
                b"why quiet %d %s" % (value, name),
                b"why unreached %s %d" % (name, value),
                b"why pick %d %d" % (self.draws.randint(0, 3), self.draws.randint(0, 4)),
                b"at %s %d" % (name, value),
                b"hyp %d" % value,
                b"open %d set %s" % (value, self.some_set()),
                b"rejected %d set %s" % (value, self.some_set()),
                b"ranked %d cost %d robust 1/1 set %s" % (value, self.any_number(), self.some_set()),
                b"counts ranked 0 covered 0 rejected %d open 0" % value,
                b"panel %d lost" % value,
                b"panel %d memory" % value,
                b"refused %d %s" % (value, self.draws.choice(REFUSALS)),
                b"refused %d TimeBack %d" % (value, self.any_number()),
                b"round %d %d %d" % (value, self.any_number(), self.any_number()),
                self.some_clause(),
                self.some_clause(),
                b"",
            ]
        )

    def put_in(self):
        place, lines = self.draws.randint(0, len(self.lines)), [self.some_text()]
        if lines[0].startswith(b"panel"):
            counts = self.some_line(b"counts")
            place = place if counts is None else counts + 1
            lines += [b"panel %d lost" % self.draws.randint(0, 3) for _ in range(self.draws.randint(0, 2))]
        self.lines[place:place] = lines
        return f"{lines} are put in as line {place + 1}"

    def turn(self):
        """Another rotation of a cycle says the same."""
        index = self.some_line(b"cycle")
        if index is None:
            return "no cycle"
        last = index + 1
        while last < len(self.lines) and self.lines[last].startswith(b"why"):
            last += 1
        by = self.draws.randint(1, 3)
        self.lines[index + 1 : last] = self.lines[index + 1 + by : last] + self.lines[index + 1 : min(last, index + 1 + by)]
        return f"the cycle of line {index + 1} is turned by {by}"

    def part_at(self, index):
        """The line after the last of the steps that begin there."""
        last = index
        while last < len(self.lines) and self.lines[last].split(b" ")[0] in (b"split", b"cycle", b"why", b"again"):
            last += 1
        return last

    def wrap(self):
        """Steps under a further split: the same steps again for each alternative, or a reused subtree."""
        index = self.some_line(b"hyp")
        if index is None:
            return "no steps"
        last = self.part_at(index + 1)
        deeper = lambda match: b"why pick %d %s" % (int(match[1]) + 1, match[2])
        steps = [re.sub(rb"why pick (\d{1,9}) (.*)", deeper, line) for line in self.lines[index + 1 : last]]
        clause, times = self.some_clause(), self.draws.choice([1, 1, 1, 2, 3, 4])
        more = [b"again"] if times == 1 or self.draws.random() < 0.2 else []
        self.lines[index + 1 : last] = [clause, *steps * times, *more]
        return f"the steps after line {index + 1} stand {times} times under {clause!r}, and then {more}"

    def reuse(self):
        """A reused subtree in place of a run of steps."""
        index = self.some_line(self.draws.choice([b"cycle", b"split"]))
        if index is None:
            return "no step"
        last = index + 1
        while last < self.part_at(index) and (self.lines[last].startswith(b"why") or self.draws.random() < 0.6):
            last += 1
        self.lines[index:last] = [b"again"]
        return f"again stands in place of lines {index + 1} to {last}"

    def retime(self):
        """Other times in a trace: each a little later or earlier."""
        index = self.some_line(b"ranked")
        if index is None:
            return "no trace"
        last = index + 1
        while last < len(self.lines) and self.lines[last].startswith(b"at "):
            node, _, time = self.lines[last].rpartition(b" ")
            if self.draws.random() < 0.5 and NUMBER.fullmatch(time):
                self.lines[last] = b"%s %d" % (node, max(0, int(time) + self.draws.choice([-2, -1, -1, 1, 1, 2])))
            last += 1
        times = {line.split(b" ")[1]: line for line in self.lines[index + 1 : last]}
        node, time = self.draws.choice(self.names), self.draws.choice([b"0", *[line.split(b" ")[-1] for line in times.values()]])
        if self.draws.random() < 0.4 and times.pop(node, None) is None and NUMBER.fullmatch(time):
            times[node] = b"at %s %d" % (node, int(time) + self.draws.randint(0, 3))
        place = {name: number for number, name in enumerate(self.names)}
        self.lines[index + 1 : last] = sorted(times.values(), key=lambda line: place.get(line.split(b" ")[1], 0))
        return f"the trace of line {index + 1} is another"

    def other_reason(self):
        """Another bound of the same kind on the same node, in place of a reason."""
        index = self.some_line(b"why")
        words = self.lines[index].split(b" ") if index is not None else []
        if len(words) < 3 or words[1] == b"pick":
            return "no reason that states a fact"
        events = self.log.events
        name = words[2]
        if words[1] in (b"from", b"upto"):
            number = int(words[2]) if NUMBER.fullmatch(words[2]) else 0
            about = events[number - 1].node if 1 <= number <= len(events) else None
            name = self.names[about or 0]
        elif words[1] == b"quiet":
            name = words[-1]
        number = self.draws.randint(1, max(1, len(events)))
        said = [b"top %s" % name, b"upto %d" % number, b"upto %d" % number]
        if words[1] not in (b"top", b"upto"):
            horizon = events[number - 1].time if events else 0
            said = [b"zero %s" % name, b"from %d" % number, b"unreached %s %d" % (name, horizon)] + [b"quiet %d %s" % (number, name)] * 3
        return self.set_line(index, b"why " + self.draws.choice(said))

    def spend(self):
        """Splits for some hypothesis in some round, as many as the budget, with or without a line that it is open."""
        counts, judge = self.some_line(b"counts"), Judge(self.graph, [])
        try:
            _, k, doubt, budget = line_said(self.graph, self.lines[0])
        except (NotSo, ValueError):
            return "no first line"
        if counts is None or budget > 4 or judge.begin(k, doubt, budget) is not None:
            return "no round, or a great budget"
        hypothesis = self.draws.randrange(len(judge.trees))
        tree = judge.trees[hypothesis]
        members = [self.names[node] for node in tree.failures] + [b"!" + self.names[node] for node in tree.doubts]
        first = max((place for place in range(counts) if self.lines[place].startswith(b"round")), default=0)
        wanted = [(b"hyp %d" % hypothesis, [self.some_clause() for _ in range(budget)])]
        if self.draws.random() < 0.6:
            wanted.append((b"open %d set %s" % (hypothesis, b",".join(members) or b"-"), []))
        for line, more in wanted:
            word, place = line.split(b" ")[0], first + 1
            order = {b"hyp": 0, b"ranked": 1, b"open": 2, b"rejected": 3, b"counts": 4}
            while place < len(self.lines):
                other = self.lines[place].split(b" ")
                later = order.get(other[0], -1) > order[word]
                if later or (other[0] == word and len(other) > 1 and NUMBER.fullmatch(other[1]) and int(other[1]) >= hypothesis):
                    break
                place += 1
            self.lines[place:place] = [line, *more]
        return f"hypothesis {hypothesis} has {budget} splits before line {counts + 1}, and {len(wanted) - 1} open lines"

    def restate(self):
        """Another status for a hypothesis that has a line, or a line for one that has none."""
        index = self.some_line(self.draws.choice([b"ranked", b"open", b"rejected"]))
        if index is None:
            return "no status"
        words = self.lines[index].split(b" ")
        last = index + 1
        while words[0] == b"ranked" and last < len(self.lines) and self.lines[last].startswith(b"at "):
            last += 1
        said = self.draws.choice([b"open", b"rejected"]) + b" %s set %s" % (words[1], words[-1])
        if self.draws.random() < 0.7:
            del self.lines[index:last]
        beside = self.some_line(said.split(b" ")[0])
        while beside is None or beside > len(self.lines):
            beside = next((place for place in range(index, len(self.lines)) if self.lines[place].startswith(b"counts")), len(self.lines))
        self.lines.insert(beside, said)
        return f"{said!r} stands before line {beside + 1}, for line {index + 1}"

    def mend_counts(self):
        """Counts that are those of the lines of their round, with the same sum."""
        rejected = begin = 0
        for index, line in enumerate(self.lines):
            if line.startswith(b"round"):
                begin = index
            numbers = [int(word) for word in NUMBER.findall(line)]
            if line.startswith(b"counts") and len(numbers) == 4:
                beginnings = [other.split(b" ")[0] for other in self.lines[begin:index]]
                ranked, left_open = beginnings.count(b"ranked"), beginnings.count(b"open")
                rejected += beginnings.count(b"rejected")
                covered = max(0, sum(numbers) - ranked - left_open - rejected)
                self.lines[index] = b"counts ranked %d covered %d rejected %d open %d" % (ranked, covered, rejected, left_open)
        return "the counts are mended"

    def cut(self):
        place = self.draws.randint(0, len(self.lines))
        del self.lines[place:]
        return f"only {place} lines are left"

    def other_head(self):
        """The other form of the first line, or other terms."""
        words = self.lines[0].split(b" ")
        if words[0] != b"report":
            return "no first line"
        if words[1] == b"2" and self.draws.random() < 0.5:
            words[1:6] = [b"1", b"k", words[3]]
        else:
            place = self.draws.choice([index for index, word in enumerate(words) if NUMBER.fullmatch(word)][1:])
            words[place] = self.draws.choice([b"0", b"1", b"2", b"3", b"4", b"64", b"1000"])
        return self.set_line(0, b" ".join(words))


def forge(seed, index, source):
    """A forgery: the log, the report, and what was done."""
    draws = random.Random(f"forge {seed} {index}")
    lines = source.report.split(b"\n")[:-1]
    log = source.log
    forger = Forger(draws, source, lines)
    done = [forger.edit() for _ in range(0 if index == 0 else draws.choice([1, 1, 1, 1, 2, 2, 3, 4]))]
    if index > 0 and draws.random() < 0.3:
        done.append(forger.mend_counts())
    if draws.random() < 0.03:
        log_lines = log.split(b"\n")
        chosen = draws.randrange(len(log_lines))
        log_lines[chosen : chosen + 1] = draws.choice([[], [log_lines[chosen]] * 2, [b"x"], [b"0 tick", log_lines[chosen]]])
        log = b"\n".join(log_lines)
        done.append(f"line {chosen + 1} of the log is another")
    report = b"\n".join(lines) + (b"\n" if lines and draws.random() < 0.98 else b"")
    return log, report, done


STATUS = {"accepted": 0, "not": 1, "too": 4}


def answer(program, log, report):
    """What the program says, and its processor time."""
    program.write("log", log)
    (status, out, err), took = measured(lambda: program.run("check", "graph", "log", text=report))
    said = (out + err).decode(errors="replace")
    fits = said.endswith("\n") and said.count("\n") == 1 and STATUS.get(said.split(" ")[0]) == status and (status == 0) == bool(out)
    return said.rstrip("\n") if fits else f"status {status}: {out!r} {err!r}", took


def log_lines(log):
    lines = log.split(b"\n")
    return lines[:-1] if lines[-1] == b"" else lines


def try_one(program, seed, index, source, keep):
    log, report, done = forge(seed, index, source)
    expected = Judge(Graph(source.graph), log_lines(log)).judge(report)
    said, took = answer(program, log, report)
    if said != expected:
        print(f"{seed}.{index}: the program says {said!r}, the judge {expected!r}")
        for what in done:
            print(f"    {what}")
        for name, text in (("graph", source.graph), ("log", log), ("report", report)):
            (keep / f"{seed}.{index}.{name}").write_bytes(text)
        sys.stdout.flush()
    return said, expected, took, len(report)


def main():
    arguments = word_reader(__doc__)
    arguments.add_argument("--seconds", type=int, default=60)
    arguments.add_argument("--seed", type=int, default=1, help="the first seed of a right report")
    arguments.add_argument("--one", metavar="SEED", help="only this forgery, as SEED.INDEX")
    arguments.add_argument("--keep", type=Path, metavar="FOLDER", help="where forgeries that differ are kept")
    arguments.add_argument("--each", type=int, default=40, help="forgeries of each right report")
    words = arguments.parse_args()
    words.keep = words.keep or Path(tempfile.gettempdir()) / "forged"
    words.keep.mkdir(parents=True, exist_ok=True)
    sys.set_int_max_str_digits(0)  # a line may have thousands of digits
    with folder_for() as folder:
        program = Program(built_program(words.program), folder)
        if words.one:
            seed, index = (int(word) for word in words.one.split("."))
            source = program.source(seed)
            said, expected, *_ = try_one(program, seed, index, source, words.keep)
            print(f"{words.one}: the program says {said!r}, the judge {expected!r}")
            print("\n".join(forge(seed, index, source)[2]))
            return int(said != expected)
        return go_on(program, words)


def go_on(program, words):
    """Forges until the time is over."""
    answers, differ, size, slowest, count = Counter(), 0, 0, (0.0, 0, ""), 0
    seed, end = words.seed, time.monotonic() + words.seconds
    while time.monotonic() < end:
        source = program.source(seed)
        for index in range(words.each):
            said, expected, took, bytes_read = try_one(program, seed, index, source, words.keep)
            count, size, differ = count + 1, size + bytes_read, differ + (said != expected)
            answers[" ".join(word for word in expected.split(" ") if not word.isdigit())] += 1
            slowest = max(slowest, (took, bytes_read, f"{seed}.{index}"))
        seed += 1
    print(f"{count} forgeries of the right reports {words.seed} to {seed - 1}, {size / 1e6:.1f} MB: {differ} differ")
    for said, times in answers.most_common():
        print(f"{times:8} {said}")
    print(f"the slowest run took {1000 * slowest[0]:.1f} ms, for {slowest[1]} bytes: {slowest[2]}")
    return int(differ > 0)


if __name__ == "__main__":
    sys.exit(main())

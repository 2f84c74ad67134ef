# A test bench in Python, in cells as a notebook reads them. `testbench.txt` is what it prints. It runs with `python` in PYTHONPATH, and
# needs the library, as python/README.md says.

# %% The pump, and a test: its filter is clogged, and what the monitors then say has times of the world, in Unix milliseconds.
import warnings
from pathlib import Path
from typing import List, Tuple

import tfpg

HERE = Path(__file__).resolve().parent
START = 1764468000000
SAID: List[Tuple[int, tfpg.Kind, str]] = [
    (600000, "tick", ""),
    (1800000, "sweep", ""),
    (2715000, "alarm", "LowFlow"),
    (3290000, "alarm", "MotorHeat"),
    (3300000, "alarm", "MotorHot"),
    (4500000, "alarm", "LowLevel"),
]

graph = tfpg.Graph.load(HERE / "pump.tfpg")
print(graph, "can fail by", ", ".join(graph.failures))

# %% Each event has its answer at once. One of them has a slip, which is refused and changes nothing.
with tfpg.Session(graph, origin=START) as session:
    for after, kind, name in SAID:
        answer = session.event(START + after, kind, name)
        if isinstance(answer, tfpg.Refused):
            print(f"line {answer.line}: {answer.text}: {answer.sentence}")
        elif answer.changed:
            print(f"line {answer.line}: ranked", ", ".join(f"{one.set} at cost {one.cost}" for one in answer.ranked))

# %% The test passes if what was done to the pump is ranked first, with a history that begins when it was done.
last = session.last
assert isinstance(last, tfpg.Round) and last.best is not None
best = last.best
print(f"best: {best.set}, {best.alarmed} of {best.monitored} alarms")
for node, time in best.trace.items():
    print(f"  {(time - START) / 1000:6.0f} s {node}")
assert best.failures == ("FilterClogged",) and 2000000 <= best.trace["FilterClogged"] - START <= 2700000

# %% The report of a whole log is kept as evidence, and judged. Each answer says which lines are refused, so no warning is needed.
warnings.simplefilter("ignore", tfpg.RefusedLines)
log = HERE / "pump.log"
report = tfpg.report(graph, log)
accepted = tfpg.check(graph, log, report)
print(f"a report of {len(report.splitlines())} lines, {accepted} rounds accepted, line {accepted.refused[0].line} refused")
try:
    tfpg.check(graph, log, report.replace("ranked 1 cost 2", "ranked 1 cost 1"))
except tfpg.NotAccepted as fault:
    print("a forged one:", fault)

# %% After the first alarm: what to look at, when the motor gets too hot, and whether a history of one's own explains it.
first = log.read_text().splitlines()[:3]
for question in tfpg.ask(graph, [*first, "3200000 tick"]).questions[:1]:
    print(f"look at {question.node}: silent, {question.silent} are out; an alarm, {question.alarm} are out")
for forecast in tfpg.predict(graph, first, "MotorHot", ahead=3600000).forecasts:
    print(f"MotorHot by {forecast.set}: {forecast.outcome} {forecast.time}")
print(tfpg.explain(graph, log, HERE / "pump-early.map").sentence)

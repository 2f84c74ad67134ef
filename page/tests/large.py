"""Large texts, made by a rule: a chain of many nodes, and a right report with a refutation of many steps."""


def long_chain(count):
    """A graph of one failure mode and so many discrepancies, each of which follows the one before."""
    nodes = [f"or D{number} watch 5" for number in range(count)]
    edges = [f"edge {f'D{number - 1}' if number else 'F'} D{number} 1 2 *" for number in range(count)]
    return "\n".join(["tfpg 1", "mode N", "failure F 1", *nodes, *edges, "end", ""])


TWO_CAUSES = "tfpg 1\nmode N\nfailure F1 1\nfailure F2 1\nor A watch 0\nedge F1 A 0 9 *\nedge F2 A 0 9 *\nend\n"
ONE_ALARM = "10 alarm A\n"


def nested_choices(depth):
    """Steps of a tree that splits on the cause of A again and again, and closes each leaf by the alarm, which nothing caused."""
    if depth == 0:
        return ["cycle 2", "why upto 1", "why unreached A 10"]
    # Without a failure mode: before the span, after it, over the first edge, over the second.
    return ["split ormay A 0 10", *[line for _ in range(4) for line in nested_choices(depth - 1)]]


def report_of_choices(depth):
    """A right report of the alarm, with k 0: the empty set alone, and it is rejected."""
    lines = ["report 2 k 0 doubt 0 budget 100000", "round 1 1 10", "hyp 0", *nested_choices(depth)]
    return "\n".join([*lines, "rejected 0 set -", "counts ranked 0 covered 0 rejected 1 open 0", ""])


BRANCHES, LEAVES_OF_ONE = 9, 11


def wide_graph():
    """Four failure modes, each with nine hidden nodes, of which each reaches eleven monitored ones; nothing is ever forced."""
    nodes, edges = [], []
    for mode in range(4):
        for branch in range(BRANCHES):
            hub = f"H{mode}.{branch}"
            nodes.append(f"or {hub} hidden")
            edges.append(f"edge F{mode} {hub} 1 inf *")
            for leaf in range(LEAVES_OF_ONE):
                nodes.append(f"or D{mode}.{branch}.{leaf} watch 0")
                edges.append(f"edge {hub} D{mode}.{branch}.{leaf} 1 inf *")
    return "\n".join(["tfpg 1", "mode N", *[f"failure F{mode} 1" for mode in range(4)], *nodes, *edges, "end", ""])


def wide_alarms(count):
    """The first so many monitored nodes below the first failure mode, with the times of their alarms."""
    return [(f"D0.{index // LEAVES_OF_ONE}.{index % LEAVES_OF_ONE}", 200 + index) for index in range(count)]


def wide_texts(count):
    """The graph, a log of so many alarms, and a right report with k 1: the first failure mode explains them, and nothing else does."""
    alarms = wide_alarms(count)
    lines = ["report 2 k 1 doubt 0 budget 9"]
    for number, (_, time) in enumerate(alarms, 1):
        lines.append(f"round {number} {number} {time}")
        if number == 1:
            for hypothesis in (0, 2, 3, 4):
                lines += [f"hyp {hypothesis}", "cycle 2", "why upto 1", f"why unreached {alarms[0][0]} {time}"]
        lines += [f"ranked 1 cost 1 robust {number}/99 set F0", "at F0 100"]
        for branch in range((number - 1) // LEAVES_OF_ONE + 1):
            lines.append(f"at H0.{branch} 101")
            lines += [f"at {name} {time}" for name, time in alarms[:number] if name.startswith(f"D0.{branch}.")]
        if number == 1:
            lines += ["rejected 0 set -", *[f"rejected {mode + 1} set F{mode}" for mode in (1, 2, 3)]]
        lines.append("counts ranked 1 covered 0 rejected 4 open 0")
    return {"tfpg": wide_graph(), "log": "".join(f"{time} alarm {name}\n" for name, time in alarms), "report": "\n".join([*lines, ""])}

"""What the steps of forecasts state, by the probed graph and the probed log of `docs/search.md`, made anew here."""

from judged import StatingTree, lines_of
from slow_judge import MOST_TIME, Graph, Log, line_said


def probe_name(graph):
    number = 0
    while b"probe.%d" % number in graph.number_of:
        number += 1
    return b"probe.%d" % number


def kept_lines(log):
    """All changes of mode, of each node the first and the last alarm, and its last silence, as one of its own."""
    graph, kept, silences, alarms = log.graph, [], {}, {}
    for number, event in enumerate(log.events, 1):
        for node in graph.monitored:
            if log.silences(number, node):
                silences[node] = number
        if event.what == b"alarm":
            alarms.setdefault(event.node, [number, number])[1] = number
    for number, event in enumerate(log.events, 1):
        if event.what == b"mode":
            kept.append(b"%d mode %s" % (event.time, graph.modes[event.mode]))
        elif event.what == b"alarm" and number in alarms[event.node]:
            kept.append(b"%d alarm %s" % (event.time, graph.nodes[event.node].name))
        kept += [b"%d silent %s" % (event.time, graph.nodes[node].name) for node in graph.monitored if silences.get(node) == number]
    return kept


def probed(graph_text, log, node, bound, end):
    """The probed graph and the probed log."""
    name = probe_name(log.graph)
    probe = b"or %s watch %d %d\nedge %s %s 0 0 *\n" % (name, end - bound, end, node, name)
    graph = Graph(graph_text.replace(b"\nend\n", b"\n" + probe + b"end\n"))
    found = Log(graph)
    for line in [*kept_lines(log), b"%d alarm %s" % (end, name)]:
        assert found.offer(line) is None, line
    return graph, found


def forecasts_of(text):
    """The node, the end, and for each forecast its set, bound, and lines with their numbers."""
    lines = lines_of(text)
    head, found = lines[0].split(b" "), []
    for number, line in enumerate(lines[1:], 2):
        words = line.split(b" ")
        if words[0] == b"forecast":
            bound = int(head[5]) if words[4] == b"never" else int(words[5]) - (words[4] == b"earliest")
            found.append((words[3], bound, []))
        elif words[0] != b"at":
            found[-1][2].append((number, line))
    return head[1], int(head[5]), found


def steps_of(graph, lines):
    """The steps, each with its line."""
    steps = []
    for number, line in lines:
        kind, *said = line_said(graph, line)
        if kind == b"why":
            steps[-1][1][1].append(said[0])
        else:
            steps.append((number, (kind, []) if kind == b"cycle" else (kind, *said)))
    return steps


def constraints_of_forecasts(graph, log, prediction):
    """What each cycle of a prediction states, by its line."""
    events, found = Log(Graph(graph)), {}
    for line in lines_of(log):
        events.offer(line)
    node, end, forecasts = forecasts_of(prediction)
    assert end <= MOST_TIME
    for members, bound, lines in forecasts:
        probed_graph, probed_log = probed(graph, events, node, bound, end)
        names = [] if members == b"-" else members.split(b",")
        failures = [probed_graph.number_of[name] for name in names if not name.startswith(b"!")]
        tree = StatingTree(probed_graph, failures, [probed_graph.number_of[name[1:]] for name in names if name.startswith(b"!")])
        for number, step in steps_of(probed_graph, lines):
            broken = tree.take(probed_log, step)
            assert broken is None, (number, broken)
            if step[0] == b"cycle":
                found[number] = tree.cycles[-1]
    return found

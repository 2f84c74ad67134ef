"""Which nodes of a large graph are drawn in part: the history of the best set first, then the alarms nearest to it, then what is near."""

import re

MOST_OF_HISTORY = 150  # nodes


def last_traces(report):
    """The nodes of each trace of the last round, best first, each by time: causes stand before what they cause."""
    begin = report.rfind(b"\nround ")
    traces = []
    for line in report[begin:].split(b"\n") if begin >= 0 else []:
        words = line.split(b" ")
        if words[0] == b"ranked":
            traces.append([])
        elif words[0] == b"at" and traces:
            traces[-1].append((int(words[2]), words[1]))
    return [[name for _, name in sorted(trace, key=lambda entry: entry[0])] for trace in traces]


def neighbours_of(graph):
    """The nodes at the other end of the edges of each node: its causes first."""
    found = {node.name: [] for node in graph.nodes}
    for edge in graph.edges:
        found[edge.target].append(edge.source)
    for edge in graph.edges:
        found[edge.source].append(edge.target)
    return found


def by_distance(neighbours, start):
    """All nodes that edges join with these, nearest first, in either direction."""
    found = dict.fromkeys(start)
    left = list(found)
    for name in left:
        for other in neighbours[name]:
            if other not in found:
                found[other] = None
                left.append(other)
    return left


def part_of(graph, log, report, most):
    """The names of at most so many nodes, or none if the texts name none. The history of the best set may be larger, and is whole up to
    MOST_OF_HISTORY nodes, its causes first. Without one the first alarm stands in its place."""
    known, neighbours = {node.name for node in graph.nodes}, neighbours_of(graph)
    alarms = [name for name in dict.fromkeys(re.findall(rb"^\d+ alarm (\S+)$", log, re.MULTILINE)) if name in known]
    traces = last_traces(report)
    best = next((trace for trace in traces if trace), [])
    near = by_distance(neighbours, best or alarms[:1])
    place = {name: number for number, name in enumerate(near)}
    ordered = [*best, *sorted(alarms, key=lambda name: place.get(name, len(place))), *(name for trace in traces for name in trace), *near]
    return set(list(dict.fromkeys(ordered))[: max(most, min(len(best), MOST_OF_HISTORY))])

"""Which failures had arrived when, by the definition of an age: instant by instant, without spans and windows. For small times alone."""

from judged import lines_of
from slow_judge import Graph, Log, line_said


def mode_at(log, instant):
    """The mode of the last change before the instant."""
    changes = [event.mode for event in log.events if event.what == b"mode" and event.time < instant]
    return changes[-1] if changes else 0


def age(log, edge, times, instant):
    """How long the failure has been on its way over the edge, or nothing."""
    grown = -1
    while instant - grown - 1 >= times.get(edge.source, instant + 1) and mode_at(log, instant - grown - 1) in edge.modes:
        grown += 1
    return grown if grown >= 0 else None


def arrived(graph, log, times):
    """For each active node its time, and the edges that had carried the failure by then, with their ages."""
    found = []
    for node, time in sorted(times.items()):
        ages = [(edge, age(log, edge, times, time)) for edge in graph.incoming[node]]
        found.append([node, time, [[graph.edges.index(edge), grown] for edge, grown in ages if grown is not None and grown >= edge.least]])
    return found


def arrivals_by_instants(graph, log, report):
    """For each round, for each ranked set: what `arrived` says of its trace."""
    graph, log, found = Graph(graph), lines_of(log), []
    for last_line, traces in traces_of(graph, report):
        events = Log(graph)
        for line in log[:last_line]:
            events.offer(line)
        found.append([arrived(graph, events, times) for times in traces])
    return found


def traces_of(graph, report):
    """For each round the line of the log, and the traces in their order."""
    rounds = []
    for line in lines_of(report):
        kind, *said = line_said(graph, line)
        if kind == b"round":
            rounds.append((said[1], []))
        elif kind == b"ranked":
            rounds[-1][1].append({})
        elif kind == b"at":
            rounds[-1][1][-1][said[0]] = said[1]
    return rounds

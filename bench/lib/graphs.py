"""What the texts of random graphs, and of scripts and logs, are made of."""

from tfpg.limits import MOST_INCOMING

BAND = 40  # an edge comes from a node that stands at most so many before its target


def node_names(failures, nodes):
    """The names of so many nodes, of which the first are failure modes."""
    return [f"{'F' if node < failures else 'D'}{node}" for node in range(nodes)]


def monitor(draws, share, lag=20):
    """What follows the name of a discrepancy, of which such a share has a monitor, with a lag up to this one."""
    return f"watch {draws.randint(0, lag)}" if draws.random() < share else "hidden"


def discrepancies(draws, names, and_share, share=0.6, lag=20):
    """The lines of the discrepancies of these names. Such a share of them are AND nodes, and such a share has a monitor."""
    for name in names:
        kind = "and" if draws.random() < and_share else "or"
        yield f"{kind} {name} {monitor(draws, share, lag)}"


def later_edges(draws, first, count, most, tries=None):
    """Pairs of a source and a target, each a later node of `count` nodes: one into each node from the first on, and then others until there
    are `most`, or all tries, 20 for each edge, are made. No pair comes twice, and no node has more edges than it may have."""
    seen, incoming = set(), [0] * count
    for node in [*range(first, count), *[None] * (20 * most if tries is None else tries)]:
        target = node or draws.randint(first, count - 1)
        source = draws.randint(max(0, target - BAND), target - 1)
        if len(seen) == most or (source, target) in seen or incoming[target] == MOST_INCOMING:
            continue
        seen.add((source, target))
        incoming[target] += 1
        yield source, target


def script_text(timed, stop):
    """The script of these pairs of a time and what comes then, up to its stop. What has the same time comes in the order of the pairs."""
    lines = [f"{at} {what}" for at, what in sorted(timed, key=lambda one: one[0])]
    return "\n".join([*lines, f"{stop} stop"]) + "\n"


def steady_script(draws, failure, events, share):
    """The script that starts a failure mode at 0, and then has so many ticks, of which such a share are sweeps."""
    now, timed = 0, [(0, f"start {failure}")]
    for _ in range(events):
        now += draws.randint(1, 8)
        timed.append((now, "sweep" if draws.random() < share else "tick"))
    return script_text(timed, now)


def ticks(first, end):
    """The lines of a log with a tick at each millisecond from the first one up to the end, and none at the end."""
    return "".join(f"{at} tick\n" for at in range(first, end))

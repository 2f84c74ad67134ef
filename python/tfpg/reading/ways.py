"""The least time that a failure takes from node to node, by the least delays of the edges, whatever the modes."""

from __future__ import annotations

from heapq import heappop, heappush
from typing import Dict, List, Tuple

from .graphs import DeclaredGraph


def least_ways(graph: DeclaredGraph, target: int) -> Dict[int, int]:
    """The milliseconds that a failure takes at least to a node, from each node that has a way to it. By Dijkstra's algorithm, backwards."""
    settled: Dict[int, int] = {}
    left: List[Tuple[int, int]] = [(0, target)]
    while left:
        time, node = heappop(left)
        if node not in settled:
            settled[node] = time
            for edge in graph.incoming[node]:
                heappush(left, (time + edge.least, edge.source))
    return settled

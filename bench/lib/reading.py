"""The readers of graphs and reports of the package for Python, for scripts that compare what reports say."""

from tfpg.reading.graphs import graph_of
from tfpg.reading.reports import Refused, read_report
from tfpg.reading.texts import text_of

__all__ = ["Refused", "report_read"]


def report_read(report, graph):
    """What the bytes of a report about the bytes of a graph say."""
    return read_report(text_of(report), graph_of(text_of(graph)))

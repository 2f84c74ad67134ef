"""Lays the graph out by Graphviz: all of it, and of a large one also the part that matters most by the texts."""

import re
import subprocess

from tfpg.saying.times import HOUR, duration_words

from .part import part_of

MOST_NODES = 80  # a graph with more of them is also drawn in part, with at most so many
MOST_BOTH_WAYS = 150  # a drawing with more nodes is laid out from left to right alone
MOST_LABELS = 160  # a drawing with more edges has no labels on them
NODE_FONT, EDGE_FONT = 12, 11  # sizes in points; the page never shows them smaller than in pixels
DIGIT = 7.7  # the width of a digit of a node, in points
STYLES = {b"failure": "shape=box", b"or": "shape=box", b"and": "shape=octagon"}
MANY_EDGES = 400  # with more of them Graphviz is told to take less pains
ATTRIBUTES = "bgcolor=transparent; nodesep=0.18; ranksep=0.3; pad=0.15;"
PAINS = {False: "nslimit=4; nslimit1=4; mclimit=1;", True: "nslimit=1; nslimit1=1; mclimit=0.25;"}  # by whether the edges are many


def range_words(least, greatest):
    if greatest is None:
        return f"≥ {duration_words(least)}"
    return duration_words(least) if least == greatest else f"{duration_words(least)} – {duration_words(greatest)}"


def node_words(node):
    """What stands under the name of a node."""
    if node.kind == b"failure":
        return f"rarity {node.rarity}"
    kind = node.kind.decode().upper()
    if node.lags is None:
        return f"{kind}, hidden"
    return f"{kind}, lag {range_words(*node.lags) if node.lags[0] else duration_words(node.lags[1])}"


def last_time(log):
    """The greatest time that a line of the log begins with."""
    return max((int(time) for time in re.findall(rb"^(\d{1,13}) ", log, re.MULTILINE)), default=0)


def least_width(time):
    """How wide a node is at least, in inches, so that a time of the log stands in it, also as a time of day and in milliseconds."""
    longest = max(len(f"{time // HOUR}:00:00.000"), len("23:59:59.999 d2"), len(f"{time:,} ms"))
    return round((longest - 2) * DIGIT / 72 + 0.2, 2)


def node_line(number, node, prefix):
    style = ["rounded"] * (node.kind == b"or") + ["dashed"] * (node.kind != b"failure" and node.lags is None)
    label = f"{node.name.decode()}\\n{node_words(node)}\\n "
    marks = f'id="{prefix}n{number}", class="{node.kind.decode()}"'
    return f'n{number} [{marks}, {STYLES[node.kind]}, style="{",".join(style) or "solid"}", label="{label}"];'


def edge_line(number, edge, ends, prefix, has_label):
    modes = "" if edge.modes is None else "\\n" + ",".join(mode.decode() for mode in edge.modes)
    label = f', label="{range_words(edge.least, edge.greatest)}{modes}"' if has_label else ""
    style = "dashed" if edge.greatest is None else "solid"
    return f'n{ends[0]} -> n{ends[1]} [id="{prefix}e{number}", style={style}{label}];'


def picture_text(graph, direction, prefix, kept, width):
    """What Graphviz lays out. The ids of nodes and edges are their numbers after the prefix."""
    number_of = {node.name: number for number, node in enumerate(graph.nodes)}
    edges = [(number, edge) for number, edge in enumerate(graph.edges) if edge.source in kept and edge.target in kept]
    nodes = [node_line(number_of[node.name], node, prefix) for node in graph.nodes if node.name in kept]
    links = [
        edge_line(number, edge, (number_of[edge.source], number_of[edge.target]), prefix, len(edges) <= MOST_LABELS)
        for number, edge in edges
    ]
    fonts = f'node [fontname="DejaVu Sans", fontsize={NODE_FONT}, margin="0.09,0.05", width={width}]; '
    fonts += f'edge [fontname="DejaVu Sans", fontsize={EDGE_FONT}, arrowsize=0.7];'
    return "\n".join(["digraph tfpg {", f"rankdir={direction}; {ATTRIBUTES} {PAINS[len(edges) > MANY_EDGES]}", fonts, *nodes, *links, "}", ""])


def start_layout(text):
    try:
        running = subprocess.Popen(["dot", "-Tsvg"], stdin=subprocess.PIPE, stdout=subprocess.PIPE, stderr=subprocess.PIPE)
    except OSError:
        raise SystemExit("tfpg-page: Graphviz is not there: no command dot") from None
    running.stdin.write(text.encode())
    running.stdin.close()
    running.stdin = None
    return running


def finished(running):
    """The drawing of a layout, without the comments, titles and links that Graphviz adds."""
    output, errors = running.communicate()
    if running.returncode:
        raise SystemExit("tfpg-page: dot failed: " + errors.decode(errors="replace").strip())
    text = output.decode()
    return re.sub(r"<!--.*?-->\n?|<title>.*?</title>\n?|</?a\b[^>]*>\n?", "", text[text.index("<svg") :], flags=re.DOTALL).strip()


def drawings(graph, log, report):
    """The drawings of the page: the whole graph, and of a large one the part that matters. Each has its layouts, from left to right and
    from top to bottom, of which the page takes the one that fits its place. The others stand in templates, so that they are not there."""
    wanted = {"whole": {node.name for node in graph.nodes}}
    part = part_of(graph, log, report, MOST_NODES) if len(graph.nodes) > MOST_NODES else set()
    if part:
        wanted["part"] = part
    width, running = least_width(last_time(log)), {}
    for kind, kept in wanted.items():
        directions = ("LR", "TB") if len(kept) <= MOST_BOTH_WAYS else ("LR",)
        running[kind] = [start_layout(picture_text(graph, direction, kind[0], kept, width)) for direction in directions]
    written = []
    for kind, layouts in running.items():
        first, *others = (finished(layout).replace("<svg", f'<svg data-drawing="{kind}"', 1) for layout in layouts)
        written += [first, *(f'<template data-of="{kind}">{other}</template>' for other in others)]
    return "\n".join(written)

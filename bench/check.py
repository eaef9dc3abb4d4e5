#!/usr/bin/env python3
"""Measures `cplan check` on plane drawings of plain and of clustered graphs: processor time for each part
of the work and peak memory, beside the time of `sha256sum` on the same file and of networkx's
`check_planarity` on the same plain graph, in one run. Prints the table of bench/README.md; nothing here
is part of the gate.

Usage: bench/check.py [PROGRAM] [LARGEST_NUMBER_OF_MEBIBYTES]

PROGRAM is the built `cplan`; without it the script builds it.
"""
import math
import os
import tempfile
import time

import drawings
from measure import Command, apart, arguments, measured, print_head, print_row, sha256sum

COLUMNS = (
    ["shape", "nodes", "edges", "clusters", "segments", "MB"]
    + ["read s", "report s", "build s", "check s", "whole s"]
    + ["ns / n log n", "peak MB", "sha256sum s", "ratio", "networkx s"]
)

PLAIN = ("triangulation", "grid", "components")

NO = b"cplan-report 1\nno\nend\n"

# Each shape with a first number to try, which gives about a mebibyte.
SHAPES = {
    "triangulation": (drawings.triangulation, 18_000),
    "grid": (drawings.grid, 18_000),
    "components": (drawings.components, 18_000),
    "star": (drawings.star, 13_000),
    "squares": (drawings.squares, 9_000),
    "towers": (drawings.towers, 5),
    "nest of 50": (lambda edges: drawings.nest(edges, 50), 3_000),
    "nest of 500": (lambda edges: drawings.nest(edges, 500), 450),
}


def fitted(shape, number, largest):
    """The drawing of a shape whose text is not much shorter than the largest length, and its texts."""
    while True:
        drawing = shape(number)
        report = "".join(drawings.report_lines(drawing)).encode("ascii")
        graph = "".join(drawings.graph_lines(drawing)).encode("ascii")
        length = len(report) + len(graph)
        if 0.8 * largest <= length <= largest or number == 1:
            return drawing, report, graph
        number = max(1, int(number * 0.97 * largest / length))


def write(folder, shape, number, largest):
    """Writes the inputs of all runs. Gives counts, and the seconds of networkx."""
    drawing, report, graph = fitted(shape, number, largest)
    inputs = {
        "whole": (report, graph),
        "no report": (b"x", report[1:], graph),
        "report alone": (report, b"!", graph[1:]),
        "graph alone": (NO, graph),
        "no report, graph alone": (b"x", NO[1:], graph),
    }
    for name, pieces in inputs.items():
        with open(os.path.join(folder, name), "wb") as out:
            out.writelines(pieces)
    nodes, edges, clusters = len(drawing.rotations), len(drawing.ends), len(drawing.parents)
    segments = edges + sum(map(len, drawing.borders))
    seconds = networkx_seconds(drawing) if clusters == 0 else "-"
    return ("%d %d %d %d %s" % (nodes, edges, clusters, segments, seconds)).encode("ascii")


def networkx_seconds(drawing):
    """Seconds of networkx to find that the graph is planar, or a dash where it is not installed."""
    try:
        import networkx
    except ImportError:
        return "-"
    graph = networkx.Graph(drawing.ends)
    start = time.process_time()
    planar, _ = networkx.check_planarity(graph)
    assert planar
    return "%.2f" % (time.process_time() - start)


def measured_parts(program, folder):
    """The seconds of reading, of reading the report, of building the graph and of checking, where a part
    that is lost in the differences of the runs counts as 0; the whole run, and that of sha256sum."""

    def command(name, status, text):
        return Command([program, "check"], os.path.join(folder, name), status, text)

    whole, reading, reported, built, read_graph, base = measured(
        [
            command("whole", 0, b"accepted\n"),
            command("no report", 2, b"bad report 1 line 1\n"),
            command("report alone", 2, b"refused 1 BadByte at 0\n"),
            command("graph alone", 1, b"rejected no layout\n"),
            command("no report, graph alone", 2, b"bad report 1 line 1\n"),
            sha256sum(os.path.join(folder, "whole")),
        ]
    )
    building = built.seconds - read_graph.seconds
    seconds = [reading.seconds, reported.seconds - reading.seconds, building, whole.seconds - reported.seconds - building]
    return [max(0, part) for part in seconds], whole, base


def cells(program, folder, shape, number, largest):
    """What a row tells of the drawing of a shape whose text is as long as this or not much shorter."""
    told = apart(lambda: write(folder, shape, number * largest // 2**20, largest)).decode("ascii").split()
    segments = int(told[3])
    seconds, whole, base = measured_parts(program, folder)
    yield from told[:4]
    yield "%.1f" % (os.path.getsize(os.path.join(folder, "whole")) / 2**20)
    for part in seconds + [whole.seconds]:
        yield "%.3f" % part
    yield "%.1f" % (whole.seconds * 1e9 / (segments * math.log2(segments)))
    yield "%.0f" % whole.memory
    yield "%.3f" % base.seconds
    yield "%.1f" % (whole.seconds / base.seconds)
    yield told[4]


def main():
    program, mebibytes = arguments(64)
    print_head(COLUMNS)
    with tempfile.TemporaryDirectory() as folder:
        for name, (shape, number) in SHAPES.items():
            # plain graphs begin with 10 thousand edges
            for size in (0.6 if name in PLAIN else 1, 8, 64):
                if size <= mebibytes:
                    print_row([name, *cells(program, folder, shape, number, int(size * 2**20))])


if __name__ == "__main__":
    main()

#!/usr/bin/env python3
"""Measures reading: `cplan check` on a report that says no, followed by a GML text, which is parsed and
made a clustered graph before the report is rejected. Prints processor time and peak memory for each shape
and size, beside those of networkx on the same text where it can read it, and of `sha256sum`, in one run.
Prints the table of bench/README.md; nothing here is part of the gate.

Usage: bench/parse.py [PROGRAM] [LARGEST_NUMBER_OF_MEBIBYTES]

PROGRAM is the built `cplan`; without it the script builds it.
"""
import os
import subprocess
import sys
import tempfile
import time

from measure import Command, apart, arguments, measured, print_head, print_row, sha256sum

REPORT = "cplan-report 1\nno\nend\n"


def flat(size):
    """Nodes and edges in a row."""
    nodes = max(2, size // 64)
    yield "graph [\n"
    for i in range(nodes):
        yield "node [ id %d ]\n" % i
    for i in range(nodes):
        yield "edge [ source %d target %d ]\n" % (i, (i + nodes // 3) % nodes)
    yield "]\n"


def strings(size):
    """Nodes with labels, positions and comments."""
    yield "graph [\n"
    for i in range(max(1, size // 140)):
        yield '# node\nnode [ id %d label "the label of node %d" graphics [ x %d.5 y -3.0E+1 fill "#FFFFFF" ] ]\n' % (i, i, i)
    yield "]\n"


def deep(size):
    """Lists nested 512 deep, one behind the other, in as few bytes as can be: nothing takes more time and memory."""
    yield "graph[]"
    for _ in range(max(1, size // 1536)):
        yield "a[" * 512 + "]" * 512


def clusters(size):
    """Clusters of ten nodes, nested in chains of 100."""
    nodes = max(10, size // 40)
    yield "graph [\n"
    for i in range(nodes):
        yield "node [ id %d ]\n" % i
    yield "]\nrootcluster [\n"
    depth = 0
    for i in range(0, nodes, 10):
        yield "cluster [ " + "".join("vertex %d " % x for x in range(i, min(i + 10, nodes))) + "\n"
        depth += 1
        if depth == 100:
            yield "]" * depth + "\n"
            depth = 0
    yield "]" * depth + "]\n"


# How many ids are chosen (2.5 MB of nodes), and the most that the run of nodes with chosen ids may take, in runs with
# other ids.
CHOSEN = 120000
MOST_TIMES = 3


def chosen_ids():
    """Ids that a table hashed with both keys 0 puts into one place. A program in C seeks them, in a few seconds."""
    source = os.path.join(os.path.dirname(os.path.abspath(__file__)), "chosen_ids.c")
    with tempfile.TemporaryDirectory() as folder:
        program = os.path.join(folder, "chosen_ids")
        subprocess.run(["cc", "-O2", "-o", program, source], check=True)
        found = subprocess.run([program, str(CHOSEN)], capture_output=True, check=True)
    return [int(number) for number in found.stdout.split()]


def other_ids():
    """As many ids of nearly as many digits, at even distances."""
    return range(1000003, 1000003 + 2039 * CHOSEN, 2039)


def measured_ids(program, path):
    """Rows for nodes whose ids are chosen against a hash with a fixed seed, and for nodes with other ids."""
    seconds = []
    for name, ids in (("other ids", other_ids()), ("chosen ids", chosen_ids())):
        with open(path, "w", encoding="ascii") as out:
            out.write(REPORT + "graph [\n")
            out.writelines("node [ id %d ]\n" % number for number in ids)
            out.write("]\n")
        length = os.path.getsize(path) / 2**20
        run, base = measured([Command([program, "check"], path, 1, b"rejected no layout\n"), sha256sum(path)])
        seconds.append(run.seconds)
        print_row(
            [name, "%.1f" % length, "%.3f" % run.seconds, "%.0f" % run.memory]
            + ["%.1f" % (run.memory / length), "-", "%.3f" % base.seconds, "%.1f" % (run.seconds / base.seconds)]
        )
    if seconds[1] > MOST_TIMES * seconds[0]:
        sys.exit("chosen ids take %.1f times the time of other ids" % (seconds[1] / seconds[0]))


def fitted(shape, largest):
    """The size at which the text of a shape is not much shorter than the largest length."""
    size = largest
    while True:
        length = len(REPORT) + sum(map(len, shape(size)))
        if 0.9 * largest <= length <= largest:
            return size
        size = int(size * 0.97 * largest / length)


def write(path, shape, largest):
    with open(path, "w", encoding="ascii") as out:
        out.write(REPORT)
        out.writelines(shape(fitted(shape, largest)))
    return b"done"


def networkx_seconds(path):
    """Seconds of networkx on the GML text alone, or a dash where it cannot read it."""
    try:
        import networkx
    except ImportError:
        return b"-"
    with open(path, encoding="ascii") as source:
        text = source.read()[len(REPORT):]
    start = time.process_time()
    try:
        networkx.parse_gml(text, label="id")
    except Exception:
        return b"-"
    return b"%.2f" % (time.process_time() - start)


def main():
    program, mebibytes = arguments(64)
    print_head(["shape", "MB", "check s", "peak MB", "MB per MB", "networkx s", "sha256sum s", "ratio"])
    with tempfile.TemporaryDirectory() as folder:
        path = os.path.join(folder, "input")
        for shape in (flat, strings, deep, clusters):
            size = 2**20
            while size <= mebibytes * 2**20:
                apart(lambda: write(path, shape, size))
                length = os.path.getsize(path) / 2**20
                run, base = measured([Command([program, "check"], path, 1, b"rejected no layout\n"), sha256sum(path)])
                shown = apart(lambda: networkx_seconds(path)).decode() if length < 9 else "-"
                print_row(
                    [shape.__name__, "%.1f" % length, "%.3f" % run.seconds, "%.0f" % run.memory]
                    + ["%.1f" % (run.memory / length), shown, "%.3f" % base.seconds, "%.1f" % (run.seconds / base.seconds)]
                )
                size *= 8
        measured_ids(program, path)


if __name__ == "__main__":
    main()

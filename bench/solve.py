#!/usr/bin/env python3
"""Measures `cplan solve` on families of plain and of clustered graphs, from 100 edges up by tens: processor time and
peak memory of `solve` and of `check` on its answer, beside those of `sha256sum` on the same file and, for plain graphs,
of networkx's `check_planarity`, in one run; and for clustered graphs the steps of the run, as `trace` tells them. The
exponent of growth is that from the size before. Stops where an answer is wrong, or where a yes is not accepted by
`check`. Prints the tables of bench/README.md; nothing here is part of the gate.

Usage: bench/solve.py [PROGRAM] [plain|clustered] [LARGEST_NUMBER_OF_EDGES]

PROGRAM is the built `cplan`; without it the script builds it. Without a kind both are measured.
"""
import math
import os
import random
import subprocess
import sys
import tempfile
import time

from measure import Command, apart, arguments, measured, print_head, print_row, sha256sum

COLUMNS = (
    ["family", "edges", "clusters", "answer", "steps", "solve s", "exponent", "MB", "check s", "check MB"]
    + ["sha256sum s", "ratio", "networkx s"]
)

# A family goes on to the next size while a run took at most so many seconds.
LONGEST = 12


def grid(edges):
    side = max(2, math.isqrt(edges // 2))
    at = lambda row, column: row * side + column
    for row in range(side):
        for column in range(side):
            if column + 1 < side:
                yield at(row, column), at(row, column + 1)
            if row + 1 < side:
                yield at(row, column), at(row + 1, column)


def triangulated_grid(edges):
    side = max(2, math.isqrt(edges // 3))
    yield from grid(2 * side * side)
    for row in range(side - 1):
        for column in range(side - 1):
            yield row * side + column, (row + 1) * side + column + 1


def stacked(edges):
    """A triangle, and in some triangle again and again a new node joined to its three corners."""
    chance = random.Random(1)
    triangles = [(0, 1, 2)]
    yield from ((0, 1), (1, 2), (2, 0))
    for node in range(3, max(4, edges // 3 + 2)):
        place = chance.randrange(len(triangles))
        a, b, c = triangles[place]
        yield from ((a, node), (b, node), (c, node))
        triangles[place] = (a, b, node)
        triangles += [(b, c, node), (c, a, node)]


def shuffled(edges):
    """The same with nodes and edges in another order."""
    rows = list(stacked(edges))
    chance = random.Random(2)
    names = list(range(1 + max(max(row) for row in rows)))
    chance.shuffle(names)
    chance.shuffle(rows)
    yield from ((names[a], names[b]) for a, b in rows)


def components(edges):
    """Cycles of three to ten nodes."""
    chance = random.Random(3)
    first = 0
    while first < edges:
        nodes = chance.randrange(3, 11)
        yield from ((first + i, first + (i + 1) % nodes) for i in range(nodes))
        first += nodes


def cycle(edges):
    yield from ((i, (i + 1) % edges) for i in range(edges))


def path(edges):
    yield from ((i, i + 1) for i in range(edges))


def star(edges):
    yield from ((0, i + 1) for i in range(edges))


def wheel(edges):
    rim = edges // 2
    for i in range(rim):
        yield 0, i + 1
        yield i + 1, (i + 1) % rim + 1


def two_by_many(edges):
    for i in range(edges // 2):
        yield 0, i + 2
        yield 1, i + 2


def parallel(edges):
    yield from ((0, 1) for _ in range(edges))


def single_edges(edges):
    yield from ((2 * i, 2 * i + 1) for i in range(edges))


def stacked_and_one(edges):
    """A maximal planar graph with one edge more."""
    rows = list(stacked(edges))
    last = max(max(row) for row in rows)
    near = {a for row in rows if last in row for a in row}
    yield from rows
    yield last, next(node for node in range(last) if node not in near)


def crossed_ladder(edges):
    """A ladder with three chords from end to end, which make a K3,3."""
    rungs = edges // 3
    for i in range(rungs):
        yield 2 * i, 2 * i + 1
        if i + 1 < rungs:
            yield 2 * i, 2 * i + 2
            yield 2 * i + 1, 2 * i + 3
    far = 2 * (rungs - 1)
    yield from ((0, far + 1), (1, far), (0, far))


def subdivided(rows, edges):
    """Each edge as a path of equal length."""
    length = max(1, edges // len(rows))
    fresh = 1 + max(max(row) for row in rows)
    for a, b in rows:
        inner = list(range(fresh, fresh + length - 1))
        fresh += length - 1
        nodes = [a] + inner + [b]
        yield from zip(nodes, nodes[1:])


def five(edges):
    yield from subdivided([(a, b) for a in range(5) for b in range(a)], edges)


def three_by_three(edges):
    yield from subdivided([(a, b) for a in range(3) for b in range(3, 6)], edges)


class Cluster:
    """A cluster by the nodes that lie in it and in no cluster inside it, and by the clusters inside it."""

    def __init__(self, nodes, inside=()):
        self.nodes = list(nodes)
        self.inside = list(inside)

    def number(self):
        return 1 + sum(cluster.number() for cluster in self.inside)


def side_of(edges):
    """The side of `grid`."""
    return max(2, math.isqrt(edges // 2))


def rows_as_clusters(edges):
    side = side_of(edges)
    return [Cluster(range(row * side, (row + 1) * side)) for row in range(side)]


def quadrants(edges):
    """A grid cut into quadrants again and again."""
    side = side_of(edges)

    def cut(top, left, height, width):
        if height < 2 or width < 2:
            nodes = ((top + row) * side + left + column for row in range(height) for column in range(width))
            return Cluster(nodes)
        up, near = height // 2, width // 2
        parts = [(top, left, up, near), (top, left + near, up, width - near)]
        parts += [(top + up, left, height - up, near), (top + up, left + near, height - up, width - near)]
        return Cluster([], [cut(*part) for part in parts])

    return cut(0, 0, side, side).inside


def prefixes(edges):
    """Sixty clusters inside one another: the first nodes of a grid, row by row."""
    nodes = side_of(edges) ** 2
    bounds = [nodes * (k + 1) // 61 for k in range(60)]
    cluster = Cluster(range(bounds[0]))
    for low, high in zip(bounds, bounds[1:]):
        cluster = Cluster(range(low, high), [cluster])
    return [cluster]


def balls(edges):
    """The nodes within two steps of every sixth node of every sixth row of a triangulated grid."""
    side = side_of(2 * max(4, math.isqrt(edges // 3) ** 2))
    near = [(x, y) for x in range(-2, 3) for y in range(-2, 3) if abs(x - y) <= 2]
    centres = [(row, column) for row in range(2, side - 2, 6) for column in range(2, side - 2, 6)]
    return [Cluster((row + x) * side + column + y for x, y in near) for row, column in centres]


def corners(edges):
    """Two opposite corners of a grid."""
    side = side_of(edges)
    return [Cluster([0, side * side - 1])]


def crossing_corners(edges):
    """Both pairs of opposite corners of a grid."""
    side = side_of(edges)
    return corners(edges) + [Cluster([side - 1, side * (side - 1)])]


def scattered(edges):
    """Every other node of every other row of a grid."""
    side = side_of(edges)
    return [Cluster(row * side + column for row in range(0, side, 2) for column in range(0, side, 2))]


def mirrored(edges):
    """The pairs of nodes of a cycle that mirror each other."""
    return [Cluster([node, edges - 1 - node]) for node in range(edges // 2)]


def no_clusters(edges):
    return []


# Each family of plain graphs with its answer.
PLAIN = {
    "grid": (grid, "yes"),
    "triangulated grid": (triangulated_grid, "yes"),
    "stacked triangulation": (stacked, "yes"),
    "the same, shuffled": (shuffled, "yes"),
    "components": (components, "yes"),
    "cycle": (cycle, "yes"),
    "path": (path, "yes"),
    "star": (star, "yes"),
    "wheel": (wheel, "yes"),
    "K(2,n)": (two_by_many, "yes"),
    "parallel edges": (parallel, "yes"),
    "single edges": (single_edges, "yes"),
    "one edge too many": (stacked_and_one, "no"),
    "crossed ladder": (crossed_ladder, "no"),
    "K5 subdivided": (five, "no"),
    "K3,3 subdivided": (three_by_three, "no"),
}

# Each family of clustered graphs with its clusters and its answer.
CLUSTERED = {
    "rows of a grid": (grid, rows_as_clusters, "yes"),
    "nested quadrants": (grid, quadrants, "yes"),
    "prefixes 60 deep": (grid, prefixes, "yes"),
    "balls": (triangulated_grid, balls, "yes"),
    "opposite corners": (grid, corners, "yes"),
    "mirrored pairs": (cycle, mirrored, "yes"),
    "scattered nodes": (grid, scattered, "no"),
    "crossing corners": (grid, crossing_corners, "no"),
}


def write_clusters(out, clusters):
    """Writes the lists of clusters, by a stack of what is still to be written."""
    left = list(reversed(clusters))
    while left:
        item = left.pop()
        if isinstance(item, str):
            out.write(item)
            continue
        out.write("cluster [\n")
        out.writelines("vertex %d\n" % node for node in item.nodes)
        left.append("]\n")
        left += reversed(item.inside)


def write(place, rows, clusters):
    """Writes the graph, and gives the numbers of its edges and clusters, and the seconds of networkx, or a dash."""
    nodes = 1 + max(max(row) for row in rows)
    with open(place, "w", encoding="ascii") as out:
        out.write("graph [\n")
        out.writelines("node [ id %d ]\n" % node for node in range(nodes))
        out.writelines("edge [ source %d target %d ]\n" % row for row in rows)
        if clusters:
            out.write("rootcluster [\n")
            write_clusters(out, clusters)
            out.write("]\n")
        out.write("]\n")
    number = sum(cluster.number() for cluster in clusters)
    try:
        import networkx
    except ImportError:
        return b"%d %d -" % (len(rows), number)
    if clusters:
        return b"%d %d -" % (len(rows), number)
    graph = networkx.Graph(rows)
    start = time.process_time()
    networkx.check_planarity(graph)
    return b"%d 0 %.3f" % (len(rows), time.process_time() - start)


def answered(program, place, answer):
    """Solves once, and writes the answer with the graph behind it. Gives the status of `solve`."""
    with open(place, "rb") as source:
        solved = subprocess.run([program, "solve"], stdin=source, capture_output=True)
    status = 0 if answer == "yes" else 1
    if solved.returncode != status or not solved.stdout.startswith(b"cplan-report 1\n%s\n" % answer.encode()):
        sys.exit("a wrong answer, with status %d" % solved.returncode)
    with open(place + ".both", "wb") as out, open(place, "rb") as source:
        out.write(solved.stdout)
        out.write(source.read())
    return status


def steps_of(program, place):
    """The number of steps of the run."""
    with open(place, "rb") as source:
        traced = subprocess.run([program, "trace"], stdin=source, capture_output=True)
    if traced.returncode != 0:
        sys.exit("no trace, with status %d" % traced.returncode)
    return b"%d" % sum(line.startswith(b"step ") for line in traced.stdout.splitlines())


def rows_of(program, folder, name, family, clusters, answer, largest):
    place = os.path.join(folder, "graph")
    edges, before = 100, None
    while edges <= largest and (before is None or before[1] <= LONGEST):
        told = apart(lambda: write(place, list(family(edges)), clusters(edges)))
        count, number, networkx_seconds = told.decode().split()
        status = answered(program, place, answer)
        steps = "-" if number == "0" else apart(lambda: steps_of(program, place)).decode()
        line = b"accepted\n" if status == 0 else b"rejected no layout\n"
        solve, check, base = measured([
            Command([program, "solve"], place, status, None),
            Command([program, "check"], place + ".both", status, line),
            sha256sum(place),
        ])
        grown = "-"
        if before is not None and before[1] > 0.01:
            grown = "%.2f" % (math.log(solve.seconds / before[1]) / math.log(int(count) / before[0]))
        print_row(
            [name, count, number, answer, steps, "%.3f" % solve.seconds, grown, "%.0f" % solve.memory]
            + ["%.3f" % check.seconds, "%.0f" % check.memory, "%.3f" % base.seconds]
            + ["%.0f" % (solve.seconds / max(base.seconds, 0.001)), networkx_seconds]
        )
        before = int(count), solve.seconds
        edges *= 10


def main():
    kinds = [word for word in sys.argv[1:] if word in ("plain", "clustered")]
    sys.argv[1:] = [word for word in sys.argv[1:] if word not in kinds]
    program, largest = arguments(100_000)
    print_head(COLUMNS)
    with tempfile.TemporaryDirectory() as folder:
        if "clustered" not in kinds:
            for name, (family, answer) in PLAIN.items():
                rows_of(program, folder, name, family, no_clusters, answer, largest)
        if "plain" not in kinds:
            for name, (family, clusters, answer) in CLUSTERED.items():
                rows_of(program, folder, name, family, clusters, answer, largest)


if __name__ == "__main__":
    main()

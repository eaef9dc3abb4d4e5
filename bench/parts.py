#!/usr/bin/env python3
"""Measures `components`, `blocks` and `bipolar` by the program `graph_parts`: the processor seconds of a
run less those of a run that only reads the graph and builds it, and peak memory, beside networkx on the
same graph in the same run. Up to 100 thousand edges the answers are compared with those of networkx. Prints
a table; nothing here is part of the gate.

Usage: bench/parts.py [PROGRAM] [LARGEST_NUMBER_OF_EDGES]

PROGRAM is the built `graph_parts`; without it the script builds it.
"""
import os
import random
import subprocess
import sys
import tempfile
import time

from measure import TOP, apart, print_head, print_row

# the most edges whose answers are compared
COMPARED = 100_000

# how often each run is made
ROUNDS = 3

# the shapes that are one block, so that they have a bipolar order
ORDERED = {"cycle", "grid"}


def path(edges):
    return edges + 1, [(v, v + 1) for v in range(edges)]


def cycle(edges):
    return edges, [(v, (v + 1) % edges) for v in range(edges)]


def grid(edges):
    """A square grid."""
    side = max(2, round((edges / 2) ** 0.5))
    ends = []
    for v in range(side * side):
        if v % side + 1 < side:
            ends.append((v, v + 1))
        if v + side < side * side:
            ends.append((v, v + side))
    return side * side, ends


def connected(edges):
    """A random tree, and as many further edges as it has, in a random order."""
    chance = random.Random(edges)
    vertices = edges // 2 + 1
    ends = [(v, chance.randrange(v)) for v in range(1, vertices)]
    known = {(b, a) for a, b in ends}
    while len(ends) < edges:
        a, b = chance.randrange(vertices), chance.randrange(vertices)
        if a != b and (min(a, b), max(a, b)) not in known:
            known.add((min(a, b), max(a, b)))
            ends.append((a, b))
    chance.shuffle(ends)
    return vertices, ends


def chain(edges):
    """Blocks of four vertices, all joined, each with a vertex of the next."""
    ends = []
    for v in range(0, edges // 2, 3):
        ends += [(v + i, v + j) for i in range(4) for j in range(i + 1, 4)]
    return ends[-1][1] + 1, ends


def write(name, vertices, ends):
    with open(name, "w", encoding="ascii") as out:
        out.write("graph [\n")
        for v in range(vertices):
            out.write("node [ id %d ]\n" % v)
        for a, b in ends:
            out.write("edge [ source %d target %d ]\n" % (a, b))
        out.write("]\n")
    return b"%d %d" % (vertices, len(ends))


def numbers(name):
    with open(name, encoding="ascii") as text:
        return [int(line) for line in text]


def classes(items, labels):
    """The items of each label, where the labels are 0, 1 and so on by their first items."""
    found = []
    for item, label in zip(items, labels, strict=True):
        if label == len(found):
            found.append([])
        found[label].append(item)
    return {frozenset(part) for part in found}


def edges_of(ends):
    return [(min(a, b), max(a, b)) for a, b in ends]


def is_order(vertices, ends, order):
    """Whether each vertex stands in the order once, the ends of edge 0 at its two ends, and each other
    vertex behind one of its neighbours and before another."""
    place = {v: i for i, v in enumerate(order)}
    behind, before = set(), set()
    for a, b in ends:
        first, last = sorted((a, b), key=place.get)
        before.add(first)
        behind.add(last)
    inner = set(range(vertices)) - set(ends[0])
    return sorted(order) == list(range(vertices)) and (order[0], order[-1]) == ends[0] and inner <= behind & before


def compare(folder, vertices, ends, graph):
    import networkx

    parts = {frozenset(part) for part in networkx.connected_components(graph)}
    blocks = {frozenset(edges_of(part)) for part in networkx.biconnected_component_edges(graph)}
    right = classes(range(vertices), numbers(os.path.join(folder, "components"))) == parts
    right = right and classes(edges_of(ends), numbers(os.path.join(folder, "blocks"))) == blocks
    ordered = os.path.join(folder, "bipolar")
    return right and (not os.path.exists(ordered) or is_order(vertices, ends, numbers(ordered)))


def seconds_of(task):
    start = time.process_time()
    for _ in task():
        pass
    return time.process_time() - start


def networkx_runs(folder, shape, edges):
    """The seconds of networkx for components and for blocks, and whether the answers agree."""
    import networkx

    vertices, ends = shape(edges)
    graph = networkx.Graph()
    graph.add_nodes_from(range(vertices))
    graph.add_edges_from(ends)
    components = seconds_of(lambda: networkx.connected_components(graph))
    blocks = seconds_of(lambda: networkx.biconnected_components(graph))
    if len(ends) > COMPARED * 1.1:
        shown = "not compared"
    else:
        shown = "same" if compare(folder, vertices, ends, graph) else "OTHER"
    return ("%.6f %.6f %s" % (components, blocks, shown)).encode()


def measure(program, word, folder):
    """Processor seconds and peak memory of a run, whose text goes to a file named as the word."""
    with open(os.path.join(folder, "input"), "rb") as source, open(os.path.join(folder, word), "wb") as text:
        child = subprocess.Popen([program, word], stdin=source, stdout=text)
        _, status, usage = os.wait4(child.pid, 0)
    if status != 0:
        sys.exit("%s %s: status %d" % (program, word, os.waitstatus_to_exitcode(status)))
    return usage.ru_utime + usage.ru_stime, usage.ru_maxrss / 1024


def best(program, words, folder):
    """For each word the least seconds of some rounds of all words, and the peak memory."""
    rounds = [[measure(program, word, folder) for word in words] for _ in range(ROUNDS)]
    return [(min(run[0] for run in runs), runs[0][1]) for runs in zip(*rounds)]


def rows(program, folder, shape, edges):
    source = os.path.join(folder, "input")
    vertices, count = map(int, apart(lambda: write(source, *shape(edges))).split())
    words = ["edges", "components", "blocks"]
    if shape.__name__ in ORDERED:
        words.append("bipolar")
    (reading, _), *runs = best(program, words, folder)
    if numbers(os.path.join(folder, "edges")) != [vertices, count]:
        sys.exit("%s: other sizes than %d and %d" % (shape.__name__, vertices, count))
    # below a millisecond nothing is told
    taken = [(word, max(seconds - reading, 0.001), memory) for word, (seconds, memory) in zip(words[1:], runs)]
    components, blocks, shown = apart(lambda: networkx_runs(folder, shape, edges)).decode().split(" ", 2)
    beside = {"components": float(components), "blocks": float(blocks), "bipolar": float(blocks)}
    for word, seconds, memory in taken:
        figures = ("%.3f %.3f %.0f %.3f %.2f" % (reading, seconds, memory, beside[word], seconds / beside[word])).split()
        print_row([shape.__name__, str(vertices), str(count), word, *figures, shown])
        os.remove(os.path.join(folder, word))
    if shown == "OTHER":
        sys.exit("%s: other answers than those of networkx" % shape.__name__)


def program_path(arguments):
    if arguments and not arguments[0].isdigit():
        return os.path.abspath(arguments[0])
    folder = os.path.join(TOP, "crates", "graph_parts")
    with open(os.path.join(folder, "stdin"), "rb") as source:
        subprocess.run(["rt", "run", "--", "edges"], cwd=folder, check=True, stdin=source, stdout=subprocess.DEVNULL, stderr=subprocess.DEVNULL)
    return os.path.join(folder, "out", "graph_parts")


def main():
    program = program_path(sys.argv[1:])
    given = [int(word) for word in sys.argv[1:] if word.isdigit()]
    largest = given[0] if given else 1_000_000
    print_head(["shape", "vertices", "edges", "call", "read s", "call s", "peak MB", "networkx s", "ratio", "answers"])
    with tempfile.TemporaryDirectory() as folder:
        for shape in (path, cycle, grid, connected, chain):
            edges = 10_000
            while edges <= largest:
                rows(program, folder, shape, edges)
                edges *= 10


if __name__ == "__main__":
    main()

"""Plane drawings of clustered graphs, made by simple rules, and their texts for `cplan check`."""
import collections
import random

# For each edge its source and target; for each node its darts, counterclockwise, where edge e has dart
# 2e at its source and dart 2e + 1 at its target; for each cluster from cluster 1 on the cluster round it,
# in which clusters are numbered as they open; for each node its innermost cluster; for each cluster from
# cluster 1 on the edges that leave it, counterclockwise.
Drawing = collections.namedtuple("Drawing", "ends rotations parents homes borders")


def plain(ends, rotations):
    return Drawing(ends, rotations, [], [0] * len(rotations), [])


def turned(row, places):
    places %= max(1, len(row))
    return row[places:] + row[:places]


def bipyramid(k, node=0, edge=0):
    """The ends and plane lists of a cycle of k nodes round an inner and an outer pole: 3k edges."""
    inner, outer = node + k, node + k + 1
    ends, lists = [], []
    for i in range(k):
        ends += [(node + i, node + (i + 1) % k), (node + i, inner), (node + i, outer)]
    for i in range(k):
        ahead, behind = edge + 3 * i, edge + 3 * ((i - 1) % k)
        lists.append([2 * (ahead + 2), 2 * ahead, 2 * (ahead + 1), 2 * behind + 1])
    lists.append([2 * (edge + 3 * i + 1) + 1 for i in range(k)])
    lists.append([2 * (edge + 3 * i + 2) + 1 for i in reversed(range(k))])
    return ends, lists


def triangulation(edges):
    """One bipyramid, whose poles have a third of all edges each."""
    return plain(*bipyramid(max(3, edges // 3)))


def components(edges):
    """Many bipyramids of 30 edges, each a component."""
    ends, lists = [], []
    for _ in range(max(1, edges // 30)):
        more, rows = bipyramid(10, len(lists), len(ends))
        ends += more
        lists += rows
    return plain(ends, lists)


def square_grid(side):
    """The ends and plane lists of a square grid, row by row: east, north, west, south."""
    ends = []
    lists = [[None] * 4 for _ in range(side * side)]
    for r in range(side):
        for c in range(side):
            v = r * side + c
            if c + 1 < side:
                lists[v][0] = 2 * len(ends)
                lists[v + 1][2] = 2 * len(ends) + 1
                ends.append((v, v + 1))
            if r + 1 < side:
                lists[v][3] = 2 * len(ends)
                lists[v + side][1] = 2 * len(ends) + 1
                ends.append((v, v + side))
    return ends, lists


def grid_side(edges):
    return max(2, int((edges / 2) ** 0.5) + 1)


def grid(edges):
    """A square grid."""
    ends, lists = square_grid(grid_side(edges))
    return plain(ends, [[d for d in row if d is not None] for row in lists])


def squares(edges):
    """A square grid that is cut into four clusters, each of these into four, and so on down to single
    nodes. A border goes along the bottom of its cluster, up, along the top and down."""
    side = grid_side(edges)
    ends, lists = square_grid(side)
    parents, homes, borders = [], [0] * (side * side), []

    def border(top, bottom, left, right):
        around = [(r, c, 3) for r, c in ((bottom - 1, c) for c in range(left, right))]
        around += [(r, right - 1, 0) for r in reversed(range(top, bottom))]
        around += [(top, c, 1) for c in reversed(range(left, right))]
        around += [(r, left, 2) for r in range(top, bottom)]
        darts = [lists[r * side + c][way] for r, c, way in around]
        return [d // 2 for d in darts if d is not None]

    def cut(round_it, top, bottom, left, right):
        if top == bottom or left == right:
            return
        parents.append(round_it)
        borders.append(border(top, bottom, left, right))
        cluster = len(parents)
        if bottom - top == 1 and right - left == 1:
            homes[top * side + left] = cluster
        else:
            quarter(cluster, top, bottom, left, right)

    def quarter(cluster, top, bottom, left, right):
        row, column = (top + bottom + 1) // 2, (left + right + 1) // 2
        for above, below in ((top, row), (row, bottom)):
            for before, behind in ((left, column), (column, right)):
                cut(cluster, above, below, before, behind)

    quarter(0, 0, side, 0, side)
    return Drawing(ends, [[d for d in row if d is not None] for row in lists], parents, homes, borders)


def star(edges):
    """A node of high degree, alone in a cluster, which all edges leave."""
    return nest(edges, 1)


def nest(edges, depth):
    """A node within so many clusters, one in the next, and edges from it that leave them all. Each border
    is told from another edge on."""
    order = list(range(edges))
    ends = [(0, leaf + 1) for leaf in order]
    rotations = [[2 * e for e in order]] + [[2 * e + 1] for e in order]
    homes = [depth] + [0] * edges
    return Drawing(ends, rotations, list(range(depth)), homes, [turned(order, 7 * k) for k in range(depth)])


def towers(count, depth=500):
    """Towers of triangles, each round the one before it, with an edge from each corner to that of the
    next triangle, and a border between each two."""
    ends, rotations, parents, homes, borders = [], [], [], [], []
    for _ in range(max(1, count)):
        node, edge, cluster = len(rotations), len(ends), len(parents)
        # triangle t has the nodes from node + 3t on, the sides from edge + 6t on, and behind them the
        # edges outward
        for t in range(depth + 1):
            for corner in range(3):
                first, side, out = node + 3 * t, edge + 6 * t, edge + 6 * t + 3
                ends.append((first + corner, first + (corner + 1) % 3))
                row = [2 * (out + corner)] if t < depth else []
                row.append(2 * (side + corner))
                row += [2 * (out - 6 + corner) + 1] if t > 0 else []
                row.append(2 * (side + (corner + 2) % 3) + 1)
                rotations.append(row)
            if t < depth:
                ends += [(first + corner, first + 3 + corner) for corner in range(3)]
            homes += [cluster + depth - t if t < depth else 0] * 3
        parents += [0] + [cluster + k for k in range(1, depth)]
        borders += [turned([edge + 6 * t + 3 + corner for corner in range(3)], t) for t in reversed(range(depth))]
    return Drawing(ends, rotations, parents, homes, borders)


def report_lines(drawing):
    """The report of the drawing."""
    yield "cplan-report 1\nyes\n"
    for i, row in enumerate(drawing.rotations):
        yield "node %d:%s\n" % (i, "".join(" %d%s" % (d // 2, "st"[d % 2]) for d in row))
    for k, row in enumerate(drawing.borders, 1):
        yield "cluster %d:%s\n" % (k, "".join(" %d" % e for e in row))
    yield "end\n"


def graph_lines(drawing):
    """The graph of the drawing, with ids in an order that is neither rising nor falling."""
    nodes = len(drawing.rotations)
    ids = list(range(nodes))
    random.Random(nodes).shuffle(ids)
    yield "graph [\n"
    for x in ids:
        yield "node [ id %d ]\n" % x
    for a, b in drawing.ends:
        yield "edge [ source %d target %d ]\n" % (ids[a], ids[b])
    yield "]\n"
    if drawing.parents:
        yield "rootcluster [\n"
        yield from cluster_lines(drawing, ids)
        yield "]\n"


def cluster_lines(drawing, ids):
    inside = [[] for _ in range(len(drawing.parents) + 1)]
    for node, home in enumerate(drawing.homes):
        inside[home].append(ids[node])
    open_clusters = [0]
    for cluster, round_it in enumerate(drawing.parents, 1):
        while open_clusters[-1] != round_it:
            open_clusters.pop()
            yield "]\n"
        open_clusters.append(cluster)
        yield "cluster [ " + "".join("vertex %d " % x for x in inside[cluster])
    yield "]\n" * (len(open_clusters) - 1)

"""Whether a leaf meets each source exactly once, looked at in the rows at hand.

A cell's sources are one part of the order column. So a leaf meets each source exactly once if the parts of the cells in its U
row and in the V rows of itself and all cells above it, put in order, follow each other without a gap or an overlap, from the
first source to the last.

With NumPy many leaves are looked at together. Without it the nodes are gone through one after the other, each cell before
those inside it: what the V rows of a cell and all above it leave is kept as parts, so that no row is read twice."""

from .arrays import numpy, packed
from .progress import telling

# How many cells are looked at together, and the bits of a place in the order column
CHUNK, PLACE = 1 << 20, 21


def leaves_at_fault(lists, progress=False):
    """The numbers of the leaves that do not meet each source exactly once."""
    leaves = lists.tree.leaves()
    with telling(progress, "each source met once by each of %d leaves" % len(leaves)):
        if not numpy:
            return packed(Walk(lists).at_fault(leaves))
        parts = Parts(lists)
        return numpy.concatenate([leaves[:0]] + [parts.at_fault(some) for some in parts.chunks(leaves)])


def less(rest, parts):
    """Parts that are left of others, both ascending and none empty, after some were taken out; None where one of these is not
    whole in what was left."""
    left, at, start = [], 0, rest[0][0] if rest else 0
    for first, last in parts:
        # what stands before it is left whole
        while at < len(rest) and rest[at][1] <= first:
            if start < rest[at][1]:
                left.append((start, rest[at][1]))
            at += 1
            start = rest[at][0] if at < len(rest) else 0
        if at == len(rest) or first < start or last > rest[at][1]:
            return None
        if start < first:
            left.append((start, first))
        start = last
    if at < len(rest) and start < rest[at][1]:
        left.append((start, rest[at][1]))
    return left + rest[at + 1:]


class Walk:
    """The nodes one after the other, without NumPy."""

    def __init__(self, lists):
        self.tree, self.u, self.v = lists.tree, lists.u, lists.v
        starts, totals = self.tree.begin.tolist(), self.tree.total.tolist()
        # where the part of each cell starts and ends
        self.part = {key: (start, start + total) for key, start, total in zip(self.tree.key.tolist(), starts, totals)}
        self.all = [(0, totals[0])] if totals[0] else []

    def parts(self, row):
        """The parts of the cells in a row that have sources, ascending."""
        try:
            found = [self.part[key] for key in row]
        except KeyError:
            self.tree.nodes_of(row)  # says which key no node has
            raise
        return sorted(part for part in found if part[0] < part[1])

    def at_fault(self, leaves):
        """The leaves whose U row does not bring just what the V rows leave."""
        # of each level, what the V rows of the last node and of all above it leave
        rest = [self.all] * 18
        levels, wanted = self.tree.levels().tolist(), set(leaves.tolist())
        for node, level in enumerate(levels):
            row = self.v[node]
            left = rest[level - 1] if node else self.all
            if len(row) and left is not None:
                left = less(left, self.parts(row))
            rest[level] = left
            if node in wanted and (left is None or less(left, self.parts(self.u[node])) != []):
                yield node


class Parts:
    """The same for many leaves at a time, with NumPy."""

    def __init__(self, lists):
        self.tree, self.parents = lists.tree, lists.tree.parents()
        self.ends = self.tree.begin + self.tree.total
        self.rows = [(rows.starts, self.nodes(rows.entries)) for rows in (lists.u, lists.v)]

    def nodes(self, keys):
        """The nodes of keys, a part at a time."""
        found = numpy.empty(len(keys), dtype=numpy.int32)
        for start in range(0, len(keys), CHUNK):
            found[start:start + CHUNK] = self.tree.nodes_of(keys[start:start + CHUNK])
        return found

    def chunks(self, leaves):
        """The leaves in parts with about so many cells each."""
        near, far = [numpy.diff(starts) for starts, _ in self.rows]
        levels = self.tree.levels()
        far = far.copy()
        for level in range(1, int(levels.max()) + 1):
            here = numpy.flatnonzero(levels == level)
            far[here] += far[self.parents[here]]
        cells = numpy.cumsum(near[leaves] + far[leaves])
        marks = numpy.flatnonzero(numpy.diff(cells // CHUNK)) + 1
        return numpy.split(leaves, marks) if len(leaves) else []

    def at_fault(self, leaves):
        """Those of some leaves that do not meet each source exactly once."""
        tree, last = self.tree, int(self.tree.total[0])
        owners, cells = self.cells_of(leaves)
        owners, cells = owners[tree.total[cells] > 0], cells[tree.total[cells] > 0]
        words = numpy.sort((owners << 2 * PLACE) | (tree.begin[cells] << PLACE) | self.ends[cells])
        owners, starts, ends = words >> 2 * PLACE, words >> PLACE & (1 << PLACE) - 1, words & (1 << PLACE) - 1
        first = numpy.diff(owners, prepend=-1) != 0
        fits = starts == numpy.where(first, 0, numpy.roll(ends, 1))
        reached = numpy.zeros(len(leaves), dtype=numpy.int64)
        reached[owners] = ends  # the last entry of an owner stays
        at_fault = reached != last
        at_fault[owners[~fits]] = True
        return leaves[at_fault]

    def cells_of(self, leaves):
        """The cells of the rows that bring each leaf its sources, with the place of the leaf among those given."""
        who = numpy.arange(len(leaves))
        owners, cells = [], []
        pick(owners, cells, self.rows[0], who, leaves)
        nodes = leaves
        while len(nodes):
            pick(owners, cells, self.rows[1], who, nodes)
            above = self.parents[nodes]
            who, nodes = who[above >= 0], above[above >= 0]
        return numpy.concatenate(owners), numpy.concatenate(cells)


def pick(owners, cells, rows, who, nodes):
    """Adds the cells in the rows of some nodes, each with its owner."""
    starts, entries = rows
    sizes = starts[nodes + 1] - starts[nodes]
    ends = numpy.cumsum(sizes)
    places = numpy.arange(int(sizes.sum())) + numpy.repeat(starts[nodes] - (ends - sizes), sizes)
    owners.append(numpy.repeat(who, sizes))
    cells.append(entries[places])

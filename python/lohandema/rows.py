"""Rows by node number: the near and far keys of each node, and the points of each node."""

import operator

from .arrays import numpy, packed


class Rows:
    """Rows of whole numbers, one for each node: that of node n is entries[starts[n]:starts[n + 1]], ascending.

    starts    where each row starts, and at the end the number of all entries: one more than there are nodes
    entries   the entries of all rows, one after the other
    """

    __slots__ = ("starts", "entries")

    def __init__(self, starts, entries):
        self.starts, self.entries = starts, entries

    def __len__(self):
        return len(self.starts) - 1

    def __getitem__(self, node):
        """The row of a node, as a view: nothing is copied."""
        try:
            node = operator.index(node)
        except TypeError:
            raise TypeError("%.60r is of type %s: pass the number of one row, or take entries[starts[n]:starts[m]] for rows n "
                            "up to m" % (node, type(node).__name__)) from None
        if not 0 <= node < len(self):
            raise IndexError("there is no row %d: nodes are numbered from 0 to %d" % (node, len(self) - 1))
        return self.entries[self.starts[node]:self.starts[node + 1]]

    def __iter__(self):
        return (self[node] for node in range(len(self)))

    def sizes(self):
        """How many entries each row has."""
        if numpy:
            return numpy.diff(self.starts)
        return packed(end - start for start, end in zip(self.starts[:-1], self.starts[1:]))


class Lists:
    """The near (U) and far (V) rows of a tree, made by tree.lists().

    u   for each leaf the keys of the leaves whose sources are summed one by one; empty for a node that is no leaf
    v   for each node the keys of the cells whose sources are summed as a group

    A leaf meets each source exactly once: in near(leaf), or in far(node) for the leaf itself or one cell above it.

    >>> from lohandema import Box, Tree
    >>> tree = Tree.build([[0.5], [1.5], [6.5], [7.5]], Box([4.0], 4.0), limit=1)
    >>> lists = tree.lists()
    >>> lists.near(3).tolist(), lists.far(2).tolist(), lists.far_of_path(3).tolist()
    ([3, 32771], [98306], [98306])
    >>> lists.near(key=229379).tolist()
    [196611, 229379]
    """

    __slots__ = ("tree", "u", "v")

    def __init__(self, tree, u, v):
        self.tree, self.u, self.v = tree, u, v

    def near(self, node=None, *, key=None):
        """The keys of a leaf's U row, by its node number or by its key."""
        return self.u[self.tree._node(node, key)]

    def far(self, node=None, *, key=None):
        """The keys of a node's V row, by its number or by its key."""
        return self.v[self.tree._node(node, key)]

    def far_of_path(self, node=None, *, key=None):
        """All keys that a leaf takes as groups: the V rows of itself and of each cell above it, one after the other."""
        rows = [self.v[one] for one in self.tree.path(node, key=key)]
        if numpy:
            return numpy.concatenate(rows)
        return packed(key for row in rows for key in row)

    def at_fault(self, progress=False):
        """The numbers of the leaves that do not meet each source exactly once. It is proved that there are none; this
        looks at the rows at hand, each of them."""
        from .once import leaves_at_fault
        return leaves_at_fault(self, progress)

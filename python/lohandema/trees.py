"""Trees: nodes depth first, a cell, then its children ascending, each followed by its own; in columns."""

import ctypes

from . import room
from .arrays import Lent, Points, as_given, column, cut, flag, numpy, octets, packed, shown, signed_wholes, three, whole, wholes
from .boxes import Box
from .changes import Change
from .grids import Grid
from .keys import children as children_of
from .library import call, library
from .progress import telling
from .refusal import Refused, not_added
from .rows import Lists, Rows

COLUMNS = ("key", "own", "begin", "total", "order")
# What is said of a salvage that has more than a tree may have
TOO_MUCH = {8: "what can be had has more than 1048576 nodes: pass the rows of a part of the box at a time",
            13: "what can be had has more than 1048576 sources, as runs overlap or the order column is longer: pass fewer rows "
                "at a time"}
# What a refusal says of a tree file, where the number's own sentence is of what a caller passes
ANEW = ": write it anew from the survey, with tree.to_file or tools/tree-file"
NOT_READ = {1: "the file is no tree file, or is damaged, as the axes that it names are not 1, 2 or 3" + ANEW,
            13: "the file is damaged, as its columns are not a well-formed tree" + ANEW,
            17: "the file is no tree file, or is damaged, or its order or its lists are not its tree's" + ANEW}


class Tree:
    """The tree of a survey: its box, its columns with an entry for each node, and the order of its sources.

    box     the box, whose axes are the tree's
    key     each node's key
    own     how many sources a leaf holds; 0 for every other node
    begin   the sum of own of all nodes before
    total   how many sources are in the node's cell and all below it
    order   the indices of the sources, leaf by leaf in the order of the nodes, ascending within a leaf

    The columns are int64 arrays of NumPy where that is installed, else views of the standard library, and are read only.
    Nodes are numbered depth first: node 0 is the root, the first child of a node stands right behind it, and all that lies in
    a cell stands together. So the sources of any cell are one part of the order column: order[begin[n]:begin[n] + total[n]].

    >>> tree = Tree.build([[0.5], [1.5], [6.5], [7.5]], Box([4.0], 4.0), limit=1)
    >>> tree.key.tolist()
    [0, 1, 2, 3, 32771, 32769, 98306, 196611, 229379]
    >>> len(tree), tree.depth, tree.cell_sources(5).tolist()
    (9, 3, [2, 3])
    """

    __slots__ = ("box", *COLUMNS, "_lent", "_places", "__weakref__")

    def __init__(self, *_):
        raise TypeError("a tree is made by Tree.build(points, ..), or by Tree.from_columns(..) of columns that were kept")

    @classmethod
    def build(cls, points, box=None, *, limit=64, keep_empty=False, order=None, targets=None, grid=None,
              progress=False):
        """Builds the tree of points, which are its sources.

        points      a float64 array of one row a point and one column an axis, or a list of such rows: at most 1,048,576. It is
                    passed on as it is, and must not change before the call is done.
        box         the box; where there is none, that around the points and the targets, or the grid
        limit       a cell with more sources than this splits
        keep_empty  whether all children of a cell that splits are stored, or only those with sources
        targets     points where the sum is asked for; they split cells too. They take order and keep_empty=True.
        grid        a Grid, whose points are the targets; they are nowhere listed
        order       the order of the interpolation, 1 to 64; it matters only with targets or a grid
        progress    whether to tell on standard error of work that takes longer than a second

        Raises Refused with 1, 2, 16, 4, 5, 6, 7, or 8 where the tree has more than 1,048,576 nodes (docs/REFUSALS.md), and
        TypeError or ValueError for an array that is not taken as it is; the text has the cure.

        >>> Tree.build([[0.5, 1.5], [6.5, 5.5]], limit=1)
        Tree(Box([3.5, 3.5], 3.501), 3 nodes, 2 sources)
        >>> from lohandema import Grid
        >>> Tree.build([[0.5], [7.5]], Box([4.0], 4.0), grid=Grid([0.0], [0.001], [8000]), order=4, keep_empty=True, limit=9)
        Tree(Box([4.0], 4.0), 2047 nodes, 2 sources)
        """
        asked = checked_build(points, box, limit, keep_empty, order, targets, grid)
        with telling(progress, "the tree of %d points" % asked[1].rows):
            return cls._built(*asked)

    @classmethod
    def _built(cls, box, sources, aims, limit, order, keep_empty):
        rows, used = min(sources.rows, room.MOST_POINTS), min(aims.rows, room.MOST_POINTS)
        nodes = room.most_nodes(box.axes, rows, used, limit, order, keep_empty)
        indices, columns = column(rows), [column(nodes) for _ in range(4)]
        lent = [Lent(memoryview(one)) for one in [indices] + columns]
        depth = ctypes.c_uint64()
        count = call_build("build_tree", box, sources, aims, limit, order, keep_empty, lent, [ctypes.byref(depth)])
        del lent
        return cls._of(box, [cut(one, count) for one in columns] + [cut(indices, rows)])

    @staticmethod
    def count_nodes(points, box=None, *, limit=64, keep_empty=False, order=None, targets=None, grid=None, progress=False):
        """How many nodes Tree.build makes of the same arguments, with no tree. The tree is grown and its nodes are counted, so
        that it takes nearly as long as the build, but no room for nodes. Raises what Tree.build raises.

        >>> Tree.count_nodes([[0.5], [1.5], [6.5], [7.5]], Box([4.0], 4.0), limit=1)
        9
        """
        asked = checked_build(points, box, limit, keep_empty, order, targets, grid)
        with telling(progress, "the number of nodes of %d points" % asked[1].rows):
            indices = Lent(memoryview(column(min(asked[1].rows, room.MOST_POINTS))))
            return call_build("count_nodes", *asked, [indices], [])

    def balanced(self, points, *, progress=False):
        """The balanced tree of this one, which has all children or none of each cell, as a build with keep_empty has: the one
        with the fewest cells that contains all of these, has all children or none of each cell, and no two leaves more than one
        level apart whose cells touch, at a corner too. The sources, which are given again, move down to the new leaves.

        Raises Refused with 4, 13, 19 where a cell has some of its children and not all, 6, 18 where own and order are not those
        that the points give, or 8 where the tree has more than 1,048,576 nodes.

        >>> points = [[3.3], [3.8], [6.5]]
        >>> tree = Tree.build(points, Box([4.0], 4.0), limit=1, keep_empty=True)
        >>> tree.key.tolist()
        [0, 1, 2, 32770, 65539, 98307, 196612, 229380, 32769]
        >>> tree.balanced(points).key.tolist()[9:]
        [65538, 131075, 163843, 98306]
        """
        sources = Points(points, self.box.axes)
        with telling(progress, "the balanced tree of %d points" % sources.rows):
            return self._balanced(sources, room.balanced(self.box.axes, len(self)))

    def _balanced(self, sources, nodes):
        """With room for so many nodes."""
        rows = min(sources.rows, room.MOST_POINTS)
        return self._written("balance_tree", [*self.box._words(), *_words([sources.lent])], rows, nodes)

    def with_source(self, points, point, *, limit, keep_empty, progress=False):
        """The tree of the sources and one more, numbered after the last: the one that Tree.build would make of the longer list
        in this tree's box. This one, which does not change, has to be the build of points in its box with this limit and
        keep_empty, without targets or a grid, and not balanced: a tree keeps its box, and not these.

        points      those of which this tree is the build. Where a source was added, it is one of them: for the next one pass the
                    points with it behind the last.
        limit, keep_empty  those of the build. They have no defaults, and 18 cannot tell every wrong limit: a tree may be the
                    build with two limits, and is taken with either.

        As it stands the call takes longer than a build of the longer list: 1.5 to 2 times as long with 100,000 points in 3 axes
        (docs/CHANGES.md, order 7). It spares no time; what it gives is the judgement that this tree is that build, and the
        promise on the rows that stay:

        rows of the lists far from the new source hold the same keys in both trees: the V row of a cell does, if the new
        source's cell at the level of its parent neither is that parent nor touches it; the U row of a leaf, if it and the deepest
        cell of this tree that contains the new source, at the coarser one's level, neither coincide nor touch.

        Raises Refused with 4 where there are 1,048,576 points already, which leaves no room for one more; 13; 18 where the tree
        is not that build or one of the points is outside; 6 with the number of points as its index where the new source is, for
        which another tree is built in a larger box; or 8 where the tree has more than 1,048,576 nodes, for which it is built anew
        with a higher limit.

        >>> points = [[0.5], [1.5], [6.5], [7.5]]
        >>> tree = Tree.build(points, Box([4.0], 4.0), limit=1)
        >>> more = tree.with_source(points, [3.0], limit=1, keep_empty=False)
        >>> more.key.tolist(), more.order.tolist()
        ([0, 1, 2, 3, 32771, 32770, 32769, 98306, 196611, 229379], [0, 1, 4, 2, 3])
        """
        sources, place = Points(points, self.box.axes), three(point, self.box.axes, "point")[0]
        limit, keep_empty = whole(limit, "limit"), flag(keep_empty, "keep_empty")
        words = [*self.box._words(), *_words([sources.lent]), place, limit, keep_empty]
        rows, nodes = min(sources.rows, room.MOST_POINTS) + 1, room.one_more(self.box.axes, len(self))
        with telling(progress, "the tree of %d points and one more" % sources.rows):
            try:
                return self._written("add_source", words, rows, nodes)
            except Refused as refused:
                raise not_added(refused, sources.rows, len(self.order)) from None

    def _written(self, name, words, rows, nodes):
        """The tree that a call writes from this one, in room for so many sources and nodes."""
        work, indices = Lent(memoryview(column(2 * rows))), column(rows)
        columns = [column(nodes) for _ in range(4)]
        lent = [Lent(memoryview(one)) for one in [indices] + columns]
        count, depth = ctypes.c_size_t(), ctypes.c_uint64()
        call(name, *words, *self._words(*COLUMNS), *_words([work] + lent), ctypes.byref(count), ctypes.byref(depth))
        del lent
        return self._of(self.box, [cut(one, count.value) for one in columns] + [cut(indices, rows)])

    @classmethod
    def salvage(cls, box, key, own, begin, order, *, progress=False):
        """What can be had of damaged columns: a tree of the valid keys, the root and all cells that hold one of them, and a list
        of the changes, each with its code and key.

        A repeated key keeps its first row. A leaf keeps its count and its run of the order column; the root, a node that has
        children, and a leaf whose run passes the order column's end get the count 0. Totals are worked out anew, and not listed.
        The tree is well formed; one that was so, with an order column as long as its total, comes back the same with no change.
        The columns are int64 or uint64 arrays, or lists of ints, and may hold anything; of the box only the axes are looked at.
        The order column that comes out is int64; uint64 if an entry in it is 2^63 or more, as only damage makes them, and so
        every entry is as it was passed.

        The time goes with the rows; but not where there would be more than 1,048,576 nodes, as there can be if the levels of all
        keys together are more, and the runs of all rows together have more than 1,048,576 entries. To tell which of the two is
        refused it then takes the square of the rows: 18 s for 100,000 were seen. Pass the rows of a part of the box at a time.

        Raises Refused with 3 where key, own and begin differ in length, 13 where there would be more than 1,048,576 sources, or
        8 where there would be more than 1,048,576 nodes.

        >>> tree, changes = Tree.salvage(Box([4.0], 4.0), [0, 3, 3, 32769], [0, 2, 1, 2], [0, 1, 1, 3], [4, 0, 3, 1])
        >>> tree.key.tolist(), tree.own.tolist(), tree.order.tolist()
        ([0, 1, 2, 3, 32769], [0, 0, 0, 2, 0], [0, 3])
        >>> print(*changes[:2], sep="\\n")
        key 3: a row was dropped, as an earlier one has this key (change 2)
        key 1: this cell was added, as it is the root or holds another (change 3)
        """
        check_box(box)
        given = [wholes(one, name) for name, one in (("key", key), ("own", own), ("begin", begin), ("order", order))]
        with telling(progress, "what can be had of %d rows" % given[0].entries):
            return cls._salvaged(box, given)

    @classmethod
    def _salvaged(cls, box, given):
        """With room for the most that can be had."""
        key, own, begin, order = given
        if not key.entries == own.entries == begin.entries:
            raise Refused(3, sentence="key, own and begin have %d, %d and %d entries: pass as many of each, one a row"
                          % (key.entries, own.entries, begin.entries))
        nodes = room.salvaged(shown(key))
        columns = [column(room.runs(shown(own), shown(begin), order.entries))] + [column(nodes) for _ in range(4)]
        columns += [column(2 * key.entries + nodes) for _ in range(2)]
        lent = [Lent(memoryview(one)) for one in columns]
        counts = [ctypes.c_size_t() for _ in range(3)]
        try:
            call("salvage", box.axes, *_words(given + lent), *map(ctypes.byref, counts))
        except Refused as refused:
            raise Refused(refused.number, refused.value, sentence=TOO_MUCH.get(refused.number)) from None
        del lent
        count, sources, changes = [one.value for one in counts]
        new_order, key, own, begin, total = [cut(one, used) for one, used in zip(columns, [sources] + 4 * [count])]
        listed = [cut(one, changes).tolist() for one in columns[5:]]
        return cls._of(box, [key, own, begin, total, as_given(new_order, order)]), [Change(code, of % 2 ** 64) for code, of in zip(*listed)]

    @classmethod
    def from_columns(cls, box, key, own, begin, total, order):
        """The tree of columns that were kept: int64 or uint64 arrays, passed on as they are, or lists of ints. They may hold
        anything: every call that works on the tree looks at them anew, and what is no tree is refused 13 TREE. Not so depth,
        levels, level_nodes, is_leaf, children, path, node_of, nodes_of, leaf_sources and cell_sources, which read no more of
        the columns than they need, and answer by what they find there: ask is_well_formed first.

        >>> tree = Tree.from_columns(Box([4.0], 4.0), [0, 1, 32769], [0, 1, 2], [0, 0, 1], [3, 1, 2], [0, 1, 2])
        >>> tree.is_well_formed(), tree.leaf_sources(2).tolist()
        (True, [1, 2])
        """
        check_box(box)
        given = zip(COLUMNS, (key, own, begin, total, order))
        return cls._of(box, [shown(wholes(column, name)) for name, column in given])

    @classmethod
    def _of(cls, box, columns):
        tree = object.__new__(cls)
        # the views keep the columns where they are, as long as the tree lives
        lent = {name: Lent(memoryview(column)) for name, column in zip(COLUMNS, columns)}
        for name, value in zip(cls.__slots__, [box, *columns, lent, None]):
            object.__setattr__(tree, name, value)
        return tree

    def __setattr__(self, name, *_):
        raise AttributeError("a tree does not change: make another with Tree.build or Tree.from_columns")

    __delattr__ = __setattr__

    def __repr__(self):
        return "Tree(%r, %d nodes, %d sources)" % (self.box, len(self), len(self.order))

    def __len__(self):
        """The number of nodes."""
        return len(self.key)

    def __reduce__(self):
        return _kept, (self.box, [bytes(self._lent[name].view) for name in COLUMNS])

    def _words(self, *names):
        """What a call takes of the columns."""
        return _words([self._lent[name] for name in names or COLUMNS[:4]])

    def _node(self, node, key):
        """A node's number, which was given as such or by its key."""
        if (node is None) == (key is None):
            raise TypeError("pass a node's number, or its key as key=")
        if key is not None:
            return self.node_of(key)
        number = whole(node, "node")
        if number >= len(self):
            raise IndexError("there is no node %d: they are numbered from 0 to %d" % (number, len(self) - 1))
        return number

    # What the tree is

    @property
    def depth(self):
        """The greatest level of any node, at least 1."""
        return library.lohandema_depth_of(*self._words("key"))

    def is_well_formed(self):
        """Whether the columns are a tree (docs/RULES.md, "When columns are a tree"). The order column is not looked at."""
        return library.lohandema_is_well_formed(self.box.axes, *self._words())

    def leaves(self):
        """The numbers of the leaves, ascending: nodes other than the root that have no child.

        >>> Tree.build([[0.5], [7.5]], Box([4.0], 4.0), limit=1).leaves().tolist()
        [1, 2]
        """
        self._check()
        levels = self.levels()
        if numpy:
            return 1 + numpy.flatnonzero(numpy.append(levels[1:], 0)[1:] <= levels[1:])
        return packed(n for n in range(1, len(self)) if n + 1 == len(self) or levels[n + 1] <= levels[n])

    def is_leaf(self, node=None, *, key=None):
        """Whether a node is a leaf: not the root, and no child of it is stored.

        >>> tree = Tree.build([[0.5], [7.5]], Box([4.0], 4.0), limit=1)
        >>> tree.is_leaf(0), tree.is_leaf(key=32769)
        (False, True)
        """
        return library.lohandema_is_leaf(*self._words("key"), self._node(node, key))

    def children(self, node=None, *, key=None):
        """The numbers of a node's stored children, ascending.

        >>> tree = Tree.build([[0.5], [1.5], [7.5]], Box([4.0], 4.0), limit=1)
        >>> tree.children(0), tree.children(key=2), tree.children(5)
        ([1, 5], [3, 4], [])
        """
        number = self._node(node, key)
        if self.is_leaf(number):
            return []
        found, below = ctypes.c_size_t(), children_of(self.box.axes, int(self.key[number]) % 2 ** 64)
        return [found.value for child in below
                if library.lohandema_find_node(self.box.axes, *self._words("key"), child, ctypes.byref(found))]

    def level_nodes(self, level):
        """The numbers of the nodes of a level, ascending.

        >>> tree = Tree.build([[0.5], [1.5], [7.5]], Box([4.0], 4.0), limit=1)
        >>> [tree.level_nodes(level) for level in range(tree.depth + 1)]
        [[0], [1, 5], [2], [3, 4]]
        """
        level = whole(level, "level")
        if numpy:
            # of a level that no key can have there is none, whatever the size of the number
            return numpy.flatnonzero(self.levels() == level).tolist() if level <= 32767 else []
        return [node for node, key in enumerate(self.key.tolist()) if key & 32767 == level]

    def levels(self):
        """The level of each node."""
        return self.key & 32767 if numpy else packed(key & 32767 for key in self.key)

    def parents(self):
        """The number of each node's parent; -1 for the root.

        >>> Tree.build([[0.5], [1.5], [7.5]], Box([4.0], 4.0), limit=1).parents().tolist()
        [-1, 0, 1, 2, 2, 0]
        """
        self._check()
        levels = self.levels()
        if not numpy:
            last, found = [-1] * (room.DEEPEST + 2), []
            for node, level in enumerate(levels):
                found.append(last[level])
                last[level + 1] = node
            return packed(found)
        found = numpy.full(len(self), -1)
        for level in range(1, int(levels.max()) + 1):
            here, above = numpy.flatnonzero(levels == level), numpy.flatnonzero(levels == level - 1)
            found[here] = above[numpy.searchsorted(above, here) - 1]
        return found

    def path(self, node=None, *, key=None):
        """The numbers of a node and of each cell above it, up to the root."""
        code = int(self.key[self._node(node, key)])
        level, code = code & 32767, code >> 15
        return [self.node_of((code >> self.box.axes * up) << 15 | level - up) for up in range(level + 1)]

    def _check(self):
        if not self.is_well_formed():
            raise Refused(13)

    # From keys to nodes

    def node_of(self, key):
        """The number of the node with a key; KeyError where none has it.

        >>> Tree.build([[0.5], [7.5]], Box([4.0], 4.0), limit=1).node_of(32769)
        2
        """
        wanted, node = whole(key, "key"), ctypes.c_size_t()
        if not library.lohandema_find_node(self.box.axes, *self._words("key"), wanted, ctypes.byref(node)):
            raise KeyError("no node has the key %d" % wanted)
        return node.value

    def nodes_of(self, keys):
        """The numbers of the nodes with these keys, as those of a row; KeyError with the first that no node has."""
        wanted = shown(wholes(keys, "keys"))
        if self._places is None:
            object.__setattr__(self, "_places", _places(self.box.axes, self.key))
        if not numpy:
            missing = [key for key in wanted if key not in self._places]
            if missing:
                raise KeyError("no node has the key %d" % (missing[0] % 2 ** 64))
            return packed(self._places[key] for key in wanted)
        found = numpy.searchsorted(self._places, _places(self.box.axes, wanted))
        found[found == len(self)] = 0
        missing = numpy.flatnonzero(self.key[found] != wanted)
        if len(missing):
            raise KeyError("no node has the key %d" % (int(wanted[missing[0]]) % 2 ** 64))
        return found

    # Sources

    def leaf_sources(self, node=None, *, key=None):
        """The indices of a leaf's own sources, ascending: a part of the order column, as a view."""
        return self._part("leaf_sources", "own", self._node(node, key))

    def cell_sources(self, node=None, *, key=None):
        """The indices of all sources in a node's cell, of any level: a part of the order column, as a view. They come leaf by
        leaf, and do not ascend as a whole."""
        return self._part("cell_sources", "total", self._node(node, key))

    def _part(self, name, counts, node):
        start = ctypes.c_size_t()
        call_of = getattr(library, "lohandema_" + name)
        count = call_of(*self._words(counts, "begin", "order"), node, ctypes.byref(start))
        return self.order[start.value:start.value + count]

    def sourced_cells(self):
        """The keys of the cells that own sources or have a descendant that does, ascending."""
        cells, count = column(len(self)), ctypes.c_size_t()
        lent = Lent(memoryview(cells))
        call("get_sourced_cells", self.box.axes, *self._words(), *_words([lent]), ctypes.byref(count))
        del lent
        return cut(cells, count.value)

    # Points

    def lookup(self, points, *, with_steps=False, progress=False):
        """The key of the leaf that holds each point. With with_steps also the sum over the points of the depth less the
        leaf's level. Raises Refused for the first point that is outside the box, 7 POINT, or in no leaf, 12 UNSTORED.

        >>> tree = Tree.build([[0.5], [1.5], [6.5], [7.5]], Box([4.0], 4.0), limit=1)
        >>> tree.lookup([[7.9], [0.3]]).tolist()
        [229379, 3]
        """
        asked = Points(points, self.box.axes)
        output, steps = column(min(asked.rows, room.MOST_POINTS)), ctypes.c_size_t()
        lent = Lent(memoryview(output))
        with telling(progress, "the leaves of %d points" % asked.rows):
            call("points_to_keys", *self.box._words(), *self._words(), asked.lent.address, asked.lent.entries,
                 *_words([lent]), ctypes.byref(steps))
        del lent
        output = cut(output, asked.rows)
        return (output, steps.value) if with_steps else output

    def leaf_of(self, point, *, with_steps=False):
        """The key of the leaf that holds one point. Each call looks at the whole tree first: for many points use lookup.

        >>> Tree.build([[0.5], [7.5]], Box([4.0], 4.0), limit=1).leaf_of([6.9], with_steps=True)
        (32769, 0)
        """
        leaf, steps = ctypes.c_uint64(), ctypes.c_uint64()
        call("point_to_leaf", *self.box._words(), *self._words(), three(point, self.box.axes, "point")[0],
             ctypes.byref(leaf), ctypes.byref(steps))
        return (leaf.value, steps.value) if with_steps else leaf.value

    def groups(self, points=None, *, keys=None, progress=False):
        """The indices of the points of each node: rows by node number. The points themselves are given, or as keys= the key of
        each one's leaf, as lookup answers it. A key of no leaf is refused 14 NOTLEAF.

        >>> tree = Tree.build([[0.5], [1.5], [6.5], [7.5]], Box([4.0], 4.0), limit=1)
        >>> tree.groups([[7.9], [0.3], [7.2]])[8].tolist()
        [0, 2]
        """
        if (points is None) == (keys is None):
            raise TypeError("pass points, or the keys of their leaves as keys=")
        marks = wholes(self.lookup(points, progress=progress) if keys is None else keys, "keys")
        starts, indices = column(len(self) + 1), column(min(marks.entries, room.MOST_POINTS))
        lent = [Lent(memoryview(one)) for one in (starts, indices)]
        call("get_points_to_leaves_map", self.box.axes, *self._words(), marks.address, marks.entries, *_words(lent))
        del lent
        return Rows(cut(starts, len(self) + 1), cut(indices, marks.entries))

    # Near work

    def near_work(self, targets=None, *, with_counts=False, progress=False):
        """Near work: the sum over leaves of the targets in the leaf times the sources in its U row, which is how many pairs of
        a target and a source are summed singly. Where no targets are given, or an empty array, the sources serve as targets.
        The points of a Grid are given as grid.points(). With with_counts also how many targets each node has; only leaves
        have any. No list is needed. Raises Refused for the first target that is outside the box, 7 POINT, or in no leaf, 12
        UNSTORED.

        >>> tree = Tree.build([[0.5], [1.5], [6.5], [7.5]], Box([4.0], 4.0), limit=1)
        >>> tree.near_work(), tree.near_work([[0.5], [0.7], [7.9]])
        (8, 6)
        >>> tree.near_work([[0.5]], with_counts=True)[1].tolist()
        [0, 0, 0, 1, 0, 0, 0, 0, 0]
        """
        if isinstance(targets, Grid):
            raise TypeError("targets is a Grid, which is counted by a build alone: give its points, as grid.points() lists them")
        aims = Points([] if targets is None else targets, self.box.axes, "targets")
        counts, work = column(len(self)), ctypes.c_uint64()
        lent = Lent(memoryview(counts))
        with telling(progress, "the near work of %d targets" % (aims.rows or len(self.order))):
            call("get_near_work", *self.box._words(), *self._words(), aims.lent.address, aims.lent.entries, *_words([lent]),
                 ctypes.byref(work))
        del lent
        return (work.value, cut(counts, len(self))) if with_counts else work.value

    # Lists

    def lists(self, *, progress=False):
        """The near (U) and far (V) rows of all nodes. Refused 8 ROOM where either list has more than 16,777,216 keys."""
        near, far = room.lists(self)
        with telling(progress, "the lists of %d nodes" % len(self)):
            while True:
                try:
                    return self._listed(near, far)
                except Refused as refused:
                    if (refused.number, refused.value) == (8, 6) and near < room.MOST_KEYS:
                        near = room.more(near)
                    elif (refused.number, refused.value) == (8, 7) and far < room.MOST_KEYS:
                        far = room.more(far)
                    else:
                        raise

    def list_sizes(self, *, progress=False):
        """How many keys the near (U) and the far (V) rows have, without the lists: it takes no longer than they do, and no room
        for them. Refused as lists().

        >>> Tree.build([[0.5], [1.5], [6.5], [7.5]], Box([4.0], 4.0), limit=1).list_sizes()
        (8, 2)
        """
        room_for = [column(len(self)), column(len(self))]
        lent, u, v = [Lent(memoryview(one)) for one in room_for], ctypes.c_size_t(), ctypes.c_size_t()
        with telling(progress, "the sizes of the lists of %d nodes" % len(self)):
            call("get_list_sizes", self.box.axes, *self._words(), *_words(lent), ctypes.byref(u), ctypes.byref(v))
        return u.value, v.value

    def check_sums(self, readings, lists=None, *, progress=False):
        """Whether no reading is lost: each leaf's near readings, and those of its far cells, are added up and compared with the
        sum of all. Returns how many leaves agree, which is all of them, and the additions: the terms of all these sums, one for
        each near source and one for each far cell. A reading is a whole number, at most 2^40 in size, for each source by its
        index: an int64 array or a list of ints. Lists that are at hand are given as lists=; they, the tree and the order are
        checked. Raises Refused 3 SHAPE, 20 READING or 18 NOTBUILT.

        >>> tree = Tree.build([[0.5], [1.5], [6.5], [7.5]], Box([4.0], 4.0), limit=1)
        >>> tree.check_sums([1, 2, 3, -4])
        (4, 12)
        """
        numbers = signed_wholes(readings, "readings")
        lists = self.lists(progress=progress) if lists is None else lists
        given = lent_lists(lists)
        sums, leaves, additions = Lent(memoryview(column(numbers.entries + 1))), ctypes.c_size_t(), ctypes.c_size_t()
        with telling(progress, "the sums of %d leaves" % len(self.leaves())):
            call("check_sums", self.box.axes, *self._words(), *self._words("order"), *_words([numbers] + given + [sums]),
                 ctypes.byref(leaves), ctypes.byref(additions))
        return leaves.value, additions.value

    def _listed(self, near, far):
        """The lists with room for so many keys."""
        columns = [column(len(self) + 1), column(near), column(len(self) + 1), column(far)]
        lent = [Lent(memoryview(one)) for one in columns]
        u, v = ctypes.c_size_t(), ctypes.c_size_t()
        call("get_interaction_lists", self.box.axes, *self._words(), *_words(lent), ctypes.byref(u), ctypes.byref(v))
        del lent
        counts = [len(self) + 1, u.value, len(self) + 1, v.value]
        u_starts, u_keys, v_starts, v_keys = [cut(one, count) for one, count in zip(columns, counts)]
        return Lists(self, Rows(u_starts, u_keys), Rows(v_starts, v_keys))

    # Files

    def to_file(self, lists=None, *, progress=False):
        """The tree, its order and its lists as the bytes of a tree file, for another unit that shares the survey: it reads them
        with Tree.from_file and need not build. The box is not in the file. Lists that are at hand are given as lists=; they, the
        tree and the order are checked. Raises Refused 4 COUNT, 13 TREE, or 17 SECTION where the order is no arrangement or the
        lists are not the tree's.

        >>> tree = Tree.build([[0.5], [1.5], [6.5], [7.5]], Box([4.0], 4.0), limit=1)
        >>> file = tree.to_file()
        >>> len(file), list(file[-8:])
        (472, [1, 0, 0, 0, 9, 0, 0, 0])
        """
        given = lent_lists(self.lists(progress=progress) if lists is None else lists)
        file, written = bytearray(room.file(self, given)), ctypes.c_size_t()
        lent = Lent(memoryview(file), 1)
        with telling(progress, "the file of %d nodes" % len(self)):
            call("write_tree", self.box.axes, *self._words(), *self._words("order"), *_words(given + [lent]),
                 ctypes.byref(written))
        return bytes(lent.view[:written.value])

    @classmethod
    def from_file(cls, file, box, *, progress=False):
        """The tree of a tree file and its lists, a pair: what to_file was given, and nothing is built. file is its bytes. The box
        is not in the file; it is that with which the tree was built. Whatever the file holds, what comes out is a tree with its
        own lists: columns, order and each row are judged. Raises Refused 17 SECTION, 1 DIMS, 13 TREE, or 8 ROOM where there are
        more than 1,048,576 nodes or 16,777,216 keys in a list.

        >>> tree = Tree.build([[0.5], [1.5], [6.5], [7.5]], Box([4.0], 4.0), limit=1)
        >>> again, lists = Tree.from_file(tree.to_file(), tree.box)
        >>> again, lists.near(3).tolist()
        (Tree(Box([4.0], 4.0), 9 nodes, 4 sources), [3, 32771])
        """
        check_box(box)
        given = octets(file, "file")
        with telling(progress, "reading a tree file of %d bytes" % given.entries):
            axes, columns = _held(given, *room.held(given.view))
        if axes != box.axes:
            raise Refused(1, sentence="the file has a tree of %d ax%ss, and the box has %d: pass the box with which it was built"
                          % (axes, "i" if axes == 1 else "e", box.axes))
        order, key, own, begin, total, u_starts, u_keys, v_starts, v_keys = columns
        tree = cls._of(box, [key, own, begin, total, order])
        return tree, Lists(tree, Rows(u_starts, u_keys), Rows(v_starts, v_keys))


def _words(lent):
    """The addresses and lengths of what is lent."""
    return [word for one in lent for word in (one.address, one.entries)]


def _kept(box, columns):
    """The tree of columns that were kept as bytes, by pickle."""
    return Tree._of(box, [shown(Lent(memoryview(column).cast("q"))) for column in columns])


def _held(file, nodes, sources, near, far):
    """The axes of a tree file, and its order, columns and lists, read with room for so many."""
    columns = [column(entries) for entries in _sizes(nodes, sources, near, far)]
    lent, counts = [Lent(memoryview(one)) for one in columns], [ctypes.c_size_t() for _ in range(5)]
    try:
        call("read_tree", file.address, file.entries, *_words(lent), *[ctypes.byref(one) for one in counts])
    except Refused as refused:
        raise Refused(refused.number, refused.value, sentence=NOT_READ.get(refused.number)) from None
    del lent
    axes, *found = [one.value for one in counts]
    return axes, [cut(one, entries) for one, entries in zip(columns, _sizes(*found))]


def _sizes(nodes, sources, near, far):
    """The entries of the order, of each column, and of the starts and keys of U and V."""
    return [sources, nodes, nodes, nodes, nodes, nodes + 1, near, nodes + 1, far]


def _places(axes, keys):
    """What nodes ascend by: the first code of level 16 in the cell, then the level. Without NumPy, the node of each key."""
    if not numpy:
        return {key: node for node, key in enumerate(keys)}
    # of a key that is not valid the place does not matter, as no node is found there that has it
    levels = keys & 32767
    return (keys >> 15) << axes * (room.DEEPEST - numpy.minimum(levels, room.DEEPEST)) << 5 | levels


def lent_lists(lists):
    """The four columns of lists, lent."""
    if not isinstance(lists, Lists):
        raise TypeError("lists is of type %s: pass Lists, as tree.lists() answers them" % type(lists).__name__)
    for name, rows in (("u", lists.u), ("v", lists.v)):
        if not isinstance(rows, Rows):
            raise TypeError("lists.%s is of type %s: pass Rows, as tree.lists() answers them" % (name, type(rows).__name__))
    columns = {"u.starts": lists.u.starts, "u.entries": lists.u.entries, "v.starts": lists.v.starts,
               "v.entries": lists.v.entries}
    return [wholes(one, "lists." + name) for name, one in columns.items()]


def checked_build(points, box, limit, keep_empty, order, targets, grid):
    """What a build is asked: the box, the sources, the targets or the grid, the limit, the order and the flag."""
    if box is not None:
        check_box(box)
    sources = Points(points, box.axes if box else None)
    aims = checked_aims(targets, grid, sources.axes)
    limit, order = whole(limit, "limit"), checked_order(order, aims)
    keep_empty = flag(keep_empty, "keep_empty")
    if are_used(aims) and not keep_empty:
        raise ValueError("%s split%s cells only where empty cells are kept: pass keep_empty=True, or no %s"
                         % (("targets", "", "targets") if grid is None else ("a grid", "s", "grid")))
    if box is None:
        box = Box._around([sources, aims if grid is None else Points(grid.corners(), sources.axes or None, "grid")])
    return box, sources, aims, limit, order, keep_empty


def call_build(name, box, sources, aims, limit, order, keep_empty, lent, told):
    """Makes a call that grows a tree; answers how many nodes it has."""
    rows, used = min(sources.rows, room.MOST_POINTS), min(aims.rows, room.MOST_POINTS)
    if isinstance(aims, Grid):
        # its points take no work
        name, words, in_work = name + "_on_grid", aims._words(), 0
    else:
        words, in_work = _words([aims.lent]), used
    work, count = Lent(memoryview(column(2 * rows + in_work))), ctypes.c_size_t()
    call(name, *box._words(), *_words([sources.lent]), *words, limit, order, keep_empty, are_used(aims),
         *_words([work] + lent), ctypes.byref(count), *told)
    return count.value


def check_box(box):
    if not isinstance(box, Box):
        raise TypeError("box is of type %s: pass a Box, as Box(centre, radius)" % type(box).__name__)


def checked_aims(targets, grid, axes):
    """The targets: points, or a grid."""
    if grid is None:
        return Points([] if targets is None else targets, axes or None, "targets")
    if targets is not None:
        raise TypeError("targets and grid are both given, and a build takes one of them: leave one out, or pass as targets "
                        "the points of both (grid.points())")
    if not isinstance(grid, Grid):
        raise TypeError("grid is of type %s: pass a Grid, as Grid(origin, spacing, shape)" % type(grid).__name__)
    if axes and grid.axes != axes:
        raise ValueError("grid has %d ax%ss, and the points or the box %d: pass a grid with as many"
                         % (grid.axes, "i" if grid.axes == 1 else "e", axes))
    return grid


def are_used(aims):
    """Whether there are targets that a build looks at; a grid always is one, also with a 0 in its shape."""
    return isinstance(aims, Grid) or aims.rows > 0


def checked_order(order, aims):
    """The order of the interpolation, which has no meaning without targets, and has to be given with them."""
    if order is None:
        if are_used(aims):
            raise TypeError("targets and a grid take order=, the order of the interpolation: pass one from 1 to 64")
        return 1
    return whole(order, "order")

#!/usr/bin/env python3
"""A station that is repeated after the tree is built: the tree with one reading more, and which rows have to be read anew.

    python3 examples/python/one_more.py

Readings on flight lines are put in a tree, and a station is flown again, a little beside its place. The tree takes the new
reading in, numbered after the last. Two rules say which rows of the lists still hold the same keys, so that only the others
have to be read anew, and with them the rows of cells that are new; that no other row has changed is then looked up in both
lists. It needs the shared library, which rust/archive writes, and the standard library of Python alone; with NumPy the tree
takes arrays as well.
"""

import os
import random
import sys

sys.path.insert(0, os.path.join(os.path.dirname(os.path.abspath(__file__)), "..", "..", "python"))
from lohandema import Tree, keys

LINES, STATIONS, LIMIT, REPEATED = 24, 50, 12, 625


def survey():
    """Readings along flight lines, in metres."""
    made = random.Random(28)
    return [[10.0 * station + made.gauss(0, 1), 20.0 * line + made.gauss(0, 1), 60.0 + made.gauss(0, 3)]
            for line in range(LINES) for station in range(STATIONS)]


def to_read_anew(tree, place):
    """The keys of the leaves whose near row, and of the cells whose far row, may be another with a reading more at a place."""
    axes, stored, near, far = tree.box.axes, set(tree.key.tolist()), set(), set()
    cells = [tree.box.key_of(place, level) for level in range(17)]
    holder = max(level for level in range(17) if cells[level] in stored)
    for node, key in enumerate(tree.key.tolist()):
        # the cell itself and those above it, up to the root
        path = keys.ancestors(axes, key)
        level = len(path) - 1
        coarser = min(level, holder)
        if tree.is_leaf(node) and keys.touching(axes, path[level - coarser], cells[coarser]):
            near.add(key)
        if level > 0 and keys.touching(axes, path[1], cells[level - 1]):
            far.add(key)
    return near, far


def rows_of(tree):
    """The near and the far row of each cell, by its key."""
    lists = tree.lists()
    return {key: (lists.u[node].tolist(), lists.v[node].tolist()) for node, key in enumerate(tree.key.tolist())}


def main():
    places = survey()
    tree = Tree.build(places, limit=LIMIT)
    place = [x + 0.4 for x in places[REPEATED]]
    more = tree.with_source(places, place, limit=LIMIT, keep_empty=False)
    near, far = to_read_anew(tree, place)
    before, after = rows_of(tree), rows_of(more)
    changed = [{key for key in before if before[key][which] != after[key][which]} for which in (0, 1)]
    # cells of the new tree alone: no rule tells of their rows, which are all read
    new = sorted(set(after) - set(before))
    leaf = more.node_of(more.leaf_of(place))
    print("%d readings, %d leaves; with one more %d leaves" % (len(places), len(tree.leaves()), len(more.leaves())))
    print("reading %d is in the leaf %d, with %s" % (len(places), more.key[leaf], more.leaf_sources(leaf).tolist()))
    print("near rows to read anew: %d of %d, changed: %d" % (len(near), len(tree.leaves()), len(changed[0])))
    print("far rows to read anew: %d of %d, changed: %d" % (len(far), len(tree), len(changed[1])))
    print("new cells, whose rows are read too: %d, with the keys %s" % (len(new), new))
    return 0 if changed[0] <= near and changed[1] <= far else "a row has changed that the rules keep: please report it"


if __name__ == "__main__":
    sys.exit(main())

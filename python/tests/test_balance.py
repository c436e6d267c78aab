"""Balanced trees: a known one, random ones against leaves that are split until none is too large, and what is refused."""

import random
import unittest

from common import some_points

from lohandema import Box, Refused, Tree
from lohandema.room import balanced as most_nodes
from plain import anchors_of, children, level_of

COLUMNS = ("key", "own", "begin", "total", "order")


def walls(axes, key):
    """A cell's walls, in units of level 16."""
    up = 16 - level_of(key)
    return [(anchor << up, anchor + 1 << up) for anchor in anchors_of(axes, key)]


def too_large(axes, a, b):
    """Whether a leaf touches another more than a level below it."""
    return level_of(a) + 1 < level_of(b) and all(x[0] <= y[1] and y[0] <= x[1] for x, y in zip(walls(axes, a), walls(axes, b)))


def closed(axes, keys):
    """The cells with every leaf split that is too large for another, until there is none."""
    cells = set(keys)
    while True:
        leaves = [key for key in cells if level_of(key) == 16 or children(axes, key)[0] not in cells]
        split = [a for a in leaves if any(too_large(axes, a, b) for b in leaves)]
        if not split:
            return cells
        for key in split:
            cells.update(children(axes, key))


class Balanced(unittest.TestCase):
    def test_known(self):
        points = [[6.5], [3.8], [3.3], [4.5]]
        tree = Tree.from_columns(Box([4.0], 4.0), [0, 1, 2, 32770, 65539, 98307, 196612, 229380, 32769],
                                 [0, 0, 0, 0, 0, 0, 1, 1, 2], [0, 0, 0, 0, 0, 0, 0, 1, 2], [4, 2, 0, 2, 0, 2, 1, 1, 2],
                                 [2, 1, 0, 3])
        found = tree.balanced(points, progress=False)
        self.assertEqual(found.key.tolist(), tree.key.tolist() + [65538, 131075, 163843, 98306])
        self.assertEqual(found.own.tolist(), [0, 0, 0, 0, 0, 0, 1, 1, 0, 0, 1, 0, 1])
        self.assertEqual(found.begin.tolist(), [0, 0, 0, 0, 0, 0, 0, 1, 2, 2, 2, 3, 3])
        self.assertEqual(found.total.tolist(), [4, 2, 0, 2, 0, 2, 1, 1, 2, 1, 1, 0, 1])
        self.assertEqual(found.order.tolist(), [2, 1, 3, 0])
        self.assertEqual(found.box, tree.box)
        again = found.balanced(points)
        for name in COLUMNS:
            self.assertEqual(getattr(again, name).tolist(), getattr(found, name).tolist())

    def test_random(self):
        made = random.Random(9)
        for case in range(12):
            axes = 1 + case % 3
            points = some_points(made, axes, made.choice([0, 3, 9]))
            tree = Tree.build(points, Box([0.0] * axes, 4.0), limit=made.randint(1, 3), keep_empty=True)
            if len(tree) > 400:
                continue
            found = tree.balanced(points)
            self.assertEqual(set(found.key.tolist()), closed(axes, tree.key.tolist()))
            self.assertTrue(found.is_well_formed())
            leaves = found.lookup(points).tolist()
            for leaf in found.leaves().tolist():
                inside = [i for i, key in enumerate(leaves) if key == found.key[leaf]]
                self.assertEqual(found.leaf_sources(leaf).tolist(), inside)

    def test_room_is_enough(self):
        points = [[3.9999, 3.9999, 3.9999], [3.9996, 3.9999, 3.9999]]
        tree = Tree.build(points, Box([4.0] * 3, 4.0), limit=1, keep_empty=True)
        nodes = len(tree.balanced(points))
        self.assertGreater(nodes, 2 * len(tree))
        self.assertLessEqual(nodes, most_nodes(3, len(tree)))

    def test_refused(self):
        points, box = [[0.5], [1.5], [6.5], [7.5]], Box([4.0], 4.0)
        tree, lacking = (Tree.build(points, box, limit=1, keep_empty=keep) for keep in (True, False))
        for of, given, told in ((lacking, points, (19, 0)), (tree, points[:3] + [[8.0]], (6, 3)), (tree, points[:3], (18, 0)),
                                (tree, points[::-1], (18, 0))):
            with self.assertRaises(Refused) as caught:
                of.balanced(given)
            self.assertEqual((caught.exception.number, caught.exception.value), told)
        for given in ([[0.5, 1.5]], "0.5", [[True]], None):
            with self.assertRaises((TypeError, ValueError)):
                tree.balanced(given)


if __name__ == "__main__":
    unittest.main()

"""From keys to nodes and from node to node, against a plain reading of the key column."""

import random
import unittest

from common import some_points

from lohandema import Box, Tree
from lohandema.library import library


def trees():
    made = random.Random(28)
    for case in range(36):
        axes = 1 + case % 3
        points = some_points(made, axes, 3 * case)
        yield Tree.build(points, Box([0.0] * axes, 4.0), limit=1 + case % 5, keep_empty=case % 4 == 0)


def above(axes, key):
    """The key one level up, by its bits."""
    return (key >> 15 >> axes << 15) + (key & 32767) - 1


class Nodes(unittest.TestCase):
    def test_found_by_key(self):
        for tree in trees():
            keys = tree.key.tolist()
            self.assertEqual([tree.node_of(key) for key in keys], list(range(len(tree))))
            self.assertEqual(list(tree.nodes_of(keys)), list(range(len(tree))))
            for other in {17, 2 ** 63, 2 ** 64 - 1, 32768 * 5 + 1} - set(keys):
                with self.assertRaisesRegex(KeyError, "no node has the key %d" % other):
                    tree.node_of(other)

    def test_children_and_leaves(self):
        for tree in trees():
            keys, leaves = tree.key.tolist(), []
            for node, key in enumerate(keys):
                children = [n for n in range(1, len(tree)) if above(tree.box.axes, keys[n]) == key]
                self.assertEqual(tree.children(node), children)
                self.assertEqual(tree.children(key=key), children)
                self.assertEqual(tree.is_leaf(node), node > 0 and not children)
                leaves += [node] if tree.is_leaf(key=key) else []
            self.assertEqual(tree.leaves().tolist(), leaves)

    def test_levels(self):
        for tree in trees():
            levels = list(tree.levels())
            for level in range(tree.depth + 2):
                self.assertEqual(tree.level_nodes(level), [n for n in range(len(tree)) if levels[n] == level])
                self.assertEqual(tree.level_nodes(level), self.by_calls(tree, level))
            for level in (17, 32767, 32768, 2 ** 63, 2 ** 64 - 1):
                self.assertEqual(tree.level_nodes(level), [])

    def by_calls(self, tree, level):
        """The same by the library's call, node by node."""
        found, node = [], library.lohandema_next_of_level(*tree._words("key"), level, 0)
        while node < len(tree):
            found.append(node)
            node = library.lohandema_next_of_level(*tree._words("key"), level, node + 1)
        return found

    def test_past_the_nodes(self):
        tree = Tree.build([[0.5], [7.5]], Box([4.0], 4.0), limit=1)
        for call in (tree.is_leaf, tree.children):
            with self.assertRaisesRegex(IndexError, "there is no node 3"):
                call(3)
            with self.assertRaisesRegex(KeyError, "no node has the key 17"):
                call(key=17)
            with self.assertRaises(TypeError):
                call()
        with self.assertRaises((TypeError, ValueError)):
            tree.level_nodes(-1)

    def test_deepest(self):
        """Readings in one place split cells down to level 16, which has no children."""
        tree = Tree.build([[1.0]] * 3, Box([4.0], 4.0), limit=1)
        self.assertEqual((tree.depth, tree.children(15), tree.children(16)), (16, [16], []))


if __name__ == "__main__":
    unittest.main()

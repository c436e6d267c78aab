"""The check that each leaf meets each source exactly once, against a plain reading of its words, on lists that are damaged."""

import random
import unittest

from common import numpy, some_points

from lohandema import Box, Tree
from lohandema.arrays import packed
from lohandema.once import less
from lohandema.rows import Lists, Rows


def column(numbers):
    """Whole numbers as the package has them."""
    return numpy.array(numbers, dtype=numpy.int64) if numpy else packed(numbers)


def meets_once(lists, leaf):
    """Whether the parts of all cells that bring a leaf its sources, put in order, follow each other from first to last."""
    tree, end = lists.tree, 0
    nodes = [*tree.nodes_of(lists.near(leaf)), *tree.nodes_of(lists.far_of_path(leaf))]
    for start, total in sorted((int(tree.begin[node]), int(tree.total[node])) for node in nodes):
        if total and start != end:
            return False
        end += total
    return end == tree.total[0]


def damaged(made, tree, rows):
    """Rows with some entries dropped, repeated, or exchanged for other nodes' keys."""
    kept, starts, entries = tree.key.tolist(), [0], []
    for row in rows:
        row = row.tolist()
        if row and made.random() < 0.04:
            place, kind = made.randrange(len(row)), made.randrange(3)
            row[place:place + 1] = [[], [row[place]] * 2, [made.choice(kept)]][kind]
        elif made.random() < 0.01:
            row = sorted(row + [made.choice(kept)])
        entries += row
        starts.append(len(entries))
    return Rows(column(starts), column(entries))


class Once(unittest.TestCase):
    def test_as_read(self):
        """Right lists and damaged ones: the same leaves are at fault."""
        made, found = random.Random(28), 0
        for case in range(60):
            axes = 1 + case % 3
            tree = Tree.build(some_points(made, axes, 4 * case), Box([0.0] * axes, 4.0), limit=1 + case % 4,
                              keep_empty=case % 2 == 0)
            lists = tree.lists()
            self.assertEqual(list(lists.at_fault()), [])
            lists = Lists(tree, damaged(made, tree, lists.u), damaged(made, tree, lists.v))
            right = [int(leaf) for leaf in tree.leaves() if not meets_once(lists, leaf)]
            self.assertEqual([int(leaf) for leaf in lists.at_fault()], right)
            found += len(right)
        self.assertGreater(found, 500)

    def test_key_of_no_node(self):
        tree = Tree.build([[0.5], [7.5]], Box([4.0], 4.0), limit=1)
        lists = Lists(tree, Rows(column([0, 0, 1, 1]), column([17])), Rows(column([0] * 4), column([])))
        with self.assertRaisesRegex(KeyError, "no node has the key 17"):
            lists.at_fault()

    def test_less(self):
        """Parts taken out of parts, against sets of places."""
        made = random.Random(5)
        for _ in range(3000):
            marks = sorted(made.sample(range(24), 2 * made.randrange(5)))
            rest = list(zip(marks[::2], marks[1::2]))
            marks = sorted(made.sample(range(24), 2 * made.randrange(4)))
            parts = list(zip(marks[::2], marks[1::2]))
            whole = all(any(a <= first and last <= b for a, b in rest) for first, last in parts)
            left = less(rest, parts)
            self.assertEqual(left is not None, whole, (rest, parts))
            if whole:
                places = {x for a, b in rest for x in range(a, b)} - {x for a, b in parts for x in range(a, b)}
                self.assertEqual([x for a, b in left for x in range(a, b)], sorted(places))
                self.assertTrue(all(a < b for a, b in left))


if __name__ == "__main__":
    unittest.main()

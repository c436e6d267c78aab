"""The sizes of the lists are those of the lists, and the number of nodes is the build's."""

import random
import unittest

from common import some_points

from lohandema import Box, Grid, Refused, Tree, room


class Sizes(unittest.TestCase):
    def test_those_of_the_lists(self):
        made = random.Random(28)
        for case in range(24):
            axes = 1 + case % 3
            tree = Tree.build(some_points(made, axes, 20 * case), Box([0.0] * axes, 4.0), limit=2 + case % 7,
                              keep_empty=case % 2 == 0)
            lists = tree.lists()
            self.assertEqual(tree.list_sizes(), (len(lists.u.entries), len(lists.v.entries)))

    def test_no_tree(self):
        tree = Tree.from_columns(Box([4.0], 4.0), [0, 1, 32769], [0, 1, 2], [0, 0, 1], [3, 1, 1], [0, 1, 2])
        with self.assertRaises(Refused) as caught:
            tree.list_sizes()
        self.assertEqual(caught.exception.number, 13)

    def test_count_nodes(self):
        """The nodes of the build, with the words that it takes and the refusals that it has; no more than the bound."""
        made = random.Random(9)
        for axes in (1, 2, 3):
            points, targets = some_points(made, axes, 60), some_points(made, axes, 200)
            box = Box([0.0] * axes, 4.0)
            for words in ({"limit": 1}, {"limit": 3, "keep_empty": True},
                          {"limit": 2, "keep_empty": True, "targets": targets, "order": 2}):
                nodes = Tree.count_nodes(points, box, **words)
                self.assertEqual(nodes, len(Tree.build(points, box, **words)))
                self.assertLessEqual(nodes, room.most_nodes(axes, 60, 200 if "targets" in words else 0, words["limit"],
                                                            words.get("order", 1), "keep_empty" in words))
        with self.assertRaises(Refused) as caught:
            Tree.count_nodes([[9.0]], Box([4.0], 4.0))
        self.assertEqual(caught.exception.number, 6)

    def test_nodes_of_the_build(self):
        made = random.Random(29)
        for case in range(36):
            axes = 1 + case % 3
            points = some_points(made, axes, 15 * case)
            words = {"limit": 1 + case % 5, "keep_empty": case % 4 != 1}
            if case % 4 == 2:
                words.update(targets=some_points(made, axes, 40), order=1)
            if case % 4 == 3:
                words.update(grid=Grid([-3.0] * axes, [0.5] * axes, [12] * axes), order=1)
            box = Box([0.0] * axes, 4.0) if case % 2 else None
            if case == 0:
                box = Box([0.0], 4.0)
            self.assertEqual(Tree.count_nodes(points, box, **words), len(Tree.build(points, box, **words)))

    def test_count_refused(self):
        """Whatever the build raises, and with the same words."""
        box = Box([4.0], 4.0)
        for words in (dict(points=[[0.5], [9.0]], box=box), dict(points=[[float("nan")]], box=box),
                      dict(points=[[0.5]], box=box, targets=[[9.0]], order=1, keep_empty=True),
                      dict(points=[[0.5]], box=box, targets=[[1.0]], order=65, keep_empty=True),
                      dict(points=[[0.5]], box=box, targets=[[1.0]], order=1), dict(points=[[0.5]], box=box, limit=-1),
                      dict(points=[[0.5]], box=box, grid=Grid([9.0], [1.0], [2]), order=1, keep_empty=True),
                      dict(points=[[0.5, 0.5]], box=box), dict(points=[[0.5]], box=4.0),
                      dict(points=[[0.5]], box=Box([4.0], 4.0), keep_empty=1)):
            raised = []
            for call in (Tree.build, Tree.count_nodes):
                with self.assertRaises((Refused, ValueError, TypeError), msg=words) as caught:
                    call(**words)
                raised.append((type(caught.exception), str(caught.exception)))
            self.assertEqual(*raised)

    def test_most_nodes(self):
        """As the header's: 0 for other axes, large numbers as the most that count; what is no number is refused."""
        for words, most in (((1, 4, 0, 1, 1, False), 63), ((4, 4, 0, 1, 1, True), 0), ((0, 4, 0, 1, 1, True), 0),
                            ((2 ** 64 - 1, 4, 0, 1, 1, True), 0), ((3, 2 ** 64 - 1, 0, 0, 1, True), 1048576),
                            ((2, 5, 5, 2 ** 64 - 1, 2 ** 64 - 1, True), 5)):
            self.assertEqual(room.most_nodes(*words), most, words)
        for words, kind, said in (((1, 4, 0, -1, 1, True), ValueError, "limit is -1: pass a whole number"),
                                  ((2 ** 64, 4, 0, 1, 1, True), ValueError, "axes is 18446744073709551616"),
                                  ((1, 4.0, 0, 1, 1, True), TypeError, "sources is 4.0"),
                                  ((1, 4, None, 1, 1, True), TypeError, "targets is None"),
                                  ((1, 4, 0, 1, "1", True), TypeError, "order is '1'"),
                                  ((1, 4, 0, 1, 1, 1), TypeError, "keep_empty is 1: pass True or False")):
            with self.assertRaises(kind) as caught:
                room.most_nodes(*words)
            self.assertIn(said, str(caught.exception))


if __name__ == "__main__":
    unittest.main()

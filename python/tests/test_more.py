"""One source more: a known tree, random ones against a build of the longer list, which rows keep their keys, and refusals."""

import random
import unittest

from common import numpy, some_points, with_numpy

from lohandema import Box, Refused, Tree
from lohandema.refusal import not_added
from plain import level_of, touch, up_to

COLUMNS = ("key", "own", "begin", "total", "order")


def columns(tree):
    return {name: getattr(tree, name).tolist() for name in COLUMNS}


def close(axes, a, b):
    """Whether two cells are one or touch at the coarser one's level."""
    level = min(level_of(a), level_of(b))
    return touch(axes, up_to(axes, a, level), up_to(axes, b, level))


def rows_of(tree):
    """Each node's rows by its key."""
    lists = tree.lists()
    return {key: (lists.u[n].tolist(), lists.v[n].tolist()) for n, key in enumerate(tree.key.tolist())}


class More(unittest.TestCase):
    def test_known(self):
        points = [[0.5], [1.5], [6.5], [7.5]]
        tree = Tree.build(points, Box([4.0], 4.0), limit=1)
        before = columns(tree)
        found = tree.with_source(points, [3.0], limit=1, keep_empty=False)
        self.assertEqual(columns(found), {
            "key": [0, 1, 2, 3, 32771, 32770, 32769, 98306, 196611, 229379], "own": [0, 0, 0, 1, 1, 1, 0, 0, 1, 1],
            "begin": [0, 0, 0, 0, 1, 2, 3, 3, 3, 4], "total": [5, 3, 2, 1, 1, 1, 2, 2, 1, 1], "order": [0, 1, 4, 2, 3]})
        self.assertEqual((found.box, columns(tree)), (tree.box, before))
        # the first source of all
        none = Tree.build([], Box([4.0], 4.0))
        self.assertEqual(none.with_source([], [0.5], limit=64, keep_empty=False).key.tolist(), [0, 1])
        none = Tree.build([], Box([4.0], 4.0), limit=0)
        self.assertEqual(len(none.with_source([], [0.5], limit=0, keep_empty=False, progress=False)), 17)

    def test_words(self):
        """Limit and flag are asked for: a tree may be the build with two limits, and each gives its own longer build."""
        points, longer, box = [[0.5], [7.5]], [[0.5], [7.5], [7.0]], Box([4.0], 4.0)
        tree = Tree.build(points, box, limit=1)
        for limit in (1, 64):
            found = tree.with_source(points, [7.0], limit=limit, keep_empty=False)
            self.assertEqual(columns(found), columns(Tree.build(longer, box, limit=limit)))
        self.assertNotEqual(columns(Tree.build(longer, box, limit=1)), columns(Tree.build(longer, box, limit=64)))
        for words, said in (({"limit": 1}, "'keep_empty'"), ({"keep_empty": False}, "'limit'"),
                            ({}, "'limit' and 'keep_empty'")):
            with self.assertRaisesRegex(TypeError, "missing .* keyword-only .*" + said):
                tree.with_source(points, [7.0], **words)

    def test_random(self):
        made, kept = random.Random(7), 0
        for case in range(40):
            axes, keep = 1 + case % 3, made.random() < 0.5
            box, limit = Box([0.0] * axes, 4.0), made.choice([1, 1, 2, 5])
            points = some_points(made, axes, made.choice([0, 1, 9, 40]))
            point = made.choice(points) if points and case % 4 == 0 else some_points(made, axes, 1)[0]
            tree = Tree.build(points, box, limit=limit, keep_empty=keep)
            found = tree.with_source(points, point, limit=limit, keep_empty=keep)
            self.assertEqual(columns(found), columns(Tree.build(points + [point], box, limit=limit, keep_empty=keep)))
            kept += self.check_rows(tree, found, point)
        self.assertGreater(kept, 200)

    def check_rows(self, tree, found, point):
        """How many rows have to keep their keys, each of which does; and that no cell is lost."""
        axes, before, after = tree.box.axes, rows_of(tree), rows_of(found)
        self.assertLessEqual(set(before), set(after))
        cells, kept = [tree.box.key_of(point, level) for level in range(17)], 0
        holder = max((cell for cell in cells if cell in before), key=level_of)
        for node, key in enumerate(tree.key.tolist()):
            level = level_of(key)
            if level and not touch(axes, up_to(axes, key, level - 1), cells[level - 1]):
                self.assertEqual(before[key][1], after[key][1])
                kept += 1
            if tree.is_leaf(node) and not close(axes, key, holder):
                self.assertTrue(found.is_leaf(key=key))
                self.assertEqual(before[key][0], after[key][0])
                kept += 1
        return kept

    @with_numpy
    def test_arrays(self):
        points = numpy.array([[0.5, 1.5], [6.5, 5.5], [6.6, 5.5]])
        tree = Tree.build(points, Box([4.0, 4.0], 4.0), limit=1)
        found = tree.with_source(points, numpy.array([2.0, 2.0]), limit=1, keep_empty=False)
        longer = numpy.vstack([points, [[2.0, 2.0]]])
        self.assertEqual(columns(found), columns(Tree.build(longer, tree.box, limit=1)))
        with self.assertRaisesRegex(TypeError, "points holds float32"):
            tree.with_source(points.astype(numpy.float32), [2.0, 2.0], limit=1, keep_empty=False)

    def test_refused(self):
        points, box = [[0.5], [1.5], [6.5], [7.5]], Box([4.0], 4.0)
        tree = Tree.build(points, box, limit=1)
        broken = Tree.from_columns(box, tree.key, tree.own, tree.begin, tree.own, tree.order)
        swapped = Tree.from_columns(box, tree.key, tree.own, tree.begin, tree.total, [1, 0, 2, 3])
        for of, given, point, words, told in (
                (tree, points, [8.0], {"limit": 1}, (6, 4, 0, 3)), (tree, points, [float("nan")], {"limit": 1}, (6, 4, 0, 1)),
                (tree, points, [3.0], {"limit": 64}, (18, 0, None, None)),
                (tree, points[:3], [3.0], {"limit": 1}, (18, 0, None, None)),
                (tree, points, [3.0], {"limit": 1, "keep_empty": True}, (18, 0, None, None)),
                (tree, points[:3] + [[9.0]], [9.0], {"limit": 1}, (18, 0, None, None)),
                (swapped, points, [9.0], {"limit": 1}, (18, 0, None, None)),
                (broken, points[::-1], [9.0], {"limit": 1}, (13, 0, None, None))):
            with self.assertRaises(Refused) as caught:
                of.with_source(given, point, **{"keep_empty": False, **words})
            refused = caught.exception
            self.assertEqual((refused.number, refused.value, refused.axis, refused.reason), told)
            if refused.number == 18:
                said = ("pass the points, limit and keep_empty with which it was built" if len(given) == 4
                        else "the tree has 4 sources, and 3 points were passed: pass the points with which it was built")
                self.assertIn(said, str(refused))

    def test_cures(self):
        """The cures of this call: a larger box or limit is for a build, and a source that was added is one of the points."""
        points, box = [[0.5], [1.5], [6.5], [7.5]], Box([4.0], 4.0)
        tree = Tree.build(points, box, limit=1)
        above = "the new source, number 4, lies above the box on axis 0: build anew in a larger box, or mend it or leave it out"
        rubbish = "the new source, number 4, is not a finite number on axis 0: mend it, or leave it out"
        for point, told in ((9.0, above), (float("inf"), rubbish)):
            with self.assertRaises(Refused) as caught:
                tree.with_source(points, [point], limit=1, keep_empty=False)
            self.assertEqual((str(caught.exception), caught.exception.value), (told + " (refused 6 SOURCE)", 4))
        more = tree.with_source(points, [3.0], limit=1, keep_empty=False)
        with self.assertRaisesRegex(Refused, "has 5 sources, and 4 points .* behind them each source that was added since"):
            more.with_source(points, [3.5], limit=1, keep_empty=False)
        self.assertEqual(len(more.with_source(points + [[3.0]], [3.5], limit=1, keep_empty=False).order), 6)
        refined = Tree.build(points, box, limit=9, keep_empty=True, targets=[[0.001 * i] for i in range(8000)], order=4)
        near = [[3.3], [3.8], [6.5]]
        balanced = Tree.build(near, box, limit=1, keep_empty=True).balanced(near)
        for given, of, limit in ((points, refined, 9), (near, balanced, 1)):
            with self.assertRaisesRegex(Refused, "a tree that targets or a grid refined, or that was balanced, is to be built anew"):
                of.with_source(given, [3.0], limit=limit, keep_empty=True)
        for number, value, said in ((4, 0, "1048576 points, .* no room for one more: thin"),
                                    (8, 3, "build anew with a higher limit"), (13, 0, "not a well-formed tree")):
            found = not_added(Refused(number, value), 1048576, 1048576)
            self.assertEqual((found.number, found.value), (number, value))
            self.assertRegex(str(found), said)

    def test_bad_input(self):
        points = [[0.5, 1.5], [6.5, 5.5]]
        tree = Tree.build(points, Box([4.0, 4.0], 4.0), limit=1)
        for words, error, said in (
                ((points, [3.0]), ValueError, "point has 1 coordinate, and the box 2 axes"),
                ((points, 3.0), TypeError, "point is of type float: pass a list of its coordinates"),
                ((points, [3.0, "4"]), TypeError, r"point\[1\] is '4'"),
                ((points, None), TypeError, "point is of type NoneType"),
                ((points, {3.0, 4.0}), TypeError, "point is of type set, which has no order of axes: pass a list"),
                ((points, {3.0: 0, 4.0: 0}), TypeError, "point is of type dict, which has no order of axes: pass a list"),
                ((points, b"34"), TypeError, "point is of type bytes, and bytes are no coordinates: pass a list"),
                ((points, bytearray(2)), TypeError, "point is of type bytearray, and bytes are no coordinates: pass a list"),
                ((points, memoryview(b"34")), TypeError, "point is of type memoryview, and bytes are no coordinates"),
                (([[0.5]], [3.0, 3.0]), ValueError, "points has 1 column, and the box 2 axes"),
                (([0.5, 1.5], [3.0, 3.0]), ValueError, "points is a flat list"),
                ((None, [3.0, 3.0]), TypeError, "points is of type NoneType")):
            with self.assertRaisesRegex(error, said):
                tree.with_source(*words, limit=1, keep_empty=False)
        for words, error, said in (({"limit": -1}, ValueError, "limit is -1"), ({"limit": True}, TypeError, "limit is True"),
                                   ({"limit": 1, "keep_empty": 0}, TypeError, "keep_empty is 0: pass True or False")):
            with self.assertRaisesRegex(error, said):
                tree.with_source(points, [3.0, 3.0], **{"keep_empty": False, **words})

    @with_numpy
    def test_arrays_that_are_no_point(self):
        tree = Tree.build([[0.5, 1.5]], Box([4.0, 4.0], 4.0))
        for point, said in ((numpy.array([True, False]), "point holds bool, which is no coordinate: pass float64 numbers"),
                            (numpy.array(3.0), "point is of type ndarray with no dimension: pass a list of its coordinates"),
                            (numpy.float64(3.0), "point is of type float64 with no dimension: pass a list"),
                            (numpy.array([[3.0, 3.0]]), r"point is of type ndarray with 2 dimensions: .*point.reshape\(-1\)")):
            for call in (tree.leaf_of, lambda point: tree.with_source([[0.5, 1.5]], point, limit=64, keep_empty=False)):
                with self.assertRaisesRegex(TypeError, said):
                    call(point)


if __name__ == "__main__":
    unittest.main()

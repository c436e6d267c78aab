"""Bad input: each kind of array that is not taken as it is gets a sentence with its cure; what is taken is not copied."""

import array
import ctypes
import math
import pickle
import time
import unittest
from decimal import Decimal

from common import numpy, table, with_numpy

from lohandema import Box, Refused, Tree, keys

BOX = Box([4.0, 4.0], 4.0)
LINE = Box([4.0], 4.0)


class Bad(unittest.TestCase):
    def refused(self, kind, part, call, *arguments, **options):
        with self.assertRaises(kind) as caught:
            call(*arguments, **options)
        self.assertIn(part, str(caught.exception))

    def points(self, kind, part, points, box=BOX):
        self.refused(kind, part, Tree.build, points, box, limit=1)

    def test_lists(self):
        self.points(TypeError, "points[1] is True, of type bool: pass a float or an int", [[1, 2], [True, 2]])
        self.points(TypeError, "points[0] is '1', of type str", [["1", "2"]])
        self.points(TypeError, "points[0] is None", [[None, 2.0]])
        self.points(TypeError, "points[0] is Decimal('1')", [[Decimal(1), 2.0]])
        self.points(TypeError, "points[0] is (1+0j)", [[1 + 0j, 2.0]])
        self.points(ValueError, "points[0] is 9007199254740993, which is no float64", [[2 ** 53 + 1, 2.0]])
        self.points(ValueError, "which is no float64", [[10 ** 400, 2.0]])
        self.points(ValueError, "points[1] is not a list of 2 numbers (1 entries)", [[1.0, 2.0], [1.0]])
        self.points(ValueError, "points[1] is not a list of 2 numbers (float)", [[1.0, 2.0], 1.0])
        self.points(ValueError, "points has 3 columns, and the box 2 axes", [[1.0, 2.0, 3.0]])
        self.points(ValueError, "points has 1 column, and the box 2 axes", [[1.0]])
        self.points(ValueError, "points is a flat list", [1.0, 2.0])
        self.points(ValueError, "points is a flat list", [1.0, 2.0], None)
        self.points(ValueError, "points has 4 columns, and 1 to 3 axes are taken", [[1.0, 2.0, 3.0, 4.0]], None)
        self.points(ValueError, "points has 0 columns", [[]])
        self.points(TypeError, "points[0] is 'a'", "a b".split())
        self.points(TypeError, "points is of type str", "1,2")
        self.points(TypeError, "points is of type dict", {})
        self.points(TypeError, "points is of type NoneType", None)
        self.points(TypeError, "points is of type generator", (x for x in [[1, 2]]))

    def test_lists_taken(self):
        """Ints and floats are numbers; a flat list or array is points where the box has one axis."""
        tree = Tree.build([[1, 2.5], (3, 4)], BOX, limit=1)
        self.assertEqual(tree.order.tolist(), [0, 1])
        for points in ([0.5, 7], [[0.5], [7]], array.array("d", [0.5, 7])):
            self.assertEqual(Tree.build(points, LINE, limit=1).key.tolist(), [0, 1, 32769])

    def test_views(self):
        """Arrays of the standard library."""
        flat = array.array("d", [1.0, 2.0, 3.0, 4.0])
        tree = Tree.build(memoryview(flat).cast("B").cast("d", [2, 2]), BOX, limit=1)
        self.assertEqual(tree.order.tolist(), [0, 1])
        tree = Tree.build(memoryview(bytes(flat)).cast("d", [2, 2]), BOX, limit=1)
        self.assertEqual(tree.order.tolist(), [0, 1])
        self.points(ValueError, "points has 1 dimension, and rows of coordinates have two: pass points.reshape(-1, 2)", flat)
        self.points(ValueError, "points has 1 dimension", flat, None)
        self.points(TypeError, "points holds float32, and float64 is taken", array.array("f", [1.0]), LINE)
        self.points(TypeError, "points holds int64, and float64 is taken", array.array("q", [1]), LINE)
        self.points(TypeError, "points holds uint8, and float64 is taken", b"12345678", LINE)
        self.points(ValueError, "points is not C-contiguous", memoryview(flat)[::2], LINE)
        self.points(TypeError, "points is big-endian", (ctypes.c_double.__ctype_be__ * 2)(1.0, 2.0), LINE)
        odd = memoryview(bytearray(17))[1:].cast("d")
        self.points(ValueError, "points is not aligned to eight bytes", odd, LINE)

    @with_numpy
    def test_numpy(self):
        cure = "pass numpy.ascontiguousarray(points, dtype=float)"
        good = numpy.array([[1.0, 2.0], [3.0, 4.0], [5.0, 6.0]])
        for kind in ("float32", "float16", "longdouble", "int64", "int32", "uint8", "bool", "complex128", "complex64", "U3",
                     "object"):
            part = "points holds " + str(numpy.dtype(kind))
            self.points(TypeError, part, good.astype(kind))
            if kind.startswith("complex"):
                self.points(TypeError, "taken: pass the real numbers that are meant, as those of points.real", good.astype(kind))
            elif kind != "bool":
                self.points(TypeError, cure, good.astype(kind))
        self.points(TypeError, "points holds datetime64[s]", good.astype("int64").astype("datetime64[s]"))
        self.points(TypeError, "points holds", numpy.zeros(3, dtype=[("x", float), ("y", float)]))
        self.points(TypeError, "points is big-endian, and the byte order of this processor is taken: " + cure,
                    good.astype(">f8"))
        self.points(ValueError, "points is not C-contiguous (it is in Fortran order, or a part of a larger array): " + cure,
                    numpy.asfortranarray(good))
        self.points(ValueError, "points is not C-contiguous", numpy.zeros((3, 4))[:, :2])
        self.points(ValueError, "points is not C-contiguous", numpy.ones((6, 2))[::2])
        self.points(ValueError, "points has 1 dimension, and rows of coordinates have two: pass points.reshape(-1, 2)",
                    good.reshape(-1))
        self.points(ValueError, "points has 3 dimensions", numpy.zeros((2, 2, 2)))
        self.points(ValueError, "points has 0 dimensions", numpy.array(1.0))
        self.points(ValueError, "points has 3 columns, and the box 2 axes", numpy.ones((2, 3)))
        self.points(ValueError, "points has 0 columns", numpy.ones((2, 0)))
        self.points(TypeError, "points is a masked array", numpy.ma.masked_array(good, good > 4))
        self.points(TypeError, "points[0] is of type ndarray, and a row is a list of numbers: " + cure, [good[0], good[1]])
        self.points(ValueError, "points[1] is not a list of 2 numbers (ndarray)", [[1.0, 2.0], good[1]])
        odd = numpy.frombuffer(bytes(49), dtype=float, count=6, offset=1).reshape(3, 2)
        self.points(ValueError, "points is not aligned", odd)
        for cured in (good.astype("float32"), good.astype(">f8"), numpy.asfortranarray(good), good.astype(int),
                      numpy.array(odd), numpy.ones((6, 2))[::2]):
            self.assertEqual(len(Tree.build(numpy.ascontiguousarray(cured, dtype=float), BOX).order), 3)

    @with_numpy
    def test_numpy_taken(self):
        """Read-only arrays, and those of a file, as nothing is written to them; and no points at all."""
        good = numpy.array([[1.0, 2.0], [3.0, 4.0]])
        good.flags.writeable = False
        self.assertEqual(Tree.build(good, BOX, limit=1).order.tolist(), [0, 1])
        self.assertEqual(Tree.build(numpy.empty((0, 2)), BOX).key.tolist(), [0])
        self.assertEqual(Tree.build(good[:1], BOX).order.tolist(), [0])
        self.assertEqual(Tree.build([[numpy.float64(1.0), numpy.int64(2)]], BOX).order.tolist(), [0])

    @with_numpy
    def test_not_copied(self):
        """An array is passed on where it stands."""
        from lohandema.arrays import Points
        good = numpy.ones((5, 2))
        self.assertEqual(Points(good, None).lent.address, good.ctypes.data)

    def test_empty(self):
        """No points are a tree of the root, with empty cells of its children too; without a box there is none to make."""
        self.assertEqual(Tree.build([], BOX).key.tolist(), [0])
        self.assertEqual(Tree.build([], BOX, keep_empty=True).key.tolist(), [0, 1, 32769, 65537, 98305])
        self.points(ValueError, "there are no points to put a box around", [], None)
        self.assertEqual(Tree.build([], BOX).lookup([]).tolist(), [])
        self.refused(ValueError, "there are no points to put a box around", Box.around)

    def test_not_finite(self):
        for bad, reason in ((math.nan, 1), (math.inf, 1), (-math.inf, 1), (8.0, 3), (-1e300, 2)):
            with self.assertRaises(Refused) as caught:
                Tree.build([[1.0, 2.0], [1.0, bad]], BOX)
            refused = caught.exception
            self.assertEqual((refused.number, refused.value, refused.axis, refused.reason), (6, 1, 1, reason))
        for rows in ([[1.0, 2.0], [math.nan, 2.0]], [[1.0, 2.0]] * 600 + [[math.inf, 1.0]]):
            self.points(ValueError, "points[%d] is not a finite number on axis 0, so there is no box around it: mend or remove "
                        "the point" % (len(rows) - 1), rows, None)
            with self.assertRaises(ValueError) as caught:
                Tree.build(rows)
            self.assertNotIn("box=", str(caught.exception))

    def test_not_finite_at_the_end(self):
        """The row is found soon, also the last of many."""
        flat = array.array("d", [1.0]) * 3145727 + array.array("d", [math.nan])
        points = memoryview(flat).cast("B").cast("d", [1048576, 3])
        started = time.process_time()
        self.points(ValueError, "points[1048575] is not a finite number on axis 2", points, None)
        self.assertLess(time.process_time() - started, 2.0)

    def test_one_place(self):
        """Points at one place give no box; where they are no whole numbers, rounding gives them one."""
        for points in ([[3.0, 4.0]], [[3, 4]] * 5):
            for call in (Tree.build, Box.around):
                with self.assertRaises(Refused) as caught:
                    call(points)
                self.assertEqual((caught.exception.number, caught.exception.value), (2, 0))
                self.assertIn("are one place, and the box of their extents has no size: give a box, as box=Box(centre, radius) "
                              "(refused 2 BOX)", str(caught.exception))
                self.assertEqual(str(pickle.loads(pickle.dumps(caught.exception))), str(caught.exception))
        self.assertEqual(Box.around([[3.5, 4.0]]), Box([3.5, 4.0], 0.501))

    def test_too_wide(self):
        """No box holds points that lie too far apart, so none is asked for."""
        for points in ([[0.0], [3e6]], [[17e6], [17e6 + 9]], [[-1.7e308], [1.7e308]]):
            with self.assertRaises(Refused) as caught:
                Tree.build(points)
            self.assertEqual(caught.exception.number, 2)
            self.assertIn("shift and scale the coordinates into it (refused 2 BOX)", str(caught.exception))

    def test_boxes(self):
        for centre, radius, number in (([], 1.0, 1), ([1.0] * 4, 1.0, 1), ([0.0], 0.2, 2), ([0.0], math.nan, 2),
                                       ([0.0], 1048577, 2), ([math.inf], 1.0, 2), ([16777217.0], 1.0, 2)):
            with self.assertRaises(Refused) as caught:
                Box(centre, radius)
            self.assertEqual(caught.exception.number, number)
        self.refused(TypeError, "centre is of type float: pass a list of its coordinates, as [4.0]", Box, 4.0, 4.0)
        self.refused(TypeError, "centre is of type str", Box, "4", 4.0)
        self.refused(TypeError, "radius is '4'", Box, [4.0], "4")
        self.refused(TypeError, "box is of type tuple: pass a Box", Tree.build, [[1.0]], ([4.0], 4.0))
        self.refused(AttributeError, "a box does not change", setattr, BOX, "radius", 1.0)
        with self.assertRaises(Refused) as caught:
            Box.from_extents([3.0, 3.0])
        self.assertEqual(caught.exception.number, 2)
        with self.assertRaises(Refused) as caught:
            Box.from_extents([3.0, 3.0, 1.0])
        self.assertEqual(caught.exception.number, 1)
        self.refused(TypeError, "extents is of type NoneType: pass their numbers, the lows and then the highs", Box.from_extents,
                     None)
        self.refused(ValueError, "the points have 1 and 2 columns", Box.around, [[1.0]], [[1.0, 2.0]])

    def test_options(self):
        self.refused(TypeError, "limit is 1.5, of type float: pass a whole number", Tree.build, [[1.0, 1.0]], BOX, limit=1.5)
        self.refused(TypeError, "limit is True", Tree.build, [[1.0, 1.0]], BOX, limit=True)
        self.refused(ValueError, "limit is -1: pass a whole number from 0", Tree.build, [[1.0, 1.0]], BOX, limit=-1)
        self.refused(ValueError, "limit is 18446744073709551616", Tree.build, [[1.0, 1.0]], BOX, limit=2 ** 64)
        self.refused(TypeError, "keep_empty is 1: pass True or False", Tree.build, [[1.0, 1.0]], BOX, keep_empty=1)
        self.refused(TypeError, "box is of type list: pass a Box", Tree.build, [[1.0, 1.0]], [4.0, 4.0])
        aims = {"targets": [[1.0, 1.0]]}
        self.refused(TypeError, "targets and a grid take order=", Tree.build, [[1.0, 1.0]], BOX, keep_empty=True, **aims)
        self.refused(ValueError, "pass keep_empty=True, or no targets", Tree.build, [[1.0, 1.0]], BOX, order=1, **aims)
        self.refused(ValueError, "targets has 1 column", Tree.build, [[1.0, 1.0]], BOX, order=1, keep_empty=True, targets=[[1]])
        for order, number in ((0, 5), (65, 5)):
            with self.assertRaises(Refused) as caught:
                Tree.build([[1.0, 1.0]], BOX, order=order, keep_empty=True, **aims)
            self.assertEqual(caught.exception.number, number)
        with self.assertRaises(Refused) as caught:
            Tree.build([[1.0, 1.0]], BOX, order=1, keep_empty=True, targets=[[1.0, 1.0], [1.0, -0.1]])
        refused = caught.exception
        self.assertEqual((refused.number, refused.value, refused.axis, refused.reason), (7, 1, 1, 2))
        self.refused(TypeError, "a tree is made by Tree.build", Tree, [[1.0]])

    def test_too_many(self):
        with self.assertRaises(Refused) as caught:
            Tree.build(table(1048577, 1), Box([0.5], 0.5))
        self.assertEqual((caught.exception.number, caught.exception.name), (4, "COUNT"))

    def test_too_deep(self):
        """More nodes than there is room for: the sentence says what to do."""
        with self.assertRaises(Refused) as caught:
            Tree.build(table(120000, 3), Box([0.5] * 3, 0.5), limit=0)
        self.assertEqual((caught.exception.number, caught.exception.value), (8, 3))
        self.assertIn("raise the limit", str(caught.exception))

    def test_keys(self):
        tree = Tree.build([0.5, 7.0], LINE, limit=1)
        self.refused(TypeError, "pass points, or the keys of their leaves as keys=", tree.groups)
        self.refused(TypeError, "keys[0] is 1.0", tree.groups, keys=[1.0])
        self.refused(TypeError, "keys holds float64, and int64 or uint64 is taken", tree.groups, keys=array.array("d", [1.0]))
        self.refused(TypeError, "keys holds int32", tree.groups, keys=array.array("i", [1, 1]))
        self.refused(ValueError, "keys[0] is -1: pass a whole number", tree.groups, keys=[-1])
        self.refused(IndexError, "there is no node 3: they are numbered from 0 to 2", tree.leaf_sources, 3)
        self.refused(ValueError, "node is -1", tree.cell_sources, -1)
        self.refused(TypeError, "pass a node's number, or its key as key=", tree.leaf_sources)
        self.refused(TypeError, "pass a node's number, or its key as key=", tree.leaf_sources, 1, key=1)
        self.refused(KeyError, "no node has the key 77", tree.leaf_sources, key=77)
        for wanted in (2 ** 64 - 1, 2 ** 63, 32767, 17, 131072 + 1):
            self.refused(KeyError, "no node has the key %d" % wanted, tree.node_of, wanted)
        self.refused(KeyError, "no node has the key 1", Tree.build([], LINE).node_of, 1)
        lists = tree.lists()
        self.refused(IndexError, "there is no node 3", lists.near, 3)
        self.refused(IndexError, "there is no row -1", lists.u.__getitem__, -1)
        with self.assertRaises(Refused) as caught:
            tree.groups(keys=array.array("q", [1, -1]))
        self.assertEqual((caught.exception.number, caught.exception.value), (14, 1))
        for call, number in ((lambda: keys.level(2, 131073), 9), (lambda: keys.level(4, 0), 1), (lambda: keys.parent(2, 0), 10),
                             (lambda: keys.children(1, 16), 11), (lambda: keys.encode([1, 2, 3, 4], 3), 1),
                             (lambda: keys.encode([8], 3), 9), (lambda: keys.encode([0], 17), 9)):
            with self.assertRaises(Refused) as caught:
                call()
            self.assertEqual(caught.exception.number, number)
        self.refused(ValueError, "key is -1", keys.level, 1, -1)
        self.refused(TypeError, "level is 1.0", keys.encode, [1], 1.0)
        self.refused(TypeError, "anchor is of type int: pass a list of one for each axis, as [3]", keys.encode, 1, 3)
        for node in (slice(0, 2), 1.0, None, "1", numpy.array([0, 1]) if numpy else [0, 1]):
            self.refused(TypeError, "of type %s: pass the number of one row" % type(node).__name__, lists.u.__getitem__, node)

    def test_points_of_a_tree(self):
        tree = Tree.build([0.5, 7.0], LINE, limit=1)
        self.refused(ValueError, "point has 2 coordinates, and the box 1 axis", tree.leaf_of, [1.0, 2.0])
        self.refused(ValueError, "point has 1 coordinate, and the box 2 axes", Box([4.0, 4.0], 4.0).key_of, [1.0], 3)
        self.refused(TypeError, "point is of type float", tree.leaf_of, 1.0)
        self.refused(ValueError, "points has 2 columns, and the box 1 axis", tree.lookup, [[1.0, 2.0]])
        with self.assertRaises(Refused) as caught:
            tree.lookup([[1.0], [9.0]])
        refused = caught.exception
        self.assertEqual((refused.number, refused.value, refused.axis, refused.reason), (7, 1, 0, 3))

    def test_read_only(self):
        """What the package answers is not written to by chance."""
        tree = Tree.build([0.5, 7.0], LINE, limit=1)
        self.refused(AttributeError, "a tree does not change", setattr, tree, "key", tree.key)
        for column in (tree.key, tree.order, tree.lists().u.entries, tree.lookup([1.0])):
            with self.assertRaises((TypeError, ValueError)):
                column[0] = 1


if __name__ == "__main__":
    unittest.main()

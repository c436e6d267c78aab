"""Salvage of columns: known damage, random damage beside a plain reading of the rule, what comes back, and what is refused."""

import array
import random
import unittest

from common import some_points, with_numpy

from lohandema import Box, Change, Refused, Tree
from plain import children, level_of

COLUMNS = ("key", "own", "begin", "total", "order")
MOST = 2 ** 64 - 1


def valid(axes, key):
    return level_of(key) <= 16 and key // 32768 < 2 ** (axes * level_of(key))


def upwards(axes, key):
    """A cell and all that hold it."""
    level, code = level_of(key), key // 32768
    return [(code >> axes * up) * 32768 + level - up for up in range(level + 1)]


def plain(axes, key, own, begin, order):
    """What can be had, by the words of the rule: the columns, and the changes."""
    kept = {}
    for row, one in enumerate(key):
        if valid(axes, one):
            kept.setdefault(one, row)
    cells, nodes, found = {0}, [], {name: [] for name in COLUMNS}
    for one in kept:
        cells.update(upwards(axes, one))

    def walk(cell):
        below = [child for child in children(axes, cell) if child in cells] if level_of(cell) < 16 else []
        row = kept.get(cell)
        fits = row is not None and cell and not below and begin[row] + own[row] <= len(order)
        nodes.append(cell)
        found["begin"].append(len(found["order"]))
        found["own"].append(own[row] if fits else 0)
        found["order"].extend(order[begin[row]:begin[row] + own[row]] if fits else [])
        for child in below:
            walk(child)

    walk(0)
    found["key"] = nodes
    found["total"] = [sum(count for other, count in zip(nodes, found["own"]) if cell in upwards(axes, other)) for cell in nodes]
    node = {cell: n for n, cell in enumerate(nodes)}
    rows = [(row, one) for row, one in enumerate(key) if kept.get(one) == row]
    changes = [(1, one) for one in key if not valid(axes, one)]
    changes += [(2, one) for row, one in enumerate(key) if valid(axes, one) and kept[one] != row]
    changes += [(3, one) for one in sorted(cells - set(kept))]
    changes += [(4, one) for row, one in rows if own[row] and not found["own"][node[one]]]
    changes += [(5, one) for row, one in rows if begin[row] != found["begin"][node[one]]]
    return found, changes


class Salvage(unittest.TestCase):
    def same(self, axes, key, own, begin, order):
        """What is had is what the rule says, is a tree, and comes back the same."""
        box = Box([4.0] * axes, 4.0)
        tree, changes = Tree.salvage(box, key, own, begin, order)
        columns, said = plain(axes, key, own, begin, order)
        self.assertEqual({name: [x % 2 ** 64 for x in getattr(tree, name).tolist()] for name in COLUMNS}, columns)
        self.assertEqual([tuple(one) for one in changes], said)
        self.assertTrue(tree.is_well_formed())
        again, none = Tree.salvage(box, tree.key, tree.own, tree.begin, tree.order)
        self.assertEqual([getattr(again, name).tolist() for name in COLUMNS], [getattr(tree, name).tolist() for name in COLUMNS])
        self.assertEqual(none, [])
        return tree, changes

    def test_known(self):
        tree, changes = self.same(1, [3, 17, 3, 98306, 65538, 2], [2, 1, 1, 2, 1, 1], [0, 0, 0, 4, 4, 3], [7, 9, 9, 0, 4])
        self.assertEqual(tree.key.tolist(), [0, 1, 2, 3, 32769, 65538, 98306])
        self.assertEqual((tree.own.tolist(), tree.begin.tolist()), ([0, 0, 0, 2, 0, 1, 0], [0, 0, 0, 0, 2, 2, 3]))
        self.assertEqual((tree.total.tolist(), tree.order.tolist()), ([3, 2, 2, 2, 1, 1, 0], [7, 9, 4]))
        self.assertEqual([tuple(one) for one in changes], [(1, 17), (2, 3), (3, 0), (3, 1), (3, 32769), (4, 98306), (4, 2),
                                                           (5, 98306), (5, 65538), (5, 2)])

    def test_traps(self):
        """No rows, added cells by key, runs to the end and past all numbers, the largest number as key, count and begin."""
        for rows, said in (
                (([], [], [], []), [(3, 0)]),
                (([65539, 131075], [0, 0], [0, 0], []), [(3, 0), (3, 1), (3, 32769), (3, 32770), (3, 65538)]),
                (([1], [1], [MOST], [7]), [(3, 0), (4, 1), (5, 1)]),
                (([0, 1], [0, 2], [0, 1], [5, 6, 7]), [(5, 1)]),
                (([0, 1], [0, 2], [0, 2], [5, 6, 7]), [(4, 1), (5, 1)]),
                (([0, 1], [0, 0], [0, 9], []), [(5, 1)]),
                (([0, 1], [0, MOST], [0, 1], [MOST] * 3), [(4, 1), (5, 1)]),
                (([MOST, 0, MOST], [MOST, 0, 1], [0, 0, 0], [1]), [(1, MOST), (1, MOST)])):
            self.assertEqual([tuple(one) for one in self.same(1, *rows)[1]], said)

    def test_random(self):
        made = random.Random(8)
        for case in range(90):
            axes = 1 + case % 3
            points = some_points(made, axes, made.choice([0, 3, 20]))
            tree = Tree.build(points, Box([0.0] * axes, 4.0), limit=made.randint(1, 3), keep_empty=made.random() < 0.3)
            if len(tree) > 300:
                continue
            rows = [list(row) for row in zip(tree.key.tolist(), tree.own.tolist(), tree.begin.tolist())]
            order = tree.order.tolist()
            for _ in range(made.randrange(5)):
                at, end = made.randrange(len(rows)), len(order)
                number = made.choice([0, 1, end, end + 1, MOST, made.randrange(end + 1)])
                kind = made.randrange(8)
                if kind == 0 and len(rows) > 1:
                    del rows[at]
                elif kind == 1:
                    rows.insert(made.randrange(len(rows)), [rows[at][0], number, 0])
                elif kind == 2:
                    made.shuffle(rows)
                elif kind == 3:
                    rows[at][0] = made.choice([17, 32768, MOST, 2 ** axes * 32768 + 1])
                elif kind in (4, 5):
                    rows[at][kind - 3] = number
                elif kind == 6:
                    order = order[:number]
                else:
                    rows[at][1:] = [end - end // 2, end // 2]
            self.same(axes, *[list(one) for one in zip(*rows)], order)

    def test_comes_back(self):
        tree = Tree.build([[0.5], [1.5], [6.5], [7.5]], Box([4.0], 4.0), limit=1)
        found, changes = Tree.salvage(tree.box, tree.key, tree.own, tree.begin, tree.order, progress=False)
        self.assertEqual([getattr(found, name).tolist() for name in COLUMNS], [getattr(tree, name).tolist() for name in COLUMNS])
        self.assertEqual((changes, found.box), ([], tree.box))
        self.assertEqual(len(found.lists().u), 9)

    def test_arrays(self):
        """What is no list of ints: arrays of both signs; and what is refused as no column."""
        for letter in "qQ":
            key, own, begin, order = (array.array(letter, numbers) for numbers in ([32769, 1], [1, 1], [0, 1], [5, 6]))
            tree, changes = Tree.salvage(Box([4.0], 4.0), key, own, begin, order)
            self.assertEqual((tree.order.tolist(), len(changes)), ([6, 5], 3))
        for wrong in (None, 3, "03", [0.5], [-1], array.array("d", [0.0]), [[0]]):
            with self.assertRaises((TypeError, ValueError)):
                Tree.salvage(Box([4.0], 4.0), wrong, [0], [0], [])
        with self.assertRaises(TypeError):
            Tree.salvage(None, [0], [0], [0], [])

    def test_large_entries(self):
        """Entries of the order column that int64 cannot hold come out as they were passed; so do those below 0."""
        large = [MOST, 2 ** 63, 2 ** 63 - 1, 0]
        for given in (large, array.array("Q", large), memoryview(array.array("Q", large))):
            tree, changes = Tree.salvage(Box([4.0], 4.0), [0, 1], [0, 4], [0, 0], given)
            self.assertEqual((tree.order.tolist(), tree.leaf_sources(1).tolist(), changes), (large, large, []))
            # only those that are left count
            tree, _ = Tree.salvage(Box([4.0], 4.0), [0, 1], [0, 2], [0, 2], given)
            self.assertEqual((tree.order.tolist(), memoryview(tree.order).format in "lq"), (large[2:], True))
        tree, _ = Tree.salvage(Box([4.0], 4.0), [0, 1], [0, 2], [0, 0], array.array("q", [-1, 5]))
        self.assertEqual(tree.order.tolist(), [-1, 5])

    def test_cures(self):
        """No conversion is told that would misread what was passed, or cut it."""
        for wrong, cure in (
                (None, "key is of type NoneType, and is no array that can be read as it is: pass a list of ints, one an entry"),
                ("03", "key is of type str, "), ({0: 1}, "key is of type dict, "), ((x for x in [0]), "key is of type generator, "),
                (array.array("d", [0.5]), "key holds float64, and int64 or uint64 is taken: pass the whole numbers that are meant"),
                (array.array("i", [5]), "key holds int32, and int64 or uint64 is taken: pass ")):
            with self.assertRaises(TypeError) as caught:
                Tree.salvage(Box([4.0], 4.0), wrong, [0], [0], [])
            self.assertIn(cure, str(caught.exception))
            self.assertEqual("ascontiguousarray" in str(caught.exception) or "array.array('q', key)" in str(caught.exception),
                             isinstance(wrong, array.array) and wrong.typecode == "i")

    @with_numpy
    def test_numpy(self):
        import numpy
        key, zeros = numpy.arange(65536, dtype=numpy.int64) * 32768 + 16, numpy.zeros(65536, dtype=numpy.int64)
        tree, changes = Tree.salvage(Box([4.0], 4.0), key[::-1].copy(), zeros, zeros, zeros[:0])
        self.assertEqual((len(tree), len(changes), changes[-1]), (131071, 65535, Change(3, 32767 * 32768 + 15)))
        for kind, cure in (("int32", "taken: pass numpy.ascontiguousarray(key, dtype=numpy.int64)"),
                           ("float64", "taken: pass the whole numbers that are meant, as ints; a conversion would cut fractions")):
            with self.assertRaises(TypeError) as caught:
                Tree.salvage(Box([4.0], 4.0), key.astype(kind), zeros, zeros, zeros)
            self.assertIn(cure, str(caught.exception))
        large = numpy.array([2 ** 64 - 1, 3], dtype=numpy.uint64)
        tree, _ = Tree.salvage(Box([4.0], 4.0), [0, 1], [0, 2], [0, 0], large)
        self.assertEqual((tree.order.dtype, tree.order.tolist(), tree.order.flags.writeable), (numpy.uint64, large.tolist(), False))

    def test_refused(self):
        box = Box([4.0], 4.0)
        for own, begin in (([0], [0, 0]), ([0, 0], [0]), ([], [0, 0]), ([0, 0, 0], [0, 0, 0])):
            with self.assertRaises(Refused) as caught:
                Tree.salvage(box, [0, 1], own, begin, [])
            self.assertEqual(caught.exception.number, 3)
            self.assertIn("key, own and begin have 2, %d and %d entries: pass" % (len(own), len(begin)), str(caught.exception))
        order = array.array("q", range(600000))
        tree, _ = Tree.salvage(box, [1, 32769], [600000, 448576], [0, 0], order)
        self.assertEqual(len(tree.order), 1048576)
        with self.assertRaises(Refused) as caught:
            Tree.salvage(box, [1, 32769], [600000, 448577], [0, 0], order)
        self.assertEqual((caught.exception.number, caught.exception.value), (13, 0))
        self.assertIn("more than 1048576 sources, as runs overlap", str(caught.exception))

    def test_too_many_nodes(self):
        key = array.array("q", (code * 32768 + 7 for code in range(2 ** 20)))
        zeros = array.array("q", [0]) * len(key)
        with self.assertRaises(Refused) as caught:
            Tree.salvage(Box([4.0] * 3, 4.0), key, zeros, zeros, [])
        self.assertEqual((caught.exception.number, caught.exception.value), (8, 3))
        self.assertIn("more than 1048576 nodes: pass the rows of a part", str(caught.exception))

    def test_change(self):
        said = [str(Change(code, 98306)) for code in range(1, 6)]
        self.assertEqual(len(set(said)), 5)
        for code, one in enumerate(said, 1):
            self.assertTrue(one.startswith("key 98306: ") and one.endswith(" (change %d)" % code), one)
            self.assertEqual(one, "key 98306: %s (change %d)" % (Change(code, 98306).sentence, code))


if __name__ == "__main__":
    unittest.main()

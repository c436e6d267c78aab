"""The keys and the box: the figures of docs/RULES.md, and random keys against a plain reading of the rules."""

import math
import pickle
import random
import unittest

import common  # noqa: F401, which says where the others are
import plain
import survey_file as house

from lohandema import Box, Refused, keys


class Keys(unittest.TestCase):
    def test_rules(self):
        """The keys that docs/RULES.md names."""
        self.assertEqual(keys.encode([3, 5], 3), 1277955)
        self.assertEqual((keys.parent(2, 1277955), keys.child_index(2, 1277955)), (294914, 3))
        self.assertEqual(keys.encode([1, 0, 1], 1), 163841)
        self.assertEqual(keys.encode([65535], 16), 2147450896)
        self.assertEqual(keys.encode([65535] * 3, 16), 9223372036854743056)
        self.assertEqual(keys.decode(3, 9223372036854743056), ([65535] * 3, 16))
        self.assertEqual(keys.neighbours(2, 1), [65537, 32769, 98305])
        self.assertEqual(keys.neighbours(3, 0), [])
        self.assertEqual(keys.children(1, 1), [2, 32770])
        depths = [keys.reference_depth(*asked) for asked in ((3, 0), (3, 8), (3, 9), (2, 16), (2, 17), (1, 65537))]
        self.assertEqual(depths, [1, 1, 2, 2, 3, 16])
        with self.assertRaises(Refused) as caught:
            keys.level(2, 131073)
        self.assertEqual(str(caught.exception.name), "KEY")

    def test_random(self):
        made = random.Random(1)
        for _ in range(300):
            axes, level = made.randint(1, 3), made.randint(0, 16)
            anchors = [made.choice([0, 2 ** level - 1, made.randrange(2 ** level)]) for _ in range(axes)]
            key = house.key_of(anchors, level)
            self.assertEqual(keys.encode(anchors, level), key)
            self.assertEqual((keys.decode(axes, key), keys.level(axes, key)), ((anchors, level), level))
            self.assertEqual(keys.ancestors(axes, key), house.ancestors(axes, key))
            self.assertEqual(sorted(keys.neighbours(axes, key)), sorted(plain.neighbours(axes, key)))
            if level < 16:
                self.assertEqual(keys.children(axes, key), plain.children(axes, key))
            if level:
                self.assertIn(key, keys.siblings(axes, key))
            for other in plain.neighbours(axes, key) + [key, 0]:
                self.assertEqual(keys.touching(axes, key, other), plain.touch(axes, key, other))


class Boxes(unittest.TestCase):
    def test_point(self):
        """Points at the walls of the box 4, radius 4, and one that rounds to a wall."""
        box = Box([4.0], 4.0)
        self.assertEqual([box.anchor_of([x], 16) for x in (0.0, -0.0, 7.9999)], [[0], [0], [65535]])
        for x, reason in ((-5e-324, 2), (math.nan, 1), (8.0, 3), (math.inf, 1)):
            with self.assertRaises(Refused) as caught:
                box.key_of([x], 16)
            self.assertEqual((caught.exception.number, caught.exception.axis, caught.exception.reason), (7, 0, reason))
        with self.assertRaises(Refused):
            Box([0.0], 4.0).key_of([3.9999999999999996], 16)

    def test_cells(self):
        box = Box([4.0, -1.0], 4.0)
        for key in (0, 1, 1277955):
            anchors, level = keys.decode(2, key)
            side = 8.0 / 2 ** level
            middle = [(anchor + 0.5) * side + (c - 4.0) for anchor, c in zip(anchors, box.centre)]
            self.assertEqual(box.cell(key), (middle, side))
            self.assertEqual(box.side(level), side)
        self.assertEqual([box.adjacent(a, b) for a, b in ((3, 3), (0, 3), (3, 1277955))], [True, True, False])

    def test_from_extents(self):
        box = Box.from_extents([0.5, -3, 7.5, 1])
        self.assertEqual((box, repr(box), hash(box)), (Box([4, -1], 4.001), "Box([4.0, -1.0], 4.001)", hash(Box([4, -1], 4.001))))
        self.assertEqual(pickle.loads(pickle.dumps(box)), box)
        self.assertNotEqual(box, Box([4, -1], 4.0))

    def test_around(self):
        """The same as of the extents, whatever the number of points; all of them are inside."""
        made = random.Random(2)
        for count in (1, 2, 255, 256, 257, 700):
            for axes in (1, 2, 3):
                rows = [[made.uniform(-100, 100) for _ in range(axes)] for _ in range(count)]
                rows.append([made.choice([-300.0, 300.0]) for _ in range(axes)])  # the farthest comes last
                columns = list(zip(*rows))
                box = Box.around(rows)
                self.assertEqual(box, Box.from_extents([min(c) for c in columns] + [max(c) for c in columns]))
                self.assertEqual(Box.around(rows[:1], rows[1:]), box)
                for row in rows:
                    box.key_of(row, 16)


if __name__ == "__main__":
    unittest.main()

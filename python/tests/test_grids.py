"""Builds on a grid: the trees of the listed points, refusals, and grids that are none."""

import math
import pickle
import random
import unittest

from common import numpy, some_points, table, with_numpy

from lohandema import Box, Grid, Refused, Tree


class Grids(unittest.TestCase):
    def refused(self, kind, said, call, *given, **options):
        with self.assertRaises(kind) as caught:
            call(*given, **options)
        self.assertIn(said, str(caught.exception))

    def figures(self, number, grid, **options):
        """The value, axis and reason of a refusal, on one axis from 0 to 8 with one source."""
        options = {"box": Box([4.0], 4.0), "order": 1, "keep_empty": True, "limit": 1, **options}
        with self.assertRaises(Refused) as caught:
            Tree.build([[0.5]], grid=grid, **options)
        refused = caught.exception
        self.assertEqual(refused.number, number)
        return refused.value, refused.axis, refused.reason

    def same(self, grid, points, **options):
        """The tree on a grid, which is that of its listed points."""
        tree = Tree.build(points, grid=grid, keep_empty=True, **options)
        listed = Tree.build(points, targets=grid.points(), keep_empty=True, **options)
        self.assertEqual(tree.box, listed.box)
        for name in ("key", "own", "begin", "total", "order"):
            self.assertEqual(getattr(tree, name).tolist(), getattr(listed, name).tolist(), grid)
        return tree

    def test_random(self):
        made, refined = random.Random(3), 0
        for turn in range(120):
            axes = 1 + turn % 3
            shape = [made.randrange(1, (0, 300, 18, 7)[axes]) for _ in range(axes)]
            origin = [made.choice((-4.0, -1.0, made.uniform(-4.0, 3.0))) for _ in range(axes)]
            spacing = [made.choice((5e-324, (3.999 - first) / count, 2.0 ** -13 / 3 if count < 9000 else 1.0))
                       for first, count in zip(origin, shape)]
            points = some_points(made, axes, made.randrange(1, 60))
            box = Box([0.0] * axes, 4.0) if turn % 2 else None
            options = {"box": box, "limit": made.randrange(1, 9), "order": made.randrange(1, 4)}
            tree = self.same(Grid(origin, spacing, shape), points, **options)
            refined += len(tree) > len(Tree.build(points, tree.box, limit=options["limit"], keep_empty=True))
        self.assertGreater(refined, 40)

    def test_listed(self):
        """The last axis is the fastest, and a coordinate is one product and one sum."""
        grid = Grid([0.1, 1], [0.3, 2.0], [4, 2])
        rows = [list(row) for row in grid.points().tolist()]
        self.assertEqual(rows, [[0.1 + i * 0.3, 1.0 + j * 2.0] for i in range(4) for j in range(2)])
        self.assertEqual((grid.rows, grid.corners()), (8, [rows[0], rows[-1]]))
        self.refused(ValueError, "has 1048577 points, and a call takes at most 1048576", Grid([0.0], [1.0], [1048577]).points)

    def test_million(self):
        """As many points as a call takes, without room for them."""
        points = table(2000, 2)
        grid = Grid([0.0, 0.0], [2.0 ** -10] * 2, [1024, 1024])
        tree = self.same(grid, points, box=Box([0.5, 0.5], 0.5), limit=64, order=4)
        self.assertGreater(len(tree), 1000)

    def test_refusals(self):
        for grid in (Grid([0.0], [1.0], [0]), Grid([0.0], [0.0], [1]), Grid([0.0], [-0.0], [1]), Grid([0.0], [-1.0], [1]),
                     Grid([0.0], [math.inf], [1]), Grid([0.0], [math.nan], [1]), Grid([math.nan], [1.0], [1])):
            self.assertEqual(self.figures(16, grid), (0, None, None))
        self.assertEqual(self.figures(16, Grid([0.0], [1.0], [0]), box=None), (0, None, None))
        self.assertEqual(self.figures(4, Grid([0.0], [1e-9], [1048577])), (0, None, None))
        self.assertEqual(self.figures(5, Grid([0.0], [1.0], [8]), order=65), (0, None, None))
        self.assertEqual(self.figures(7, Grid([8.0], [1.0], [1])), (0, 0, 3))
        self.assertEqual(self.figures(7, Grid([-1.0], [1.0], [1])), (0, 0, 2))
        self.assertEqual(self.figures(7, Grid([0.0], [1.0], [9])), (8, 0, 3))
        self.assertEqual(self.figures(7, Grid([0.0], [1.7e308], [3])), (1, 0, 3))

    def test_sentence(self):
        with self.assertRaises(Refused) as caught:
            Tree.build([[0.5]], Box([4.0], 4.0), grid=Grid([0.0], [0.0], [1]), order=1, keep_empty=True)
        self.assertIn("a spacing that is not above 0", str(caught.exception))
        self.assertIn("(refused 16 GRID)", str(caught.exception))

    def test_bad(self):
        build, grid = Tree.build, Grid([1.0], [1.0], [2])
        self.refused(TypeError, "targets and grid are both given", build, [[1.0]], grid=grid, targets=[[1.0]], order=1)
        self.refused(TypeError, "grid is of type tuple: pass a Grid", build, [[1.0]], grid=([1.0], [1.0], [2]), order=1)
        self.refused(ValueError, "grid has 1 axis, and the points or the box 2", build, [[1.0, 2.0]], grid=grid, order=1)
        self.refused(TypeError, "targets and a grid take order=", build, [[1.0]], grid=grid, keep_empty=True)
        self.refused(ValueError, "a grid splits cells only where empty cells are kept", build, [[1.0]], grid=grid, order=1)
        self.refused(ValueError, "grid[1] is not a finite number on axis 0, so there is no box around it", build, [[1.0]],
                     grid=Grid([1.0], [1.7e308], [3]), order=1, keep_empty=True)
        self.refused(ValueError, "spacing has 2 entries, and origin 1: pass one for each axis", Grid, [1.0], [1.0, 1.0], [2])
        self.refused(ValueError, "shape has 1 entry, and origin 2", Grid, [1.0, 1.0], [1.0, 1.0], [2])
        self.refused(ValueError, "origin has 4 coordinates, and 1 to 3 axes are taken", Grid, [1.0] * 4, [1.0] * 4, [2] * 4)
        self.refused(TypeError, "shape is of type int: pass a list", Grid, [1.0], [1.0], 2)
        self.refused(TypeError, "shape[0] is 2.0, of type float: pass a whole number", Grid, [1.0], [1.0], [2.0])
        self.refused(ValueError, "shape[0] is -1", Grid, [1.0], [1.0], [-1])
        self.refused(TypeError, "origin is of type float", Grid, 1.0, [1.0], [2])
        self.refused(AttributeError, "a grid does not change", setattr, grid, "shape", (3,))
        tree = build([[1.0]], Box([1.0], 4.0), limit=1)
        self.refused(TypeError, "give its points, as grid.points() lists them", tree.near_work, grid)
        self.assertEqual(len(Grid([0.0, 0.0], [1.0, 1.0], [2**40, 0]).points()), 0)

    def test_kept(self):
        grid = Grid([1.0, 0.5], [2.0, 0.25], [2, 3])
        self.assertEqual(pickle.loads(pickle.dumps(grid)), grid)
        self.assertEqual(len({grid, Grid([1.0, 0.5], [2.0, 0.25], [2, 3]), Grid([1.0], [2.0], [2])}), 2)
        self.assertEqual(repr(grid), "Grid([1.0, 0.5], [2.0, 0.25], [2, 3])")

    @with_numpy
    def test_numpy(self):
        """Figures may be arrays of NumPy."""
        grid = Grid(numpy.array([1.0, 2.0]), numpy.array([0.5, 0.5]), numpy.array([3, 4]))
        self.assertEqual(grid, Grid([1.0, 2.0], [0.5, 0.5], [3, 4]))
        self.assertEqual((grid.points().dtype, grid.points().shape), (numpy.float64, (12, 2)))


if __name__ == "__main__":
    unittest.main()

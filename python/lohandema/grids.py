"""Regular grids of points, which are counted and nowhere listed."""

import array
import ctypes
import math

from .arrays import numpy, three, whole
from .room import MOST_POINTS


class Grid:
    """A regular grid: on each axis the first coordinate, the distance between neighbours, and how many there are.

    The coordinate of index i is origin + i * spacing, one product and one sum in float64; the last axis is the fastest. A tree
    that is built on a grid is the one of its listed points, but takes no room for them. A grid has finite figures, spacings
    above 0, shapes of 1 or more and at most 1,048,576 points; any other is refused 16 GRID or 4 COUNT where it is used. A grid
    does not change.

    >>> grid = Grid([1.0, 0.5], [2.0, 0.25], [2, 3])
    >>> grid.rows, grid.corners()
    (6, [[1.0, 0.5], [3.0, 1.0]])
    """

    __slots__ = ("origin", "spacing", "shape", "axes", "_figures")

    def __init__(self, origin, spacing, shape):
        first, axes = three(origin, None, "origin")
        if not 1 <= axes <= 3:
            raise ValueError("origin has %d coordinates, and 1 to 3 axes are taken: pass one for each axis" % axes)
        steps, given = three(spacing, None, "spacing")
        counts = [whole(count, "shape[%d]" % i) for i, count in enumerate(listed(shape))]
        for name, entries in (("spacing", given), ("shape", len(counts))):
            if entries != axes:
                raise ValueError("%s has %d entr%s, and origin %d: pass one for each axis"
                                 % (name, entries, "y" if entries == 1 else "ies", axes))
        figures = (first, steps, (ctypes.c_size_t * 3)(*counts))
        values = [tuple(first[:axes]), tuple(steps[:axes]), tuple(counts), axes, figures]
        for name, value in zip(self.__slots__, values):
            object.__setattr__(self, name, value)

    def __setattr__(self, name, *_):
        raise AttributeError("a grid does not change: make another with Grid(origin, spacing, shape)")

    __delattr__ = __setattr__

    def __repr__(self):
        return "Grid(%r, %r, %r)" % (list(self.origin), list(self.spacing), list(self.shape))

    def __eq__(self, other):
        if not isinstance(other, Grid):
            return NotImplemented
        return (self.origin, self.spacing, self.shape) == (other.origin, other.spacing, other.shape)

    def __hash__(self):
        return hash((self.origin, self.spacing, self.shape))

    def __reduce__(self):
        return Grid, (self.origin, self.spacing, self.shape)

    @property
    def rows(self):
        """The number of points."""
        product = 1
        for count in self.shape:
            product *= count
        return product

    def corners(self):
        """The first and the last point."""
        last = [first + (count - 1 if count else 0) * step
                for first, step, count in zip(self.origin, self.spacing, self.shape)]
        return [list(self.origin), last]

    def points(self):
        """The points, listed, for calls that take points, as near_work: a float64 array of one row a point, the last axis
        fastest. ValueError where they are more than a call takes.

        >>> [list(row) for row in Grid([1.0, 0.5], [2.0, 0.25], [2, 2]).points().tolist()]
        [[1.0, 0.5], [1.0, 0.75], [3.0, 0.5], [3.0, 0.75]]
        """
        if self.rows > MOST_POINTS:
            raise ValueError("the grid has %d points, and a call takes at most %d: take a coarser grid, or list it in parts"
                             % (self.rows, MOST_POINTS))
        shape = self.shape if self.rows else [0] * self.axes
        lines = [[first + i * step for i in range(count)]
                 for first, step, count in zip(self.origin, self.spacing, shape)]
        if numpy:
            across = numpy.meshgrid(*map(numpy.array, lines), indexing="ij")
            return numpy.stack([one.ravel() for one in across], axis=1).astype(float, copy=False)
        if not self.rows:
            return memoryview(array.array("d"))
        flat = array.array("d", [0.0]) * (self.rows * self.axes)
        for axis, line in enumerate(lines):
            # each coordinate as often as the later axes have points, and all of them as often as the earlier ones have
            inner = math.prod(self.shape[axis + 1:])
            column = array.array("d")
            for x in line:
                column.extend(array.array("d", [x]) * inner)
            flat[axis::self.axes] = column * (self.rows // len(column))
        return memoryview(flat).cast("B").cast("d", [self.rows, self.axes])

    def _words(self):
        """What a call takes of the grid."""
        return self._figures


def listed(shape):
    """The entries of a shape."""
    if not hasattr(type(shape), "__iter__") or isinstance(shape, (str, bytes)):
        raise TypeError("shape is of type %s: pass a list of whole numbers, one for each axis, as [100]" % type(shape).__name__)
    return list(shape)

"""The box in which a survey lies, and a point's cell in it."""

import ctypes
import math

from .arrays import Points, check_many, numpy, real, three, whole
from .library import call
from .refusal import Refused


class Box:
    """A box: its centre, with one coordinate for each of 1 to 3 axes, and its radius, half its length along each axis.

    It holds what lies from centre - radius on, and below centre + radius. The radius is from 0.25 to 1,048,576, and a centre
    coordinate at most 16,777,216 in size; any other box is refused 2 BOX. A box does not change.

    >>> box = Box([4.0], 4.0)
    >>> box.key_of([6.5], 3)
    196611
    """

    __slots__ = ("centre", "radius", "axes", "_centre")

    def __init__(self, centre, radius):
        places, axes = three(centre, None, "centre")
        radius = real(radius, "radius")
        call("box_outcome", places, radius, axes)
        for name, value in (("centre", tuple(places[:axes])), ("radius", radius), ("axes", axes), ("_centre", places)):
            object.__setattr__(self, name, value)

    def __setattr__(self, name, *_):
        raise AttributeError("a box does not change: make another with Box(centre, radius)")

    __delattr__ = __setattr__

    def __repr__(self):
        return "Box(%r, %r)" % (list(self.centre), self.radius)

    def __eq__(self, other):
        if not isinstance(other, Box):
            return NotImplemented
        return (self.centre, self.radius) == (other.centre, other.radius)

    def __hash__(self):
        return hash((self.centre, self.radius))

    def __reduce__(self):
        return Box, (self.centre, self.radius)

    @classmethod
    def from_extents(cls, extents):
        """The box of extents, which are the lows of all axes and then the highs: 2, 4 or 6 numbers. Lows are rounded down,
        highs up, and the radius is half the longest axis and 0.001 more.

        >>> Box.from_extents([0.2, 7.8])
        Box([4.0], 4.001)
        """
        check_many(extents, "extents", "their numbers, the lows and then the highs, as [0.2, 7.8]")
        numbers = [real(x, "extents[%d]" % i) for i, x in enumerate(extents)]
        places = (ctypes.c_double * max(1, len(numbers)))(*numbers)
        centre, radius, axes = (ctypes.c_double * 3)(), ctypes.c_double(), ctypes.c_size_t()
        call("calculate_tree_center_and_radius", places, len(numbers), centre, ctypes.byref(radius), ctypes.byref(axes))
        return cls(centre[:axes.value], radius.value)

    @classmethod
    def around(cls, *points):
        """The box around points: that of their extents. Several arrays are taken together, as sources and targets.

        >>> Box.around([[0.5, -2.5], [7.5, 1.0]])
        Box([4.0, -1.0], 4.001)
        """
        return cls._around([Points(given, None) for given in points])

    @classmethod
    def _around(cls, points):
        corners = [extents(one) for one in points if one.rows]
        if not corners:
            raise ValueError("there are no points to put a box around: give it, as box=Box(centre, radius)")
        for one in corners[1:]:
            if len(one[0]) != len(corners[0][0]):
                raise ValueError("the points have %d and %d columns: give all of them the same axes"
                                 % (len(corners[0][0]), len(one[0])))
        lows = [min(axis) for axis in zip(*(low for low, _ in corners))]
        highs = [max(axis) for axis in zip(*(high for _, high in corners))]
        if list(map(math.floor, lows)) == list(map(math.ceil, highs)):
            raise Refused(2, sentence="the points are one place, and the box of their extents has no size: give a box, as "
                                      "box=Box(centre, radius)")
        try:
            return cls.from_extents(lows + highs)
        except Refused as refused:
            raise Refused(refused.number, sentence="the box around the points is outside its domain (radius 0.25 to 1048576, "
                          "each centre coordinate at most 16777216 in size): shift and scale the coordinates into it") from None

    def key_of(self, point, level):
        """The key of the cell of a level in which a point lies. Outside: refused 7 POINT."""
        key = ctypes.c_uint64()
        call("point_to_key", *self._words(), three(point, self.axes, "point")[0], whole(level, "level"), ctypes.byref(key))
        return key.value

    def anchor_of(self, point, level):
        """The anchors of that cell, one for each axis.

        >>> Box([4.0, 4.0], 4.0).anchor_of([6.5, 0.0], 3)
        [6, 0]
        """
        anchor = (ctypes.c_uint64 * 3)()
        call("point_to_anchor", *self._words(), three(point, self.axes, "point")[0], whole(level, "level"), anchor)
        return anchor[:self.axes]

    def side(self, level):
        """The side of a cell at a level.

        >>> Box([4.0], 4.0).side(3)
        1.0
        """
        side = ctypes.c_double()
        call("get_side_length", *self._words(), whole(level, "level"), ctypes.byref(side))
        return side.value

    def cell(self, key):
        """A cell's centre, one coordinate for each axis, and its side.

        >>> Box([4.0], 4.0).cell(196611)
        ([6.5], 1.0)
        """
        middle, length = (ctypes.c_double * 3)(), ctypes.c_double()
        call("get_center_length", *self._words(), whole(key, "key"), middle, ctypes.byref(length))
        return middle[:self.axes], length.value

    def adjacent(self, first, second):
        """Whether two cells, of any two levels, touch or overlap, by their centres and sides in float64. For two cells of
        one level this is proved to be the answer of keys.touching.

        >>> Box([4.0], 4.0).adjacent(0, 3)
        True
        """
        answer = ctypes.c_bool()
        call("are_adjacent", *self._words(), whole(first, "first"), whole(second, "second"), ctypes.byref(answer))
        return answer.value

    def _words(self):
        """What a call takes of the box."""
        return self._centre, self.radius, self.axes


def extents(points):
    """The lows and the highs of points, all of which have to be finite."""
    if numpy:
        lows, highs = [across(points.table(), take).tolist() for take in (numpy.minimum, numpy.maximum)]
    else:
        flat = points.flat()
        lows = [min(flat[axis::points.axes]) for axis in range(points.axes)]
        highs = [max(flat[axis::points.axes]) for axis in range(points.axes)]
        if not all(map(math.isfinite, flat)):
            lows = [math.nan]
    if not all(map(math.isfinite, lows + highs)):
        place = first_not_finite(points)
        raise ValueError("%s[%d] is not a finite number on axis %d, so there is no box around it: mend or remove the point"
                         % (points.name, place // points.axes, place % points.axes))
    return lows, highs


def first_not_finite(points):
    """The place, counted in coordinates, of the first that is not finite."""
    if numpy:
        return int(numpy.argmin(numpy.isfinite(points.table())))
    return list(map(math.isfinite, points.flat())).index(False)


def across(table, take):
    """The least or the greatest of each column; of many rows, first of rows that stand so far apart, as that is quick."""
    apart = 256
    rows = len(table) // apart * apart
    if rows:
        first = take.reduce(table[:rows].reshape(-1, apart * table.shape[1])).reshape(apart, -1)
        table = numpy.concatenate([first, table[rows:]])
    return take.reduce(table)

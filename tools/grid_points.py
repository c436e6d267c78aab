"""A regular grid of points in the place of targets, and the option that gives one."""

import argparse
import itertools
import math
import re
import sys

from command_line import Once, numbers, whole
from survey_file import comma

MOST_POINTS = 1048576
HELP = ("a regular grid in the place of targets: first coordinates, spacings and numbers of points, one an axis each, as "
        "--grid 0,-4 0.5,0.5 40,20; the last axis is the fastest")


class Grid:
    """A grid, as rows that are worked out when they are asked for: on each axis origin + index * spacing, one product and one
    sum, the last axis fastest."""

    def __init__(self, origin, spacing, shape):
        self.origin, self.spacing, self.shape, self.axes = origin, spacing, shape, len(origin)

    def __len__(self):
        return math.prod(self.shape)

    def __iter__(self):
        lines = [[first + i * step for i in range(count)] for first, step, count in self.figures()]
        return itertools.product(*lines)

    def corners(self):
        """The first and the last point."""
        return [self.origin, tuple(first + (count - 1) * step for first, step, count in self.figures())]

    def figures(self):
        """Origin, spacing and shape, axis by axis."""
        return zip(self.origin, self.spacing, self.shape)

    def text(self):
        return "origin %s, spacing %s, shape %s" % (comma(self.origin), comma(self.spacing), comma(self.shape))

    def fault(self):
        """Why this is no grid, with what to do; None if it is one."""
        if not len(self.spacing) == len(self.shape) == self.axes:
            return "%d, %d and %d numbers; give origin, spacing and shape one number an axis each" % (
                self.axes, len(self.spacing), len(self.shape))
        for axis, (first, step, count) in enumerate(self.figures()):
            if not math.isfinite(first):
                return "the origin %r on axis %d, counted from 0, is not finite; give one that is" % (first, axis)
            if not math.isfinite(step) or not step > 0:
                return "the spacing %r on axis %d, counted from 0, is not finite and above 0; give one that is" % (step, axis)
            if count < 1:
                return "the shape 0 on axis %d, counted from 0, has no point; give 1 or more" % axis
        if math.prod(self.shape) > MOST_POINTS:
            return "%d points, but a build takes at most %d; give a coarser grid" % (math.prod(self.shape), MOST_POINTS)
        return None


class GridOption(Once):
    """The option --grid, with three values."""

    def __init__(self, option_strings, dest, **rest):
        super().__init__(option_strings, dest, nargs=3, metavar=("ORIGIN", "SPACING", "SHAPE"), **rest)

    def __call__(self, parser, namespace, values, option=None):
        try:
            origin, spacing, shape = numbers(values[0]), numbers(values[1]), wholes(values[2])
        except argparse.ArgumentTypeError as error:
            parser.error("%s: %s" % (option, error))
        grid = Grid(origin, spacing, shape)
        if grid.fault():
            parser.error("%s: %s" % (option, grid.fault()))
        super().__call__(parser, namespace, grid, option)


def wholes(text):
    return tuple(whole(part.strip()) for part in text.split(","))


def add_grid(parser, what=""):
    parser.add_argument("--grid", action=GridOption, help=what + HELP)


def parsed(parser):
    """The options of the command line. A word after --grid that starts as -4 does is a number, and no option."""
    given = sys.argv[1:]
    for place, word in enumerate(given):
        if word == "--grid":
            for i in range(place + 1, min(place + 4, len(given))):
                if re.match(r"-[0-9.]|-inf", given[i]):
                    given[i] = " " + given[i]
    return parser.parse_args(given)


def check_grid(parser, options):
    """That a grid stands alone; with one, cells without readings are kept, as else it would split none."""
    if options.grid and options.targets:
        parser.error("--grid and %s both give targets; leave one of them out" % options.targets)
    if options.grid:
        options.keep_empty = True

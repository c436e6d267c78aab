"""What the tests share: where things are, NumPy if it is there, and random surveys."""

import array
import os
import random
import subprocess
import sys
import unittest

TESTS = os.path.dirname(os.path.abspath(__file__))
PYTHON = os.path.dirname(TESTS)
ROOT = os.path.dirname(PYTHON)
sys.dont_write_bytecode = True
sys.path[:0] = [PYTHON, os.path.join(ROOT, "tools")]

try:
    import numpy
except ImportError:
    numpy = None

with_numpy = unittest.skipUnless(numpy, "NumPy is not installed")


def read(*parts):
    with open(os.path.join(ROOT, *parts), encoding="utf-8") as file:
        return file.read()


def in_process(code, **environment):
    """What a Python of its own prints and says, running this code."""
    variables = {**os.environ, "PYTHONPATH": PYTHON, "PYTHONDONTWRITEBYTECODE": "1", **environment}
    return subprocess.run([sys.executable, "-c", code], env=variables, capture_output=True, text=True)


def table(rows, axes):
    """Random coordinates as an array of two dimensions: of NumPy, or a view of the standard library."""
    made = random.Random(rows * 10 + axes)
    flat = array.array("d", (made.random() for _ in range(rows * axes)))
    if numpy:
        return numpy.frombuffer(flat).reshape(rows, axes)
    return memoryview(flat).cast("B").cast("d", [rows, axes])


def some_points(made, axes, count, radius=4.0):
    """Points inside the box of centre 0: spread, on a line, in a cluster, on walls of cells, and repeated."""
    kind = made.randrange(4)
    points = []
    for i in range(count):
        if kind == 0:
            point = [made.uniform(-radius, radius) for _ in range(axes)]
        elif kind == 1:
            point = [radius * (2 * i / count - 1) for _ in range(axes)]
        elif kind == 2:
            point = [made.gauss(1.0, 0.01) for _ in range(axes)]
        else:
            point = [made.randrange(-8, 8) * radius / 8 for _ in range(axes)]
        points.append([min(max(x, -radius), radius * 0.9999) for x in point])
    return points

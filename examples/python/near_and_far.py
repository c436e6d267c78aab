#!/usr/bin/env python3
"""A whole small job: the potential 1/r of magnetometer readings at each reading, near ones summed singly and far ones in groups.

    python3 examples/python/near_and_far.py

Readings on flight lines are put in a tree. For each leaf its lists say which readings are near (U): each of these is taken as
it is. All others are taken cell by cell (V, of the leaf and of each cell above it): a cell counts as one reading of all its
weight, at the centre of weight.
Then the plain sum over all pairs is made too, and both are compared. It needs the shared library, which rust/archive writes, and
the standard library of Python alone; with NumPy the tree takes arrays as well.
"""

import math
import os
import random
import sys
import time

sys.path.insert(0, os.path.join(os.path.dirname(os.path.abspath(__file__)), "..", "..", "python"))
from lohandema import Tree

LINES, STATIONS, LIMIT = 24, 50, 12


def survey():
    """Readings along flight lines, in metres, with a weight each."""
    made = random.Random(28)
    places = [[10.0 * station + made.gauss(0, 1), 20.0 * line + made.gauss(0, 1), 60.0 + made.gauss(0, 3)]
              for line in range(LINES) for station in range(STATIONS)]
    return places, [made.uniform(0.5, 1.5) for _ in places]


def potential(here, places, weights):
    """The sum of weight / distance, the place itself left out."""
    return sum(weight / math.dist(here, there) for there, weight in zip(places, weights) if there is not here)


def plain_sums(places, weights):
    return [potential(here, places, weights) for here in places]


def as_one(indices, places, weights):
    """Some readings as one: their centre of weight, and their weight."""
    weight = sum(weights[i] for i in indices)
    return [sum(weights[i] * places[i][axis] for i in indices) / weight for axis in range(3)], weight


def sums_by_lists(places, weights):
    """The same by the lists, and how many terms were summed."""
    tree = Tree.build(places, limit=LIMIT)
    lists = tree.lists()
    middle, weight = {}, {}
    for key in tree.sourced_cells().tolist():
        middle[key], weight[key] = as_one(tree.cell_sources(key=key).tolist(), places, weights)
    sums, terms = [0.0] * len(places), 0
    for leaf in tree.leaves().tolist():
        near = [i for key in lists.near(leaf).tolist() for i in tree.leaf_sources(key=key).tolist()]
        far = lists.far_of_path(leaf).tolist()
        near_places, near_weights = [places[i] for i in near], [weights[i] for i in near]
        far_places, far_weights = [middle[key] for key in far], [weight[key] for key in far]
        for i in tree.leaf_sources(leaf).tolist():
            sums[i] = potential(places[i], near_places, near_weights) + potential(places[i], far_places, far_weights)
            terms += len(near) - 1 + len(far)
    return tree, sums, terms


def main():
    places, weights = survey()
    start = time.process_time()
    tree, sums, terms = sums_by_lists(places, weights)
    by_lists = time.process_time() - start
    start = time.process_time()
    plain = plain_sums(places, weights)
    by_pairs = time.process_time() - start
    pairs = len(places) * (len(places) - 1)
    error = max(abs(a - b) / b for a, b in zip(sums, plain))
    print("%d readings, %d leaves" % (len(places), len(tree.leaves())))
    print("by lists: %d terms; all pairs: %d" % (terms, pairs))
    print("largest difference from the plain sum: %.2f %%" % (100 * error))
    print("time: by lists %.2f s, all pairs %.2f s" % (by_lists, by_pairs))
    return 0 if error < 0.01 else "the sums differ by more than 1 %: please report it"


if __name__ == "__main__":
    sys.exit(main())

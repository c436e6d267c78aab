"""Readings as text, one whole number a line, and the sums that a leaf's rows make of them."""

import re
from collections import Counter

import survey_file as house
from survey_file import Refused

LARGEST = 2 ** 40
WHOLE = re.compile("[+-]?[0-9]{1,20}")


def read_readings(path, sources):
    """The readings at a path, one for each source of the survey, in its order."""
    lines = house.read_lines(path)
    if not lines[-1][1].strip():
        lines.pop()
    readings = [read_one(path, line, text.strip()) for line, text in lines]
    if len(readings) != sources:
        raise Refused("%s has %d readings, and the survey %d sources; give one line for each source, in the survey's order" % (
            path, len(readings), sources))
    return readings


def read_one(path, line, text):
    if not WHOLE.fullmatch(text):
        raise Refused("%s, line %d: %.40r is no whole number; give one whole number a line" % (path, line, text))
    if abs(int(text)) > LARGEST:
        raise Refused("%s, line %d: %s is over %d (2^40) in size; mend it, or give all readings in a larger unit" % (
            path, line, text, LARGEST))
    return int(text)


class Sums:
    """The sums of readings by a listing's rows."""

    def __init__(self, listing, readings):
        self.listing = listing
        self.all = sum(readings)
        self.in_cell = Counter()
        for key, reading in zip(listing.source_keys, readings):
            for around in house.ancestors(listing.axes, key):
                self.in_cell[around] += reading

    def of_leaf(self, leaf):
        """Near sum, far sum and additions: one for each near source and one for each far cell."""
        (_, near), *far = self.listing.rows_of(leaf)
        cells = [key for _, row in far for key in row]
        additions = sum(self.listing.by_key[key].own for key in near) + len(cells)
        return sum(self.in_cell[key] for key in near), sum(self.in_cell[key] for key in cells), additions

    def lost(self):
        """The leaves whose near and far sum are not together the sum of all readings."""
        leaves = [node for node in self.listing.nodes if node.is_leaf and node.number > 0]
        return [leaf for leaf in leaves if sum(self.of_leaf(leaf)[:2]) != self.all]

    def text(self, leaf):
        """What is told of a leaf, or of all where none is chosen."""
        if leaf is None:
            return "for every leaf near and far together are %d, the sum of all readings" % self.all
        near, far, additions = self.of_leaf(leaf)
        return "leaf %d: near %d and far %d are together %d, all readings %d; additions: %d" % (
            leaf.number, near, far, near + far, self.all, additions)

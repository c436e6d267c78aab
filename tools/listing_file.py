"""The listing program's text, read back and held against the survey that it was made from."""

import os
import re
from collections import Counter
from dataclasses import dataclass

import survey_file as house
from survey_file import Refused

REFUSALS = os.path.join(os.path.dirname(os.path.realpath(__file__)), "refusals.txt")
# no number of a listing has more than 20 digits
ONE = "([0-9]{1,20})"
ROW = "((?: [0-9]{1,20})*)"
REFUSED = re.compile("refused %s %s(?: %s %s)?" % (ONE, ONE, ONE, ONE))
TREE = re.compile("tree" + (" " + ONE) * 5)
NODE = re.compile(" ".join([ONE] * 3) + " U" + ROW + " V" + ROW)


class NoTree(Refused):
    """A listing that says that the program refused the survey, or a survey that it refuses."""


@dataclass
class Node:
    number: int
    key: int
    own: int
    near: list
    far: list
    is_leaf: bool = True
    # the targets that lie in a leaf; where the survey has none, its own sources, which serve as targets
    aims: int = 0


@dataclass
class Listing:
    axes: int
    depth: int
    near_work: int
    nodes: list
    by_key: dict
    # the level-16 key of each source, and how many sources lie in a cell
    source_keys: list
    held: Counter
    # the keys before the tree was balanced, if it was
    before = None

    def leaf_at(self, key):
        """The leaf that holds a level-16 key, or None."""
        for around in house.ancestors(self.axes, key):
            node = self.by_key.get(around)
            if node and node.is_leaf:
                return node
        return None

    def rows_of(self, leaf):
        """The rows that bring a leaf its sources, as level and keys: U first, then V of the leaf and its ancestors."""
        around = [self.by_key[key] for key in house.ancestors(self.axes, leaf.key)]
        return [(house.level_of(leaf.key), leaf.near)] + [(house.level_of(node.key), node.far) for node in around]

    def near_work_of_rows(self):
        """The sum over leaves of the targets in the leaf times the sources in its U row."""
        return sum(node.aims * sum(self.by_key[key].own for key in node.near) for node in self.nodes)

    def meets_once(self, leaf):
        """Whether a leaf's rows hold each source exactly once: no cell of them lies in another, and none is missing."""
        listed = [key for _, row in self.rows_of(leaf) for key in row if self.held[key]]
        cells = set(listed)
        apart = all(cells.isdisjoint(house.ancestors(self.axes, key)[1:]) for key in listed)
        return len(cells) == len(listed) and apart and sum(self.held[key] for key in listed) == len(self.source_keys)

    def leaves_at_fault(self):
        return [node for node in self.nodes if node.is_leaf and node.number > 0 and not self.meets_once(node)]


def read_listing(path, survey, survey_name):
    """The listing at a path, held against its survey."""
    try:
        return checked_listing(path, survey, survey_name)
    except NoTree:
        raise
    except Refused as refused:
        raise Refused("%s; make the listing anew with ./listing %s" % (refused, survey_name))


def checked_listing(path, survey, survey_name):
    lines = [(line, text.rstrip("\r")) for line, text in house.read_lines(path)]
    if lines[-1][1] == "":
        lines.pop()
    if not lines:
        raise Refused("%s: empty" % path)
    axes, count, depth, _, near_work = read_first(path, lines[0][1], survey, survey_name)
    check_survey(survey, survey_name)
    if len(lines) != count + 1:
        raise Refused("%s: line 1: %d nodes, but %d lines follow" % (path, count, len(lines) - 1))
    nodes = [read_node(path, line, text, axes) for line, text in lines[1:]]
    by_key = {node.key: node for node in nodes}
    check_tree(path, axes, nodes, by_key)
    deepest = max([1] + [house.level_of(node.key) for node in nodes])
    if depth != deepest:
        raise Refused("%s: line 1: depth %d, but the deepest node has level %d" % (path, depth, deepest))
    check_rows(path, nodes, by_key)
    keys = source_keys(survey)
    held = Counter(around for key in keys for around in house.ancestors(axes, key))
    listing = Listing(axes, depth, near_work, nodes, by_key, keys, held)
    check_sources(path, listing, survey_name)
    count_targets(listing, survey, survey_name)
    if near_work != listing.near_work_of_rows():
        raise Refused("%s: line 1: near work %d, but the U rows and the %s of %s give %d" % (
            path, near_work, "targets" if survey.targets else "sources", survey_name, listing.near_work_of_rows()))
    return listing


def read_first(path, text, survey, survey_name):
    refused = REFUSED.fullmatch(text)
    if refused:
        raise NoTree("%s: no tree to draw, since the program refused %s (%s): %s"
                     % (path, survey_name, text, meaning(*refused.groups())))
    found = TREE.fullmatch(text)
    if not found:
        raise Refused("%s: line 1: not 'tree' and five numbers" % path)
    figures = [int(figure) for figure in found.groups()]
    if figures[0] != survey.axes:
        raise Refused("%s: line 1: %d axes, but %s has %d" % (path, figures[0], survey_name, survey.axes))
    if figures[3] != len(survey.sources):
        raise Refused("%s: line 1: %d sources, but %s has %d"
                      % (path, figures[3], survey_name, len(survey.sources)))
    return figures


def meaning(number, value, axis, reason):
    """What a refusal says, and its cure: the first line of refusals.txt that fits, as ./listing tells it."""
    told = "r" + reason if reason else value
    for _, line in house.read_lines(REFUSALS):
        fields = line.split(" ", 2)
        if fields[0] == number and fields[1] in (told, "*"):
            return fields[2].replace("%V", value).replace("%A", axis or "")
    return "docs/REFUSALS.md says why"


def read_node(path, line, text, axes):
    found = NODE.fullmatch(text)
    if not found:
        raise Refused("%s: line %d: not number, key, own sources, U keys, V keys" % (path, line))
    number, key, own = (int(figure) for figure in found.groups()[:3])
    near, far = ([int(key) for key in row.split()] for row in found.groups()[3:])
    for one in [key] + near + far:
        if not house.is_valid(axes, one):
            raise Refused("%s: line %d: %d is no key of %d axes" % (path, line, one, axes))
    return Node(number, key, own, near, far)


def check_tree(path, axes, nodes, by_key):
    """Nodes in their order, the root first, each with its parent; finds out which are leaves."""
    places = [(house.level_of(node.key), node.key) for node in nodes]
    for i, node in enumerate(nodes):
        if node.number != i:
            raise Refused("%s: line %d: node number %d, not %d" % (path, i + 2, node.number, i))
        if (i == 0) != (node.key == 0) or (i > 0 and places[i - 1] >= places[i]):
            raise Refused("%s: line %d: key %d is not in the order of nodes" % (path, i + 2, node.key))
        parent = house.ancestors(axes, node.key)[1] if i > 0 else 0
        if parent not in by_key:
            raise Refused("%s: line %d: the parent of key %d is not listed" % (path, i + 2, node.key))
        by_key[parent].is_leaf = False


def check_rows(path, nodes, by_key):
    for i, node in enumerate(nodes):
        for key in node.near + node.far:
            if key not in by_key:
                raise Refused("%s: line %d: key %d in a row is not listed as a node" % (path, i + 2, key))
        if node.near and not node.is_leaf:
            raise Refused("%s: line %d: a U row, but node %d is no leaf" % (path, i + 2, node.number))
        for key in node.near:
            if not by_key[key].is_leaf:
                raise Refused("%s: line %d: key %d in the U row is no leaf" % (path, i + 2, key))


def source_keys(survey):
    return [house.point_key(survey.centre, survey.radius, source) for source in survey.sources]


def check_survey(survey, survey_name):
    """That the survey's box and sources are such as the listing program takes."""
    fault = house.box_fault(survey.centre, survey.radius)
    if fault:
        raise NoTree("%s: the box is outside its domain: %s; make the file anew with another box" % (survey_name, fault))
    for number, source in enumerate(survey.sources):
        check_inside(survey, survey_name, "source %d" % number, source, "that reading")


def check_inside(survey, survey_name, point, row, it):
    """That a source or target is inside the box."""
    wall = house.wall_of(survey.centre, survey.radius, row)
    if wall:
        larger = "" if "finite" in wall[1] else "make the file anew with a larger box, or "
        raise NoTree("%s: %s, counted from 0, %s on axis %d, counted from 0; %smend %s or take it out"
                     % (survey_name, point, wall[1], wall[0], larger, it))


def check_sources(path, listing, survey_name):
    """Own sources as the survey has them, so that a listing of another survey is not drawn over this one."""
    leaves = [listing.leaf_at(key) for key in listing.source_keys]
    if None in leaves:
        raise Refused("%s: no leaf holds source %d of %s" % (path, leaves.index(None), survey_name))
    owned = Counter(leaf.number for leaf in leaves)
    for i, node in enumerate(listing.nodes):
        if node.own != owned[i]:
            raise Refused("%s: line %d: %d own sources, but %d of %s lie there"
                          % (path, i + 2, node.own, owned[i], survey_name))


def count_targets(listing, survey, survey_name):
    """Puts each target into its leaf. The program refuses a survey with one that is outside, or that no leaf holds."""
    for node in listing.nodes:
        node.aims = 0 if survey.targets else node.own
    for number, target in enumerate(survey.targets):
        check_inside(survey, survey_name, "target %d" % number, target, "that target")
        leaf = listing.leaf_at(house.point_key(survey.centre, survey.radius, target))
        if not leaf:
            raise NoTree("%s: no leaf holds target %d, counted from 0, so that the program refuses the survey (refused 12 %d); "
                         "make the file anew with --keep-empty, or take that target out" % (survey_name, number, number))
        leaf.aims += 1

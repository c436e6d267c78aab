"""The figures of a tree and its lists, and what is told of them as text."""

from collections import Counter
from dataclasses import dataclass

import survey_file as house
from survey_file import some

HEAVIEST = 8


@dataclass
class Inspection:
    """A tree and its lists, with the figures of each node."""

    name: str
    told: list
    survey: house.Survey
    key: list
    own: list
    total: list
    leaves: list
    near: object
    far: object
    # the leaves that do not meet each reading exactly once
    at_fault: list
    # for each node, the targets in it; where there are none, own, as the readings serve as targets
    aims: list

    def __post_init__(self):
        own = dict(zip(self.key, self.own))
        # for each leaf, the readings in its U row
        self.near_readings = {leaf: sum(own[key] for key in self.near[leaf].tolist()) for leaf in self.leaves}
        self.work = {leaf: self.aims[leaf] * near for leaf, near in self.near_readings.items()}
        self.near_sizes = [len(self.near[leaf]) for leaf in self.leaves]
        self.far_sizes = [len(self.far[node]) for node in range(len(self.key))]

    @property
    def readings(self):
        return self.total[0]

    @property
    def targets(self):
        return len(self.survey.targets)

    @property
    def depth(self):
        return max([1] + [house.level_of(key) for key in self.key])

    @property
    def near_work(self):
        return sum(self.work.values())

    def level(self, node):
        return house.level_of(self.key[node])

    def by_level(self):
        """For each level that has leaves: how many, how many of them with readings, their readings, and the most in one."""
        levels = Counter(self.level(leaf) for leaf in self.leaves)
        for level in sorted(levels):
            own = [self.own[leaf] for leaf in self.leaves if self.level(leaf) == level]
            yield level, len(own), sum(map(bool, own)), sum(own), max(own)

    def heaviest(self):
        """The leaves with the most near work, the heaviest first; of equal ones the lowest number."""
        return sorted((leaf for leaf in self.leaves if self.work[leaf]), key=lambda leaf: -self.work[leaf])[:HEAVIEST]


def text(inspection):
    """All that is told, ended by a line feed."""
    parts = [head(inspection), levels(inspection), rows(inspection), work(inspection), once(inspection)]
    return "\n\n".join("\n".join(part) for part in parts if part) + "\n"


def head(inspection):
    owners = sum(1 for leaf in inspection.leaves if inspection.own[leaf])
    return ["%s: %s" % (inspection.name, inspection.told[0])] + inspection.told[1:] + [
        "tree: %s, depth %d, %s, %d of them with readings"
        % (some(len(inspection.key), "node"), inspection.depth, leaves_text(len(inspection.leaves)), owners)]


def levels(inspection):
    found = list(inspection.by_level())
    return ["leaves by level"] + columns(["level", "leaves", "with readings", "readings", "most in one"], found) if found else []


def rows(inspection):
    found = [["U, near, of leaves"] + summary(inspection.near_sizes), ["V, far, of nodes"] + summary(inspection.far_sizes)]
    return ["keys in a row"] + columns(["", "rows", "keys", "least", "median", "mean", "most"], found)


def summary(sizes):
    """Number, sum, least, median, mean and most of some sizes."""
    if not sizes:
        return [0, 0, 0, 0, "0.0", 0]
    ordered = sorted(sizes)
    return [len(sizes), sum(sizes), ordered[0], ordered[len(sizes) // 2], "%.1f" % (sum(sizes) / len(sizes)), ordered[-1]]


def work(inspection):
    targets = inspection.targets
    pairs = inspection.readings * (targets or inspection.readings)
    lines = ["near work: %d, the %s in its U row; %s of all %d pairs of %s" % (
        inspection.near_work, "targets of each leaf times the readings" if targets else "readings of each leaf times those",
        percent(inspection.near_work, pairs), pairs, "a target and a reading" if targets else "readings")]
    names = ["node", "key", "level", "readings", "targets", "in its U row", "near work", "part"]
    found = [[leaf, inspection.key[leaf], inspection.level(leaf), inspection.own[leaf], inspection.aims[leaf],
              inspection.near_readings[leaf], inspection.work[leaf], percent(inspection.work[leaf], inspection.near_work)]
             for leaf in inspection.heaviest()]
    # without targets there is no column for them
    shown = [line if targets else line[:4] + line[5:] for line in [names] + found]
    return lines + ["the heaviest leaves"] + columns(shown[0], shown[1:]) if found else lines


def once(inspection):
    leaves = leaves_text(len(inspection.leaves))
    if inspection.at_fault:
        return ["NOT each reading is met exactly once: %d of %s are at fault" % (len(inspection.at_fault), leaves)]
    return ["each of %s meets each of %s exactly once" % (leaves, some(inspection.readings, "reading"))]


def leaves_text(count):
    return "%d lea%s" % (count, "f" if count == 1 else "ves")


def percent(part, whole):
    return "%.3g %%" % (100 * part / whole if whole else 0)


def columns(names, found):
    """Lines of a table with its heading; numbers stand to the right, the words of the first column to the left."""
    table = [list(map(str, line)) for line in [names] + [list(line) for line in found]]
    widths = [max(map(len, column)) for column in zip(*table)]
    sides = ["<" if not names[i] else ">" for i in range(len(names))]
    return ["  " + "  ".join("{:{}{}}".format(word, side, width) for word, side, width in zip(line, sides, widths)).rstrip()
            for line in table]

"""A plain reading of docs/RULES.md, slow and short, to hold the library's answers against: for small surveys."""

from collections import Counter

from survey_file import ancestors, anchors_of, code_of, key_of, level_of, point_key

DEEPEST = 16


def children(axes, key):
    return [((code_of(key) << axes) + i) * 32768 + level_of(key) + 1 for i in range(2 ** axes)]


def touch(axes, a, b):
    pairs = zip(anchors_of(axes, a), anchors_of(axes, b))
    return level_of(a) == level_of(b) and all(abs(x - y) <= 1 for x, y in pairs)


def neighbours(axes, key):
    """The cells that touch a cell, in no order that counts."""
    found, level = [[]], level_of(key)
    for anchor in anchors_of(axes, key):
        found = [some + [anchor + step] for some in found for step in (-1, 0, 1) if 0 <= anchor + step < 2 ** level]
    return [one for one in (key_of(anchors, level) for anchors in found) if one != key]


def up_to(axes, key, level):
    """The ancestor at a level."""
    return ancestors(axes, key)[level_of(key) - level]


class Plain:
    """A tree by the rules, with its rows."""

    def __init__(self, centre, radius, sources, limit, keep_empty=False, targets=(), order=1):
        self.axes, self.limit, self.keep_empty = len(centre), limit, keep_empty
        self.codes = [point_key(centre, radius, point) for point in sources]
        self.aims = [point_key(centre, radius, point) for point in targets] if keep_empty else []
        self.held = Counter(cell for code in self.codes for cell in ancestors(self.axes, code))
        self.aimed = Counter(cell for code in self.aims for cell in ancestors(self.axes, code))
        self.reference = next(k for k in range(1, 17) if k == 16 or 2 ** (self.axes * k) >= len(sources))
        self.near_limit = max(limit, order ** self.axes)
        self.key, self.inner = [], set()
        self.grow(0)
        stored = set(self.key)
        self.leaf = [key != 0 and stored.isdisjoint(children(self.axes, key)) for key in self.key]
        self.own = [self.held[key] if leaf else 0 for key, leaf in zip(self.key, self.leaf)]
        self.begin = [sum(self.own[:n]) for n in range(len(self.key))]
        self.total = [self.held[key] for key in self.key]
        self.order = [i for key, leaf in zip(self.key, self.leaf) if leaf for i, code in enumerate(self.codes)
                      if key in ancestors(self.axes, code)]
        self.depth = max([1] + [level_of(key) for key in self.key])

    def grow(self, key):
        self.key.append(key)
        if key == 0 or level_of(key) < DEEPEST and (self.held[key] > self.limit or self.splits_for_targets(key)):
            for child in children(self.axes, key):
                if self.keep_empty or self.held[child]:
                    self.grow(child)

    def splits_for_targets(self, key):
        if self.aimed[key] <= self.near_limit:
            return False
        level, peers = level_of(key), [key] + neighbours(self.axes, key)
        if level >= self.reference:
            peers = [up_to(self.axes, peer, self.reference - 1) for peer in peers]
        counts = [self.held[peer] for peer in peers]
        if sum(counts) == 0:
            factor = 32
        elif level <= self.reference and 2 * sum(counts) ** 2 >= len(peers) * sum(c * c for c in counts):
            factor = 16
        else:
            factor = 1
        return self.aimed[key] > self.near_limit * factor

    def near(self, n):
        """The U row of a node."""
        if not self.leaf[n]:
            return []
        def meets(a, b):
            level = min(level_of(a), level_of(b))
            return touch(self.axes, up_to(self.axes, a, level), up_to(self.axes, b, level))
        return sorted(key for key, leaf in zip(self.key, self.leaf)
                      if leaf and self.held[key] and meets(key, self.key[n]))

    def far(self, n):
        """The V row of a node."""
        key = self.key[n]
        if key == 0:
            return []
        parent = up_to(self.axes, key, level_of(key) - 1)
        return sorted(
            c for c in self.key if level_of(c) == level_of(key) and self.held[c] and not touch(self.axes, c, key)
            and up_to(self.axes, c, level_of(key) - 1) != parent
            and touch(self.axes, up_to(self.axes, c, level_of(key) - 1), parent))

    def near_work(self, codes):
        """For each level-16 key of a target the sources in the U row of its leaf, summed; and the targets of each node."""
        leaves = [self.key.index(self.leaf_of(code)) for code in codes]
        met = {leaf: sum(self.held[key] for key in self.near(leaf)) for leaf in set(leaves)}
        return sum(met[leaf] for leaf in leaves), [leaves.count(node) for node in range(len(self.key))]

    def leaf_of(self, code):
        """The key of the leaf that holds a level-16 key, or None."""
        leaves = {key for key, leaf in zip(self.key, self.leaf) if leaf}
        return next((cell for cell in ancestors(self.axes, code) if cell in leaves), None)

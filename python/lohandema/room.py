"""How much room is lent. A call that is lent too little is refused after nearly all of its work, so a build gets room for the
most nodes that it can have, and the lists a first guess that is seldom short. rust/src/room.rs reckons alike."""

import math
import struct

from .arrays import flag, numpy, whole
from .keys import reference_depth

MOST_POINTS = MOST_NODES = 1048576
MOST_KEYS = 16777216
MOST_ORDER = 64
DEEPEST = 16
V_ROW = {1: 3, 2: 27, 3: 189}


def most_nodes(axes, sources, targets, limit, order, keep_empty):
    """The most nodes that a build can have, of so many sources and used targets. A cell that splits, the root apart, has more
    sources than the limit or more targets than the near limit, so that a level has only so many of them. Each has at most
    2^axes children, and without empty cells each child has a source. For a number of axes other than 1 to 3 it is 0."""
    axes, keep_empty = whole(axes, "axes"), flag(keep_empty, "keep_empty")
    sources, targets, limit = [min(whole(number, name), MOST_POINTS) for number, name in (
        (sources, "sources"), (targets, "targets"), (limit, "limit"))]
    order = min(whole(order, "order"), MOST_ORDER)
    if not 1 <= axes <= 3:
        return 0
    splitting = sources // (limit + 1) + targets // (max(limit, order ** axes) + 1)
    split = sum(min(splitting, 1 << axes * level) for level in range(1, DEEPEST))
    children = (1 + split) << axes
    stored = children if keep_empty else min(children, DEEPEST * sources)
    return min(1 + stored, MOST_NODES)


def lists(tree):
    """How many keys the U rows and the V rows of a tree may have: a first guess.

    Where all leaves are of one level, a U row has three cells along each axis along which cells divide, which is the mean
    number of children to the power log2 3; near leaves of other levels come on top where the tree is deeper than so many
    leaves need. V rows come from pairs of neighbours, so that 3^axes - 1 times the squares of the numbers of children is
    enough. Of the leaves only those with sources are listed."""
    axes, nodes = tree.box.axes, len(tree.key) - 1
    if nodes < 1:
        return 0, 0
    parents, squares = families(axes, tree.key)
    leaves = max(1, nodes + 1 - parents)
    owners = int(numpy.count_nonzero(tree.own)) if numpy else sum(map(bool, tree.own))
    sourced = owners / leaves
    spread = max(0, tree.depth - reference_depth(axes, leaves))
    row = (nodes / parents) ** math.log2(3) * (1 + spread / 2)
    u = 1.25 * nodes * row * min(1, 2 * sourced)
    pairs = (3 ** axes - 1) * squares
    v = min(pairs, nodes * V_ROW[axes] * min(1, 2 * sourced * sourced))
    return capped(u), capped(v)


def families(axes, keys):
    """How many parents the nodes below the root have, and the squares of the numbers of their children, summed. Among the
    keys of one level siblings follow each other."""
    sizes = []
    if numpy:
        levels = (keys & 32767).astype(numpy.uint8)
        for level in range(1, int(levels.max()) + 1):
            parents = keys[levels == level] >> 15 + axes
            ends = numpy.flatnonzero(parents[1:] != parents[:-1])
            sizes.append(numpy.diff(ends, prepend=-1, append=len(parents) - 1))
        return max(1, sum(len(some) for some in sizes)), sum(float(some @ some) for some in sizes)
    # of each level, the code of the last key's parent and how many children it had
    last = {}
    for key in keys[1:]:
        level, parent = key & 32767, key >> 15 + axes
        if last.get(level, (None, 0))[0] == parent:
            last[level][1][0] += 1
        else:
            count = [1]
            last[level] = parent, count
            sizes.append(count)
    return max(1, len(sizes)), float(sum(size * size for [size] in sizes))


def salvaged(keys):
    """The most nodes that can be had of rows with these keys: the root, and for each key the cells on the way to it, itself
    among them."""
    if numpy:
        levels = keys & 32767
        return min(1 + int(levels[levels <= DEEPEST].sum()), MOST_NODES)
    return min(1 + sum(key & 32767 for key in keys if key & 32767 <= DEEPEST), MOST_NODES)


def runs(own, begin, entries):
    """The most sources that can be had of rows with these counts and begins, where the order column has so many entries: all
    runs that do not pass its end, as far as they count."""
    if numpy:
        # whole numbers of 64 bits that are at least 2 ** 63 are below 0 here, and past any order column
        within = (own >= 0) & (begin >= 0) & (own <= entries) & (begin <= entries - own)
        return min(int(own[within].sum()), MOST_POINTS)
    return min(sum(count for count, start in zip(own, begin) if count >= 0 <= start and count + start <= entries), MOST_POINTS)


def capped(keys):
    return min(math.ceil(keys), MOST_KEYS)


def more(room):
    """Four times the room, for a guess that was short."""
    return min(4 * max(room, 16), MOST_KEYS)


def balanced(axes, nodes):
    """The most nodes that the balanced tree of one of so many nodes can have. A cell that is split there is split in the given
    tree or touches one of its level that is, so there are at most 3 ** axes times as many."""
    return min(3 ** axes * max(nodes - 1, 0) + 1, MOST_NODES)


def one_more(axes, nodes):
    """The most nodes that a tree of so many nodes can have with one source more. Of each level there is one cell that holds it,
    and only such a cell gets children."""
    return min(nodes + (DEEPEST << axes), MOST_NODES)


def file(tree, lists):
    """The bytes of a tree's file: eight a key, four for each other number, and the trailer of nine entries. The lists are lent:
    starts and keys of U and of V."""
    u_starts, u_keys, v_starts, v_keys = [one.entries for one in lists]
    keys = len(tree.key) + u_keys + v_keys
    numbers = len(tree.own) + len(tree.begin) + len(tree.total) + len(tree.order) + u_starts + v_starts
    return 8 * keys + 4 * numbers + 9 * 12 + 8


def held(file):
    """How many nodes, sources, U keys and V keys a tree file says that it holds, as far as they count: of a good file those that
    it has. Of any other they are some, and no more than it has bytes; the call that reads it says what is wrong with it, whatever
    room there is."""
    lengths = {}
    if len(file) >= 8:
        start = len(file) - 8 - 12 * struct.unpack("<I", file[-4:])[0]
        for code, _, length in struct.iter_unpack("<3I", file[start:-8]) if start >= 0 else ():
            lengths[code] = min(length, len(file))
    counted = ((1, 8, MOST_NODES), (5, 4, MOST_POINTS), (7, 8, MOST_KEYS), (9, 8, MOST_KEYS))
    return [min(lengths.get(code, 0) // width, most) for code, width, most in counted]

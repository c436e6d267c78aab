"""Keys of cells: code times 32768 plus level, where bit i of axis a's anchor is bit d*i+a of the code, d the number of axes.

An anchor counts cells of the level along one axis, from 0. A key is valid if its level is at most 16 and its code below 2 to
the power d*level; the root's key is 0. Every call raises Refused with 1 DIMS for a number of axes other than 1 to 3, and 9 KEY
for a key that is not valid.

>>> from lohandema import keys
>>> keys.parent(2, 1277955), keys.child_index(2, 1277955)
(294914, 3)
>>> keys.neighbours(2, 1)
[65537, 32769, 98305]
"""

import ctypes

from .arrays import check_many, whole
from .library import call

MOST_KEYS = 26


def _number(name, axes, key):
    answer = ctypes.c_uint64()
    call(name, whole(axes, "axes"), whole(key, "key"), ctypes.byref(answer))
    return answer.value


def _list(name, axes, key):
    found, count = (ctypes.c_uint64 * MOST_KEYS)(), ctypes.c_size_t()
    call(name, whole(axes, "axes"), whole(key, "key"), found, ctypes.byref(count))
    return found[:count.value]


def level(axes, key):
    """The level of a key.

    >>> level(2, 1277955)
    3
    """
    return _number("get_level", axes, key)


def parent(axes, key):
    """The key one level up. The root has none: refused 10 ROOT."""
    return _number("get_parent", axes, key)


def child_index(axes, key):
    """Which child of its parent the cell is, from 0; 0 for the root."""
    return _number("get_child_index", axes, key)


def children(axes, key):
    """The 2, 4 or 8 children, ascending. A cell of level 16 has none: refused 11 DEEP.

    >>> children(1, 1)
    [2, 32770]
    """
    return _list("get_children", axes, key)


def siblings(axes, key):
    """The children of the cell's parent, the cell among them. The root has none: refused 10 ROOT."""
    return _list("get_siblings", axes, key)


def ancestors(axes, key):
    """The cell itself and those above it, up to the root.

    >>> ancestors(1, 32771)
    [32771, 2, 1, 0]
    """
    return _list("get_ancestors", axes, key)


def neighbours(axes, key):
    """The cells of the same level that touch it, itself left out, in the order of docs/RULES.md."""
    return _list("get_neighbours", axes, key)


def touching(axes, a, b):
    """Whether two cells are of one level, and their anchors differ by at most 1 on every axis.

    >>> touching(1, 3, 32771), touching(1, 3, 65539)
    (True, False)
    """
    touches = ctypes.c_bool()
    call("touching", whole(axes, "axes"), whole(a, "a"), whole(b, "b"), ctypes.byref(touches))
    return touches.value


def encode(anchor, level):
    """The key of the cell with these anchors, one for each axis, at a level.

    >>> encode([3, 5], 3)
    1277955
    """
    check_many(anchor, "anchor", "a list of one for each axis, as [3]")
    found = [whole(x, "anchor[%d]" % i) for i, x in enumerate(anchor)]
    key = ctypes.c_uint64()
    call("encode_morton_point", len(found), (ctypes.c_uint64 * 3)(*found[:3]), whole(level, "level"), ctypes.byref(key))
    return key.value


def decode(axes, key):
    """A cell's anchors, one for each axis, and its level.

    >>> decode(2, 1277955)
    ([3, 5], 3)
    """
    anchor, level = (ctypes.c_uint64 * 3)(), ctypes.c_uint64()
    call("decode_key", whole(axes, "axes"), whole(key, "key"), anchor, ctypes.byref(level))
    return anchor[:axes], level.value


def reference_depth(axes, sources):
    """The least level from 1 to 16 with at least as many cells as there are sources; 16 where there is none.

    >>> [reference_depth(3, count) for count in (0, 8, 9)]
    [1, 1, 2]
    """
    depth = ctypes.c_uint64()
    call("reference_depth", whole(axes, "axes"), whole(sources, "sources"), ctypes.byref(depth))
    return depth.value

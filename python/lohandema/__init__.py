"""Lohandema decides, for a survey of field readings, which readings are summed singly and which in groups.

A survey lies in a box of 1 to 3 axes. The box is halved along every axis, again and again, at most 16 times; each cell that
comes of it has a Morton key. A tree holds the cells that a survey needs: a cell splits while it has more sources than a limit.
For each leaf of the tree the near list (U) names the leaves whose sources are summed one by one, and for each cell the far
list (V) names the cells that are summed as groups. A leaf meets each source exactly once so.

>>> import lohandema
>>> tree = lohandema.Tree.build([[0.5, 1.5], [1.0, 1.2], [6.5, 5.5], [7.5, 0.5]], limit=1)
>>> lists = tree.lists()
>>> for leaf in tree.leaves():
...     near = [int(i) for key in lists.near(leaf) for i in tree.leaf_sources(key=key)]
...     far = [int(i) for key in lists.far_of_path(leaf) for i in tree.cell_sources(key=key)]
...     assert sorted(near + far) == [0, 1, 2, 3]

The calls are proved functions in a shared library, which `rust/archive` of the repository writes. This package is tested and
not proved; it checks and lends arrays, and makes room. Threads may call at the same time: a call lets other Python threads
run, keeps no state, and needs at most 128 KiB of stack. An array that is lent to a call must not change before it is done.
"""

from . import keys
from .boxes import Box
from .changes import Change
from .grids import Grid
from .library import VERSION as __version__
from .library import NoLibrary
from .refusal import Refused
from .rows import Lists, Rows
from .trees import Tree

__all__ = ["Box", "Change", "Grid", "Lists", "NoLibrary", "Refused", "Rows", "Tree", "keys"]

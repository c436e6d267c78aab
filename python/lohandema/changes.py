"""What a salvage of columns changed, each change with a sentence."""

from typing import NamedTuple

from .library import words


class Change(NamedTuple):
    """A change that a salvage made: its code, and the key of the row or of the cell.

    code   1 a row was dropped, as its key is not valid; 2 a row was dropped, as an earlier one has its key; 3 a cell was added;
           4 a count above 0 was cleared; 5 the begin of a kept row was changed
    key    the key, which with code 1 is none

    >>> print(Change(2, 98306))
    key 98306: a row was dropped, as an earlier one has this key (change 2)
    """

    code: int
    key: int

    @property
    def sentence(self):
        """What was done, without the key."""
        return words("change_sentence", self.code)

    def __str__(self):
        return "key %d: %s (change %d)" % (self.key, self.sentence, self.code)

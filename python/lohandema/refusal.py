"""Refusals, as an exception whose text is a sentence with its cure."""

from .library import words

# What holds a point of 6 and 7, and what a Python caller does where room was short: the package lends the most itself
POINTS = {6: "source", 7: "target or looked-up point"}
SHORT = {3: "the tree has more than 1048576 nodes: raise the limit, or thin the points out",
         6: "the U rows have more than 16777216 keys: raise the limit, or thin the points out",
         7: "the V rows have more than 16777216 keys: raise the limit, or thin the points out"}
# What the header says of 12 and 14 with `the value`
INDEXED = {12: "no leaf holds point {0}, which is inside the box: build with keep_empty=True, or take the point out",
           14: "key {0} of those to group, or node {0} that is to be checked, is not a leaf's: pass keys that lookup in this tree "
               "has answered, or the number of a leaf",
           20: "reading {0} is over 1099511627776 (2^40) in size: mend it, or pass all readings in a larger unit"}


class Refused(Exception):
    """A call that was refused: nothing was answered.

    number, value   as docs/REFUSALS.md has them: the value of 6, 7, 12, 14 and 20 is the lowest index that fails, that of
                    8 says what was short, that of any other number is 0
    axis, reason    of 6 and 7: the first axis, from 0, on which the point is outside the box, and why: 1 it is not a finite
                    number, 2 it lies below, 3 it lies above. None with every other number.
    name            the number's name, as "SOURCE"

    >>> from lohandema import Box, Refused, Tree
    >>> try:
    ...     Tree.build([[0.5], [9.0]], Box([4.0], 4.0), limit=1)
    ... except Refused as refused:
    ...     print(refused.number, refused.name, refused.value, refused.axis, refused.reason)
    ...     print(refused)
    6 SOURCE 1 0 3
    source 1 lies above the box on axis 0: enlarge the box, or mend or remove it (refused 6 SOURCE)
    """

    def __init__(self, number, value=0, axis=None, reason=None, sentence=None):
        self.number, self.value = int(number), int(value)
        self.axis, self.reason = (int(axis or 0), int(reason)) if reason else (None, None)
        # a sentence that says more of the one call than the number does
        self._own = sentence
        super().__init__(self.number, self.value, self.axis, self.reason, *([sentence] if sentence else []))

    @property
    def name(self):
        return words("refusal_name", self.number)

    @property
    def sentence(self):
        """What was wrong, and its cure."""
        if self._own:
            return self._own
        if self.reason and self.number in POINTS:
            return "%s %d %s on axis %d: %s" % (POINTS[self.number], self.value, words("reason_name", self.reason),
                                                self.axis, words("reason_cure", self.reason))
        if self.number == 8 and self.value in SHORT:
            return SHORT[self.value]
        if self.number in INDEXED:
            return INDEXED[self.number].format(self.value)
        told = words("refusal_sentence", self.number)
        return "%s; the value is %d" % (told, self.value) if self.value else told

    def __str__(self):
        return "%s (refused %d %s)" % (self.sentence, self.number, self.name)


def not_added(refused, points, sources):
    """A refusal of one source more, by this call's own cures: another box or limit helps only in a build. So many points were
    passed, and the tree has so many sources."""
    sentence = None
    if refused.number == 4:
        sentence = ("there are %d points, and a tree holds at most 1048576, so there is no room for one more: thin the points "
                    "out and build anew" % points)
    elif refused.number == 18:
        sentence = ("the tree is not the build of these points in its box with this limit and keep_empty and without targets, or "
                    "a point is outside: pass the points, limit and keep_empty with which it was built; a tree that targets or a "
                    "grid refined, or that was balanced, is to be built anew without")
        if points != sources:
            sentence = ("the tree has %d sources, and %d points were passed: pass the points with which it was built, and behind "
                        "them each source that was added since" % (sources, points))
    elif refused.number == 6:
        cure = "mend it, or leave it out" if refused.reason == 1 else "build anew in a larger box, or mend it or leave it out"
        sentence = "the new source, number %d, %s on axis %d: %s" % (refused.value, words("reason_name", refused.reason),
                                                                     refused.axis, cure)
    elif refused.number == 8:
        sentence = ("with the new source the tree has more than 1048576 nodes: build anew with a higher limit, or of fewer "
                    "points")
    return Refused(refused.number, refused.value, refused.axis, refused.reason, sentence) if sentence else refused

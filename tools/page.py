"""What stands where on the page: the views of one, two and three axes, and the shapes they are drawn with."""

import heapq
import math
import statistics
from xml.sax.saxutils import escape, quoteattr

import survey_file as house

# The plot's place on the page, and the height of one level's row
PLOT, LEFT, TOP, ROW = 640, 112, 84, 38
LEGEND = LEFT + PLOT + 34
PAGE_WIDTH = LEGEND + 400
# A mark's radius where there is room, the least one that has an outline, the least one, and a radius as part of the way
# from reading to reading
MARK, OUTLINED_MARK, LEAST_MARK, MARK_PART = 3.6, 1.4, 0.9, 0.42
# So many readings around a patch are each measured; where there are more, squares of this side are looked at, across which
# it is less far than between readings with the least marks, and at most three readings of each
FEW, SQUARE = 64, 1.5

# Orange and yellow against blues of different lightness, which the usual kinds of colour blindness leave apart; what the
# balancing adds is pale green
UNSTORED, PLAIN, LINE = "url(#hatch)", "#ffffff", "#8c8c8c"
CHOSEN, NEAR, FAULT = "#f0e442", "#e69f00", "#cc0066"
ADDED = "#dcefcf"
FAR_DARK, FAR_LIGHT = (0x2b, 0x6c, 0xb0), (0xb9, 0xd6, 0xf0)
GRID_LINE = "#b03000"
HATCH = ('<defs><pattern id="hatch" width="7" height="7" patternUnits="userSpaceOnUse" patternTransform="rotate(45)">'
         '<rect width="7" height="7" fill="#f4f4f4"/><rect width="1.6" height="7" fill="#cfcfcf"/></pattern></defs>')


# Where things stand on the page


def along(survey, axis, coordinate):
    """A coordinate's part of the box's side."""
    return (coordinate - (survey.centre[axis] - survey.radius)) / (2 * survey.radius)


class Plan:
    """Two axes across and up the page, the third one cut at a coordinate."""

    def __init__(self, survey, axes, cut_axis=None, cut=None, source=None):
        self.survey, self.axes, self.cut_axis, self.cut, self.source = survey, axes, cut_axis, cut, source
        self.ground = self.height = PLOT
        if cut_axis is not None:
            self.anchor = house.axis_anchor(survey.centre[cut_axis], survey.radius, cut)

    def shows(self, node):
        return node.is_leaf

    def rect(self, key):
        """Left, top, width and height of a cell, or None if the plane does not cut it."""
        level = house.level_of(key)
        anchors = house.anchors_of(self.survey.axes, key)
        if self.cut_axis is not None and anchors[self.cut_axis] != self.anchor >> (house.DEEPEST - level):
            return None
        side = PLOT / 2 ** level
        across, up = (anchors[axis] for axis in self.axes)
        return LEFT + side * across, TOP + PLOT - side * (up + 1), side, side

    def strip(self):
        return []

    def spot(self, row):
        across, up = (along(self.survey, axis, row[axis]) for axis in self.axes)
        return LEFT + PLOT * across, TOP + PLOT * (1 - up)


class Rows:
    """One axis across the page, a row for each level, and the readings under them."""

    def __init__(self, survey, depth):
        self.survey, self.axes, self.cut_axis = survey, [0], None
        self.depth, self.ground = depth, ROW * (depth + 1)
        self.height = self.ground + 28

    def shows(self, node):
        return True

    def rect(self, key):
        level = house.level_of(key)
        side = PLOT / 2 ** level
        return LEFT + side * house.anchors_of(1, key)[0], TOP + ROW * level, side, ROW

    def strip(self):
        """What lies under the readings, grey, so that black and white marks are seen on it."""
        return [box((LEFT, TOP + self.ground + 4, PLOT, 20), fill="#c4ccd4")]

    def spot(self, row):
        return LEFT + PLOT * along(self.survey, 0, row[0]), TOP + self.height - 14


# Shapes


def tag(name, inside="", **attributes):
    """One SVG element; a hint in it is what a viewer shows under the mouse."""
    hint = attributes.pop("hint", None)
    words = "".join(" %s=%s" % (word.strip("_").replace("_", "-"), quoted(value)) for word, value in attributes.items())
    return "<%s%s>%s%s</%s>" % (name, words, "<title>%s</title>" % escape(hint) if hint else "", inside, name)


def quoted(value):
    """A value in its quotes; a number has nothing to be escaped."""
    return '"%s"' % number(value) if isinstance(value, float) else quoteattr(number(value))


def number(value):
    return ("%.2f" % value).rstrip("0").rstrip(".") if isinstance(value, float) else str(value)


def box(rect, **attributes):
    x, y, width, height = rect
    return tag("rect", x=float(x), y=float(y), width=float(width), height=float(height), **attributes)


def words(x, y, text, size=13, **attributes):
    return tag("text", escape(text), x=float(x), y=float(y), font_size=size, **attributes)


def mark(kind, spot, radius=MARK, **attributes):
    x, y = (float(part) for part in spot)
    if kind == "fault":
        arm = max(3.0, 1.7 * radius)
        cross = "M %.2f %.2f l %.2f %.2f m 0 %.2f l %.2f %.2f" % (
            x - arm, y - arm, 2 * arm, 2 * arm, -2 * arm, -2 * arm, 2 * arm)
        return tag("path", d=cross, class_=kind, stroke=FAULT, stroke_width=arm / 2, fill="none", **attributes)
    if kind == "target":
        plus = "M %.2f %.2f h 6 m -3 -3 v 6" % (x - 3, y)
        return tag("path", d=plus, class_=kind, stroke="#555555", stroke_width=1, fill="none", **attributes)
    fill, stroke = ("#ffffff", "#000000") if kind in ("grouped", "other") else ("#000000", "#ffffff")
    # small marks run together: without outlines they stay black or white
    line = 0.36 * radius if radius >= OUTLINED_MARK else 0
    return tag("circle", cx=x, cy=y, r=radius, class_=kind, fill=fill, stroke=stroke, stroke_width=line, **attributes)


def mark_radii(spots):
    """A radius for each mark, smaller where readings are dense, so that neighbours on a line do not cover each other.
    What counts is how far the readings around are from their second nearest, in the middle of the order: one that was
    taken twice does not shrink its mark."""
    reach = MARK / MARK_PART
    places = [(math.floor(x / reach), math.floor(y / reach)) for x, y in spots]
    patches = {}
    for i, place in enumerate(places):
        patches.setdefault(place, []).append(i)
    around = {(across, up): [i for a in (-1, 0, 1) for b in (-1, 0, 1) for i in patches.get((across + a, up + b), [])]
              for across, up in patches}
    squares = {}
    for spot in spots:
        some = squares.setdefault(square_of(spot), [])
        if len(some) < 3:
            some.append(spot)
    # the nearest to a reading is the reading itself
    ways = [(heapq.nsmallest(3, (math.dist(spot, spots[i]) for i in around[place])) + [reach] * 2)[2]
            if len(around[place]) <= FEW else way_in_squares(squares, spot, reach) for spot, place in zip(spots, places)]
    middle = {place: statistics.median(ways[i] for i in some) for place, some in around.items()}
    return [max(LEAST_MARK, MARK * min(1, middle[place] / reach)) for place in places]


def square_of(spot):
    return math.floor(spot[0] / SQUARE), math.floor(spot[1] / SQUARE)


def way_in_squares(squares, spot, reach):
    """How far it is to the second nearest of many readings, at most the reach: the squares around are looked at from the
    inner ones to the outer ones, and no further than needed. Of a full square it is its diagonal, which gives the least mark."""
    across, up = square_of(spot)
    if len(squares[across, up]) == 3:
        return SQUARE * math.sqrt(2)
    ways = []
    for ring in range(math.ceil(reach / SQUARE) + 1):
        for a in range(-ring, ring + 1):
            for b in range(-ring, ring + 1) if abs(a) == ring else (-ring, ring):
                ways += [math.dist(spot, other) for other in squares.get((across + a, up + b), ())]
        ways.sort()
        if len(ways) > 2 and ways[2] <= ring * SQUARE:
            break
    return min(reach, (ways + [reach] * 2)[2])


def line_width(rect, most):
    """The width of a cell's outline, at most so much, and thinner around a small cell."""
    return min(most, max(0.1, min(rect[2], rect[3]) / 8))


def far_colour(place, count):
    """The colour of the place-th of so many V rows, the leaf's own darkest."""
    part = place / (count - 1) if count > 1 else 0.5
    return "#%02x%02x%02x" % tuple(round(a + (b - a) * part) for a, b in zip(FAR_DARK, FAR_LIGHT))


def ink_on(colour):
    red, green, blue = bytes.fromhex(colour[1:])
    return "#ffffff" if 3 * red + 6 * green + blue < 1280 else "#000000"


def ticks(low, high):
    """Round coordinates along an axis, as many as have room for their text, as number and text."""
    step = 10.0 ** math.floor(math.log10(high - low))
    step = next(step * part for part in (1, 0.5, 0.2, 0.1) if (high - low) / (step * part) >= 4)
    digits = max(0, -math.floor(math.log10(step) + 1e-9))
    numbers = [i * step for i in range(math.ceil(low / step), math.floor(high / step) + 1)]
    texts = ["%.*f" % (digits, number) for number in numbers]
    every = math.ceil(len(texts) * (8 * max(map(len, texts)) + 12) / PLOT)
    return list(zip(numbers, texts))[::every]


def across_tick(place, bottom, text):
    return [box((LEFT + place - 0.5, bottom, 1, 6), fill="#333333"),
            words(LEFT + place, bottom + 21, text, 12, text_anchor="middle")]


def up_tick(place, text):
    return [box((LEFT - 6, TOP + PLOT - place - 0.5, 6, 1), fill="#333333"),
            words(LEFT - 10, TOP + PLOT - place + 4, text, 12, text_anchor="end")]


def frame(left, top, right, bottom, **attributes):
    """A dashed outline, which is seen also where it has no height."""
    corners = "M%s %sH%sV%sH%sZ" % tuple(map(number, (left, top, right, bottom, left)))
    return tag("path", d=corners, fill="none", stroke=GRID_LINE, stroke_width=2, stroke_dasharray="7 4", **attributes)


def sample_frame(spot):
    x, y = spot
    return frame(x - 12.0, y - 8.0, x + 12.0, y + 8.0)


def swatch(colour, line=1.2):
    return lambda spot: box((spot[0] - 12, spot[1] - 8, 24, 16), fill=colour, stroke="#333333", stroke_width=line)


def sample_mark(kind):
    return lambda spot: mark(kind, spot)

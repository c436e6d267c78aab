"""What the tools share: the house survey file, the box, a point's cell and the keys, as docs/RULES.md has them."""

import math
import os
import re
import struct
from dataclasses import dataclass

MOST_BYTES = 32768
DEEPEST = 16
AXIS_NAMES = "xyz"
# a line of text ends so: as on Unix, on Windows, or as old Macintosh programs wrote it
LINE_END = re.compile("\r*\n|\r")
# what to do where a file cannot be read
NOT_READ = {FileNotFoundError: "; look at its name and folder", IsADirectoryError: "; name a file in it"}
# axes, flags, limit, order; centre of three, radius; way back to the sources, their count, the same for the targets
TRAILER = struct.Struct("<4I4d4I")


class Refused(Exception):
    """Input that a tool does not take: the message names the file and, where it has lines, the line."""


@dataclass
class Survey:
    axes: int
    keep_empty: bool
    limit: int
    order: int
    centre: tuple
    radius: float
    sources: list
    targets: list


def read_bytes(path):
    try:
        with open(path, "rb") as file:
            return file.read()
    except OSError as error:
        raise Refused("%s: %s%s" % (path, error.strerror, NOT_READ.get(type(error), "")))


def write_bytes(path, data):
    try:
        with open(path, "wb") as file:
            file.write(data)
    except OSError as error:
        raise Refused("%s: %s" % (path, error.strerror))


def write_text(path, text):
    """Text as UTF-8; what stands for a byte of a file's name that is no letter becomes a question mark."""
    write_bytes(path, text.encode(errors="replace"))


def check_apart(out, others):
    """That a file to be written is none of the others."""
    for other in others:
        if out and other and os.path.realpath(out) == os.path.realpath(other):
            raise Refused("%s: would be written over %s; name another file" % (out, other))


def read_lines(path):
    """The text lines of a file, each with its number from 1."""
    data = read_bytes(path)
    try:
        text = data.decode("utf-8-sig")
    except UnicodeDecodeError as error:
        before = data[:error.start].decode("utf-8-sig")
        raise Refused("%s: line %d: not UTF-8 text; save the file as UTF-8" % (path, len(LINE_END.split(before))))
    return list(enumerate(LINE_END.split(text), 1))


# The file


def pack(survey):
    rows = survey.sources + survey.targets
    body = b"".join(struct.pack("<%dd" % survey.axes, *row) for row in rows)
    centre = tuple(survey.centre) + (0.0,) * (3 - survey.axes)
    back_to_targets = 8 * survey.axes * len(survey.targets)
    trailer = TRAILER.pack(
        survey.axes, int(survey.keep_empty), survey.limit, survey.order, *centre, survey.radius,
        len(body), len(survey.sources), back_to_targets, len(survey.targets))
    return body + trailer


def unpack(data, name):
    """The survey in a file's bytes; breaks of the file's rules are refused under the name given."""
    if not TRAILER.size <= len(data) <= MOST_BYTES:
        raise Refused("%s: %d bytes, but a survey file has 64 to 32768" % (name, len(data)))
    trailer = TRAILER.unpack(data[-TRAILER.size:])
    axes, flags, limit, order = trailer[:4]
    back_to_sources, sources, back_to_targets, targets = trailer[8:]
    if axes not in (1, 2, 3):
        raise Refused("%s: trailer: %d axes, not 1 to 3" % (name, axes))
    if flags > 1:
        raise Refused("%s: trailer: flags are %d, but only bit 0 has a meaning" % (name, flags))
    room = len(data) - TRAILER.size
    if 8 * axes * (sources + targets) != room:
        raise Refused("%s: trailer: %d sources and %d targets of %d axes do not fill the %d bytes before the trailer"
                      % (name, sources, targets, axes, room))
    if back_to_sources != room or back_to_targets != 8 * axes * targets:
        raise Refused("%s: trailer: the ways back are %d and %d, but the rows start %d and %d bytes back"
                      % (name, back_to_sources, back_to_targets, room, 8 * axes * targets))
    rows = list(struct.Struct("<%dd" % axes).iter_unpack(data[:room]))
    centre, radius = trailer[4:4 + axes], trailer[7]
    return Survey(axes, flags == 1, limit, order, centre, radius, rows[:sources], rows[sources:])


def read_survey(path):
    data = read_bytes(path)
    try:
        return unpack(data, path)
    except Refused as refused:
        raise Refused("%s; make the survey file anew with make-survey" % refused)


# The box, and a point's cell


def box_fault(centre, radius):
    """Why the box is outside its domain, or None."""
    if not 0.25 <= radius <= 1048576.0:
        return "radius %r is not from 0.25 to 1048576" % radius
    for name, number in zip(AXIS_NAMES, centre):
        if not abs(number) <= 16777216.0:
            return "centre %s %r is not from -16777216 to 16777216" % (name, number)
    return None


def box_from_extents(lows, highs):
    # copysign keeps the sign of zero, which math.floor and math.ceil drop
    floors = [math.copysign(math.floor(low), low) for low in lows]
    ceilings = [math.copysign(math.ceil(high), high) for high in highs]
    centre = tuple((low + high) / 2.0 for low, high in zip(floors, ceilings))
    radius = max((high - low) / 2.0 for low, high in zip(floors, ceilings)) + 1e-3
    return centre, radius


def order_fault(order):
    """Why an order of the expansions is none, or None."""
    return None if 1 <= order <= 64 else "--order %d is not from 1 to 64; give one that is" % order


def extents_cure(radius):
    """What to do where the box from the extents, of such a radius, is outside its domain."""
    if radius < 0.25:
        return "the rows are one point, which has no size; give the box with --centre and --radius"
    return "shift and scale the coordinates into that domain"


def axis_anchor(centre, radius, coordinate):
    """The level-16 anchor on one axis, or None outside the box."""
    quotient = (coordinate - (centre - radius)) / (2.0 * radius / 2 ** DEEPEST)
    if not math.isfinite(quotient):
        return None
    anchor = math.floor(quotient)
    return anchor if 0 <= anchor < 2 ** DEEPEST else None


def wall_of(centre, radius, point):
    """The first axis on which a point is outside the box, and what it is there, as the listing program judges it; or
    None. Without a box only what is not finite is outside."""
    for axis, x in enumerate(point):
        if not math.isfinite(x):
            return axis, "is not a finite number"
        if centre and axis_anchor(centre[axis], radius, x) is None:
            return axis, "lies %s the box" % ("below" if x < centre[axis] else "above")
    return None


def point_key(centre, radius, point):
    """The level-16 key of a point, or None outside the box."""
    anchors = [axis_anchor(c, radius, x) for c, x in zip(centre, point)]
    return None if None in anchors else key_of(anchors, DEEPEST)


# Keys: code times 32768 plus level; bit i of axis a's anchor is bit d*i+a of the code


def level_of(key):
    return key % 32768


def code_of(key):
    return key // 32768


def key_of(anchors, level):
    d = len(anchors)
    code = sum((anchor >> i & 1) << (d * i + a) for a, anchor in enumerate(anchors) for i in range(level))
    return code * 32768 + level


def anchors_of(d, key):
    code = code_of(key)
    return [sum((code >> (d * i + a) & 1) << i for i in range(level_of(key))) for a in range(d)]


def is_valid(d, key):
    return level_of(key) <= DEEPEST and code_of(key) < 2 ** (d * level_of(key))


def ancestors(d, key):
    """The key itself and every cell around it, up to the root."""
    code, level = code_of(key), level_of(key)
    return [(code >> d * up) * 32768 + level - up for up in range(level + 1)]


def cell_bounds(survey, key):
    """Low and high corner of a cell, to draw it; the cell of a point is never judged by these."""
    side = 2.0 * survey.radius / 2 ** level_of(key)
    anchors = anchors_of(survey.axes, key)
    lows = [c - survey.radius + side * anchor for c, anchor in zip(survey.centre, anchors)]
    return lows, [low + side for low in lows]


# Words for people


def comma(row):
    # repr of a float is the shortest decimal that reads back as the same f64
    return ",".join(repr(x) for x in row)


def some(count, name):
    return "%d %s%s" % (count, name, "" if count == 1 else "s")


def axes_text(count):
    return "%d ax%ss" % (count, "i" if count == 1 else "e")

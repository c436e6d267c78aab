"""A CSV file of places: which of its columns are the axes, and the rows in them."""

import csv
import itertools
import re
from dataclasses import dataclass

import survey_file as house
from survey_file import Refused

NUMBER = re.compile(r"[+-]?([0-9]+\.?[0-9]*|\.[0-9]+)([eE][+-]?[0-9]+)?|[+-]?inf|nan")
NOT_FINITE = re.compile("nan|inf|infinity", re.IGNORECASE)
# a header with these names alone has nothing but axes, and no choice is asked for
PLACE_NAMES = {"x", "y", "z", "east", "north", "up", "easting", "northing", "elevation", "height", "altitude", "depth"}

# the name of a table that is a grid's
GRID = "--grid"


@dataclass
class Table:
    path: str
    # the chosen columns, counted from 1, and what they and the others are called
    columns: list
    names: list
    left_out: list
    rows: list
    lines: list


def read_table(path, asked, axes, option):
    """The rows of a CSV file, with the columns that are asked for. Without a choice every column is an axis, if the
    header leaves no doubt of it: one name, names of places alone, or as many as there are axes by the box."""
    records = read_records(path)
    line, first = next(records, (0, None))
    if first is None:
        return Table(path, [], [], [], [], [])
    columns = chosen_columns(path, line, first, asked, option) if asked else list(range(1, len(first) + 1))
    has_header = is_header(first, columns) or not all(is_whole(word) for word in asked or [])
    if not asked:
        check_whole(path, line, first, axes, option, has_header)
    called = {i: "%s (column %d)" % (field, i) if has_header and field else "column %d" % i
              for i, field in enumerate(first, 1)}
    left_out = [called[i] for i in called if i not in columns]
    table = Table(path, columns, [called[i] for i in columns], left_out, [], [])
    for line, fields in records if has_header else itertools.chain([(line, first)], records):
        table.rows.append(read_row(path, line, fields, columns))
        table.lines.append(line)
    return table


def grid_table(grid):
    """The points of a grid as the rows of a table, whose lines are the numbers of the points; without a grid, no rows."""
    if grid is None:
        return Table(None, [], [], [], [], [])
    columns = range(1, grid.axes + 1)
    return Table(GRID, list(columns), ["axis %d" % (i - 1) for i in columns], [], grid, range(len(grid)))


def agreed_axes(sources, targets, centre):
    """The number of axes, on which sources, targets and the centre of the box, if it is given, must agree."""
    named = [(sources.path, len(sources.columns)), (targets.path, len(targets.columns)), ("--centre", len(centre or ()))]
    widths = [(name, width) for name, width in named if width]
    if not widths or not (sources.rows or targets.rows or centre):
        raise Refused("%s: no rows; give the box with --centre and --radius" % sources.path)
    for name, width in widths[1:]:
        if width != widths[0][1]:
            raise Refused("%s: %s, but %s has %d; make them agree with --columns, --target-columns, --grid or --centre"
                          % (name, house.axes_text(width), *widths[0]))
    return widths[0][1]


def read_records(path):
    """The fields of each line that is not blank and no comment, with the number of the line."""
    width = None
    for line, text in house.read_lines(path):
        text = text.strip()
        if not text or text.startswith("#"):
            continue
        fields = read_fields(path, line, text)
        if width and len(fields) != width:
            raise Refused("%s: line %d: %d columns, but %d before; give every line the same columns"
                          % (path, line, len(fields), width))
        width = len(fields)
        yield line, fields


def read_fields(path, line, text):
    try:
        # without a quote a comma always parts two fields
        fields = next(csv.reader([text], skipinitialspace=True, strict=True)) if '"' in text else text.split(",")
    except csv.Error:
        raise Refused("%s: line %d: a quote is not closed or stands inside a field; put quotes around whole fields"
                      % (path, line))
    for other, name in ((";", "semicolons"), ("\t", "tabs")):
        if len(fields) == 1 and other in fields[0]:
            raise Refused("%s: line %d: %s part the columns; save the file with commas" % (path, line, name))
    return [field.strip() for field in fields]


def chosen_columns(path, line, first, asked, option):
    """The columns, counted from 1, that are asked for by number or by name."""
    columns = [one_column(path, line, first, word, option) for word in asked]
    for column in columns:
        if columns.count(column) > 1:
            raise Refused("%s: %s=%s takes column %d twice; name each axis once"
                          % (path, option, ",".join(asked), column))
    return columns


def one_column(path, line, first, word, option):
    if is_whole(word):
        if not 1 <= int(word) <= len(first):
            raise Refused("%s: line %d: no column %s; %s takes 1 to %d" % (path, line, word, option, len(first)))
        return int(word)
    found = [i for i, field in enumerate(first, 1) if field == word]
    if not found:
        raise Refused("%s: line %d: no column is called %r; choose with %s from %s"
                      % (path, line, word, option, ", ".join(first)))
    if len(found) > 1:
        raise Refused("%s: line %d: columns %s are all called %r; choose one with %s by its number"
                      % (path, line, " and ".join(map(str, found)), word, option))
    return found[0]


def is_whole(word):
    return re.fullmatch("[0-9]+", word) is not None


def check_whole(path, line, first, axes, option, has_header):
    """Without a choice: that every column may be taken for an axis."""
    if has_header and len(first) not in (1, axes) and not {name.lower() for name in first} <= PLACE_NAMES:
        raise Refused("%s: line %d: the header names %d columns (%s) and none was chosen; say which are the axes, "
                      "as %s=%s" % (path, line, len(first), ", ".join(first), option, example(first, axes)))
    if len(first) > 3:
        raise Refused("%s: line %d: %d columns, but at most 3 axes; say which are the axes, as %s=1,2"
                      % (path, line, len(first), option))
    names = [name.lower() for name in first]
    twice = [i for i, name in enumerate(names, 1) if has_header and name in names[:i - 1]]
    if twice:
        others = ",".join(str(i) for i in range(1, len(first) + 1) if i not in twice)
        raise Refused("%s: line %d: columns %d and %d are both called %r; say which are the axes, as %s=%s" % (
            path, line, names.index(names[twice[0] - 1]) + 1, twice[0], first[twice[0] - 1], option, others))


def example(first, axes):
    """A choice of columns to show: those with a place's name in theirs, by number if not each can be typed as it is; where
    there are none, the first numbers."""
    most = axes or 3
    found = [i for i, name in enumerate(first, 1) if PLACE_NAMES & set(re.split("[^a-z]+", name.lower()))][:most]
    names = [first[i - 1] for i in found]
    if names and all(first.count(name) == 1 and re.fullmatch(r"[\w.-]+", name) for name in names):
        return ",".join(names)
    return ",".join(map(str, found or range(1, min(axes or 2, len(first) - 1) + 1)))


def is_header(first, columns):
    # a letter in front of every chosen field, and no NaN or Infinity, so that a spoilt first reading is not taken for one
    fields = [first[column - 1] for column in columns]
    return all(re.match(r"[^\W\d_]", field) and not NOT_FINITE.fullmatch(field) for field in fields)


def read_row(path, line, fields, columns):
    for column in columns:
        if not NUMBER.fullmatch(fields[column - 1]):
            raise Refused("%s: line %d: column %d: %r is not a number; mend the line or take it out (commas part the "
                          "columns, a point the decimals)" % (path, line, column, fields[column - 1]))
    return tuple(float(fields[column - 1]) for column in columns)

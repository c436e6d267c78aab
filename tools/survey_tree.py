"""A survey file or a CSV of readings, and its tree and lists by the Python package: what inspect and draw share."""

import array
import importlib.util
import math
import os
import sys
from collections import Counter

import survey_file as house
from command_line import ROOT, number, numbers, whole, words
from grid_points import Grid, add_grid, check_grid
from listing_file import Listing, Node, source_keys
from survey_file import Refused, comma, some
from table_file import GRID, agreed_axes, grid_table, read_table

# options of a CSV alone, with what they are where nothing is said
OF_CSV = {"columns": None, "target_columns": None, "centre": None, "radius": None, "limit": 64, "order": 1,
          "grid": None, "keep_empty": False, "balance": False}


# Options


def add_csv_options(parser):
    add = parser.add_argument
    add("--columns", type=words, metavar="NAME,NAME", help="CSV: the columns that are the axes, by name or number")
    add("--target-columns", type=words, metavar="NAME,NAME", help="CSV: the same for the targets, if theirs differ")
    add("--centre", type=numbers, metavar="X,Y,Z", help="CSV: centre of the box, as --centre=-4,2.5 (from the extents)")
    add("--radius", type=number, metavar="R", help="CSV: half the side of the box")
    add("--limit", type=whole, metavar="N", help="CSV: a cell with more sources is split (64)")
    add("--order", type=whole, metavar="N", help="CSV: order of the expansions, 1 to 64 (1)")
    add_grid(parser, "CSV: ")
    add("--keep-empty", action="store_true", help="CSV: store cells without sources too")
    add("--balance", action="store_true", help="CSV: split cells until no two leaves that touch are more than one level "
        "apart; cells without sources are stored too")


def check_csv_options(parser, options):
    """That the options of a CSV stand with one, and go together; those that are not given get what is usual."""
    given = ["--" + name.replace("_", "-") for name in OF_CSV if not any(getattr(options, name) is x for x in (None, False))]
    if not is_csv(options.readings) and (given or options.targets):
        parser.error("a survey file has its own box, targets and figures; leave out %s, or give readings whose name ends in "
                     ".csv" % ", ".join(given or [options.targets]))
    if options.targets and not is_csv(options.targets):
        parser.error("%s: targets are read as CSV; give a file whose name ends in .csv" % options.targets)
    if (options.centre is None) != (options.radius is None):
        parser.error("--centre and --radius go together")
    if options.target_columns and not options.targets:
        parser.error("--target-columns goes with TARGETS.csv; give that file or leave the option out")
    check_grid(parser, options)
    options.keep_empty = options.keep_empty or options.balance
    for name, usual in OF_CSV.items():
        if getattr(options, name) is None:
            setattr(options, name, usual)


def is_csv(name):
    return name.lower().endswith(".csv")


# The survey


class Survey(house.Survey):
    """A survey with what is told of where it came from: lines of its rows, if it has any, and sentences; and with what its
    tree says of the targets."""

    lines, target_lines, told, name, targets_name, near_work, aims = None, None, (), None, None, 0, ()
    # whether the tree is to be balanced, and then the keys that it had before
    balance, before = False, None


def read(options):
    """The survey that the options name."""
    with telling("reading %s" % options.readings):
        survey = read_csv(options) if is_csv(options.readings) else read_file(options.readings)
    survey.name = options.readings
    survey.targets_name = GRID if isinstance(survey.targets, Grid) else options.targets or options.readings
    return survey


def read_file(path):
    data = house.read_bytes(path)
    try:
        survey = Survey(**vars(house.unpack(data, path)))
    except Refused as refused:
        raise Refused("%s; make the survey file anew with make-survey, or, if it is CSV, give it a name that ends in .csv"
                      % refused)
    survey.told = told(survey, [], "as the file has it")
    return survey


def read_csv(options):
    if house.order_fault(options.order):
        raise Refused(house.order_fault(options.order))
    axes = len(options.centre) if options.centre else options.grid.axes if options.grid else None
    sources = read_table(options.readings, options.columns, axes, "--columns")
    targets = grid_table(options.grid)
    if options.targets:
        targets = read_table(options.targets, options.target_columns or options.columns, axes, "--target-columns")
    axes = agreed_axes(sources, targets, options.centre)
    survey = Survey(axes, options.keep_empty, options.limit, options.order, options.centre, options.radius, sources.rows,
                    targets.rows)
    survey.lines, survey.target_lines = sources.lines, None if options.grid else targets.lines
    survey.balance = options.balance
    tables = [sources, targets] if options.targets else [sources]
    survey.told = told(survey, tables, "as given" if options.centre else "from the extents")
    if options.grid:
        survey.told.insert(-2, "--grid: %s; the last axis is the fastest" % options.grid.text())
    if options.balance:
        survey.told.append("balanced: no two leaves that touch are more than one level apart")
    return survey


def told(survey, tables, origin):
    """What is told of the survey; the figures of the box stand in later, where it is made from the extents."""
    unused = ", which split no cell, as cells without readings are not kept" if survey.targets and not survey.keep_empty else ""
    lines = ["%s, %s%s" % (some(len(survey.sources), "reading"), some(len(survey.targets), "target"), unused)]
    for table in tables:
        named = ["%s is %s" % pair for pair in zip(house.AXIS_NAMES, table.names)]
        others = "; not read: %s" % ", ".join(table.left_out) if table.left_out else ""
        lines.append("%s: %s%s" % (table.path, ", ".join(named) or "no rows", others))
    return lines + ["box %s" % origin, "limit %d, order %d, cells without readings %s"
                    % (survey.limit, survey.order, "kept" if survey.keep_empty else "not kept")]


# The tree and its lists


def lists_of(survey):
    """The lists of a survey, which know their tree, and the leaves that do not meet each reading exactly once. The survey
    gets its box, its near work and the targets of each node."""
    lohandema = package()
    sources = rows_of(survey.sources, survey.axes)
    if isinstance(survey.targets, Grid):
        grid = lohandema.Grid(survey.targets.origin, survey.targets.spacing, survey.targets.shape)
        targets, ends, used = grid.points(), grid.corners(), {"grid": grid, "order": survey.order}
    else:
        targets = ends = rows_of(survey.targets, survey.axes)
        used = {"targets": targets, "order": survey.order} if survey.targets and survey.keep_empty else {}
    try:
        box = lohandema.Box(survey.centre, survey.radius) if survey.centre else lohandema.Box.around(sources, ends)
        tree = lohandema.Tree.build(sources, box, limit=survey.limit, keep_empty=survey.keep_empty, progress=True, **used)
        if survey.balance:
            survey.before = frozenset(tree.key.tolist())
            tree = tree.balanced(sources, progress=True)
        lists = tree.lists(progress=True)
        survey.near_work, survey.aims = tree.near_work(targets, with_counts=True, progress=True)
        at_fault = lists.at_fault(progress=True).tolist()
    except lohandema.Refused as refused:
        raise Refused(where(survey, refused) if refused.number != 2 or survey.centre else extents_fault(survey))
    except ValueError:
        raise Refused(not_finite(survey))
    survey.centre, survey.radius = box.centre, box.radius
    survey.told = ["%s: centre %s, radius %r" % (line, comma(box.centre), box.radius) if line.startswith("box ") else line
                   for line in survey.told]
    return lists, at_fault


def extents_fault(survey):
    """Why the rows, which are finite, have no box of their extents, with what to do."""
    corners = survey.targets.corners() if isinstance(survey.targets, Grid) else survey.targets
    columns = list(zip(*survey.sources, *corners))
    centre, radius = house.box_from_extents([min(axis) for axis in columns], [max(axis) for axis in columns])
    return "%s: the box from the extents is outside its domain: %s; %s" % (
        survey.name, house.box_fault(centre, radius), house.extents_cure(radius))


class Made(Listing):
    """A listing that was made here. Its nodes are numbered as in the columns of the calls, depth first."""

    at_fault = ()

    def leaves_at_fault(self):
        return [self.nodes[node] for node in self.at_fault]


def listing_of(survey, lists, at_fault):
    """The listing of a survey, made from its tree and lists."""
    tree = lists.tree
    leaves = set(tree.leaves().tolist() or [0])
    columns = zip(tree.key.tolist(), tree.own.tolist(), lists.u, lists.v, survey.aims.tolist())
    nodes = [Node(n, key, own, near.tolist(), far.tolist(), n in leaves, aims)
             for n, (key, own, near, far, aims) in enumerate(columns)]
    listing = Made(axes=survey.axes, depth=tree.depth, near_work=survey.near_work, nodes=nodes,
                   by_key={node.key: node for node in nodes}, source_keys=source_keys(survey),
                   held=Counter(dict(zip(tree.key.tolist(), tree.total.tolist()))))
    listing.at_fault, listing.before = at_fault, survey.before
    if listing.near_work != listing.near_work_of_rows():
        raise Refused("%s: near work is %d, but the U rows give %d; please report it with the file"
                      % (survey.name, listing.near_work, listing.near_work_of_rows()))
    return listing


def package():
    """The Python package of the repository."""
    folder = os.path.join(ROOT, "python")
    if folder not in sys.path:
        sys.path.insert(0, folder)
    try:
        import lohandema
    except ImportError as error:
        raise Refused(str(error))
    return lohandema


def telling(what):
    """The package's line on standard error for long work. It is taken from its file, as the package needs the library."""
    path = os.path.join(ROOT, "python", "lohandema", "progress.py")
    spec = importlib.util.spec_from_file_location("progress", path)
    progress = importlib.util.module_from_spec(spec)
    spec.loader.exec_module(progress)
    return progress.telling(True, what)


def rows_of(rows, axes):
    """Rows as an array that the package takes as it is."""
    flat = array.array("d")
    for row in rows:
        flat.extend(row)
    return memoryview(flat).cast("B").cast("d", [len(rows), axes]) if rows else []


def where(survey, refused):
    """A refusal with the file and, where it has lines, the line that it is of."""
    name, lines, told = survey.name, survey.lines, str(refused)
    if refused.number in (7, 12):
        name, lines = survey.targets_name, survey.target_lines
    if refused.number == 12:
        told = "no leaf holds target %d, as cells without readings are not kept: %s, or take the target out (refused 12 %s)" % (
            refused.value, "give --keep-empty" if lines else "make the file anew with --keep-empty", refused.name)
    if refused.number in (6, 7, 12) and lines:
        return "%s: line %d: %s" % (name, lines[refused.value], told)
    return "%s: %s" % (name, told)


def not_finite(survey):
    """The first row that no box can be put around."""
    if isinstance(survey.targets, Grid) and not all(map(math.isfinite, survey.targets.corners()[1])):
        return "--grid: its last coordinates are not finite (%s); give a smaller grid" % comma(survey.targets.corners()[1])
    for name, rows, lines in ((survey.name, survey.sources, survey.lines),
                              (survey.targets_name, survey.targets, survey.target_lines or [])):
        for row, line in zip(rows, lines):
            wall = house.wall_of(None, None, row)
            if wall:
                return "%s: line %d: %s %s on axis %d, counted from 0; mend the line or take it out" % (
                    name, line, comma(row), wall[1], wall[0])
    return "%s: no box from these rows; give it with --centre and --radius" % survey.name

"""A tree for other programs: VTK for ParaView, GeoJSON for maps, CSV for tables. Each is written as parts of text."""

import itertools
import json

import survey_file as house

# VTK's numbers of a vertex, and of the line, quadrilateral and hexahedron, with the order in which their corners come
VERTEX, CELLS = 1, {1: (3, [0, 1]), 2: (9, [0, 1, 3, 2]), 3: (12, [0, 1, 3, 2, 4, 5, 7, 6])}


def corners(inspection, node):
    """The corners of a cell, the first axis fastest."""
    lows, highs = house.cell_bounds(inspection.survey, inspection.key[node])
    return [point[::-1] for point in itertools.product(*zip(lows[::-1], highs[::-1]))]


def figures(inspection, leaf):
    """What is told of a leaf: its name and figure."""
    targets = {"targets": inspection.aims[leaf]} if inspection.targets else {}
    return {"node": leaf, "level": inspection.level(leaf), "readings": inspection.own[leaf], **targets,
            "near_keys": len(inspection.near[leaf]), "far_keys": len(inspection.far[leaf]),
            "near_readings": inspection.near_readings[leaf], "near_work": inspection.work[leaf]}


def write_vtk(inspection):
    """The leaves as cells and the readings as vertices: legacy VTK, ASCII. Of a reading every figure but its index is -1."""
    leaves, sources = inspection.leaves, inspection.survey.sources
    kind, around = CELLS[inspection.survey.axes]
    many, count = len(around), len(leaves) + len(sources)
    yield "# vtk DataFile Version 3.0\n%s\nASCII\nDATASET UNSTRUCTURED_GRID\n" % title(inspection.name)
    yield "POINTS %d double\n" % (many * len(leaves) + len(sources))
    for point in itertools.chain.from_iterable(corners(inspection, leaf) for leaf in leaves):
        yield place(point)
    for point in sources:
        yield place(point)
    yield "CELLS %d %d\n" % (count, (many + 1) * len(leaves) + 2 * len(sources))
    for i in range(len(leaves)):
        yield "%d %s\n" % (many, " ".join(str(many * i + corner) for corner in around))
    for i in range(len(sources)):
        yield "1 %d\n" % (many * len(leaves) + i)
    yield "CELL_TYPES %d\n" % count
    yield ("%d\n" % kind) * len(leaves) + ("%d\n" % VERTEX) * len(sources)
    yield "CELL_DATA %d\n" % count
    told = [figures(inspection, leaf) for leaf in leaves]
    for name in figures(inspection, leaves[0]) if leaves else []:
        yield scalars(name, "double" if name == "near_work" else "int", [one[name] for one in told], [-1] * len(sources))
    yield scalars("reading", "int", [-1] * len(leaves), range(len(sources)))


def title(name):
    """A line of at most 255 characters of ASCII, as VTK has it."""
    return ("cells and readings of " + " ".join(name.split())).encode("ascii", "replace")[:255].decode()


def place(point):
    return "%r %r %r\n" % tuple((list(point) + [0.0, 0.0])[:3])


def scalars(name, kind, of_leaves, of_readings):
    numbers = itertools.chain(of_leaves, of_readings)
    return "SCALARS %s %s 1\nLOOKUP_TABLE default\n%s" % (name, kind, "".join("%d\n" % number for number in numbers))


def write_geojson(inspection):
    """The leaves of a survey of two axes as polygons and its readings as points, in the survey's own coordinates."""
    def feature(kind, coordinates, told):
        return json.dumps({"type": "Feature", "geometry": {"type": kind, "coordinates": coordinates}, "properties": told})

    def features():
        for leaf in inspection.leaves:
            a, b, c, d = corners(inspection, leaf)
            yield feature("Polygon", [[a, b, d, c, a]], {**figures(inspection, leaf), "key": str(inspection.key[leaf])})
        for i, point in enumerate(inspection.survey.sources):
            yield feature("Point", list(point), {"reading": i})

    yield '{"type": "FeatureCollection", "features": [\n'
    for i, one in enumerate(features()):
        yield (",\n" if i else "") + one
    yield "\n]}\n"


def write_csv(inspection):
    """Every cell, with its figures, the keys of its U row and those of its V row."""
    axes, leaves = inspection.survey.axes, set(inspection.leaves)
    names = ["low_" + name for name in house.AXIS_NAMES[:axes]]
    yield ",".join(["node", "key", "level", "leaf"] + names + ["side", "own", "total", "near", "far"]) + "\n"
    for node, key in enumerate(inspection.key):
        lows, highs = house.cell_bounds(inspection.survey, key)
        near, far = [" ".join(map(str, rows[node].tolist())) for rows in (inspection.near, inspection.far)]
        yield "%d,%d,%d,%d,%s,%r,%d,%d,%s,%s\n" % (
            node, key, inspection.level(node), node in leaves, house.comma(lows),
            2.0 * inspection.survey.radius / 2 ** inspection.level(node), inspection.own[node], inspection.total[node], near, far)

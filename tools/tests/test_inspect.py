"""inspect: its options, bad files, what is told and written of a sample's listing, and what it says where there is no library.
The tests with the library are in python/tests."""

import itertools
import json
import os
import unittest.mock
import xml.etree.ElementTree as xml

import survey_file as house
from common import ToolTest
from exports import title, write_csv, write_geojson, write_vtk
from histograms import histogram, page, short, step_of
from inspection import Inspection, text
from listing_file import read_listing


class Row(list):
    """A row with the names of an array."""

    def tolist(self):
        return list(self)


class Inspect(ToolTest):
    def setUp(self):
        super().setUp()
        self.copy_samples()
        nowhere = unittest.mock.patch.dict(os.environ, {"LOHANDEMA_LIBRARY": self.path("none.so")})
        nowhere.start()
        self.addCleanup(nowhere.stop)

    def inspection(self, name):
        """A sample as its listing has it, with the nodes in the listing's order."""
        survey = house.read_survey(self.path(name + ".survey"))
        listing = read_listing(self.path(name + ".listing"), survey, name)
        nodes = listing.nodes
        leaves = [node.number for node in nodes if node.is_leaf and node.number]
        return Inspection(name, ["figures"], survey, [node.key for node in nodes], [node.own for node in nodes],
                          [listing.held[node.key] for node in nodes], leaves, [Row(node.near) for node in nodes],
                          [Row(node.far) for node in nodes], [], [node.aims for node in nodes]), listing

    def test_text(self):
        inspection, listing = self.inspection("three-lines")
        said = text(inspection)
        self.assertIn("near work: %d," % listing.near_work, said)
        self.assertIn("tree: 57 nodes, depth 5, 34 leaves, 34 of them with readings", said)
        self.assertIn("  level  leaves  with readings  readings  most in one\n      2       1              1         2", said)
        self.assertTrue(said.endswith("each of 34 leaves meets each of 61 readings exactly once\n"))
        inspection.at_fault = [5]
        self.assertTrue(text(inspection).endswith("NOT each reading is met exactly once: 1 of 34 leaves are at fault\n"))

    def test_targets(self):
        """Near work by the targets of each leaf, and their number beside it; without targets there is no such column."""
        inspection, listing = self.inspection("two-heights")
        said = text(inspection)
        self.assertEqual((listing.near_work, inspection.near_work, sum(inspection.aims)), (1002, 1002, 64))
        self.assertIn("near work: 1002, the targets of each leaf times the readings in its U row; 37.3 % of all 2688 pairs of a "
                      "target and a reading\n", said)
        heading, heaviest = said.split("the heaviest leaves\n")[1].split("\n")[:2]
        self.assertEqual(heading.split("  ")[-1], "part")
        self.assertIn("readings  targets  in its U row  near work", heading)
        _, key, _, own, aims, met, work = map(int, heaviest.split()[:7])
        self.assertEqual((work, own), (aims * met, listing.by_key[key].own))
        for name, has in (("two-heights", True), ("three-lines", False)):
            inspection, _ = self.inspection(name)
            self.assertEqual(["  targets  " in text(inspection), "SCALARS targets int" in "".join(write_vtk(inspection))], [has] * 2)

    def test_no_leaf(self):
        survey = house.Survey(1, False, 1, 1, (4.0,), 4.0, [], [])
        inspection = Inspection("none", ["0 readings"], survey, [0], [0], [0], [], [Row()], [Row()], [], [0])
        self.assertIn("each of 0 leaves meets each of 0 readings exactly once", text(inspection))
        self.assertIn("CELL_DATA 0", "".join(write_vtk(inspection)))
        xml.fromstring("".join(page(inspection)))

    def test_vtk(self):
        """As many numbers as are said, each cell around its leaf, each reading at its place."""
        for name in ("example", "three-lines", "two-heights"):
            inspection, _ = self.inspection(name)
            axes, sources, leaves = inspection.survey.axes, inspection.survey.sources, inspection.leaves
            lines = "".join(write_vtk(inspection)).split("\n")
            self.assertEqual(lines[:4:3], ["# vtk DataFile Version 3.0", "DATASET UNSTRUCTURED_GRID"])
            count = int(lines[4].split()[1])
            points = [list(map(float, line.split())) for line in lines[5:5 + count]]
            self.assertEqual(len(points), 2 ** axes * len(leaves) + len(sources))
            _, cells, size = lines[5 + count].split()
            rows = [list(map(int, line.split())) for line in lines[6 + count:6 + count + int(cells)]]
            self.assertEqual((sum(map(len, rows)), {len(row) - 1 == row[0] for row in rows}), (int(size), {True}))
            for leaf, row in zip(leaves, rows):
                lows, highs = house.cell_bounds(inspection.survey, inspection.key[leaf])
                here = [points[i][:axes] for i in row[1:]]
                self.assertEqual(sorted(here), sorted(map(list, itertools.product(*zip(lows, highs)))))
                # along the edges in turn: one coordinate changes from corner to corner, within each face
                steps = [sum(a != b for a, b in zip(*pair)) for pair in zip(here, here[1:])]
                self.assertEqual(steps, [1] if axes == 1 else [1, 1, 1] if axes == 2 else [1, 1, 1, 2, 1, 1, 1])
            self.assertEqual([points[row[1]][:axes] for row in rows[len(leaves):]], [list(row) for row in sources])
            rest = "\n".join(lines[6 + count + int(cells):])
            for block in rest.split("LOOKUP_TABLE default\n")[1:]:
                self.assertEqual(len(block.split("SCALARS")[0].split()), int(cells))

    def test_vtk_title(self):
        """One line of ASCII, and not too long for VTK."""
        self.assertEqual(title("a\n\u03a9\udcff.csv"), "cells and readings of a ??.csv")
        self.assertEqual(len(title("\u03a9" * 300).encode()), 255)

    def test_geojson(self):
        inspection, _ = self.inspection("three-lines")
        found = json.loads("".join(write_geojson(inspection)))
        kinds = [feature["geometry"]["type"] for feature in found["features"]]
        self.assertEqual((kinds.count("Polygon"), kinds.count("Point")), (34, 61))
        ring = found["features"][0]["geometry"]["coordinates"][0]
        area = sum(a[0] * b[1] - b[0] * a[1] for a, b in zip(ring, ring[1:])) / 2
        self.assertEqual((ring[0], area), (ring[-1], (64 / 2 ** found["features"][0]["properties"]["level"]) ** 2))

    def test_csv(self):
        inspection, listing = self.inspection("two-heights")
        lines = "".join(write_csv(inspection)).strip().split("\n")
        self.assertEqual(lines[0], "node,key,level,leaf,low_x,low_y,low_z,side,own,total,near,far")
        for node, line in zip(listing.nodes, lines[1:]):
            fields = line.split(",")
            self.assertEqual([int(fields[0]), int(fields[1]), fields[3] == "1"], [node.number, node.key, node.is_leaf])
            self.assertEqual([[int(key) for key in row.split()] for row in fields[-2:]], [node.near, node.far])

    def test_svg(self):
        """Every number is in one bar, and the bars are as high as their numbers."""
        inspection, _ = self.inspection("three-lines")
        parts = list(xml.fromstring("".join(page(inspection))).iter())
        hints = [part.text for part in parts if part.tag.endswith("title")]
        self.assertEqual(sum(int(hint.split()[2]) for hint in hints if hint.startswith("level")), 34)
        self.assertEqual(sum(int(hint.split(": ")[1].split()[0]) for hint in hints if hint.endswith("nodes")), 57)
        for numbers in ([0], [5] * 3, list(range(100)), [0, 10 ** 9]):
            text = "".join(histogram("title", "keys", "leaves", numbers, "#000000")(0, 0))
            counts = [int(part.split("</title>")[0].split(": ")[1].split()[0]) for part in text.split("<title>")[1:]]
            self.assertEqual(sum(counts), len(numbers))
        self.assertEqual([step_of(x) for x in (0.04, 1, 1.5, 4, 6, 11, 99)], [1, 1, 2, 5, 10, 20, 100])
        self.assertEqual([short(x) for x in (0, 999999, 1000000, 424522052, 10 ** 12)], ["0", "999999", "1M", "424.52M", "1T"])

    def test_no_library(self):
        self.refused("inspect: LOHANDEMA_LIBRARY is %s, and no file is there: set it" % self.path("none.so"), "inspect",
                     "three-lines.survey", "--svg", "out")

    def test_options(self):
        for said, arguments in (
                ("leave out --limit, --keep-empty, or give readings whose name ends in .csv",
                 ["example.survey", "--limit", "2", "--keep-empty"]),
                ("leave out x.csv", ["example.survey", "x.csv"]),
                ("targets are read as CSV", ["example.csv", "example.survey"]),
                ("--centre and --radius go together", ["example.csv", "--centre=4"]),
                ("--target-columns goes with TARGETS.csv", ["example.csv", "--target-columns=x"]),
                ("nothing is written to standard output", ["example.csv", "--svg", "-"]),
                ("--limit stands twice", ["example.csv", "--limit", "1", "--limit", "2"]),
                ("is not a whole number", ["example.csv", "--limit", "-1"])):
            result = self.run_tool("inspect", *arguments)
            self.assertEqual(result.returncode, 2, arguments)
            self.assertIn(said, result.stderr)

    def test_files(self):
        self.refused("none.csv: No such file", "inspect", "none.csv")
        self.refused("would be written over three-lines.csv", "inspect", "three-lines.csv", "--csv", "three-lines.csv")
        self.refused("would be written over out", "inspect", "three-lines.csv", "--csv", "out", "--vtk", "out")
        self.refused("--geojson: two-heights.survey has 3 axes, and GeoJSON two; use --vtk or --csv", "inspect",
                     "two-heights.survey", "--geojson", "out")
        self.write("readings.txt", "x,y\n1,2\n")
        self.refused("or, if it is CSV, give it a name that ends in .csv", "inspect", "readings.txt")
        self.write("bad.csv", "x,y\n1,2\n3,a\n")
        self.refused("bad.csv: line 3: column 2: 'a' is not a number", "inspect", "bad.csv")
        self.write("bad.csv", "x,y,mag\n1,2,3\n")
        self.refused("say which are the axes", "inspect", "bad.csv")
        self.refused("--order 65 is not from 1 to 64; give one that is", "inspect", "three-lines.csv", "--order", "65")
        self.refused("--order 0 is not from 1 to 64; give one that is", "draw", "three-lines.csv", "--order", "0", "-o", "out")
        self.write("bad.csv", "x,y\r1,2\r3,a\r")
        self.refused("bad.csv: line 3: column 2: 'a' is not a number", "inspect", "bad.csv")
        self.refused("bad.csv: line 3: column 2: 'a' is not a number", "draw", "bad.csv", "-o", "out")
        self.write("bad.csv", "")
        self.refused("bad.csv: no rows; give the box with --centre and --radius", "inspect", "bad.csv")

    def test_draw(self):
        """draw takes readings as CSV by the same way: what it says of options, of files and of a missing library."""
        for said, arguments in (
                ("give LISTING too, which ./listing example.survey writes", ["example.survey"]),
                ("leave out --limit", ["example.survey", "example.listing", "--limit", "0"]),
                ("targets are read as CSV", ["example.csv", "example.listing"])):
            result = self.run_tool("draw", *arguments, "-o", "out")
            self.assertEqual(result.returncode, 2, arguments)
            self.assertIn(said, result.stderr)
        self.refused("draw: LOHANDEMA_LIBRARY is", "draw", "three-lines.csv", "-o", "out")
        self.refused("would be written over three-lines.csv", "draw", "three-lines.csv", "-o", "three-lines.csv")
        self.write("many.csv", "x\n" + "1\n" * 100001)
        # on a slow machine it is told before that the reading takes long
        result = self.run_tool("draw", "many.csv", "-o", "out")
        self.assertEqual(result.stderr.splitlines()[-1], "draw: many.csv: 100001 readings, but at most 100000 are drawn; thin "
                         "them out, or look at all of them with inspect --vtk")
        self.assertFalse(os.path.exists(self.path("out")))

    def test_version(self):
        self.assertRegex(self.run_tool("inspect", "--version").stdout, r"^\d+\.\d+\.\d+\n$")

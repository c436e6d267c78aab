"""tools/inspect and tools/draw over the package: the samples, a CSV larger than a survey file can be, and bad readings by
their lines."""

import json
import os
import random
import re
import subprocess
import sys
import tempfile
import unittest
import xml.etree.ElementTree as xml

from common import ROOT, read


class Inspect(unittest.TestCase):
    def setUp(self):
        self.folder = tempfile.TemporaryDirectory()
        self.addCleanup(self.folder.cleanup)

    def path(self, name):
        return os.path.join(self.folder.name, name)

    def write(self, name, text):
        with open(self.path(name), "w") as file:
            file.write(text)

    def run_tool(self, tool, *words):
        words = [sys.executable, "-B", os.path.join(ROOT, "tools", tool), *words]
        return subprocess.run(words, cwd=self.folder.name, capture_output=True, text=True)

    def inspect(self, *words):
        return self.run_tool("inspect", *words)

    def refused(self, said, *words):
        result = self.inspect(*words)
        self.assertEqual((result.returncode, result.stdout), (1, ""))
        self.assertIn(said, result.stderr)
        self.assertEqual(result.stderr.count("\n"), 1, result.stderr)

    def test_samples(self):
        """The near work of the recorded listing, and every leaf without fault."""
        for name in ("example", "three-lines", "two-heights"):
            result = self.inspect(os.path.join(ROOT, "samples", name + ".survey"))
            self.assertEqual((result.returncode, result.stderr), (0, ""))
            _, nodes, depth, sources, work = map(int, read("samples", name + ".listing").split("\n")[0].split()[1:])
            self.assertIn("near work: %d," % work, result.stdout)
            self.assertIn("tree: %d nodes, depth %d," % (nodes, depth), result.stdout)
            self.assertIn("meets each of %d readings exactly once\n" % sources, result.stdout)

    def test_figures(self):
        """The sample picture of histograms is what inspect writes."""
        result = self.inspect(os.path.join(ROOT, "samples", "three-lines.survey"), "--svg", "a.svg")
        self.assertEqual(result.returncode, 0, result.stderr)
        with open(self.path("a.svg"), encoding="utf-8") as file:
            self.assertEqual(file.read(), read("samples", "three-lines-figures.svg"))

    def test_large(self):
        """5,000 readings in a wide CSV, as text and in each file."""
        made = random.Random(9)
        rows = ["L%d,%d,%.2f,%.2f,%.1f" % (i // 100, i, 500000 + made.random() * 900, 7000000 + 50 * (i // 100), made.random())
                for i in range(5000)]
        self.write("lines.csv", "line,fid,easting,northing,mag\n" + "\n".join(rows) + "\n")
        self.write("grid.csv", "easting,northing\n" + "".join("%d,%d\n" % (500000 + 9 * (i % 100), 7000000 + 24 * (i // 100))
                                                              for i in range(10000)))
        result = self.inspect("lines.csv", "grid.csv", "--columns=easting,northing", "--limit", "20", "--order", "2",
                              "--keep-empty", "--svg", "a.svg", "--vtk", "a.vtk", "--geojson", "a.json", "--csv", "a.csv")
        self.assertEqual(result.returncode, 0, result.stderr)
        self.assertIn("lines.csv: 5000 readings, 10000 targets\n", result.stdout)
        self.assertIn("x is easting (column 3), y is northing (column 4); not read: line (column 1), fid (column 2), "
                      "mag (column 5)", result.stdout)
        self.assertIn(" meets each of 5000 readings exactly once", result.stdout)
        xml.parse(self.path("a.svg"))
        with open(self.path("a.json")) as file:
            self.assertEqual(sum(one["geometry"]["type"] == "Point" for one in json.load(file)["features"]), 5000)
        with open(self.path("a.csv")) as file:
            lines = file.read().strip().split("\n")
        self.assertIn("tree: %d nodes" % (len(lines) - 1), result.stdout)
        self.assertIn(", the targets of each leaf times the readings in its U row; ", result.stdout)

    def test_targets_without_leaf(self):
        """Without --keep-empty targets split no cell, and are looked up: the first that no leaf holds is told by its line."""
        self.write("a.csv", "x\n0.5\n1.5\n6.5\n7.5\n")
        self.write("t.csv", "x\n0.5\n\n7.9\n")
        self.write("gap.csv", "x\n0.5\n\n3.0\n8.0\n")
        box = ["--centre=4", "--radius=4", "--limit", "1"]
        told = self.inspect("a.csv", "t.csv", *box)
        self.assertIn("2 targets, which split no cell, as cells without readings are not kept", told.stdout)
        self.assertIn("near work: 4, the targets of each leaf times the readings in its U row", told.stdout)
        self.refused("gap.csv: line 4: no leaf holds target 1, as cells without readings are not kept: give --keep-empty, or "
                     "take the target out (refused 12 UNSTORED)", "a.csv", "gap.csv", *box)
        self.run_tool("make-survey", "a.csv", "gap.csv", "--as-is", *box, "-o", "gap.survey")
        self.refused("gap.survey: no leaf holds target 1, as cells without readings are not kept: make the file anew with "
                     "--keep-empty, or take the target out (refused 12 UNSTORED)", "gap.survey")
        self.write("out.csv", "x\n8.0\n3.0\n")
        self.refused("out.csv: line 2: target or looked-up point 0 lies above the box on axis 0", "a.csv", "out.csv", *box)
        drawn = self.run_tool("draw", "a.csv", "gap.csv", *box, "-o", "a.svg")
        self.assertIn("gap.csv: line 4: no leaf holds target 1", drawn.stderr)

    def shapes(self, name):
        """The shapes of a picture, without its words."""
        return sorted((part.tag, sorted(part.attrib.items())) for part in xml.parse(self.path(name)).iter()
                      if not part.tag.endswith(("title", "text")))

    def test_draw(self):
        """The picture of a sample is the same from its CSV as from its survey file and listing."""
        sample = os.path.join(ROOT, "samples", "three-lines")
        box = ["--centre=32,32", "--radius=32", "--limit", "2", "--order", "4"]
        for chosen in (["--at=20,30"], ["--cell", "1"], []):
            listed = self.run_tool("draw", sample + ".survey", sample + ".listing", "-o", "a.svg", *chosen)
            made = self.run_tool("draw", sample + ".csv", "--columns=x,y", *box, "-o", "b.svg", *chosen)
            self.assertEqual((listed.returncode, made.returncode), (0, 0), made.stderr)
            self.assertEqual(self.shapes("a.svg"), self.shapes("b.svg"))

    def test_draw_grid(self):
        """With a grid the picture has the cells of the listed points, and the outline of the grid; the sample is one."""
        sample = os.path.join(ROOT, "samples", "three-lines")
        box = ["--columns=x,y", "--centre=32,32", "--radius=32", "--limit", "4", "--order", "2"]
        grid = ["--grid", "36,36", "0.5,0.5", "40,24"]
        rows = [(36 + i * 0.5, 36 + j * 0.5) for i in range(40) for j in range(24)]
        self.write("t.csv", "x,y\n" + "".join("%r,%r\n" % row for row in rows))
        for chosen in ([], ["--at=20,30"], ["--targets"]):
            listed = self.run_tool("draw", sample + ".csv", "t.csv", *box, "--keep-empty", "-o", "a.svg", *chosen)
            made = self.run_tool("draw", sample + ".csv", *box, *grid, "-o", "b.svg", *chosen)
            self.assertEqual((listed.returncode, made.returncode), (0, 0), listed.stderr + made.stderr)
            self.assertIn("grid of 960 targets, 40 by 24", self.read_out("b.svg"))
            without = [shape for shape in self.shapes("b.svg") if ("stroke-dasharray", "7 4") not in shape[1]]
            # the legend has one entry more, behind the readings and before the targets
            self.assertEqual(len(self.shapes("b.svg")), len(without) + 2)
            if not chosen:
                self.assertEqual(without, self.shapes("a.svg"))
                self.assertEqual(self.read_out("b.svg"), read("samples", "three-lines-grid.svg"))
        told = self.inspect(sample + ".csv", *box, *grid)
        self.assertIn("61 readings, 960 targets\n", told.stdout)
        self.assertIn("--grid: origin 36.0,36.0, spacing 0.5,0.5, shape 40,24; the last axis is the fastest\n", told.stdout)
        self.assertIn("near work: 20032, the targets of each leaf", told.stdout)

    def test_draw_balanced(self):
        """The cells of the balanced tree, those that it has added in a colour of their own; the sample is one."""
        sample = os.path.join(ROOT, "samples", "three-lines")
        box = ["--columns=x,y", "--centre=32,32", "--radius=32", "--limit", "2"]
        before = self.run_tool("draw", sample + ".csv", *box, "--keep-empty", "-o", "a.svg")
        made = self.run_tool("draw", sample + ".csv", *box, "--balance", "-o", "b.svg")
        self.assertEqual((before.returncode, made.returncode), (0, 0), before.stderr + made.stderr)
        self.assertEqual(self.read_out("b.svg"), read("samples", "three-lines-balanced.svg"))
        cells = [re.findall(r'class="(?:cell|added)"[^>]*><title>node \d+, key (\d+)', self.read_out(name))
                 for name in ("a.svg", "b.svg")]
        added = re.findall(r'class="added"[^>]*><title>node \d+, key (\d+)', self.read_out("b.svg"))
        self.assertTrue(added and set(added).isdisjoint(cells[0]))
        self.assertEqual(len(cells[1]) - len(added), len(set(cells[0]) & set(cells[1])))
        told = self.inspect(sample + ".csv", *box, "--balance")
        self.assertIn("balanced: no two leaves that touch are more than one level apart\n", told.stdout)
        self.assertIn("leave out --balance, or give readings", self.inspect(sample + ".survey", "--balance").stderr)

    def test_bad_grid(self):
        sample = os.path.join(ROOT, "samples", "three-lines")
        box = ["--columns=x,y", "--centre=32,32", "--radius=32"]
        self.refused("--grid: target or looked-up point 4096 lies above the box on axis 0", sample + ".csv", *box, "--grid",
                     "0,0", "1,1", "65,64")
        self.refused("--grid: its last coordinates are not finite (inf,0.0); give a smaller grid", sample + ".csv",
                     "--columns=x,y", "--grid", "0,0", "1.7e308,1", "3,1")
        for said, words in (("leave out --grid, or give readings whose name ends in .csv", [sample + ".survey"]),
                            ("--grid and t.csv both give targets", [sample + ".csv", "t.csv"])):
            result = self.inspect(*words, "--grid", "0,0", "1,1", "2,2")
            self.assertEqual((result.returncode, result.stdout), (2, ""))
            self.assertIn(said, result.stderr)
        many = self.run_tool("draw", sample + ".csv", *box, "--grid", "0,0", "0.1,0.1", "400,400", "--targets", "-o", "a.svg")
        self.assertIn("--grid: 160000 targets, but at most 100000 are drawn; leave out --targets", many.stderr)

    def read_out(self, name):
        with open(self.path(name), encoding="utf-8") as file:
            return file.read()

    def test_draw_large(self):
        made = random.Random(10)
        self.write("a.csv", "x,y,z\n" + "".join("%.3f,%.3f,%.3f\n" % tuple(made.gauss(0, 9) for _ in range(3))
                                               for _ in range(3000)))
        result = self.run_tool("draw", "a.csv", "--at=0,0,0", "--limit", "30", "-o", "a.svg")
        self.assertEqual(result.returncode, 0, result.stderr)
        self.assertGreater(len(self.shapes("a.svg")), 100)

    def test_full(self):
        """Where standard output takes nothing, that is one sentence."""
        words = [sys.executable, "-B", os.path.join(ROOT, "tools", "inspect"), os.path.join(ROOT, "samples", "example.survey")]
        if not os.path.exists("/dev/full"):
            self.skipTest("there is no /dev/full")
        with open("/dev/full", "w") as full:
            result = subprocess.run(words, stdout=full, stderr=subprocess.PIPE, text=True)
        self.assertEqual(result.returncode, 1)
        self.assertRegex(result.stderr, r"^inspect: standard output: .*\n$")

    def test_letters(self):
        """Names and headers with letters that standard output or UTF-8 cannot take, and no standard output at all."""
        inspect, draw = [[sys.executable, "-B", os.path.join(ROOT, "tools", name)] for name in ("inspect", "draw")]
        name = os.path.join(os.fsencode(self.folder.name), b"a\xff.csv")
        with open(name, "wb") as file:
            file.write("x,\u03a9\n1,2\n3,4\n".encode())
        latin = {**os.environ, "PYTHONIOENCODING": "latin-1"}
        chosen = ["--columns=1,2"]
        told = subprocess.run(inspect + [name] + chosen + ["--vtk", self.path("v"), "--svg", self.path("s")], capture_output=True,
                              env=latin)
        self.assertEqual((told.returncode, told.stderr), (0, b""))
        self.assertIn(b"a?.csv: x is x (column 1), y is ? (column 2)", told.stdout)
        self.assertEqual(subprocess.run(draw + [name] + chosen + ["-o", self.path("d")]).returncode, 0)
        for made in ("v", "s", "d"):
            with open(self.path(made), "rb") as file:
                self.assertIn(b"a?.csv", file.read())
        for words, more in (([name] + chosen, "; the files that were asked for are written"), (["--version"], "")):
            closed = subprocess.run(["sh", "-c", 'exec "$@" >&-', "sh"] + inspect + words, stderr=subprocess.PIPE, text=True)
            self.assertEqual((closed.returncode, closed.stderr), (1, "inspect: standard output: it is closed%s\n" % more))

    def test_bad(self):
        self.write("a.csv", "x,y\n1,2\n\n3,nan\n")
        self.refused("a.csv: line 4: 3.0,nan is not a finite number on axis 1, counted from 0; mend the line", "a.csv")
        self.refused("a.csv: line 4: source 1 is not a finite number on axis 1: mend or remove it (refused 6 SOURCE)", "a.csv",
                     "--centre=4,4", "--radius=4")
        self.write("b.csv", "x,y\n1,2\n3,9\n")
        self.refused("b.csv: line 3: source 1 lies above the box on axis 1: enlarge the box", "b.csv", "--centre=4,4",
                     "--radius=4")
        self.write("c.csv", "x,y\n1,2\n")
        self.refused("c.csv: the box from the extents is outside its domain: radius 0.001 is not from 0.25 to 1048576; the rows "
                     "are one point, which has no size; give the box with --centre and --radius", "c.csv")
        self.write("d.csv", "x,y\n1,2\n3000000,2\n")
        self.refused("radius 1499999.501 is not from 0.25 to 1048576; shift and scale the coordinates", "d.csv")
        self.refused("b.csv: line 3: target or looked-up point 1 lies above the box on axis 1", "c.csv", "b.csv",
                     "--centre=4,4", "--radius=4", "--keep-empty")
        self.refused("--order 65 is not from 1 to 64", "c.csv", "b.csv", "--order", "65", "--keep-empty")


if __name__ == "__main__":
    unittest.main()

"""draw: the samples, each leaf's rows, each cell's readings, slices, marks, listings with a fault, and bad input."""

import math
import random
import re
import statistics
import time
import xml.etree.ElementTree as xml
from collections import Counter
from types import SimpleNamespace

import survey_file as house
from common import ToolTest
from listing_file import read_listing
from page import LEAST_MARK, MARK, MARK_PART, Plan, Rows, mark_radii
from picture import Picture

# how each sample picture is made; samples/README.md says the same
PICTURES = {"example": "--leaf 6", "three-lines": "--leaf 46", "two-heights": "--at=20,30,8 --slice z --targets"}


class Draw(ToolTest):
    def setUp(self):
        super().setUp()
        self.copy_samples()

    def draw(self, name, *arguments):
        """The picture as a list of elements."""
        told = self.done("draw", name + ".survey", name + ".listing", "-o", "picture", *arguments)
        self.assertEqual(told, "")
        return list(xml.fromstring(self.read("picture")).iter())

    def pictures(self, name, number, views):
        """The same without a process for each picture: one leaf in several views."""
        survey = house.read_survey(self.path(name + ".survey"))
        listing = read_listing(self.path(name + ".listing"), survey, name)
        names = SimpleNamespace(survey=name, targets=False)
        texts = [Picture(names, survey, listing, listing.nodes[number], view(survey)).text() for view in views]
        return [list(xml.fromstring(text).iter()) for text in texts]

    def listing(self, name):
        """Key, own sources, U row and V row of each node, read without the tools."""
        nodes = []
        for line in self.read(name + ".listing").decode().splitlines()[1:]:
            front, far = line.split(" V")
            front, near = front.split(" U")
            _, key, own = map(int, front.split())
            nodes.append((key, own, [int(key) for key in near.split()], [int(key) for key in far.split()]))
        return nodes

    def test_samples(self):
        for name, arguments in PICTURES.items():
            self.draw(name, *arguments.split())
            self.assertEqual(self.read("picture"), self.read(name + ".svg"), name)
        self.cell_picture("three-lines", 98305)
        self.assertEqual(self.read("picture"), self.read("three-lines-cell.svg"))

    def test_sums(self):
        """Near and far of the example's leaf, of every leaf of each sample, and readings that are refused."""
        self.write("readings", "1\n2\n3\n4\n")
        told = self.done("draw", "example.survey", "example.listing", "-o", "out", "--leaf", "5", "--check", "readings")
        self.assertEqual(told, "draw: leaf 5: near 3 and far 7 are together 10, all readings 10; additions: 3\n")
        for name in PICTURES:
            count = len(house.read_survey(self.path(name + ".survey")).sources)
            readings = [(-1) ** i * (2 ** 40 - i) for i in range(count)]
            self.write("readings", "".join("%d\n" % reading for reading in readings))
            told = self.done("draw", name + ".survey", name + ".listing", "-o", "out", "--check", "readings")
            self.assertEqual(told, "draw: for every leaf near and far together are %d, the sum of all readings\n" % sum(readings))

    def test_sums_refused(self):
        for text, message in (("1\n2\n3\n", "readings has 3 readings, and the survey 4 sources"),
                              ("1\n2.5\n3\n4\n", "readings, line 2: '2.5' is no whole number"),
                              ("1\n2\n\n3\n4\n", "readings, line 3: '' is no whole number"),
                              ("", "readings has 0 readings"),
                              ("1\n2\n3\n-1099511627777\n", "readings, line 4: -1099511627777 is over 1099511627776 (2^40) in size")):
            self.write("readings", text)
            self.refused(message, "draw", "example.survey", "example.listing", "-o", "out", "--check", "readings")

    def test_rows_of_every_leaf(self):
        """One and two axes: exactly the cells of the leaf's rows are coloured, and all readings are marked by them."""
        views = {1: lambda survey: Rows(survey, 3), 2: lambda survey: Plan(survey, [0, 1])}
        for name, axes in (("example", 1), ("three-lines", 2)):
            nodes = self.listing(name)
            by_key = {node[0]: node for node in nodes}
            for number, (key, own, near, _) in enumerate(nodes):
                if not own:
                    continue
                shapes, = self.pictures(name, number, [views[axes]])
                far = [cell for around in house.ancestors(axes, key) for cell in by_key[around][3]]
                self.assertEqual(sorted(drawn(shapes, "near")), sorted(near))
                self.assertEqual(sorted(drawn(shapes, "far")), sorted(far))
                singly = sum(by_key[cell][1] for cell in near)
                total = sum(node[1] for node in nodes)
                marks = Counter(shape.get("class") for shape in shapes if shape.tag.endswith("circle"))
                # the legend has one of each kind
                self.assertEqual((marks["single"] - 1, marks["grouped"] - 1), (singly, total - singly))

    def cell_picture(self, name, key, *arguments):
        """The picture of a cell as a list of elements, and how many readings it tells."""
        told = self.done("draw", name + ".survey", name + ".listing", "--cell", str(key), "-o", "picture", *arguments)
        number = [node[0] for node in self.listing(name)].index(key)
        form = r"draw: cell %d \(node %d of %s.listing, level %d\) holds ([0-9]+) readings? of ([0-9]+)\n"
        count, of = re.fullmatch(form % (key, number, name, key % 32768), told).groups()
        self.assertEqual(int(of), len(house.read_survey(self.path(name + ".survey")).sources))
        return list(xml.fromstring(self.read("picture")).iter()), int(count)

    def sources_in(self, name, key):
        """The sources between the walls of a cell, by their coordinates alone."""
        survey = house.read_survey(self.path(name + ".survey"))
        low, high = house.cell_bounds(survey, key)
        return {i for i, row in enumerate(survey.sources) if all(a <= x < b for a, x, b in zip(low, row, high))}

    def test_every_cell(self):
        """One and two axes: of each cell the readings in it are marked, told and in the legend; what is stored in it is
        coloured."""
        for name, axes in (("example", 1), ("three-lines", 2)):
            keys = [node[0] for node in self.listing(name)]
            parents = {house.ancestors(axes, key)[1] for key in keys[1:]}
            for key in keys:
                shapes, count = self.cell_picture(name, key)
                inside = self.sources_in(name, key)
                self.assertEqual((marked(shapes, "inside"), count), (inside, len(inside)), key)
                told = [s.text for s in shapes if (s.text or "").startswith("reading in the cell: ")]
                self.assertEqual(told, ["reading in the cell: %d" % count])
                below = [k for k in keys if key in house.ancestors(axes, k) and (axes == 1 or k not in parents)]
                self.assertEqual(len([s for s in shapes if s.get("class") == "inner"]), len(below))
                self.assertEqual(len([s for s in shapes if s.get("class") == "chosen"]), 1)

    def test_cell_in_slices(self):
        """Three axes: slices through every layer of finest cells show each reading of a cell; without a coordinate the slice
        goes through a reading of the cell."""
        keys = [node[0] for node in self.listing("two-heights")]
        for key in (keys[0], keys[4], keys[12], keys[51]):
            inside, seen = self.sources_in("two-heights", key), set()
            for height in range(4, 64, 8):
                shapes, count = self.cell_picture("two-heights", key, "--slice", "z=%d" % height)
                self.assertEqual(count, len(inside))
                self.assertLessEqual(marked(shapes, "inside"), inside)
                seen |= marked(shapes, "inside")
            self.assertEqual(seen, inside)
            shapes, _ = self.cell_picture("two-heights", key)
            through = [s.text for s in shapes if (s.text or "").startswith("Slice at")][0]
            self.assertIn(int(re.search("through source ([0-9]+):", through).group(1)), inside)

    def test_empty_cell(self):
        """A stored cell without readings: none is marked."""
        empty = [node[0] for node in self.listing("two-heights") if not self.sources_in("two-heights", node[0])][0]
        shapes, count = self.cell_picture("two-heights", empty)
        self.assertEqual((count, marked(shapes, "inside")), (0, set()))
        self.assertEqual(len([s for s in shapes if s.get("class") == "chosen"]), 1)

    def test_slices(self):
        """Three axes: slices through the middle of every layer of finest cells show each listed cell at some place."""
        nodes = self.listing("two-heights")
        by_key = {node[0]: node for node in nodes}
        key = nodes[55][0]
        far = {cell for around in house.ancestors(3, key) for cell in by_key[around][3]}
        for axis, others in enumerate(([1, 2], [0, 2], [0, 1])):
            views = [lambda survey, c=c: Plan(survey, others, axis, c) for c in range(4, 64, 8)]
            pictures = self.pictures("two-heights", 55, views)
            self.assertEqual(set().union(*(drawn(shapes, "near") for shapes in pictures)), set(nodes[55][2]))
            self.assertEqual(set().union(*(drawn(shapes, "far") for shapes in pictures)), far)

    def test_slice_place(self):
        survey = house.read_survey(self.path("two-heights.survey"))
        low, high = house.cell_bounds(survey, self.listing("two-heights")[55][0])
        inside = self.draw("two-heights", "--leaf", "55", "--slice", "x=%r" % (low[0] + 0.1))
        outside = self.draw("two-heights", "--leaf", "55", "--slice", "x=%r" % (high[0] + 0.1))
        chosen = [[s for s in shapes if s.get("class") == "chosen"] for shapes in (inside, outside)]
        self.assertEqual([len(shapes) for shapes in chosen], [1, 0])

    def test_choices_agree(self):
        key = self.listing("three-lines")[46][0]
        self.draw("three-lines", "--leaf", "46")
        first = self.read("picture")
        for choice in ("--key=%d" % key, "--at=38,30"):
            self.draw("three-lines", choice)
            self.assertEqual(self.read("picture"), first)

    def test_lost_reading(self):
        """A listing that leaves a cell out of a row, or has one twice, is drawn with its readings crossed out, and ends
        with a sentence and status 1; it ends so too if another leaf or none is chosen."""
        text = self.read("example.listing").decode()
        self.write("lost", text.replace("U V 98306", "U V"))
        self.write("twice", text.replace("6 32771 1 U 3 32771 V", "6 32771 1 U 3 32771 V 98306"))
        end = (" not at all or more than once, as %d of its leaves do; "
               "make the listing anew with ./listing example.survey, and report it if that one is the same\n")
        which = {("lost", "--leaf=6"): "leaf 6 meets 2 readings" + end % 2,
                 ("twice", "--leaf=6"): "leaf 6 meets 2 readings" + end % 1,
                 ("lost", "--leaf=7"): "leaf 5 (see it with --leaf 5) meets readings" + end % 2,
                 ("twice", ""): "leaf 6 (see it with --leaf 6) meets readings" + end % 1}
        for (name, choice), sentence in which.items():
            result = self.run_tool("draw", "example.survey", name, *choice.split(), "-o", "picture")
            self.assertEqual((result.returncode, result.stderr), (1, "draw: %s: %s" % (name, sentence)))
            shapes = list(xml.fromstring(self.read("picture")).iter())
            # two readings and the legend
            crossed = 3 if "6" in choice else 0
            self.assertEqual(len([s for s in shapes if s.get("class") == "fault"]), crossed)

    def test_marks(self):
        """Marks keep their size where there is room, also beside a reading taken twice; on a dense line they do not
        cover each other."""
        self.assertEqual(mark_radii([(100 + 20 * i, 50) for i in range(30)] + [(100.5, 50)]), [MARK] * 31)
        line = [(100 + 3 * i + 0.2 * math.sin(i), 200 + math.cos(i)) for i in range(200)]
        radii = mark_radii(line + [(500 + 30 * i, 600) for i in range(5)])
        self.assertEqual(radii[200:], [MARK] * 5)
        for i in range(199):
            self.assertLess(radii[i] + radii[i + 1], math.dist(line[i], line[i + 1]))
        self.assertEqual(mark_radii([]), [])

    def test_many_marks(self):
        """Where readings lie close together, or at one place, their marks are the least, and take no longer to work out."""
        made = random.Random(1)
        started = time.process_time()
        for spots in ([(300.0, 300.0)] * 50000, [(made.gauss(300, 2), made.gauss(300, 2)) for _ in range(50000)]):
            radii = mark_radii(spots)
            self.assertEqual(statistics.median(radii), LEAST_MARK)
        self.assertLess(time.process_time() - started, 20)
        # a lattice of some hundred marks to a patch has the radius of its ways
        lattice = [(100 + 3 * i, 100 + 3 * j) for i in range(40) for j in range(40)]
        self.assertAlmostEqual(mark_radii(lattice)[820], 3 * MARK_PART)

    def test_default_slice(self):
        """Three axes: without a coordinate the slice goes through a reading, and cuts the chosen leaf."""
        heights = [row[2] for row in house.read_survey(self.path("two-heights.survey")).sources]
        leaves = [number for number, node in enumerate(self.listing("two-heights")) if node[1]]
        for choice in [[]] + [["--leaf", str(number)] for number in leaves[::6]]:
            shapes = self.draw("two-heights", *choice)
            told = [s.text for s in shapes if (s.text or "").startswith("Slice at")][0]
            height, source = re.fullmatch("Slice at z = (.*), through source (.*):", told).groups()
            self.assertEqual(float(height), heights[int(source)])
            self.assertEqual(len([s for s in shapes if s.get("class") == "chosen"]), len(choice) // 2)

    def test_bad_listing(self):
        text = self.read("example.listing").decode()
        bad = {
            "": "in: empty",
            "refused 6\n": "in: line 1: not 'tree' and five numbers",
            "refused 6 1 0\n": "in: line 1: not 'tree' and five numbers",
            "tree 1 9 3 4\n": "in: line 1: not 'tree' and five numbers",
            text.replace("tree 1", "tree 2"): "in: line 1: 2 axes, but example.survey has 1",
            text.replace("3 4 8", "3 5 8"): "in: line 1: 5 sources, but example.survey has 4",
            text.replace("tree 1 9", "tree 1 8"): "in: line 1: 8 nodes, but 9 lines follow",
            text.replace("4 98306 0 U", "4 98306 0 W"): "in: line 6: not number, key, own sources, U keys, V keys",
            text.replace("5 3 1", "6 3 1"): "in: line 7: node number 6, not 5",
            text.replace("U 3 32771", "U 3  32771"): "in: line 7: not number",
            text.replace("2 32769 0", "2 65537 0"): "in: line 4: 65537 is no key of 1 axes",
            text.replace("2 32769 0", "2 1 0"): "in: line 4: key 1 is not in the order",
            text.replace("V 98306", "V 65538"): "in: line 5: key 65538 in a row is not listed",
            text.replace("3 2 0 U", "3 2 0 U 3"): "in: line 5: a U row, but node 3 is no leaf",
            text.replace("5 3 1 U 3", "5 3 1 U 2"): "in: line 7: key 2 in the U row is no leaf",
            text.replace("tree 1 9 3", "tree 1 9 4"): "in: line 1: depth 4, but the deepest node has level 3",
            text.replace("8 229379 1", "8 163843 1"): "in: line 10: key 163843 is not in the order",
            text.replace("3 2 0", "3 32770 0"): "in: line 7: the parent of key 3 is not listed",
            text.replace("3 4 8", "3 4 9"): "in: line 1: near work 9, but the U rows and the sources of example.survey "
                                              "give 8; make the listing anew with ./listing example.survey",
            text.replace("6 32771 1 U 3 ", "6 32771 1 U "): "in: line 1: near work 8, but the U rows and the sources of "
                                                             "example.survey give 7",
            text.replace("5 3 1", "5 3 2"): "in: line 7: 2 own sources, but 1 of example.survey lie there",
        }
        for content, message in bad.items():
            self.write("in", content)
            self.refused(message, "draw", "example.survey", "in", "-o", "out")

    def test_refused_listing(self):
        """A listing that is a refusal: what the refusal means, from refusals.txt, and not that it be made anew."""
        means = {
            "6 3 0 2": "source 3, counted from 0, lies below the box on axis 0, counted from 0; ",
            "7 3 2 1": "target 3, counted from 0, is not a finite number on axis 2, counted from 0; ",
            "6 3": "source 3, counted from 0, is outside the box or is not a finite number; ",
            "8 3": "the tree has more than 2048 nodes, which is all that the program has room for; make the file anew with ",
            "12 5": "no leaf holds target 5, counted from 0, as cells without sources are not kept; make the file anew with "
                    "--keep-empty, or take that target out",
            "7 5 0 3": "target 5, counted from 0, lies above the box on axis 0, counted from 0; ",
            "3 0": "the coordinates are not whole points, or the readings are not as many as the sources; ",
            "14 2": "key 2 of those to group, or node 2 that is to be checked, is not a leaf's; ",
            "8 77": "the program has too little room for the answer; ",
            "99 0": "docs/REFUSALS.md says why",
        }
        for refusal, meaning in means.items():
            self.write("in", "refused %s\n" % refusal)
            self.refused("draw: in: no tree to draw, since the program refused example.survey (refused %s): %s"
                         % (refusal, meaning), "draw", "example.survey", "in", "-o", "out")
            told = self.run_tool("draw", "example.survey", "in", "-o", "out").stderr
            self.assertNotIn("listing anew", told)

    def test_refused_survey(self):
        """A survey that the program refuses: which wall, from its own listing and with the listing of another."""
        walls = {
            "nan": ("6 1 0 1", "is not a finite number on axis 0", "mend that reading or take it out"),
            "-1.0": ("6 1 0 2", "lies below the box on axis 0", "make the file anew with a larger box, or mend that reading"),
            "8.0": ("6 1 0 3", "lies above the box on axis 0", "make the file anew with a larger box, or mend that reading"),
        }
        for coordinate, (refusal, wall, cure) in walls.items():
            self.write("s.csv", "x\n0.5\n%s\n6.5\n7.5\n" % coordinate)
            self.done("make-survey", "s.csv", "--as-is", "--centre=4", "--radius=4", "--limit=1", "-o", "s.survey")
            self.write("in", "refused %s\n" % refusal)
            self.refused("in: no tree to draw, since the program refused s.survey (refused %s): source 1, counted from 0, %s"
                         % (refusal, wall), "draw", "s.survey", "in", "-o", "out")
            self.refused("s.survey: source 1, counted from 0, %s, counted from 0; %s" % (wall, cure), "draw", "s.survey", "example.listing", "-o", "out")

    def with_targets(self, *targets):
        """The example with targets, as s.survey."""
        self.write("t.csv", "x\n" + "".join("%r\n" % x for x in targets))
        self.done("make-survey", "example.csv", "t.csv", "--as-is", "--centre=4", "--radius=4", "--limit=1", "-o", "s.survey")

    def test_targets(self):
        """Near work is of the targets, whatever the flags; a listing that says another figure is refused, as one that was made
        before targets were counted is."""
        text = self.read("example.listing").decode()
        for targets, work in (((0.5,), 2), ((0.5, 7.9, 7.0), 6), ((0.5, 1.5, 6.5, 7.5), 8)):
            self.with_targets(*targets)
            self.write("in", text.replace("3 4 8", "3 4 %d" % work))
            self.done("draw", "s.survey", "in", "-o", "picture")
            self.assertIn("near work %d" % work, self.read("picture").decode())
            self.write("in", text.replace("3 4 8", "3 4 9"))
            self.refused("in: line 1: near work 9, but the U rows and the targets of s.survey give %d; make the listing anew with "
                         "./listing s.survey" % work, "draw", "s.survey", "in", "-o", "out")
        text = self.read("two-heights.listing").decode()
        self.write("in", text.replace("3 42 1002", "3 42 626"))
        self.refused("in: line 1: near work 626, but the U rows and the targets of two-heights.survey give 1002; make the listing "
                     "anew", "draw", "two-heights.survey", "in", "-o", "out")

    def test_targets_without_leaf(self):
        """A target that no leaf holds, or that is outside, with flags 0: the first that fails, and not that the listing be made
        anew, since the program refuses such a survey."""
        outside = "s.survey: target %d, counted from 0, %s on axis 0, counted from 0; %smend that target or take it out\n"
        larger = "make the file anew with a larger box, or "
        gap = ("s.survey: no leaf holds target %d, counted from 0, so that the program refuses the survey (refused 12 %d); make the "
               "file anew with --keep-empty, or take that target out\n")
        for targets, sentence in (((3.0,), gap % (0, 0)), ((3.0, 8.0), gap % (0, 0)), ((0.5, 4.0), gap % (1, 1)),
                                  ((8.0, 3.0), outside % (0, "lies above the box", larger)),
                                  ((0.5, -1.0), outside % (1, "lies below the box", larger)),
                                  ((float("inf"), 3.0), outside % (0, "is not a finite number", ""))):
            self.with_targets(*targets)
            self.refused("draw: " + sentence, "draw", "s.survey", "example.listing", "-o", "out")

    def test_bad_choice(self):
        bad = {
            "--leaf 9": "--leaf 9: example.listing has no such node",
            "--leaf 3": "--leaf 3: node 3 of example.listing is no leaf",
            "--key 5": "--key 5: example.listing has no such node",
            "--at=8": "--at=8.0: lies above the box on axis 0, counted from 0, by the box of example.survey",
            "--at=nan": "--at=nan: is not a finite number on axis 0",
            "--at=4": "--at=4.0: no leaf of example.listing holds it",
            "--at=1,2": "--at=1.0,2.0: example.survey has 1 axes",
            "--slice z=1": "--slice: example.survey has 1 axes, not 3",
            "--slice w": "the axis is x, y or z",
            "--slice z=low": "'low' is not a number; give coordinates as 2.5",
            "--at=1,here": "'here' is not a number",
            "--cell 32770": "--cell 32770: example.listing has no such cell; choose one that is stored, by the second number",
            "--cell 65537": "--cell 65537: no key of 1 axes; give the second number of a node line of example.listing",
            "--cell 18446744073709551616": "--cell 18446744073709551616: no key of 1 axes",
            "--cell=-1": "'-1' is not a key; give the second number of the cell's node line",
            "--cell all": "'all' is not a key; give the second number of the cell's node line",
            "--cell 1 --leaf 6": "--cell marks what lies in a cell, and --leaf what a leaf sums; leave one of them out",
            "--key 3 --cell 1": "--cell marks what lies in a cell, and --key what a leaf sums; leave one of them out",
            "--cell 0 --at=1": "--cell marks what lies in a cell, and --at what a leaf sums; leave one of them out",
            "--cell 1 --cell 32769": "--cell stands twice; leave one of them out",
            "--leaf 6 --leaf 4": "--leaf stands twice; leave one of them out",
            "--out other": "--out stands twice; leave one of them out",
        }
        for arguments, message in bad.items():
            self.refused(message, "draw", "example.survey", "example.listing", "-o", "out", *arguments.split())
        self.refused("-o -: nothing is written to standard output; name a file",
                     "draw", "example.survey", "example.listing", "-o", "-")
        self.refused("example.survey: would be written over example.survey; name another file",
                     "draw", "example.survey", "example.listing", "-o", "example.survey")
        self.refused("--slice: z = 64.0 is outside the box of two-heights.survey",
                     "draw", "two-heights.survey", "two-heights.listing", "--slice", "z=64", "-o", "out")


def marked(shapes, kind):
    """The sources that have a mark of a kind: those whose hints say so."""
    titles = [part.text for s in shapes if s.get("class") == kind for part in s]
    return {int(re.match("source ([0-9]+): ", title).group(1)) for title in titles}


def drawn(shapes, kind):
    return [int(shape.get("data-key")) for shape in shapes if shape.get("class") == kind]

"""tools/salvage over the package: files that are whole, that end early or have gaps, and what is written of them."""

import csv
import os
import random
import re
import struct
import subprocess
import sys
import tempfile
import unittest

from common import ROOT, some_points

from lohandema import Box, Tree

sys.path.append(os.path.join(ROOT, "tools", "tests"))
import survey_file as house
from damaged_file import read_columns
from tree_files import plain_file

COLUMNS = ("key", "own", "begin", "total", "order")


def tree_of(data):
    """The columns of a whole tree file, by its trailer, and its axes."""
    axes, count = struct.unpack("<2I", data[-8:])
    start, found = len(data) - 8 - 12 * count, {}
    for at in range(start, len(data) - 8, 12):
        code, back, length = struct.unpack("<3I", data[at:at + 12])
        part = data[start - back:start - back + length]
        found[code] = [one for one, in struct.iter_unpack("<Q" if code in (1, 7, 9) else "<I", part)]
    return axes, [found[code] for code in range(1, 10)]


class Tool(unittest.TestCase):
    def setUp(self):
        self.folder = tempfile.TemporaryDirectory()
        self.addCleanup(self.folder.cleanup)
        made = random.Random(8)
        points = [[made.random() * 8 for _ in range(2)] for _ in range(90)]
        self.tree = Tree.build(points, Box([4.0, 4.0], 4.0), limit=3)
        lists = self.tree.lists()
        columns = [getattr(self.tree, name).tolist() for name in COLUMNS]
        self.data = plain_file(2, *columns, [one.tolist() for one in (lists.u.starts, lists.u.entries, lists.v.starts,
                                                                      lists.v.entries)])
        self.rows = len(self.tree)

    def path(self, name):
        return os.path.join(self.folder.name, name)

    def write(self, name, data):
        with open(self.path(name), "wb") as file:
            file.write(data)

    def read(self, name):
        with open(self.path(name), "rb") as file:
            return file.read()

    def table(self, name):
        with open(self.path(name), newline="") as file:
            return list(csv.DictReader(file))

    def run_tool(self, *words):
        words = [sys.executable, "-B", os.path.join(ROOT, "tools", "salvage"), *words]
        return subprocess.run(words, cwd=self.folder.name, capture_output=True, text=True)

    def had(self, data, *words):
        """What is told of a file, line by line."""
        self.write("a.tree", data)
        result = self.run_tool("a.tree", *words)
        self.assertEqual((result.returncode, result.stderr), (0, ""))
        return result.stdout.splitlines()

    def check_file(self, name, columns):
        """A tree file with these columns, and with the lists of its tree."""
        axes, found = tree_of(self.read(name))
        self.assertEqual((axes, found[:5]), (2, columns))
        tree = Tree.from_columns(self.tree.box, *columns)
        lists = tree.lists()
        self.assertEqual(found[5:], [one.tolist() for one in (lists.u.starts, lists.u.entries, lists.v.starts, lists.v.entries)])

    def test_whole(self):
        """A whole file comes back byte by byte, also where its trailer or its lists are lost."""
        told = self.had(self.data, "-o", "b.tree")
        self.assertEqual(told[-2:], ["had: %d nodes, 90 sources" % self.rows, "no change: the columns are whole"])
        self.assertEqual(len(told), 4)
        self.assertEqual(self.read("b.tree"), self.data)
        told = self.had(self.data[:20 * self.rows + 4 * 90], "--axes", "2", "-o", "b.tree")
        self.assertEqual(told[-1], "no change: the columns are whole")
        self.assertEqual(self.read("b.tree"), self.data)

    def test_pulled_early(self):
        """A file that ends within the order column: the leaves whose sources are all there keep them."""
        cut = self.data[:20 * self.rows + 4 * 50 + 2]
        told = self.had(cut, "--axes", "2", "--csv", "cells.csv")
        cells = self.table("cells.csv")
        self.assertEqual([int(row["key"]) for row in cells], self.tree.key.tolist())
        for node, row in enumerate(cells):
            end = self.tree.begin[node] + self.tree.own[node]
            right = self.tree.leaf_sources(node).tolist() if end <= 50 else []
            self.assertEqual([int(one) for one in row["sources"].split()], right)
        left = sum(int(row["own"]) for row in cells)
        self.assertIn("50 of 90 entries of the order column are there, as the file ends there", told)
        self.assertIn("had: %d nodes, %d sources, where the file had 90" % (self.rows, left), told)
        cleared = [node for node in self.tree.leaves().tolist() if self.tree.begin[node] + self.tree.own[node] > 50]
        self.assertIn("%d counts cleared" % len(cleared), told[-1])
        self.assertEqual(sum("its count was cleared" in line for line in told), len(cleared))
        result = self.run_tool("a.tree", "--axes", "2", "-o", "b.tree")
        self.assertEqual((result.returncode, result.stdout, result.stderr.count("\n")), (1, "", 1))
        self.assertIn("give --renumber SOURCES.csv, which numbers those that are left anew, or --csv without -o", result.stderr)
        self.assertFalse(os.path.exists(self.path("b.tree")))

    def test_sample(self):
        """The sample is the file of three-lines, cut, and its text what is told of it."""
        survey = house.read_survey(os.path.join(ROOT, "samples", "three-lines.survey"))
        tree = Tree.build([list(row) for row in survey.sources], Box(survey.centre, survey.radius), limit=survey.limit)
        with open(os.path.join(ROOT, "samples", "three-lines-cut.tree"), "rb") as file:
            cut = file.read()
        self.assertEqual(cut, tree.to_file()[:20 * 57 + 4 * 43 + 2])
        self.write("three-lines-cut.tree", cut)
        told = self.run_tool("three-lines-cut.tree", "--axes", "2").stdout
        with open(os.path.join(ROOT, "samples", "three-lines-cut.salvage"), encoding="utf-8") as file:
            self.assertEqual(told, file.read())

    def test_causes(self):
        """Of a count that was cleared the one cause is told that it had."""
        self.write("a.tree", plain_file(1, [0, 1, 2, 32769], [1, 1, 1, 2], [0, 0, 0, 1], [1, 1, 1, 1], [5, 6]))
        told = self.run_tool("a.tree").stdout
        for line in ("key 0 [level 0, cell 0]: its count was cleared, as it is the root (change 4)\n",
                     "key 1 [level 1, cell 0]: its count was cleared, as it has children (change 4)\n",
                     "key 32769 [level 1, cell 1]: its count was cleared, as its run passes the order column's end (change 4)\n"):
            self.assertIn(line, told)

    def test_renumber(self):
        """The sources that are left get numbers of their own, by their old ones, and the file is a tree file again."""
        self.had(self.data[:20 * self.rows + 4 * 50], "--axes", "2", "-o", "b.tree", "--renumber", "was.csv")
        was = [int(row["was"]) for row in self.table("was.csv")]
        self.assertEqual([int(row["source"]) for row in self.table("was.csv")], list(range(len(was))))
        self.assertEqual(was, sorted(set(was)))
        axes, (key, own, begin, total, order, *_) = tree_of(self.read("b.tree"))
        self.assertEqual((axes, key), (2, self.tree.key.tolist()))
        self.check_file("b.tree", [key, own, begin, total, order])
        self.assertEqual(sorted(order), list(range(len(was))))
        for node, (start, count) in enumerate(zip(begin, own)):
            if count:
                self.assertEqual([was[i] for i in order[start:start + count]], self.tree.leaf_sources(node).tolist())
        # and it is whole by itself
        self.assertEqual(self.had(self.read("b.tree"))[-1], "no change: the columns are whole")

    def test_gap(self):
        """Keys that became zeros: their cells come back where one below them is left, without their sources."""
        spoilt = self.data[:8 * 20] + bytes(8 * 15) + self.data[8 * 35:]
        told = self.had(spoilt, "--csv", "cells.csv", "--counts")
        cells = {int(row["key"]): int(row["own"]) for row in self.table("cells.csv")}
        lost = set(self.tree.key.tolist()[20:35])
        for node, key in enumerate(self.tree.key.tolist()):
            if key not in lost and self.tree.is_leaf(node):
                self.assertEqual(cells[key], self.tree.own[node])
        self.assertTrue(all(key in lost for key in set(self.tree.key.tolist()) - set(cells)))
        self.assertRegex(told[-1], r"^\d+ changes: 15 rows dropped as a repeat, ")
        self.assertFalse(any(line.startswith("key ") for line in told))
        self.assertIn("key 0 [level 0, cell 0,0]: a row was dropped, as an earlier one has this key (change 2)", self.had(spoilt))

    def test_any_damage(self):
        """Bytes gone, cleared or changed anywhere: a tree comes out, or a sentence."""
        made, had = random.Random(5), 0
        for _ in range(400):
            data = bytearray(self.data)
            for _ in range(made.randrange(1, 6)):
                start = made.randrange(len(data))
                end = min(start + made.choice([1, 4, 16, 64, 512]), len(data))
                filler = made.choice([b"\0", b"\xff", b"\x07\x01"])
                data[start:end] = made.choice([b"", (filler * 512)[:end - start]])
            self.write("a.tree", data)
            try:
                found = read_columns(self.path("a.tree"), made.choice([None, 2, 2]))
                found.doubtful()
                tree, _ = Tree.salvage(Box([0.0] * found.axes, 1.0), found.key, found.own, found.begin, found.order)
                self.assertTrue(tree.is_well_formed())
                had += 1
            except house.Refused as refused:
                self.assertIn("; ", str(refused))
        self.assertTrue(100 < had < 390, had)

    def test_doubtful(self):
        """Room that was never written, behind the order column's beginning: what is copied from there is in doubt."""
        for filler in (b"\0", b"\xff", b"\x05\0\0\0"):
            end = 20 * self.rows + 4 * 50
            spoilt = self.data[:end] + (filler * len(self.data))[:len(self.data) - end]
            told = self.had(spoilt, "--axes", "2", "--csv", "cells.csv")
            some = re.search(r"^the sources of (\d+) rows are in doubt, as some of them stand elsewhere too or are none; "
                             "--drop-doubtful leaves them out$", "\n".join(told), re.M)
            self.assertTrue(some, told)
            self.assertIn("had: %d nodes, 90 sources" % self.rows, told)
            told = self.had(spoilt, "--axes", "2", "--drop-doubtful", "--csv", "cells.csv", "-o", "b.tree", "--renumber", "was.csv")
            self.assertEqual(sum("its count was left out, as its sources are in doubt" in line for line in told), int(some.group(1)))
            for node, row in enumerate(self.table("cells.csv")):
                sources = [int(one) for one in row["sources"].split()]
                self.assertIn(sources, ([], self.tree.leaf_sources(node).tolist()))
                # the leaf that does have the filler's source is in doubt with the others
                if self.tree.begin[node] + self.tree.own[node] <= 50 and filler[0] not in self.tree.leaf_sources(node).tolist():
                    self.assertEqual(len(sources), self.tree.own[node])
            was = [int(row["was"]) for row in self.table("was.csv")]
            self.assertEqual(was, sorted(set(was)))

    def test_not_whole(self):
        """That the columns are whole is not said of a file that ends early, whose sources are in doubt, or whose total is not
        their number."""
        end = 20 * self.rows
        no_total = self.data[:16 * self.rows] + b"\xff" * 4 + self.data[16 * self.rows + 4:]
        for data, words, said in (
                (self.data[:163], ["--axes", "2"], "they end early"),
                (self.data[:end] + bytes(80) + self.data[end + 80:], [], "sources are in doubt"),
                (no_total, [], "they differ in the number of sources"),
                (no_total[:-4], ["--axes", "2"], "they differ in the number of sources")):
            self.assertEqual(self.had(data, *words)[-1], "no change, but the columns are not whole: " + said)
        # and no source is lost for a total
        for total in (b"\0" * 4, b"\xff" * 4):
            spoilt = self.data[:16 * self.rows] + total + self.data[16 * self.rows + 4:]
            for data, words in ((spoilt, []), (spoilt[:-4], ["--axes", "2"])):
                self.had(data, "--drop-doubtful", "-o", "b.tree", *words)
                self.assertEqual(self.read("b.tree"), self.data)

    def test_node_count(self):
        """60 points, 47 nodes: two keys lost, or the first count, and the file cut among its begins."""
        made = random.Random(9)
        points = [[made.random() * 8 for _ in range(2)] for _ in range(60)]
        tree = Tree.build(points, Box([4.0, 4.0], 4.0), limit=3)
        data, rows = bytes(tree.to_file()), len(tree)
        self.assertEqual((rows, len(data)), (47, 5584))
        told = self.had((data[:8 * 39] + bytes(16) + data[8 * 41:])[:15 * rows], "--axes", "2", "--csv", "cells.csv")
        self.assertIn("read in the order in which files are written, with 47 nodes and 2 axes, as the keys end there", told)
        left = set(tree.key.tolist()) - set(tree.key.tolist()[39:41])
        self.assertTrue(left <= {int(row["key"]) for row in self.table("cells.csv")})
        self.write("a.tree", (data[:8 * rows] + b"\xff" * 4 + data[8 * rows + 4:])[:15 * rows])
        result = self.run_tool("a.tree", "--axes", "2")
        self.assertEqual((result.returncode, result.stdout), (1, ""))
        self.assertIn("where the keys end cannot be seen; give the number of nodes with --nodes", result.stderr)
        self.assertEqual(self.run_tool("a.tree", "--axes", "2", "--nodes", "47").returncode, 0)

    def test_refused(self):
        """More sources than a tree may have, as each of many rows has the whole order column."""
        key = [code * 32768 + 3 for code in range(64)]
        self.write("a.tree", plain_file(2, key, [20000] * 64, [0] * 64, [0] * 64, list(range(20000))))
        result = self.run_tool("a.tree", "--csv", "cells.csv")
        self.assertEqual((result.returncode, result.stdout), (1, ""))
        self.assertIn("salvage: a.tree: what can be had has more than 1048576 sources, as runs overlap", result.stderr)
        self.assertFalse(os.path.exists(self.path("cells.csv")))

    def test_large(self):
        """20,000 readings of three axes, cut in the middle of the order column."""
        points = some_points(random.Random(1), 3, 20000)
        tree = Tree.build(points, Box([0.0] * 3, 4.0), limit=8)
        columns = [getattr(tree, name).tolist() for name in COLUMNS]
        data = plain_file(3, *columns)
        self.had(data[:20 * len(tree) + 40000], "--axes", "3", "--counts", "-o", "b.tree", "--renumber", "was.csv")
        axes, (key, own, begin, total, order, *_) = tree_of(self.read("b.tree"))
        self.assertTrue(Tree.from_columns(tree.box, key, own, begin, total, order).is_well_formed())
        self.assertEqual((axes, len(order)), (3, len(self.table("was.csv"))))
        self.assertTrue(9900 <= len(order) <= 10000, len(order))


if __name__ == "__main__":
    unittest.main()

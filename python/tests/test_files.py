"""Tree files: what is written is what a plain writer, made from the text of the rules, writes, and is read again; what
tools/tree-file writes and lists."""

import array
import os
import random
import re
import struct
import subprocess
import sys
import tempfile
import unittest

from common import ROOT, numpy, read, some_points

from lohandema import Box, Lists, Refused, Rows, Tree


def plain(tree, lists):
    """Nine sections, then an entry of three numbers for each, the axes and the number of entries."""
    columns = [(8, tree.key), (4, tree.own), (4, tree.begin), (4, tree.total), (4, tree.order), (4, lists.u.starts),
               (8, lists.u.entries), (4, lists.v.starts), (8, lists.v.entries)]
    sections = [b"".join(int(number).to_bytes(width, "little") for number in column) for width, column in columns]
    body, entries = b"".join(sections), []
    for code, section in enumerate(sections, 1):
        entries += [code, len(body) - sum(map(len, sections[:code - 1])), len(section)]
    return body + struct.pack("<%dI" % (len(entries) + 2), *entries, tree.box.axes, len(sections))


def trees():
    """Trees of one, two and three axes, of no points to many, with and without empty cells."""
    made = random.Random(6)
    for case in range(24):
        axes = 1 + case % 3
        yield Tree.build(some_points(made, axes, case * case // 2), Box([0.0] * axes, 4.0), limit=1 + case % 5,
                         keep_empty=case % 2 == 0)


class Written(unittest.TestCase):
    def test_plain(self):
        for tree in trees():
            lists = tree.lists()
            file = tree.to_file()
            self.assertIsInstance(file, bytes)
            self.assertEqual(file, plain(tree, lists))
            self.assertEqual(tree.to_file(lists), file)

    def test_root(self):
        """The smallest file there is, as docs/RULES.md has it."""
        page = read("docs", "RULES.md").split("## The tree file\n")[1]
        told = "".join(re.findall(r"^    ([0-9a-f ]+)$", page, re.M)).replace(" ", "")
        self.assertEqual((len(told) // 2, bytes.fromhex(told)), (152, Tree.build([], Box([4.0], 4.0)).to_file()))

    def refused(self, number, tree, lists):
        with self.assertRaises(Refused) as caught:
            tree.to_file(lists)
        self.assertEqual(caught.exception.number, number)
        self.assertIn(": ", str(caught.exception))

    def test_refused(self):
        """A tree that is none, an order with an index twice, and lists that are not the tree's, in this order."""
        tree = Tree.build([[0.5], [1.5], [6.5], [7.5]], Box([4.0], 4.0), limit=1)
        lists, columns = tree.lists(), [tree.key, tree.own, tree.begin, tree.total]
        turned = Lists(tree, lists.v, lists.u)
        self.refused(17, tree, turned)
        twice = Tree.from_columns(tree.box, *columns, [0, 1, 2, 2])
        self.refused(17, twice, lists)
        self.refused(17, Tree.from_columns(tree.box, *columns, [0, 1, 2]), lists)
        self.refused(13, Tree.from_columns(tree.box, *columns[:3], [5] + tree.total.tolist()[1:], [0, 0, 0, 0]), turned)
        other = Lists(tree, Rows(lists.u.starts, lists.u.entries.tolist() + [3]), lists.v)
        self.refused(17, tree, other)

    def test_not_lists(self):
        tree = Tree.build([[0.5], [7.5]], Box([4.0], 4.0), limit=1)
        with self.assertRaisesRegex(TypeError, "lists is of type list: pass Lists"):
            tree.to_file([1, 2])


def columns(tree, lists):
    """All that a file holds."""
    return [one.tolist() for one in (tree.key, tree.own, tree.begin, tree.total, tree.order, lists.u.starts, lists.u.entries,
                                     lists.v.starts, lists.v.entries)]


class Reading(unittest.TestCase):
    def test_again(self):
        """The columns, the order and the lists are those that were written, and serve as such."""
        for tree in trees():
            lists = tree.lists()
            again, rows = Tree.from_file(tree.to_file(lists), tree.box)
            self.assertEqual(columns(again, rows), columns(tree, lists))
            self.assertIs(rows.tree, again)
            self.assertEqual((again.box, again.is_well_formed(), len(rows.at_fault())), (tree.box, True, 0))
            self.assertEqual(again.to_file(rows), tree.to_file(lists))

    def test_bytes(self):
        """Any row of bytes is taken as it is; what is none is refused with the cure."""
        tree = Tree.build([[0.5], [7.5]], Box([4.0], 4.0), limit=1)
        file = tree.to_file()
        for given in (file, bytearray(file), memoryview(file), array.array("B", file)):
            self.assertEqual(Tree.from_file(given, tree.box)[0].key.tolist(), [0, 1, 32769])
        if numpy:
            self.assertEqual(len(Tree.from_file(numpy.frombuffer(file, dtype=numpy.uint8), tree.box)[0]), 3)
        for given in ("a.tree", list(file), memoryview(file)[::2], array.array("I", [1, 2])):
            with self.assertRaisesRegex(TypeError, "^file .*pass its bytes, as open.path, 'rb'. reads them"):
                Tree.from_file(given, tree.box)
        with self.assertRaisesRegex(TypeError, "pass a Box"):
            Tree.from_file(file, None)

    def refused(self, number, said, file, box):
        with self.assertRaises(Refused) as caught:
            Tree.from_file(file, box)
        self.assertEqual(caught.exception.number, number)
        self.assertIn(said, str(caught.exception))

    def test_damaged(self):
        tree = Tree.build([[0.5, 0.5], [1.5, 3.5], [6.5, 7.5]], Box([4.0, 4.0], 4.0), limit=1)
        file = tree.to_file()
        for length in range(len(file)):
            with self.assertRaises(Refused):
                Tree.from_file(file[:length], tree.box)
        self.refused(17, "the file is no tree file, or is damaged", b"", tree.box)
        self.refused(17, "write it anew from the survey", file[:-4] + struct.pack("<I", 357913942), tree.box)
        self.refused(1, "the axes that it names are not 1, 2 or 3", file[:-8] + struct.pack("<II", 4, 9), tree.box)
        self.refused(13, "not a well-formed tree", b"\x01" + file[1:], tree.box)
        self.refused(1, "the file has a tree of 2 axes, and the box has 1", file, Box([4.0], 4.0))


class Tool(unittest.TestCase):
    """tools/tree-file over the library."""

    def setUp(self):
        self.folder = tempfile.TemporaryDirectory()
        self.addCleanup(self.folder.cleanup)

    def run_tool(self, *words):
        words = [sys.executable, "-B", os.path.join(ROOT, "tools", "tree-file"), *words]
        return subprocess.run(words, cwd=self.folder.name, capture_output=True, text=True)

    def done(self, *words):
        result = self.run_tool(*words)
        self.assertEqual(result.returncode, 0, result.stderr)
        return result

    def test_samples(self):
        """The tree of a survey file, written and listed, is what ./listing prints of the survey."""
        for name in ("example", "three-lines"):
            said = self.done("write", os.path.join(ROOT, "samples", name + ".survey"), "-o", "a.tree")
            self.assertEqual(said.stdout, "")
            listed = self.done("list", "a.tree")
            self.assertEqual((listed.stdout, listed.stderr), (read("samples", name + ".listing"), ""))

    def test_targets(self):
        """Of a survey with targets only near work differs, as the file has none."""
        self.done("write", os.path.join(ROOT, "samples", "two-heights.survey"), "-o", "a.tree")
        listed, right = [text.split("\n") for text in (self.done("list", "a.tree").stdout,
                                                        read("samples", "two-heights.listing"))]
        self.assertEqual((listed[0].split()[:5], listed[1:]), (right[0].split()[:5], right[1:]))

    def test_csv(self):
        said = self.done("write", os.path.join(ROOT, "samples", "flight-lines.csv"), "--columns=easting,northing", "--limit", "8",
                         "-o", "a.tree").stderr
        self.assertIn("x is easting (column 3), y is northing (column 4)", said)
        size = os.path.getsize(os.path.join(self.folder.name, "a.tree"))
        self.assertIn("a.tree: 333 nodes, 1261 readings, 2544 keys in the U rows and 5112 keys in the V rows, %d bytes\n" % size,
                      said)
        self.assertEqual(self.done("list", "a.tree").stdout.split("\n")[0], "tree 2 333 5 1261 71865")
        self.assertIn("{:,} bytes".format(size), read("docs", "TUTORIAL.md"))

    def test_refused(self):
        survey = os.path.join(ROOT, "samples", "example.survey")
        for words, said in ((("list", survey), "the axes that it names are not 1, 2 or 3"),
                            (("list", os.path.join(ROOT, "README.md")), "the file is no tree file"),
                            (("list", "none"), "none: No such file or directory")):
            result = self.run_tool(*words)
            self.assertEqual((result.returncode, result.stdout), (1, ""))
            self.assertTrue(result.stderr.startswith("tree-file: " + words[1]), result.stderr)
            self.assertIn(said, result.stderr)
            self.assertEqual(result.stderr.count("\n"), 1, result.stderr)


if __name__ == "__main__":
    unittest.main()

"""salvage: what is read of a damaged tree file, its options, and what it says where there is no library. The tests with the
library are in python/tests."""

import os
import random
import unittest.mock

from common import SAMPLES, ToolTest
from damaged_file import place, read_columns
from survey_file import Refused
from tree_files import plain_file, sample

NAMES = ("example", "three-lines", "two-heights")


class Salvage(ToolTest):
    def setUp(self):
        super().setUp()
        nowhere = unittest.mock.patch.dict(os.environ, {"LOHANDEMA_LIBRARY": self.path("none.so")})
        nowhere.start()
        self.addCleanup(nowhere.stop)

    def columns(self, name):
        return sample(os.path.join(SAMPLES, name))

    def readable(self, data, *given):
        self.write("a.tree", data)
        found = read_columns(self.path("a.tree"), *given)
        return [found.axes] + [list(one) for one in (found.key, found.own, found.begin, found.order)], found

    def test_whole(self):
        """By the trailer, and without it in the order in which files are written."""
        for name in NAMES:
            axes, key, own, begin, total, order = self.columns(name)
            data = plain_file(axes, key, own, begin, total, order)
            for given in (data, data[:-1], data[:-8] + bytes(8), data + b"\0"):
                found, columns = self.readable(given, *[] if given is data else [axes])
                self.assertEqual(found, [axes, key, own, begin, order], name)
                self.assertEqual(columns.had, len(order))
                self.assertEqual(len(columns.told), 2 if given is data else 4)
                self.assertTrue(columns.told[-1].startswith("read: %d rows and %d entries of the order" % (len(key), len(order))))

    def test_other_sections(self):
        """Sections of codes 10 to 31 are not looked at, and entries may stand in any order."""
        axes, key, own, begin, total, order = self.columns("three-lines")
        data = plain_file(axes, key, own, begin, total, order)
        trailer = len(data) - 116
        entries = [data[at:at + 12] for at in range(trailer, len(data) - 8, 12)]
        moved = data[:trailer] + b"".join(entries[::-1]) + (31).to_bytes(4, "little") + bytes(8) + data[-8:-4] + b"\x0a\0\0\0"
        self.assertEqual(self.readable(moved)[0], [axes, key, own, begin, order])

    def test_cut(self):
        """Of a file that ends early each column is read as far as it goes, and a row that lacks something has the count 0."""
        for name in NAMES:
            axes, key, own, begin, total, order = self.columns(name)
            data = plain_file(axes, key, own, begin, total, order)
            rows = len(key)
            # the first count that is not 0 says where the keys end, if it is the first leaf's; else the first such begin
            leaf = next(n for n in range(rows) if key[n + 1] % 32768 <= key[n] % 32768)
            filled = next(n for n in range(rows) if own[n])
            seen = 8 * rows + 4 * filled + 4 if filled == leaf else 12 * rows + 4 * filled + 8
            for end in range(8, 20 * rows + 4 * len(order) + 8):
                if 8 * rows + 8 <= end < seen:
                    with self.assertRaisesRegex(Refused, "where the keys end cannot be seen; give the number of nodes with --nodes"):
                        self.readable(data[:end], axes)
                found, columns = self.readable(data[:end], axes, *[rows] if 8 * rows + 8 <= end < seen else [])
                self.assertEqual("they end early" in columns.faults, end < 20 * rows + 4 * len(order))
                there = min(rows, end // 8)
                if end >= 8 * rows + 8:
                    self.assertEqual(found[1], key, (name, end))
                else:
                    self.assertEqual(found[1][:there], key[:there])
                if end < 16 * rows:
                    self.assertFalse(found[4])
                else:
                    self.assertEqual(found[2:4], [own, begin])
                    self.assertEqual(found[4], order[:max(0, end - 20 * rows) // 4])

    def test_cut_early(self):
        """What stands in the file for the rows that lack a count or a begin is told."""
        axes, key, own, begin, total, order = self.columns("three-lines")
        data, rows = plain_file(axes, key, own, begin, total, order), len(key)
        told = self.readable(data[:12 * rows + 40], axes)[1].told
        self.assertIn("10 of 57 begins are there, as the file ends there: the other rows get the count 0", told)
        self.assertFalse(any(" own counts " in line for line in told))
        told = self.readable(data[:20 * rows + 40], axes)[1].told
        self.assertIn("10 of 61 entries of the order column are there, as the file ends there", told)
        self.assertIn("the trailer at its end, which says where the columns are, is lost (its last four bytes say ", told[1])

    def test_gaps(self):
        """With a gap of zeros anywhere the number of nodes is seen, or asked for; where it is given, all else is read."""
        made = random.Random(4)
        for name in NAMES[1:]:
            axes, key, own, begin, total, order = self.columns(name)
            data, rows, asked = plain_file(axes, key, own, begin, total, order), len(key), 0
            for _ in range(400):
                start = made.randrange(0, len(data), made.choice([4, 16, 64]))
                size = made.choice([16, 64, 256, 1024])
                spoilt = (data[:start] + bytes(size) + data[start + size:])[:len(data) - 8]
                try:
                    self.assertEqual(len(self.readable(spoilt, axes)[0][1]), rows, (name, start, size))
                except Refused as refused:
                    self.assertIn("where the keys end cannot be seen; give the number of nodes with --nodes", str(refused))
                    asked += 1
                found = self.readable(spoilt, axes, rows)[0]
                for right, ours in zip((key, own, begin), found[1:]):
                    self.assertTrue(all(a == b or b == 0 or b % 2 ** 32 in (0, a % 2 ** 32) for a, b in zip(right, ours)))
            self.assertTrue(0 < asked < 300, asked)

    def test_not_guessed(self):
        """Keys with a gap, or a spoilt count behind them, in a file that ends early: their number is right, or is asked for."""
        made, asked, seen = random.Random(7), 0, 0
        axes, *columns = self.columns("three-lines")
        data, rows = plain_file(axes, *columns), len(columns[0])
        for turn in range(600):
            spoilt, filler, size = bytearray(data), made.choice([b"\0", b"\xff"]), 8 * made.choice([1, 2, 5])
            start = 8 * rows if turn % 5 == 0 else 8 * made.randrange(1, rows)
            spoilt[start:start + size] = filler * size
            end = made.randrange(start + size, 16 * rows)
            try:
                found = self.readable(bytes(spoilt[:end]), axes)[1]
                self.assertEqual(len(found.key), rows, (start, size, filler, end))
                seen += 1
            except Refused as refused:
                self.assertIn("where the keys end cannot be seen; give the number of nodes with --nodes", str(refused))
                asked += 1
        self.assertTrue(asked > 100 and seen > 100, (asked, seen))

    def test_number_of_sources(self):
        """A total of the root that is not the number of sources is told, and no good source is in doubt for it."""
        axes, key, own, begin, total, order = self.columns("three-lines")
        for wrong in (0, 60, 62, 2 ** 32 - 1):
            data = plain_file(axes, key, own, begin, [wrong] + total[1:], order)
            for given in ((data,), (data[:-4], axes)):
                found = self.readable(*given)[1]
                self.assertEqual((found.had, list(found.order), found.doubtful()), (61, order, []))
                self.assertTrue(any("the root's total says %d, the last row's begin and count say 61, " % wrong in line
                                    and line.endswith("; 61 is taken") for line in found.told), found.told)
                self.assertEqual(found.faults, ["they differ in the number of sources"])
        # neither the total nor the last row is the section's length
        found = self.readable(plain_file(axes, key, own, [1] + begin[1:-1] + [0], [9] + total[1:], order))[1]
        self.assertEqual(found.had, None)
        self.assertTrue(any(line.endswith("; which is right cannot be seen") for line in found.told), found.told)

    def test_wrong_options(self):
        """Axes or nodes that are not the file's show in its columns."""
        axes, *columns = self.columns("three-lines")
        data, rows = plain_file(axes, *columns), len(columns[0])
        for wrong, said in ((1, "1 axis"), (3, "3 axes")):
            found = self.readable(data[:-4], wrong)[1]
            self.assertTrue(any(line.startswith("the keys are not in order for %s, as " % said) for line in found.told), found.told)
            self.assertIn("the keys are not in order", found.faults)
        for wrong in (rows - 1, rows + 1):
            found = self.readable(data[:-4], axes, wrong)[1]
            self.assertIn("the begins are no running sums of the own counts: is the number of nodes right, or are they damaged?",
                          found.told)
        found = self.readable(data[:8 * 20], axes, rows)[1]
        self.assertIn("20 of 57 keys are there, as the file ends there", found.told)
        # a gap of zeros leaves the keys in order
        self.assertEqual(self.readable((data[:80] + bytes(16) + data[96:])[:-4], axes)[1].faults, [])

    def test_no_tree_file(self):
        for content in (b"easting,northing\n" * 50, b"\xff" * 4000):
            self.write("a.tree", content)
            for given in ([], ["--axes", "2"], ["--axes", "2", "--nodes", "9"]):
                self.refused("can have: is it a tree file? give one", "salvage", "a.tree", "-o", "out", *given)
        self.write("a.tree", plain_file(1, [17, 18], [0, 1], [0, 0], [1, 1], [0]))
        self.refused("a.tree: there is no key in it that a tree of 1 axis can have", "salvage", "a.tree", "-o", "out")

    def test_refused(self):
        axes, *rest = self.columns("three-lines")
        data = plain_file(axes, *rest)
        self.write("a.tree", data)
        self.write("cut.tree", data[:-50])
        self.write("short.tree", data[:7])
        self.refused("cut.tree: the trailer at its end, which says where the columns are, is lost", "salvage", "cut.tree")
        self.refused("the number of axes stands in the trailer alone: give --axes", "salvage", "cut.tree")
        self.refused("a.tree: --axes 3, but its trailer, which is whole, says 2; leave the option out", "salvage", "a.tree",
                     "--axes", "3")
        self.refused("a.tree: --nodes 5, but its trailer, which is whole, says 57", "salvage", "a.tree", "--nodes", "5")
        self.refused("short.tree: 7 bytes, in which there is not one key", "salvage", "short.tree")
        self.refused("none.tree: No such file or directory; look at its name and folder", "salvage", "none.tree")
        self.refused(".: Is a directory; name a file in it", "salvage", ".")
        self.refused("a.tree: would be written over a.tree; name another file", "salvage", "a.tree", "-o", "a.tree")
        self.refused("out: would be written over out; name another file", "salvage", "a.tree", "-o", "out", "--csv", "out")
        self.refused("salvage: LOHANDEMA_LIBRARY is %s, and no file is there: set it" % self.path("none.so"), "salvage", "a.tree",
                     "-o", "out")

    def test_options(self):
        for said, arguments in (
                ("--renumber goes with -o", ["a.tree", "--renumber", "out"]),
                ("--axes 4: a tree has 1, 2 or 3 axes", ["a.tree", "--axes", "4"]),
                ("nothing is written to standard output", ["a.tree", "-o", "-"]),
                ("--axes stands twice", ["a.tree", "--axes", "1", "--axes", "2"]),
                ("'': an empty name is that of no file; name one", ["a.tree", "-o", ""]),
                ("'': an empty name is that of no file; name one", ["a.tree", "--csv", ""]),
                ("'': an empty name is that of no file; name one", ["a.tree", "-o", "out", "--renumber", ""]),
                ("unrecognized arguments: --ax 2", ["a.tree", "--ax", "2"]),
                ("--nodes 0: a tree has one node at least", ["a.tree", "--nodes", "0"]),
                ("is not a whole number", ["a.tree", "--nodes", "-1"])):
            result = self.run_tool("salvage", *arguments)
            self.assertEqual(result.returncode, 2, arguments)
            self.assertIn(said, result.stderr)
        self.assertRegex(self.run_tool("salvage", "--version").stdout, r"^\d+\.\d+\.\d+\n$")

    def test_place(self):
        self.assertEqual(place(2, 1277955), " [level 3, cell 3,5]")
        self.assertEqual((place(1, 0), place(1, 17), place(2, 131073)), (" [level 0, cell 0]", "", ""))


if __name__ == "__main__":
    unittest.main()

"""Trees, rows, lookup and groups: the recorded example, random surveys against a plain reading of the rules, columns that are
no tree, threads, and a million points."""

import array
import contextlib
import ctypes
import io
import os
import pickle
import random
import threading
import time
import unittest

from common import ROOT, numpy, read, some_points, table

import lohandema.progress
import plain
import survey_file as house
from lohandema import Box, Refused, Rows, Tree
from lohandema.rows import Lists


def listing(tree, targets=None):
    """The text of a tree and its lists, as the listing program has it: nodes by level."""
    lists = tree.lists()
    lines = ["tree %d %d %d %d %d" % (tree.box.axes, len(tree), tree.depth, len(tree.order), tree.near_work(targets))]
    by_level = sorted(range(len(tree)), key=lambda node: (house.level_of(int(tree.key[node])), tree.key[node]))
    for number, node in enumerate(by_level):
        near, far = ["".join(" %d" % key for key in row(node)) for row in (lists.near, lists.far)]
        lines.append("%d %d %d U%s V%s" % (number, tree.key[node], tree.own[node], near, far))
    return "\n".join(lines) + "\n"


class Recorded(unittest.TestCase):
    def test_example(self):
        """The example of docs/RULES.md: each column, the rows, lookup and grouping."""
        tree = Tree.build([[0.5], [1.5], [6.5], [7.5]], Box([4.0], 4.0), limit=1)
        self.assertEqual(tree.key.tolist(), [0, 1, 2, 3, 32771, 32769, 98306, 196611, 229379])
        self.assertEqual(tree.own.tolist(), [0, 0, 0, 1, 1, 0, 0, 1, 1])
        self.assertEqual(tree.begin.tolist(), [0, 0, 0, 0, 1, 2, 2, 2, 3])
        self.assertEqual(tree.total.tolist(), [4, 2, 2, 1, 1, 2, 2, 1, 1])
        self.assertEqual((tree.order.tolist(), tree.depth), ([0, 1, 2, 3], 3))
        self.assertEqual(listing(tree), read("samples", "example.listing"))
        groups = tree.groups(keys=[229379, 3, 229379])
        self.assertEqual(groups.starts.tolist(), [0, 0, 0, 0, 1, 1, 1, 1, 1, 3])
        self.assertEqual(groups.entries.tolist(), [1, 0, 2])
        other = Tree.from_columns(tree.box, [0, 1, 32769, 98306, 229379], [0, 1, 0, 0, 1], [0, 0, 1, 1, 1],
                                  [2, 1, 1, 1, 1], [0, 1])
        self.assertEqual(other.lookup([0.0, 7.5], with_steps=True)[1], 2)
        self.assertEqual(other.leaf_of([0.0], with_steps=True), (1, 2))
        with self.assertRaises(Refused) as caught:
            other.lookup([0.0, 5.0])
        self.assertEqual((caught.exception.number, caught.exception.value), (12, 1))
        self.assertIn("no leaf holds point 1", str(caught.exception))

    def test_samples(self):
        """The other samples, whose listings the proved program wrote."""
        for name in ("three-lines", "two-heights"):
            survey = house.read_survey(os.path.join(ROOT, "samples", name + ".survey"))
            targets = [list(row) for row in survey.targets]
            used = {"targets": targets, "order": survey.order} if survey.keep_empty else {}
            tree = Tree.build([list(row) for row in survey.sources], Box(survey.centre, survey.radius), limit=survey.limit,
                              keep_empty=survey.keep_empty, **used)
            self.assertEqual(listing(tree, targets), read("samples", name + ".listing"), name)

    def test_near_work(self):
        """The example by its targets, and the first target that fails."""
        tree = Tree.build([[0.5], [1.5], [6.5], [7.5]], Box([4.0], 4.0), limit=1)
        for targets, work in ((None, 8), ([], 8), ([7.5, 6.5, 1.5, 0.5], 8), ([0.5], 2), ([7.9, 0.0, 7.5, 0.9, 7.0], 10)):
            self.assertEqual(tree.near_work(targets), work)
        self.assertEqual(tree.near_work(with_counts=True)[1].tolist(), tree.own.tolist())
        self.assertEqual(tree.near_work([7.9, 0.0, 7.5], with_counts=True)[1].tolist(), [0, 0, 0, 1, 0, 0, 0, 0, 2])
        refused = {(3.0,): (12, 0, None, None), (8.0,): (7, 0, 0, 3), (3.0, 8.0): (12, 0, None, None),
                   (8.0, 3.0): (7, 0, 0, 3), (0.5, 1.5, float("nan"), 3.0): (7, 2, 0, 1), (0.5, -1.0): (7, 1, 0, 2)}
        for targets, told in refused.items():
            with self.assertRaises(Refused) as caught:
                tree.near_work(list(targets))
            found = caught.exception
            self.assertEqual((found.number, found.value, found.axis, found.reason), told)
        for targets in ([[1.0, 2.0]], "0.5", [[True]]):
            with self.assertRaises((TypeError, ValueError)):
                tree.near_work(targets)

    def test_lists_of_check_sums(self):
        """What is not lists, or not of whole numbers side by side, is refused by a sentence."""
        tree = Tree.build([[0.5], [1.5], [6.5], [7.5]], Box([4.0], 4.0), limit=1)
        lists, readings = tree.lists(), [1, 2, 3, 4]
        u, v = lists.u, lists.v
        twice = array.array("q", [x for x in u.starts.tolist() for _ in range(2)])
        big = (ctypes.c_int64.__ctype_be__ * len(u.starts))(*u.starts.tolist())
        flat = memoryview(array.array("q", u.starts.tolist())).cast("B")
        bad = {"lists is of type int: pass Lists": 5, "lists.u is of type list: pass Rows": Lists(tree, [], v),
               "lists.v is of type NoneType: pass Rows": Lists(tree, u, None)}
        for part, starts in (("holds float64, and int64 or uint64 is taken", array.array("d", u.starts.tolist())),
                             ("holds int32", array.array("i", u.starts.tolist())), ("is big-endian", big),
                             ("is not C-contiguous", memoryview(twice)[::2]),
                             ("has 2 dimensions, and one is taken", flat.cast("q", [len(u.starts), 1]))):
            bad["lists.u.starts " + part] = Lists(tree, Rows(starts, u.entries), v)
        for part, given in bad.items():
            with self.assertRaises((TypeError, ValueError)) as caught:
                tree.check_sums(readings, given)
            self.assertIn(part, str(caught.exception))
        rows = [Rows(one.starts.tolist(), one.entries.tolist()) for one in (u, v)]
        self.assertEqual(tree.check_sums(readings, Lists(tree, *rows)), (4, 12))
        with self.assertRaises(Refused) as caught:
            tree.check_sums([2 ** 40 + 1, 2, 3, 4])
        self.assertEqual((caught.exception.number, caught.exception.value), (20, 0))
        self.assertIn("reading 0 is over 1099511627776 (2^40) in size: mend it", str(caught.exception))

    def test_check_sums(self):
        """The example with readings, what is refused, and what is no list of readings."""
        tree = Tree.build([[0.5], [1.5], [6.5], [7.5]], Box([4.0], 4.0), limit=1)
        lists = tree.lists()
        for readings in ([1, 2, 3, 4], [2 ** 40, -2 ** 40, 0, 2 ** 40], (0, 0, 0, 0)):
            self.assertEqual(tree.check_sums(readings), (4, 12))
            self.assertEqual(tree.check_sums(readings, lists), (4, 12))
        other = Tree.build([[0.5], [1.5], [2.5], [7.5]], Box([4.0], 4.0), limit=1).lists()
        refused = [([1, 2, 3], lists, (3, 0)), ([1, 2, 2 ** 40 + 1, -2 ** 63], lists, (20, 2)), ([1, 2, 3, 4], other, (18, 0))]
        for readings, of, told in refused:
            with self.assertRaises(Refused) as caught:
                tree.check_sums(readings, of)
            self.assertEqual((caught.exception.number, caught.exception.value), told)
        with self.assertRaisesRegex(Refused, "or the readings are not as many as the tree has sources, or .* one reading for each source"):
            tree.check_sums([1, 2, 3])
        for readings in ([1, 2, 3, 2 ** 63], [1, 2, 3, 0.5], "1234", [True, 1, 2, 3], None):
            with self.assertRaises((TypeError, ValueError)):
                tree.check_sums(readings)


class ByTheRules(unittest.TestCase):
    def test_random(self):
        made = random.Random(3)
        for case in range(60):
            axes, count = made.randint(1, 3), made.choice([0, 1, 2, 7, 30])
            box, keep = Box([0.0] * axes, 4.0), made.random() < 0.5
            sources = some_points(made, axes, count)
            limit, order = made.randint(1, 4), made.randint(1, 2)
            targets = some_points(made, axes, made.choice([1, 20, 120])) if keep and made.random() < 0.6 else []
            aims = {"targets": targets, "order": order} if targets else {}
            tree = Tree.build(sources, box, limit=limit, keep_empty=keep, **aims)
            rules = plain.Plain(box.centre, box.radius, sources, limit, keep, targets, order)
            with self.subTest(case=case, axes=axes, count=count, keep=keep):
                self.same(tree, rules)
                self.looked_up(tree, rules, some_points(made, axes, 12))

    def same(self, tree, rules):
        for name in ("key", "own", "begin", "total", "order"):
            self.assertEqual(getattr(tree, name).tolist(), getattr(rules, name), name)
        self.assertEqual(tree.depth, rules.depth)
        self.assertTrue(tree.is_well_formed())
        self.assertEqual(tree.leaves().tolist(), [n for n, leaf in enumerate(rules.leaf) if leaf])
        self.assertEqual(tree.sourced_cells().tolist(), sorted(key for key in rules.key if rules.held[key]))
        lists = tree.lists()
        for node in range(len(tree)):
            self.assertEqual(lists.near(node).tolist(), rules.near(node))
            self.assertEqual(lists.far(node).tolist(), rules.far(node))
            self.assertEqual(sorted(tree.cell_sources(node).tolist()),
                             [i for i, code in enumerate(rules.codes) if rules.key[node] in house.ancestors(rules.axes, code)])
            self.assertEqual(tree.node_of(rules.key[node]), node)
            above = house.ancestors(rules.axes, rules.key[node])
            self.assertEqual([rules.key[n] for n in tree.path(node)], above)
            self.assertEqual(int(tree.parents()[node]), rules.key.index(above[1]) if node else -1)
        self.assertEqual(lists.at_fault().tolist(), [])
        work, counts = tree.near_work(with_counts=True)
        self.assertEqual((work, counts.tolist()), rules.near_work(rules.codes))
        self.assertEqual(lists.u.sizes().tolist(), [len(row) for row in lists.u])

    def looked_up(self, tree, rules, points):
        codes = [house.point_key(tree.box.centre, tree.box.radius, point) for point in points]
        leaves = [rules.leaf_of(code) for code in codes]
        if None in leaves:
            for call in (tree.lookup, tree.near_work):
                with self.assertRaises(Refused) as caught:
                    call(points)
                self.assertEqual((caught.exception.number, caught.exception.value), (12, leaves.index(None)))
            return
        work, counts = tree.near_work(points, with_counts=True)
        self.assertEqual((work, counts.tolist()), rules.near_work(codes))
        found, steps = tree.lookup(points, with_steps=True)
        self.assertEqual(found.tolist(), leaves)
        self.assertEqual(steps, sum(rules.depth - house.level_of(leaf) for leaf in leaves))
        self.assertEqual([tree.leaf_of(point) for point in points], leaves)
        groups = tree.groups(points)
        self.assertEqual([row.tolist() for row in groups],
                         [[i for i, leaf in enumerate(leaves) if leaf == key] for key in rules.key])
        self.assertEqual(tree.groups(keys=found).entries.tolist(), groups.entries.tolist())


class Columns(unittest.TestCase):
    def test_no_tree(self):
        """Columns that are no tree are refused 13 by each call, and never used."""
        made = random.Random(4)
        tree = Tree.build(some_points(made, 2, 40), Box([0.0, 0.0], 4.0), limit=2)
        columns = [getattr(tree, name).tolist() for name in ("key", "own", "begin", "total", "order")]
        self.assertTrue(Tree.from_columns(tree.box, *columns).is_well_formed())
        for case in range(40):
            spoilt = [list(column) for column in columns]
            column, place = made.randrange(4), made.randrange(len(tree))
            spoilt[column][place] = made.choice([2 ** 64 - 1, 2 ** 63, spoilt[column][place] + 1])
            other = Tree.from_columns(tree.box, *spoilt)
            self.assertFalse(other.is_well_formed())
            for call in (other.lists, other.sourced_cells, other.leaves, other.parents, lambda: other.lookup([[0.0, 0.0]]),
                         lambda: other.leaf_of([0.0, 0.0]), lambda: other.groups(keys=[1]), other.near_work,
                         lambda: other.near_work([[0.0, 0.0]])):
                with self.assertRaises(Refused) as caught:
                    call()
                self.assertEqual(caught.exception.number, 13)
            for node in range(len(tree)):
                other.cell_sources(node), other.leaf_sources(node)
        for column in range(4):
            with self.assertRaises(Refused):
                Tree.from_columns(tree.box, *[c[:-1] if i == column else c for i, c in enumerate(columns)]).lists()
        with self.assertRaises(Refused):
            Tree.from_columns(tree.box, [], [], [], [], []).lists()

    def test_kept(self):
        """A tree goes through pickle, and its columns through from_columns."""
        tree = Tree.build(some_points(random.Random(5), 3, 50), Box([0.0] * 3, 4.0), limit=3)
        again = pickle.loads(pickle.dumps(tree))
        self.assertEqual((listing(again), again.box), (listing(tree), tree.box))
        same = Tree.from_columns(tree.box, tree.key, tree.own, tree.begin, tree.total, tree.order)
        self.assertEqual(listing(same), listing(tree))

    def test_fault_found(self):
        """A row from which a cell is taken, to which one is added, or in which one is exchanged, is at fault."""
        made = random.Random(6)
        for axes in (1, 2, 3):
            tree = Tree.build(some_points(made, axes, 60), Box([0.0] * axes, 4.0), limit=2, keep_empty=axes == 2)
            lists = tree.lists()
            rows = [[row.tolist() for row in some] for some in (lists.u, lists.v)]
            for case in range(25):
                spoilt = [[list(row) for row in some] for some in rows]
                some = made.choice([one for one in (0, 1) if any(rows[one])])
                leaves = tree.leaves().tolist()
                leaf = made.choice([n for n in leaves if spoilt[some][n]] or leaves)
                row, cells = spoilt[some][leaf], tree.sourced_cells().tolist()
                if row and made.random() < 0.5:
                    row.pop(made.randrange(len(row)))
                else:
                    row.append(made.choice(cells))
                wrong = Lists(tree, *[packed_rows(one) for one in spoilt])
                self.assertEqual(wrong.at_fault().tolist(), [leaf])


def packed_rows(rows):
    from array import array
    starts = [0]
    for row in rows:
        starts.append(starts[-1] + len(row))
    columns = [array("q", starts), array("q", [key for row in rows for key in row])]
    return Rows(*([numpy.array(one, dtype=numpy.int64) for one in columns] if numpy else map(memoryview, columns)))


class Room(unittest.TestCase):
    def test_grown(self):
        """Where the first guess is short, the lists are made with more room."""
        tree = Tree.build(some_points(random.Random(7), 2, 300), Box([0.0, 0.0], 4.0), limit=1)
        before, said = lohandema.room.lists, tree.lists()
        try:
            lohandema.room.lists = lambda tree: (0, 0)
            again = tree.lists()
        finally:
            lohandema.room.lists = before
        self.assertEqual((again.u.entries.tolist(), again.v.entries.tolist()),
                         (said.u.entries.tolist(), said.v.entries.tolist()))

    def test_guess(self):
        """The guess is the same with NumPy and without, and enough for surveys of each kind."""
        made = random.Random(8)
        for axes in (1, 2, 3):
            for _ in range(4):
                tree = Tree.build(some_points(made, axes, 400), Box([0.0] * axes, 4.0), limit=made.choice([1, 8]))
                keys = tree.key.tolist()
                here, lohandema.room.numpy = lohandema.room.families(axes, tree.key), None
                try:
                    self.assertEqual(lohandema.room.families(axes, keys), here)
                finally:
                    lohandema.room.numpy = numpy


class AtOnce(unittest.TestCase):
    def test_threads(self):
        """Threads that build, list and look up beside each other answer as one alone."""
        surveys = [some_points(random.Random(seed), 1 + seed % 3, 300) for seed in range(6)]

        def answer(points):
            tree = Tree.build(points, limit=3)
            return listing(tree), tree.lookup(points).tolist(), tree.groups(points).entries.tolist()

        alone, beside = [answer(points) for points in surveys], [[] for _ in surveys]
        threads = [threading.Thread(target=lambda i=i: beside[i].extend(answer(surveys[i]) for _ in range(3)))
                   for i in range(len(surveys))]
        for thread in threads:
            thread.start()
        for thread in threads:
            thread.join()
        self.assertEqual(beside, [[one] * 3 for one in alone])

    def test_progress(self):
        """Long work is told of on standard error, where it is asked for; short work is not."""
        with contextlib.redirect_stderr(io.StringIO()) as said:
            Tree.build([[1.0], [2.0]], progress=True).lists(progress=True)
        self.assertEqual(said.getvalue(), "")
        with contextlib.redirect_stderr(io.StringIO()) as said:
            before, lohandema.progress.AFTER = lohandema.progress.AFTER, 0.01
            try:
                with lohandema.progress.telling(True, "the work"):
                    time.sleep(0.1)
            finally:
                lohandema.progress.AFTER = before
        self.assertRegex(said.getvalue(), r"^lohandema: the work \.\.\nlohandema: the work: 0\.\d s\n$")


class Million(unittest.TestCase):
    def test_million(self):
        """1,048,576 points of three axes to lists, the time told and not judged; and that each one is in the order once."""
        points = table(1048576, 3)
        box = Box([0.5] * 3, 0.5)
        start = time.process_time()
        tree = Tree.build(points, box, limit=64)
        built = time.process_time()
        lists = tree.lists()
        print("1,048,576 points%s: tree %.0f ms, lists %.0f ms of processor time; %d nodes, %d U keys, %d V keys" % (
            "" if numpy else " without NumPy", 1e3 * (built - start), 1e3 * (time.process_time() - built), len(tree),
            len(lists.u.entries), len(lists.v.entries)))
        self.assertEqual(int(tree.total[0]), 1048576)
        counted = bytearray(1048576)
        for i in tree.order.tolist():
            counted[i] += 1
        self.assertEqual(counted, b"\1" * 1048576)


if __name__ == "__main__":
    unittest.main()

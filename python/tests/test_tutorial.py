"""docs/TUTORIAL.md and docs/CHOOSING.md: the commands work as printed, in order, and the figures are those that come out."""

import csv
import os
import re
import subprocess
import tempfile
import unittest

from common import ROOT, read

from lohandema import Tree

# what a command may name; all else that is written stays in a folder of its own
NAMED = ("samples", "tools", "python", "rust", "target", "listing", "crates", "crates.txt", "VERSION")


def commands():
    return [line for block in re.findall(r"```console\n(.*?)```", read("docs", "TUTORIAL.md"), re.S) for line in block.splitlines()]


def readings():
    """The places of the sample, in two axes."""
    lines = [line for line in read("samples", "flight-lines.csv").splitlines() if not line.startswith("#")]
    return [[float(row["easting"]), float(row["northing"])] for row in csv.DictReader(lines)]


class Tutorial(unittest.TestCase):
    def setUp(self):
        directory = tempfile.TemporaryDirectory()
        self.addCleanup(directory.cleanup)
        self.folder = directory.name
        for name in NAMED:
            os.symlink(os.path.join(ROOT, name), os.path.join(self.folder, name))

    def run_here(self, command):
        """What a command prints; it must not fail."""
        variables = {**os.environ, "PYTHONDONTWRITEBYTECODE": "1"}
        result = subprocess.run(["bash", "-c", command], cwd=self.folder, env=variables, capture_output=True, text=True)
        self.assertEqual(result.returncode, 0, "%s\n%s" % (command, result.stderr))
        return result.stdout

    def written(self, name):
        with open(os.path.join(self.folder, name), encoding="utf-8") as file:
            return file.read()

    def test_commands(self):
        """The first is what these tests stand on, so it is not run again."""
        archive, *rest = commands()
        self.assertEqual((archive, len(rest)), ("rust/archive", 4))
        if not os.path.exists(os.path.join(ROOT, "target", "bin", "listing")):
            self.skipTest("the listing program is not built: ./listing samples/example.survey builds it")
        told = "".join(self.run_here(command) for command in rest)
        said = re.search(r"It prints, among other things,\n\n```text\n(.*?)```", read("docs", "TUTORIAL.md"), re.S).group(1)
        for line in said.splitlines():
            self.assertIn(line + "\n", told)
        first = re.search(r"first line of `my.listing` is `(.*?)`", read("docs", "TUTORIAL.md")).group(1)
        self.assertEqual(self.written("my.listing").splitlines()[0], first)
        self.assertEqual(self.written("my.svg"), read("samples", "flight-lines.svg"),
                         "samples/flight-lines.svg is not what the fifth command draws: put that in its place")
        self.assertIn("<svg", self.written("my-figures.svg"))

    def test_further_command(self):
        """The one on a grid, which ends with its check."""
        command = re.search(r"`(tools/inspect samples/flight-lines.csv [^`]*--grid [^`]*)`", read("docs", "TUTORIAL.md")).group(1)
        self.assertRegex(self.run_here(command), r"1261 readings, 3000 targets(.|\n)*exactly once\n$")

    def test_head_of_the_sample(self):
        shown = re.search(r"Its first lines:\n\n```text\n(.*?)```", read("docs", "TUTORIAL.md"), re.S).group(1)
        self.assertTrue(read("samples", "flight-lines.csv").startswith(shown))


class Choosing(unittest.TestCase):
    def test_table(self):
        """Each line of the table, worked out."""
        places, lines = readings(), re.findall(r"^\| (\d+ \|.*) \|$", read("docs", "CHOOSING.md"), re.M)
        self.assertEqual(len(lines), 6)
        for line in lines:
            limit, leaves, near, keys, *terms = [float(word.strip(" *").replace(",", "")) for word in line.split("|")]
            tree = Tree.build(places, limit=int(limit))
            each, far = tree.near_work() / len(places), len(tree.lists().v.entries)
            self.assertEqual((len(tree.leaves()), round(each, 1), far), (leaves, near, keys))
            self.assertEqual([round(each + far * order ** 4 / len(places)) for order in (2, 3, 4)], terms)
        for column in (4, 5, 6):
            values = [line.split("|")[column].strip() for line in lines]
            best = min(values, key=lambda value: float(value.strip("*").replace(",", "")))
            self.assertEqual([value for value in values if "*" in value], [best], "the least is set bold")

    def test_most(self):
        """The keys of V that the last paragraph names."""
        keys = re.search(r"V has ([\d,]+) keys with a limit of 2", read("docs", "CHOOSING.md")).group(1)
        self.assertEqual(len(Tree.build(readings(), limit=2).lists().v.entries), int(keys.replace(",", "")))


if __name__ == "__main__":
    unittest.main()

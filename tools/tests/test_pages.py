"""The pages for people: what they show is what the scripts print, and every file that they name is there."""

import os
import re
import unittest

from common import ROOT, SAMPLES, ToolTest

PAGES = ["README.md", "CONTRIBUTING.md", "docs/TUTORIAL.md", "docs/GLOSSARY.md", "docs/CHOOSING.md", "docs/CALLING.md",
         "examples/README.md", "samples/README.md", "tools/README.md", "python/README.md", "rust/README.md"]


def read(*parts):
    with open(os.path.join(ROOT, *parts), encoding="utf-8") as file:
        return file.read()


class Pages(ToolTest):
    def test_crates(self):
        """The picture of the crates is up to date."""
        drawn = self.run_tool("draw-crates").stdout
        self.assertEqual(drawn, read("docs", "crates.svg"), "run tools/draw-crates > docs/crates.svg")
        for line in read("crates.txt").splitlines():
            if re.match("[a-z]", line):
                self.assertIn(">%s</text>" % line.split(":")[0].split()[0], drawn)

    def test_flight_lines(self):
        """The sample that is made up is what its script prints."""
        made = self.run_tool(os.path.join("..", "samples", "make-flight-lines")).stdout
        with open(os.path.join(SAMPLES, "flight-lines.csv"), encoding="utf-8") as file:
            self.assertEqual(made, file.read())

    def test_commands_are_one(self):
        """README.md and docs/TUTORIAL.md have the same five commands."""
        commands = [re.findall(r"```console\n(.*?)```", read(page), re.S) for page in ("README.md", "docs/TUTORIAL.md")]
        self.assertEqual(*map("".join, commands))
        self.assertEqual("".join(commands[0]).count("\n"), 5)

    def test_named_files(self):
        """Every path that a page names is there."""
        named = re.compile(r"(?<![\w/.])(?:docs|samples|tools|examples|include|python|rust|c|crates|bench|differential)/"
                           r"[\w./-]*\w")
        for page in PAGES:
            # a path is told from the repository's folder, or from the page's own
            folders = [ROOT, os.path.join(ROOT, os.path.dirname(page))]
            for path in {path for path in named.findall(read(page)) if "NAME" not in path}:
                found = any(os.path.exists(os.path.join(folder, path)) for folder in folders)
                self.assertTrue(found, "%s names %s, which is not there" % (page, path))

    def test_short(self):
        """README.md stays what a newcomer reads: depth goes to docs/."""
        self.assertLess(len(read("README.md").split()), 1100)


if __name__ == "__main__":
    unittest.main()

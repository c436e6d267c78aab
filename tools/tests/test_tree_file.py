"""tree-file: its options and bad files, and what it says where there is no library. The tests with the library are in
python/tests."""

import os
import unittest.mock

from common import ToolTest


class TreeFile(ToolTest):
    def setUp(self):
        super().setUp()
        self.copy_samples()
        nowhere = unittest.mock.patch.dict(os.environ, {"LOHANDEMA_LIBRARY": self.path("none.so")})
        nowhere.start()
        self.addCleanup(nowhere.stop)

    def test_options(self):
        for message, words in (
                ("give write or list, as in tree-file list FILE", []),
                ("invalid choice", ["read", "a.tree"]),
                ("required: FILE, -o/--out", ["write"]),
                ("required: -o/--out", ["write", "example.survey"]),
                ("-o -: nothing is written to standard output", ["write", "example.survey", "-o", "-"]),
                ("-o stands twice", ["write", "example.survey", "-o", "out", "-o", "other"]),
                ("a survey file has its own box, targets and figures; leave out --limit",
                 ["write", "example.survey", "--limit", "3", "-o", "out"]),
                ("--centre and --radius go together", ["write", "example.csv", "--centre=4", "-o", "out"]),
                ("required: FILE", ["list"]),
                ("unrecognized arguments: b.tree", ["list", "a.tree", "b.tree"])):
            self.refused(message, "tree-file", *words)

    def test_version(self):
        with open(os.path.join(os.path.dirname(__file__), "..", "..", "VERSION")) as file:
            self.assertEqual(self.run_tool("tree-file", "--version").stdout, file.read())

    def test_written_over(self):
        self.refused("would be written over example.survey; name another file", "tree-file", "write", "example.survey", "-o",
                     "./example.survey")
        self.assertEqual(len(self.read("example.survey")), 96)

    def test_files(self):
        self.refused("none.csv: No such file or directory", "tree-file", "write", "none.csv", "-o", "out")
        self.write("bad.survey", b"too short")
        self.refused("bad.survey: 9 bytes, but a survey file has 64 to 32768", "tree-file", "write", "bad.survey", "-o", "out")
        self.write("bad.csv", "x\n1\ntwo\n")
        self.refused("bad.csv: line 3", "tree-file", "write", "bad.csv", "-o", "out")

    def test_no_library(self):
        self.refused("LOHANDEMA_LIBRARY is %s, and no file is there" % self.path("none.so"), "tree-file", "write", "example.survey",
                     "-o", "out")
        self.refused("LOHANDEMA_LIBRARY is %s, and no file is there" % self.path("none.so"), "tree-file", "list", "example.survey")

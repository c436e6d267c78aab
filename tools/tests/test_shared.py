"""The keys and cells that the tools share, the version, and the pages for users."""

import os
import unittest

import survey_file as house
from common import ROOT, TOOLS


class Shared(unittest.TestCase):
    def test_version(self):
        """One number, in VERSION and for Rust."""
        with open(os.path.join(ROOT, "VERSION")) as file:
            version = file.read().strip()
        with open(os.path.join(ROOT, "rust", "Cargo.toml")) as file:
            self.assertIn('\nversion = "%s"\n' % version, file.read())

    def test_pages_for_users(self):
        """No page or message for users names a paper that is not in this repository."""
        pages = ["README.md", "CONTRIBUTING.md", "listing", "samples/README.md", "samples/example.csv"]
        for name in pages + ["tools/" + name for name in os.listdir(TOOLS) if os.path.isfile(os.path.join(TOOLS, name))]:
            with open(os.path.join(ROOT, name), encoding="utf-8") as file:
                self.assertNotRegex(file.read(), "(?i)document 0", name)

    def test_cures(self):
        """The sentences of 6, 7 and 8 have the same cures in C, in Rust and for the listing."""
        cures = {
            "include/lohandema.h": ["enlarge the box and build anew, or mend or remove the source", "target or looked-up point lies outside the box or "
                                    "is not a finite number", "is not a finite number", "lies below the box",
                                    "lies above the box", "where the most was lent, raise the limit and "],
            "rust/src/refusal.rs": ["enlarge the box and build anew, or mend or remove the source", "enlarge the box, or mend or remove the point",
                                    "mend or remove the source", "mend or remove the point",
                                    "is not a finite number on axis", "lies below the box on axis", "lies above the box on axis",
                                    "where the most was lent, raise the limit of a cell and build anew"],
            "tools/refusals.txt": ["6 * source %V, counted from 0, is outside the box or is not a finite number; take",
                                   "7 * target %V, counted from 0, is outside the box or is not a finite number; take",
                                   "is not a finite number on axis %A", "lies below the box on axis %A",
                                   "lies above the box on axis %A",
                                   "make the file anew with a larger box", "make the file anew with a larger --limit"],
        }
        for name, parts in cures.items():
            with open(os.path.join(ROOT, name), encoding="utf-8") as file:
                text = file.read()
            for part in parts:
                self.assertIn(part, text, name)

    def test_keys(self):
        """The keys that docs/RULES.md names."""
        self.assertEqual(house.key_of([3, 5], 3), 1277955)
        self.assertEqual(house.anchors_of(2, 1277955), [3, 5])
        self.assertEqual(house.ancestors(2, 1277955)[1], 294914)
        self.assertEqual(house.key_of([1, 0, 1], 1), 163841)
        self.assertEqual(house.key_of([65535], 16), 2147450896)
        self.assertEqual(house.key_of([65535] * 3, 16), 9223372036854743056)
        self.assertFalse(house.is_valid(2, 131073))

    def test_point(self):
        """Points at the walls of the box 4, radius 4."""
        anchors = [house.axis_anchor(4.0, 4.0, x) for x in (0.0, -0.0, -5e-324, float("nan"), 8.0)]
        self.assertEqual(anchors, [0, 0, None, None, None])

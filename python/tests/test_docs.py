"""The examples in the package's own texts, those in README.md, and those in examples/python."""

import doctest
import importlib
import os
import pkgutil
import re
import subprocess
import sys
import unittest

from common import ROOT, in_process, read

import lohandema


class Docs(unittest.TestCase):
    def test_docstrings(self):
        names = ["lohandema"] + ["lohandema." + one.name for one in pkgutil.iter_modules(lohandema.__path__)]
        tried = 0
        for name in names:
            result = doctest.testmod(importlib.import_module(name))
            self.assertEqual(result.failed, 0, name)
            tried += result.attempted
        self.assertGreater(tried, 40)

    def test_readme(self):
        """The Python of README.md prints what is said under it."""
        found = re.findall(r"```python\n(.*?)```\n\nprints `(.*?)`", read("README.md"), re.S)
        self.assertEqual(len(found), 1)
        for code, said in found:
            result = in_process(code)
            self.assertEqual((result.stdout.strip(), result.stderr), (said, ""))

    def test_examples(self):
        """Each example runs; the sums of one are those of all pairs but for what it allows, and the rows that the other keeps
        are as they were."""
        said = {"near_and_far.py": r"largest difference from the plain sum: 0\.\d+ %\n",
                "one_more.py": r"near rows to read anew: \d+ of 163, changed: [1-9]\d*\nfar rows to read anew: .*\n"
                               r"new cells, whose rows are read too: [1-9]\d*, with the keys \[\d"}
        folder = os.path.join(ROOT, "examples", "python")
        for name in sorted(os.listdir(folder)):
            result = subprocess.run([sys.executable, "-B", os.path.join(folder, name)], capture_output=True, text=True)
            self.assertEqual((result.returncode, result.stderr), (0, ""), name)
            self.assertRegex(result.stdout, said[name])

    def test_all_told(self):
        """Everything that the package offers has a text."""
        for name in lohandema.__all__:
            one = getattr(lohandema, name)
            self.assertTrue(one.__doc__, name)
            for part in vars(one):
                if not part.startswith("_") and callable(getattr(one, part)) and not isinstance(getattr(one, part), type):
                    self.assertTrue(getattr(one, part).__doc__, "%s.%s" % (name, part))


if __name__ == "__main__":
    unittest.main()

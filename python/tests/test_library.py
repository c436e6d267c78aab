"""The shared library: the calls against the header, how it is found, and the words of a refusal against the page for users."""

import os
import re
import subprocess
import tempfile
import unittest

from common import PYTHON, in_process, read

import lohandema
from lohandema import Refused
from lohandema import library as package
from lohandema.library import declared, words
from lohandema.room import MOST_KEYS, MOST_NODES, MOST_POINTS, V_ROW

HEADER = read("include", "lohandema.h")


def of_header():
    """The declarations of the header, as `declared` has those of the package."""
    text = re.sub(r"/\*.*?\*/|^ *#.*?$", "", HEADER, flags=re.S | re.M)
    text = re.sub(r"\{[^{}]*\}", "", re.sub(r"\{[^{}]*\}", "", text))
    found = re.findall(r"(\w+) (lohandema_\w+)\(([^)]*)\)\s*;", text)
    return {name: (answer, [" ".join(word.split()) for word in arguments.split(",")]) for answer, name, arguments in found}


class Header(unittest.TestCase):
    def test_calls(self):
        """Each call of the package is declared in the header, with the same names and types in the same order."""
        header, calls = of_header(), list(declared())
        self.assertGreater(len(calls), 25)
        for name, answer, arguments in calls:
            self.assertIn(name, header)
            self.assertEqual((answer, arguments), header[name], name)

    def test_ended(self):
        """The struct of a refusal has the header's fields."""
        fields = re.search(r"typedef struct \{(.*?)\} lohandema_ended;", HEADER, re.S).group(1)
        types = {"uint32_t": 4, "uint16_t": 2, "size_t": 8}
        ours = [(name, package.ctypes.sizeof(kind)) for name, kind in package.Ended._fields_]
        self.assertEqual(ours, [(name, types[kind]) for kind, name in re.findall(r"(\w+) (\w+);", fields)])

    def test_limits(self):
        limits = {name: int(value) for name, value in re.findall(r"#define LOHANDEMA_(MOST_\w+) +(\d+)\b(?!\.)", HEADER)}
        self.assertEqual((limits["MOST_POINTS"], limits["MOST_NODES"], limits["MOST_LIST_KEYS"], limits["MOST_V_ROW"]),
                         (MOST_POINTS, MOST_NODES, MOST_KEYS, V_ROW[3]))
        self.assertEqual(lohandema.keys.MOST_KEYS, limits["MOST_KEYS"])

    def test_version(self):
        version = read("VERSION").strip()
        self.assertEqual((lohandema.__version__, package.library.lohandema_library_version().decode()), (version, version))
        self.assertIn('#define LOHANDEMA_VERSION "%s"' % version, HEADER)


class Words(unittest.TestCase):
    """The sentences are those of the header; docs/REFUSALS.md has the same numbers, names, reasons and slices."""

    def rows(self, heading):
        """The rows of the table of docs/REFUSALS.md that begins with a heading."""
        text = read("docs", "REFUSALS.md").split("| " + heading, 1)[1].split("\n\n", 1)[0]
        return [[cell.strip() for cell in line.split("|")[1:-1]] for line in text.split("\n")[2:]]

    def test_numbers(self):
        rows = self.rows("no. | name |")
        self.assertEqual([int(row[0]) for row in rows], list(range(1, len(rows) + 1)))
        for number, name, _, cause, _ in rows:
            refused = Refused(int(number))
            self.assertEqual((refused.name, words("refusal_name", int(number))), (name, name))
            self.assertIn(":", refused.sentence, "a sentence has a cure: %s" % refused)
            self.assertTrue(str(refused).endswith(" (refused %s %s)" % (number, name)), refused)
            # the figures of the page stand in the sentence
            if number in ("2", "4"):
                for figure in re.findall(r"\b\d[\d,.]*\d\b", cause):
                    self.assertIn(figure.replace(",", ""), refused.sentence)
        self.assertEqual(words("refusal_name", len(rows) + 1), "UNKNOWN")

    def test_two_uses(self):
        """3 and 14 are said of two things each, in the sentence and on the page."""
        causes = {int(row[0]): row[3] for row in self.rows("no. | name |")}
        for number, uses in ((3, ("coordinates", "readings are not as many as the tree has sources")), (14, ("to group", "to check"))):
            for use in uses:
                self.assertIn(use, causes[number])
                self.assertIn(use, words("refusal_sentence", number))
        self.assertIn("key 2 of those to group, or node 2 that is to be checked", str(Refused(14, 2)))

    def test_reasons(self):
        for reason, name, _, cure in self.rows("reason | name |"):
            for number, point in ((6, "source 17"), (7, "target or looked-up point 17")):
                told = str(Refused(number, 17, 1, int(reason)))
                self.assertTrue(told.startswith(point), told)
                self.assertIn(name.split()[-1], told)
                self.assertIn(" on axis 1: ", told)
                self.assertEqual("enlarge the box" in told, reason != "1", told)
                self.assertIn("mend or remove it", told)
            self.assertIn("mend the point or take it out" if reason != "3" else "same", cure)

    def test_slices(self):
        rows = self.rows("value | slice |")
        for value, name, _ in rows:
            said = words("room_name", int(value))
            self.assertTrue(set(re.findall(r"[a-zA-Z]+", said.lower())) & set(re.findall(r"[a-zA-Z]+", name.lower()))
                            or said == "points", (said, name))
        self.assertEqual(words("room_name", len(rows) + 1), "unknown")

    def test_short(self):
        """What was short is said as a Python caller can mend it."""
        for value in (3, 6, 7):
            self.assertIn("raise the limit", str(Refused(8, value)))

    def test_parts(self):
        refused = Refused(6, 3, 0, 3)
        self.assertEqual((refused.number, refused.value, refused.axis, refused.reason, refused.name), (6, 3, 0, 3, "SOURCE"))
        refused = Refused(13, 0, 0, 0)
        self.assertEqual((refused.number, refused.value, refused.axis, refused.reason), (13, 0, None, None))


class Found(unittest.TestCase):
    """How the library is found, each time in a Python of its own."""

    def refused(self, *parts, **environment):
        said = in_process("import lohandema", **environment)
        self.assertEqual((said.returncode, said.stdout), (1, ""))
        last = said.stderr.strip().split("\n")[-1]
        self.assertTrue(last.startswith("lohandema.library.NoLibrary: "), last)
        for part in parts:
            self.assertIn(part, last)

    def test_named(self):
        path = package.find()
        said = in_process("import lohandema; print(lohandema.library.find())", LOHANDEMA_LIBRARY=path)
        self.assertEqual((said.stdout.strip(), said.stderr), (path, ""))

    def test_not_there(self):
        self.refused("LOHANDEMA_LIBRARY is /no/such.so, and no file is there", "or unset it",
                     LOHANDEMA_LIBRARY="/no/such.so")

    def test_nowhere(self):
        """A package without a library near it says where it looked, and what to do."""
        with tempfile.TemporaryDirectory() as folder:
            os.mkdir(os.path.join(folder, "python"))
            copy = os.path.join(folder, "python", "lohandema")
            os.mkdir(copy)
            for name in os.listdir(os.path.join(PYTHON, "lohandema")):
                if name.endswith(".py"):
                    with open(os.path.join(copy, name), "w", encoding="utf-8") as file:
                        file.write(read("python", "lohandema", name))
            environment = {"PYTHONPATH": os.path.join(folder, "python"), "LOHANDEMA_LIBRARY": ""}
            self.refused("liblohandema.so is neither", copy, "run rust/archive", **environment)
            os.symlink(package.find(), os.path.join(copy, "liblohandema.so"))
            said = in_process("import lohandema; print(lohandema.library.find())", **environment)
            self.assertEqual(said.stdout.strip(), os.path.join(copy, "liblohandema.so"), said.stderr)

    def test_no_library(self):
        with tempfile.NamedTemporaryFile(suffix=".so") as file:
            file.write(b"no library")
            file.flush()
            self.refused("is no shared library of Lohandema", "run rust/archive", LOHANDEMA_LIBRARY=file.name)

    def made_of(self, text, *parts):
        """What is said of a library that the machine's compiler makes of this text, where there is one."""
        with tempfile.TemporaryDirectory() as folder:
            source, made = os.path.join(folder, "other.c"), os.path.join(folder, "other.so")
            with open(source, "w") as file:
                file.write(text)
            try:
                subprocess.run(["cc", "-shared", "-fPIC", source, "-o", made], check=True, capture_output=True)
            except (OSError, subprocess.CalledProcessError):
                self.skipTest("there is no cc")
            self.refused(*parts, "run rust/archive", LOHANDEMA_LIBRARY=made)

    def test_other_version(self):
        self.made_of('const char *lohandema_library_version(void) { return "0.3.0"; }\n',
                     "is of version 0.3.0, and this package of " + lohandema.__version__)

    def test_lacking(self):
        self.made_of('const char *lohandema_library_version(void) { return "%s"; }\n' % lohandema.__version__,
                     "lacks a call that this package makes")


if __name__ == "__main__":
    unittest.main()

"""./listing: the ways to name a file, the first run, and what is said of a refusal."""

import os
import shutil
import subprocess

from common import ROOT, TOOLS, ToolTest


class Listing(ToolTest):
    """./listing in a small repository of its own, with an rt that proves nothing and whose program prints a text."""

    # rt's own lines come on standard error, what the program prints on standard output
    RT = """#!/bin/sh
[ "$*" = "run" ] && [ "$(pwd -P)" = "$(cd ../../crates/listing && pwd -P)" ] || exit 2
[ ! -e ../../broken ] || { echo "fn below::f: not proved" >&2; exit 1; }
printf 'crate below: modules loaded=0 checked=2\nlogic=proved functions=1\n' >&2
printf 'library below: modules loaded=2\ncrate listing: modules loaded=0 checked=2\nlogic=proved functions=1\n' >&2
mkdir -p out
cp ../../../program out/listing
[ -z "$(cat)" ] || exit 9
echo refused 15 0
"""
    TEXT = "tree 1 1 1 0 0\n0 0 0 U V\n"
    CHECKED = "listing: below proved (1 of at most 2 crates)\nlisting: listing proved (2 of at most 2 crates)\n"

    def setUp(self):
        super().setUp()
        for name in ("bin", "house/crates/listing/src", "house/tools"):
            os.makedirs(self.path(name))
        self.write("bin/rt", self.RT)
        self.write("house/crates.txt", "# crates\nbelow:\nbeside:\nlisting: below check\n")
        shutil.copy(os.path.join(ROOT, "listing"), self.path("house/listing"))
        shutil.copy(os.path.join(ROOT, "VERSION"), self.path("house/VERSION"))
        shutil.copy(os.path.join(TOOLS, "refusals.txt"), self.path("house/tools/refusals.txt"))
        os.chmod(self.path("bin/rt"), 0o755)
        self.program(self.TEXT)
        self.write("survey", "any bytes")

    def program(self, text):
        """Puts a program in place that takes the bytes of the survey alone, and prints a text."""
        self.write("program", '#!/bin/sh\n[ "$(cat)" = "any bytes" ] || exit 9\ncat <<"END"\n%sEND\n' % text)
        os.chmod(self.path("program"), 0o755)

    def run_listing(self, command, built=True):
        """Status, standard output and standard error of a line for the shell."""
        if built:
            os.makedirs(self.path("house/crates/listing/out"), exist_ok=True)
            shutil.copy(self.path("program"), self.path("house/crates/listing/out/listing"))
        path = self.path("bin") + os.pathsep + os.environ["PATH"]
        result = subprocess.run(["bash", "-c", command], cwd=self.directory.name, env={**os.environ, "PATH": path},
                                capture_output=True, text=True)
        return result.returncode, result.stdout, result.stderr

    def test_ways_in(self):
        os.symlink("survey", self.path("link"))
        os.symlink("house/listing", self.path("here"))
        for command in ("house/listing survey", "house/listing link", "cat survey | house/listing -",
                        "cat survey | house/listing /dev/stdin", "house/listing <(cat survey)",
                        "cd house; ./listing ../survey",
                        "(printf any; sleep 0.1; printf ' bytes') | house/listing -", "./here survey",
                        "mkfifo pipe; cat survey >pipe & house/listing pipe"):
            self.assertEqual(self.run_listing(command), (0, self.TEXT, ""), command)

    def test_no_way_in(self):
        os.symlink("nowhere", self.path("link"))
        for arguments, message in {
                "house": "house is a folder; give a survey file in it",
                "link": "link is a link to a file that is not there; mend the link",
                "none": "none: no such file; tools/make-survey makes one from CSV",
                "--all": "--all: no such option; ./listing --help says what there is (a file of that name is ./--all)",
                "": "give one survey file, as ./listing samples/example.survey; ./listing --help says more",
                "survey survey": "give one survey file, as ./listing samples/example.survey; ./listing --help says more",
        }.items():
            self.assertEqual(self.run_listing("house/listing " + arguments), (2, "", "listing: %s\n" % message))

    def test_help(self):
        for option in ("--help", "-h"):
            status, out, error = self.run_listing("house/listing " + option)
            self.assertEqual((status, error), (0, ""))
            self.assertTrue(out.startswith("usage: ./listing FILE"))
        self.assertEqual(self.run_listing("house/listing --version")[1], self.read("house/VERSION").decode())

    def test_refused(self):
        """The program's line stays, and a sentence follows on standard error."""
        room = " keys, which is all that the program has room for; make the file anew with a larger --limit"
        starts = {"15 0": "this is no survey file:", "6 7 1 2": "source 7, counted from 0, lies below the box on axis 1, counted from 0; make",
                  "6 7 0 1": "source 7, counted from 0, is not a finite number on axis 0, counted from 0; mend",
                  "7 12 2 3": "target 12, counted from 0, lies above the box on axis 2,",
                  "1 0": "the file says a number of axes", "2 0": "the box is outside",
                  "5 0": "targets are used, and the order is not",
                  "8 3": "the tree has more than 2048 nodes", "8 6": "the U rows have more than 8192" + room,
                  "8 7": "the V rows have more than 8192" + room, "99 1": "docs/REFUSALS.md says why\n"}
        for figures, start in starts.items():
            self.program("refused %s\n" % figures)
            status, out, error = self.run_listing("house/listing survey")
            self.assertEqual((status, out), (1, "refused %s\n" % figures))
            self.assertTrue(error.startswith("listing: survey is refused: " + start), error)
            self.assertEqual(error.count("\n"), 1, error)

    def test_sentences(self):
        """Every refusal has a sentence for any value, with its cure behind a semicolon."""
        lines = [line for line in self.read("house/tools/refusals.txt").decode().splitlines() if not line.startswith("#")]
        for line in lines:
            self.assertRegex(line, r"^[0-9]+ ([0-9]+|r[123]|\*) [^;]+; [^;]+\.$")
        self.assertEqual([int(line.split()[0]) for line in lines if line.split()[1] == "*"], list(range(1, 21)))

    def test_first_run(self):
        """While it proves it tells the crates and the log; then no more, until a crate is changed. What rt keeps is no change."""
        log = os.path.join(os.path.realpath(self.directory.name), "house/target/listing.log")
        begins = "listing: proving and building the program (once; some minutes); the log is %s\n" % log
        first = (0, self.TEXT, begins + self.CHECKED)
        self.assertEqual(self.run_listing("house/listing survey", built=False), first)
        self.assertIn("library below: modules loaded=2\ncrate listing:", self.read("house/target/listing.log").decode())
        self.assertEqual(self.run_listing("house/listing survey", built=False), (0, self.TEXT, ""))
        os.utime(self.path("house/crates/listing/out/listing"), (1, 1))
        self.assertEqual(self.run_listing("house/listing survey", built=False), first)
        self.write("house/crates/listing/out/kept", "")
        os.utime(self.path("house/crates/listing/out/kept"), (2 ** 32, 2 ** 32))
        self.assertEqual(self.run_listing("house/listing survey", built=False), (0, self.TEXT, ""))
        self.write("house/crates/listing/src/main.rt", "")
        os.utime(self.path("house/crates/listing/src/main.rt"), (2 ** 32, 2 ** 32))
        self.assertEqual(self.run_listing("house/listing survey", built=False), first)
        os.remove(self.path("house/crates/listing/src/main.rt"))
        self.write("house/broken", "")
        os.remove(self.path("house/crates/listing/out/listing"))
        status, out, error = self.run_listing("house/listing survey", built=False)
        self.assertEqual((status, out), (1, ""))
        self.assertEqual(error, begins + "listing: the program is not proved or not built: %s says why\n" % log)

    def test_fallen_program(self):
        self.write("survey", "other bytes")
        self.assertEqual(self.run_listing("house/listing survey"),
                         (1, "", "listing: the program ended with status 9; this is a fault, please report it\n"))

"""make-survey: the samples, round trips, columns, the summary, and bad input."""

import os
import random
import struct
import subprocess

import survey_file as house
from common import ROOT, SAMPLES, TOOLS, ToolTest

# how each sample survey is made; samples/README.md says the same
SURVEYS = {
    "example": "example.csv --centre=4 --radius=4 --limit 1 --order 1",
    "three-lines": "three-lines.csv --centre=32,32 --radius=32 --limit 2 --order 4",
    "two-heights": "two-heights.csv two-heights-targets.csv "
                   "--centre=32,32,32 --radius=32 --limit 3 --order 2 --keep-empty",
}


class MakeSurvey(ToolTest):
    def test_samples(self):
        self.copy_samples()
        for name, arguments in SURVEYS.items():
            self.done("make-survey", *arguments.split(), "-o", "out")
            self.assertEqual(self.read("out"), self.read(name + ".survey"), name)

    def test_as_a_command(self):
        command = [os.path.join(TOOLS, "make-survey"), os.path.join(SAMPLES, "example.csv"), "-o", self.path("out")]
        result = subprocess.run(command, capture_output=True, text=True)
        self.assertEqual((result.returncode, result.stdout), (0, ""))
        self.assertTrue(result.stderr.startswith("make-survey: "))
        self.assertNotEqual(subprocess.run(command[:1], capture_output=True).returncode, 0)

    def test_example_bytes(self):
        self.copy_samples()
        rows = struct.pack("<4d", 0.5, 1.5, 6.5, 7.5)
        trailer = struct.pack("<IIIIddddIIII", 1, 0, 1, 1, 4.0, 0.0, 0.0, 4.0, 32, 4, 0, 0)
        self.assertEqual(self.read("example.survey"), rows + trailer)

    def test_round_trip(self):
        """Any numbers in a survey come back from CSV to the same bytes, with the options that the CSV names."""
        chance = random.Random(1)
        for axes in (1, 2, 3):
            # every exponent and sign; NaN is left out, since CSV has one NaN
            numbers = [struct.unpack("<d", chance.randbytes(8))[0] for _ in range(3000)]
            numbers = [x for x in numbers if x == x][:2400] + [-0.0, 5e-324, 0.1, 1e308, float("-inf"), 2.0 ** 53 + 2]
            rows = [tuple(numbers[i:i + axes]) for i in range(0, 240 * axes, axes)]
            rows.append(tuple(numbers[-axes:]))
            survey = house.Survey(axes, axes == 2, 4294967295, 0, (-1e-3,) * axes, 0.3, rows[:200], rows[200:])
            self.write("in", house.pack(survey))
            self.done("make-survey", "--csv", "in", "-o", "s.csv", "-t", "t.csv")
            options = self.read("s.csv").decode().split("\n")[0].lstrip("# ").split()
            self.done("make-survey", "--as-is", "s.csv", "t.csv", *options, "-o", "again")
            self.assertEqual(self.read("again"), self.read("in"))

    def test_grid(self):
        """A grid makes the file of its listed points, the last axis fastest, with cells without sources kept."""
        self.write("a.csv", "1,-2.5\n3,4\n")
        points = [(-1.5 + i * 0.1, 0.5 + j * 0.25) for i in range(3) for j in range(4)]
        self.write("t.csv", "".join("%r,%r\n" % row for row in points))
        for box in ([], ["--centre=0,0", "--radius=8"]):
            told = self.done("make-survey", "a.csv", "--grid", "-1.5,0.5", "0.1,0.25", "3,4", *box, "-o", "grid")
            self.done("make-survey", "a.csv", "t.csv", "--keep-empty", *box, "-o", "listed")
            self.assertEqual(self.read("grid"), self.read("listed"))
        self.assertIn("grid: 2 sources, 12 targets\n", told)
        self.assertIn("--grid: origin -1.5,0.5, spacing 0.1,0.25, shape 3,4; the last axis is the fastest\n", told)
        self.assertIn("cells without sources kept\n", told)
        self.assertNotIn("warning", told)

    def test_grid_refused(self):
        self.write("a.csv", "1,-2.5\n3,4\n")
        box = ["--centre=0,0", "--radius=8"]
        for message, *words in (
                ("a.csv: with the 2046 points of --grid 2048 rows make 32832 bytes; a survey file has at most 32768, which is "
                 "2044 rows of 2 axes: take a coarser grid, or give the CSV and the same --grid to draw or inspect",
                 "--grid", "0,0", "1e-3,1e-3", "2046,1"),
                ("--grid: point 4, 0.0,8.0, lies above the box on axis 1, both counted from 0; give a smaller grid, or a "
                 "larger box with --centre and --radius", "--grid", "0,4", "1,1", "2,9", *box),
                ("--grid: 1 axis, but a.csv has 2; make them agree", "--grid", "0", "1", "4"),
                ("--grid: the shape 0 on axis 1, counted from 0, has no point; give 1 or more", "--grid", "0,0", "1,1", "4,0"),
                ("--grid: the spacing 0.0 on axis 0, counted from 0, is not finite and above 0", "--grid", "0,0", "0,1", "1,1"),
                ("--grid: the spacing -1.0 on axis 1", "--grid", "0,0", "1,-1", "1,1"),
                ("--grid: the spacing inf on axis 1", "--grid", "0,0", "1,inf", "1,1"),
                ("--grid: the origin -inf on axis 0, counted from 0, is not finite", "--grid", "-inf,0", "1,1", "1,1"),
                ("--grid: 1048577 points, but a build takes at most 1048576; give a coarser grid", "--grid", "0,0", "1,1",
                 "1048577,1"),
                ("--grid: 18446744065119617025 points, but a build takes at most 1048576", "--grid", "0,0", "1,1",
                 "4294967295,4294967295"),
                ("--grid: 2, 1 and 2 numbers; give origin, spacing and shape one number an axis each", "--grid", "0,0", "1",
                 "1,1"),
                ("--grid: 'x' is not a number", "--grid", "x,0", "1,1", "1,1"),
                ("--grid: '1.5' is not a whole number", "--grid", "0,0", "1,1", "1.5,1"),
                ("expected 3 arguments", "--grid", "0,0", "1,1"),
                ("--grid stands twice", "--grid", "0,0", "1,1", "1,1", "--grid", "0,0", "1,1", "1,1"),
                ("--grid and t.csv both give targets; leave one of them out", "t.csv", "--grid", "0,0", "1,1", "1,1")):
            self.refused(message, "make-survey", "a.csv", *words, "-o", "out")
        self.refused("--csv writes a survey file as it is, without --grid; leave that out", "make-survey", "--csv", "a",
                     "--grid", "0", "1", "1", "-o", "out")

    def test_csv_forms(self):
        self.write("plain.csv", "1,-2.5\n3,4e0\n")
        self.write("odd.csv", "\ufeff# a note\r\n\r\n East , north\r\n +1.0 ,-25e-1\r\n  # more\r\n3., 4")
        for name in ("plain", "odd"):
            self.done("make-survey", name + ".csv", "-o", name)
        self.assertEqual(self.read("plain"), self.read("odd"))

    def test_columns(self):
        """Any columns of a wide export, by name or number, in the order that is asked for."""
        self.write("wide.csv", 'line,"when, UTC",easting,mag_nT,northing,note\n'
                               '7,"09:10, dry",1,50000.5,-2.5,\n8,"09:11, wet",3,spoilt,4e0,"a ""hit"""\n')
        self.write("bare.csv", "a,1,50000.5,-2.5\nb,3,,4\n")
        self.write("plain.csv", "1,-2.5\n3,4\n")
        self.write("turned.csv", "-2.5,1\n4,3\n")
        for name in ("plain", "turned"):
            self.done("make-survey", name + ".csv", "-o", name)
        for name, columns in (("wide", "easting,northing"), ("wide", "3,5"), ("wide", "easting, 5"), ("bare", "2,4")):
            self.done("make-survey", name + ".csv", "--columns", columns, "-o", "out")
            self.assertEqual(self.read("out"), self.read("plain"), columns)
        self.done("make-survey", "wide.csv", "--columns=northing,easting", "-o", "out")
        self.assertEqual(self.read("out"), self.read("turned"))

    def test_whole_header(self):
        """Without a choice every column is an axis where the header leaves no doubt: places alone, or the box says."""
        for header, options in (("Easting,NORTHING", []), ("a,b", ["--centre=0,0", "--radius=9"]), ("x,height", [])):
            self.write("s.csv", header + "\n1,2\n3,5\n")
            self.done("make-survey", "s.csv", "-o", "out", *options)
            self.assertEqual(house.read_survey(self.path("out")).sources, [(1.0, 2.0), (3.0, 5.0)])
        self.write("s.csv", "along\n1\n3\n")
        self.done("make-survey", "s.csv", "-o", "out")
        self.assertEqual(house.read_survey(self.path("out")).sources, [(1.0,), (3.0,)])

    def test_not_over_its_input(self):
        self.write("s.csv", "1\n3\n")
        for arguments in ("s.csv -o s.csv", "s.csv s.csv -o ./s.csv", "--csv s.csv -o s.csv", "--csv s.csv -o a -t s.csv",
                          "--csv s.csv -o a -t a"):
            self.refused("name another file", "make-survey", *arguments.split())
        self.assertEqual(self.read("s.csv"), b"1\n3\n")

    def test_summary(self):
        self.write("s.csv", "line,easting,northing,mag_nT\n1,0,0,50000\n1,8,6,50001\n")
        self.write("t.csv", "3,5\n")
        told = self.done("make-survey", "s.csv", "t.csv", "--columns=easting,northing", "--target-columns=1,2",
                         "--limit", "5", "--order", "4", "--keep-empty", "-o", "out").splitlines()
        self.assertEqual(told, ["make-survey: " + line for line in (
            "out: 2 sources, 1 target",
            "s.csv: 2 axes: x is easting (column 2), y is northing (column 3); not read: line (column 1), mag_nT (column 4)",
            "t.csv: 2 axes: x is column 1, y is column 2",
            "box from the extents: centre 4.0,3.0, radius 4.001",
            "limit 5, order 4, cells without sources kept")])

    def test_unused_targets(self):
        self.write("s.csv", "0\n8\n")
        told = self.done("make-survey", "s.csv", "s.csv", "-o", "out").splitlines()[-1]
        self.assertEqual(told, "make-survey: warning: without --keep-empty no cell is split for the 2 targets of s.csv, and the "
                               "listing program refuses the file if no leaf holds one of them; give --keep-empty to mend both")
        for options in (["s.csv", "--keep-empty"], ["--keep-empty"], []):
            self.assertNotIn("warning", self.done("make-survey", "s.csv", *options, "-o", "out"))

    def test_bad_columns(self):
        self.write("s.csv", "easting,northing,mag_nT\n1,2,50000\n")
        self.write("two.csv", "distance,mag_nT\n1,50000\n")
        self.write("wide.csv", "a,b,b,d,e\n1,2,3,4,5\n")
        self.write("t.csv", "x,y\n1,2\n")
        self.write("lines.csv", "line,when,utm_easting,utm_northing,mag_nT\n7,12:00,1,2,50000\n")
        self.write("units.csv", "line,Easting (m),Northing (m)\n7,1,2\n")
        self.write("twice.csv", "line,x,x,mag_nT\n7,1,2,50000\n")
        names = "the header names %d columns (%s) and none was chosen; say which are the axes, as --columns=%s"
        bad = {
            "s.csv": "s.csv: line 1: " + names % (3, "easting, northing, mag_nT", "easting,northing"),
            "s.csv --centre=0,0 --radius=9": names % (3, "easting, northing, mag_nT", "easting,northing"),
            "two.csv": "two.csv: line 1: " + names % (2, "distance, mag_nT", "1"),
            "wide.csv": names % (5, "a, b, b, d, e", "1,2"),
            "lines.csv": names % (5, "line, when, utm_easting, utm_northing, mag_nT", "utm_easting,utm_northing"),
            "lines.csv --centre=0 --radius=9":
                names % (5, "line, when, utm_easting, utm_northing, mag_nT", "utm_easting"),
            "units.csv": names % (3, "line, Easting (m), Northing (m)", "2,3"),
            "twice.csv": names % (4, "line, x, x, mag_nT", "2,3"),
            "s.csv --columns=easting,north":
                "no column is called 'north'; choose with --columns from easting, northing, mag_nT",
            "s.csv --columns=1,4": "s.csv: line 1: no column 4; --columns takes 1 to 3",
            "s.csv --columns=0,1": "s.csv: line 1: no column 0",
            "s.csv --columns=1,easting": "--columns=1,easting takes column 1 twice; name each axis once",
            "wide.csv --columns=a,b": "columns 2 and 3 are all called 'b'; choose one with --columns by its number",
            "wide.csv --columns=1,2,3,4": "give one to three columns",
            "wide.csv --columns=1,,2": "give one to three columns",
            "s.csv t.csv --columns=easting,northing":
                "t.csv: line 1: no column is called 'easting'; choose with --target-columns",
            "s.csv t.csv --columns=easting": "t.csv: line 1: no column is called 'easting'",
            "t.csv s.csv": "s.csv: line 1: the header names 3 columns",
            "t.csv wide.csv --target-columns=1,2,4": "wide.csv: 3 axes, but t.csv has 2; make them agree",
            "t.csv --target-columns=1,2": "--target-columns goes with TARGETS.csv",
            "--csv t.csv --columns=1,2": "--csv writes a survey file as it is, without --columns; leave that out",
            "t.csv --columns=1,2 --centre=0 --radius=9": "--centre: 1 axis, but t.csv has 2",
            "t.csv --centre=0,a --radius=9": "--centre: 'a' is not a number; write one to three with commas between",
        }
        for arguments, message in bad.items():
            self.refused(message, "make-survey", *arguments.split(), "-o", "out")

    def test_options_beside_csv(self):
        """--csv refuses each option that only the making of a survey file has a use for, with status 2."""
        self.copy_samples()
        said = "--csv writes a survey file as it is, without %s; leave that out, or give SOURCES.csv and no --csv\n"
        given = {"--limit 64": "--limit", "--limit 0": "--limit", "--order 1": "--order", "--centre=0": "--centre",
                 "--radius=9": "--radius", "--keep-empty": "--keep-empty", "--as-is": "--as-is",
                 "--target-columns=1": "--target-columns", "--centre=0 --radius=9 --limit 3": "--centre, --radius, --limit"}
        for arguments, names in given.items():
            command = ["make-survey", "--csv", "example.survey", "-o", "out", *arguments.split()]
            self.refused(said % names, *command)
            self.assertEqual(self.run_tool(*command).returncode, 2)
        self.done("make-survey", "--csv", "example.survey", "-o", "out")

    def test_no_standard_output(self):
        """A file to be written is not -, which would be taken for a file of that name."""
        self.copy_samples()
        for arguments in ("example.csv -o -", "--csv example.survey -o -", "--csv example.survey -o out -t -"):
            self.refused(" -: nothing is written to standard output; name a file", "make-survey", *arguments.split())
            self.assertEqual(self.run_tool("make-survey", *arguments.split()).returncode, 2)
        self.done("make-survey", "example.csv", "-o", "./-")

    def test_version(self):
        with open(os.path.join(ROOT, "VERSION")) as file:
            version = file.read()
        for tool in ("make-survey", "draw"):
            result = self.run_tool(tool, "--version")
            self.assertEqual((result.returncode, result.stdout, result.stderr), (0, version, ""))

    def test_box_from_extents(self):
        self.write("s.csv", "-0.5,10\n3.25,10.5\n")
        self.write("t.csv", "2,-7.25\n")
        self.done("make-survey", "s.csv", "t.csv", "-o", "out")
        survey = house.read_survey(self.path("out"))
        # lows -0.5, -7.25; highs 3.25, 10.5
        self.assertEqual((survey.centre, survey.radius), ((1.5, 1.5), 9.5 + 1e-3))
        self.assertEqual((survey.sources, survey.targets), ([(-0.5, 10.0), (3.25, 10.5)], [(2.0, -7.25)]))

    def test_largest(self):
        self.write("s.csv", "1\n" * 4088)
        self.write("more.csv", "1\n" * 4089)
        self.done("make-survey", "s.csv", "-o", "full", "--centre=1", "--radius=1")
        self.assertEqual(len(self.read("full")), 32768)
        self.refused("more.csv: 4089 rows make 32776 bytes; a survey file has at most 32768, which is 4088 rows",
                     "make-survey", "more.csv", "-o", "out", "--centre=1", "--radius=1")

    def test_no_rows(self):
        self.write("s.csv", "x,y\n")
        self.done("make-survey", "s.csv", "-o", "empty", "--centre=0,0", "--radius=1")
        self.assertEqual(len(self.read("empty")), 64)
        self.refused("s.csv: no rows", "make-survey", "s.csv", "-o", "out")

    def test_bad_csv(self):
        bad = {
            "1,2\n3,x\n": "s.csv: line 2: column 2: 'x' is not a number",
            "x,y\n1,2\n\n3\n": "s.csv: line 4: 1 columns, but 2 before",
            "1,2,3,4\n": "s.csv: line 1: 4 columns, but at most 3 axes; say which are the axes, as --columns=1,2",
            '1,2\n"3,4\n': "s.csv: line 2: a quote is not closed",
            "1;2\n3;4\n": "s.csv: line 1: semicolons part the columns; save the file with commas",
            "x\ty\n3\t4\n": "s.csv: line 1: tabs part the columns; save the file with commas",
            "1 2\n3 4\n": "s.csv: line 1: column 1: '1 2' is not a number",
            "NaN,NaN\n1,2\n": "s.csv: line 1: column 1: 'NaN' is not a number",
            "1,2\n2,1e999\n": "s.csv: line 2: 2.0,inf is not a finite number on axis 1, counted from 0, which is column 2; mend the line",
            "1,2\n1_0,2\n": "s.csv: line 2: column 1: '1_0' is not a number",
            "1,2\n# a note\n3,\n": "s.csv: line 3: column 2: '' is not a number",
            b"1,2\n\xff\n": "s.csv: line 2: not UTF-8 text",
            "x,y\ny,x\n": "s.csv: line 2: column 1: 'y' is not a number",
            "1,1\n": "s.csv: the box from the extents is outside its domain: radius 0.001 is not from 0.25 to 1048576; the rows "
                     "are one point, which has no size; give the box with --centre and --radius",
            "1,1\n3000000,1\n": "radius 1499999.501 is not from 0.25 to 1048576; shift and scale the coordinates into that domain",
            "17000000,1\n17000009,1\n": "shift and scale the coordinates into that domain",
            "x,x,y\n1,2,3\n": "s.csv: line 1: columns 1 and 2 are both called 'x'; say which are the axes, as --columns=1,3",
            "x,y,X\n1,2,3\n": "s.csv: line 1: columns 1 and 3 are both called 'X'; say which are the axes, as --columns=1,2",
            b"1,2\r3,4\r\xff": "s.csv: line 3: not UTF-8 text",
            "x,y\r1,2\r3,a\r": "s.csv: line 3: column 2: 'a' is not a number",
        }
        for content, message in bad.items():
            self.write("s.csv", content)
            self.refused(message, "make-survey", "s.csv", "-o", "out")
        self.refused("none.csv: No such file", "make-survey", "none.csv", "-o", "out")

    def test_line_ends(self):
        """Lines end with LF, CR LF or CR alone, and none is lost."""
        made = set()
        for end in ("\n", "\r\n", "\r", "\r\r\n"):
            self.write("s.csv", end.join(["# a note", "x", "1", "2.5", ""]))
            self.assertIn("out: 2 sources", self.done("make-survey", "s.csv", "--centre", "2", "--radius", "3", "-o", "out"))
            made.add(self.read("out"))
        self.assertEqual(len(made), 1)

    def test_refused_as_the_program_would(self):
        self.write("s.csv", "x\n1\n\n2\n8\n")
        self.write("t.csv", "4\n-1e-300\n")
        self.write("wide.csv", "1,2\n")
        box = ["--centre=4", "--radius=4", "-o", "out"]
        self.refused("s.csv: line 5: 8.0 lies above the box on axis 0, counted from 0, which is x (column 1); the box has centre 4.0, radius 4.0: "
                     "mend the line or take it out, or give a larger box", "make-survey", "s.csv", *box)
        self.refused("t.csv: line 2: -1e-300 lies below the box on axis 0", "make-survey", "t.csv", *box)
        self.refused("wide.csv: 2 axes, but t.csv has 1", "make-survey", "t.csv", "wide.csv", *box)
        self.refused("--order 65 is not from 1 to 64", "make-survey", "s.csv", "-o", "out", "--order", "65")
        self.refused("radius 0.2 is not from", "make-survey", "s.csv", "--centre=4", "--radius=0.2", "-o", "out")
        self.refused("--limit: '-1' is not a whole number", "make-survey", "s.csv", "--limit=-1", "-o", "out")
        self.done("make-survey", "--as-is", "s.csv", *box)

    def test_bad_survey(self):
        good = house.pack(house.Survey(1, False, 1, 1, (4.0,), 4.0, [(1.0,)], [(2.0,)]))
        bad = {
            good[-63:]: "in: 63 bytes, but a survey file has 64 to 32768",
            bytes(32769): "in: 32769 bytes",
            good[:16] + struct.pack("<I", 4) + good[20:]: "in: trailer: 4 axes",
            good[:20] + struct.pack("<I", 2) + good[24:]: "in: trailer: flags are 2",
            good[:68] + struct.pack("<I", 2) + good[72:]: "in: trailer: 2 sources and 1 targets of 1 axes do not fill",
            good[:64] + struct.pack("<I", 8) + good[68:]: "in: trailer: the ways back are 8 and 8, but",
        }
        for content, message in bad.items():
            self.write("in", content)
            self.refused(message, "make-survey", "--csv", "in", "-o", "out", "-t", "t")
        self.write("in", good)
        self.refused("in: has 1 targets; name a file", "make-survey", "--csv", "in", "-o", "out")

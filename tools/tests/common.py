"""A test that runs a tool in a folder of its own."""

import contextlib
import io
import os
import runpy
import sys
import tempfile
import unittest
from types import SimpleNamespace

TOOLS = os.path.dirname(os.path.dirname(os.path.abspath(__file__)))
ROOT = os.path.dirname(TOOLS)
SAMPLES = os.path.join(ROOT, "samples")


class ToolTest(unittest.TestCase):
    """Runs a tool in a new directory."""

    def setUp(self):
        self.directory = tempfile.TemporaryDirectory()
        self.addCleanup(self.directory.cleanup)

    def path(self, name):
        return os.path.join(self.directory.name, name)

    def write(self, name, content):
        with open(self.path(name), "wb") as file:
            file.write(content if isinstance(content, bytes) else content.encode())

    def read(self, name):
        with open(self.path(name), "rb") as file:
            return file.read()

    def run_tool(self, tool, *arguments):
        """Runs a tool as its command line would, without a process of its own."""
        out, error, status = io.StringIO(), io.StringIO(), 0
        before, argv = os.getcwd(), sys.argv
        os.chdir(self.directory.name)
        sys.argv = [tool] + list(arguments)
        try:
            with contextlib.redirect_stdout(out), contextlib.redirect_stderr(error):
                runpy.run_path(os.path.join(TOOLS, tool))
        except SystemExit as end:
            status = 1 if isinstance(end.code, str) else end.code or 0
            error.write(end.code + "\n" if isinstance(end.code, str) else "")
        finally:
            os.chdir(before)
            sys.argv = argv
        return SimpleNamespace(returncode=status, stdout=out.getvalue(), stderr=error.getvalue())

    def done(self, tool, *arguments):
        """What the tool tells on standard error."""
        result = self.run_tool(tool, *arguments)
        self.assertEqual((result.returncode, result.stdout), (0, ""), result.stderr)
        return result.stderr

    def refused(self, message, tool, *arguments):
        """The tool fails with this message, as one line, and writes no file."""
        result = self.run_tool(tool, *arguments)
        self.assertNotEqual(result.returncode, 0)
        self.assertIn(message, result.stderr)
        self.assertEqual(result.stderr.count("\n"), 1, result.stderr)
        self.assertFalse(os.path.exists(self.path("out")))

    def copy_samples(self):
        for name in os.listdir(SAMPLES):
            with open(os.path.join(SAMPLES, name), "rb") as file:
                self.write(name, file.read())

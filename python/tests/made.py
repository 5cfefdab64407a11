"""What the tests of pages, sheets and pictures share: small files, and a stand-in for the programs."""
import contextlib
import io
import os
import tempfile
import unittest
from unittest import mock

HERE = os.path.dirname(os.path.realpath(__file__))
STAND_INS = {"CAMTOOL": os.path.join(HERE, "stand_in.py"), "CAMREPORT": os.path.join(HERE, "stand_in_camreport")}
# The job of a block of 10 by 8 mm, 2 mm high, with a step to 5 mm at X6.
JOB = """cutter = "flat"
radius = 100
floor = 0
top = 500
clear = 600
area = [0, 0, 1000, 800]
home = [0, 0]
pitch = 50
sample = 50
allowance = 10
band = 50
"""
HEAD = "G17 G21 G90 G94 G54 G61\n(T1 flat end mill 2 mm)\nT1\nM3 S9000\n"
# Rows 1 mm apart over the low level, up to an end before the wall.
ROWS = "".join(f"G0 Z6.00\nG0 X-1.20 Y{y:.2f}\nG0 Z5.00\nG1 Z2.00 F300\nG1 X{{end}} F600.0\n" for y in range(0, 9))


def facets(*corners):
    """Returns the text of two triangles over four corners."""
    a, b, c, d = corners
    row = "vertex {:.2f} {:.2f} {:.2f}".format
    pairs = ((a, b, c), (a, c, d))
    return "".join(f"facet normal 0 0 1\nouter loop\n{row(*p)}\n{row(*q)}\n{row(*r)}\nendloop\nendfacet\n" for p, q, r in pairs)


def part():
    """Returns the text of the part: the low level, the wall and the high one."""
    low = facets((0, 0, 2), (6, 0, 2), (6, 8, 2), (0, 8, 2))
    wall = facets((6, 0, 2), (6, 0, 5), (6, 8, 5), (6, 8, 2))
    high = facets((6, 0, 5), (10, 0, 5), (10, 8, 5), (6, 8, 5))
    return f"solid step\n{low}{wall}{high}endsolid step\n"


def program(end="4.90", rows=ROWS):
    """Returns the text of a program whose rows end at an x."""
    return HEAD + rows.replace("{end}", end) + "G0 Z6.00\nM5\nM2\n"


class Folder(unittest.TestCase):
    """A test in a folder of its own, with the stand-in for the programs."""

    def setUp(self):
        folder = tempfile.TemporaryDirectory(prefix="camtool-test-")
        self.addCleanup(folder.cleanup)
        self.addCleanup(os.chdir, os.getcwd())
        os.chdir(folder.name)
        environment = mock.patch.dict(os.environ, STAND_INS)
        environment.start()
        self.addCleanup(environment.stop)
        self.store("job.toml", JOB)
        self.store("part.stl", part())

    def store(self, name, text):
        with open(name, "w", encoding="utf-8", newline="") as file:
            file.write(text)
        return name

    def read(self, name):
        with open(name, encoding="utf-8") as file:
            return file.read()

    def call(self, main, *words):
        """Returns the status of a command, and what it printed on both streams."""
        said, errors = io.StringIO(), io.StringIO()
        try:
            with contextlib.redirect_stdout(said), contextlib.redirect_stderr(errors):
                status = main(list(words))
        except SystemExit as end:
            status = end.code
        return status, said.getvalue(), errors.getvalue()

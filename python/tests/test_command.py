"""Tests of what the commands share: their words, their ends, and where the programs are found."""
import contextlib
import importlib
import io
import os
import re
import subprocess
import sys
import tempfile
import unittest
from unittest import mock

from camtool import command, programs, version

ROOT = os.path.dirname(os.path.dirname(os.path.dirname(os.path.abspath(__file__))))
DOC = "camtool-x NAME\n\nWhat it does.\n"


def ended(call, *words):
    """Returns how a call ends: its status, or None where it returns, and what it prints on both outputs."""
    printed, errors = io.StringIO(), io.StringIO()
    with contextlib.redirect_stdout(printed), contextlib.redirect_stderr(errors):
        try:
            call(*words)
            status = None
        except SystemExit as end:
            status = end.code
    return status, printed.getvalue(), errors.getvalue()


class WordsOfACommand(unittest.TestCase):
    def reader(self):
        reader = command.Words(DOC)
        reader.add_argument("name")
        reader.add_argument("--picture")
        return reader

    def test_help_is_the_modules_text(self):
        self.assertEqual(ended(self.reader().read, ["--help"]), (0, DOC, ""))

    def test_unknown_words_end_with_the_usage(self):
        for words in (["a", "--what"], [], ["a", "b"], ["a", "--pic=1"]):
            status, printed, errors = ended(self.reader().read, words)
            self.assertEqual((status, printed, errors.split("\n")[0]), (2, "", "camtool-x NAME"), words)

    def test_options_stand_anywhere(self):
        for words in (["a", "--picture=b"], ["--picture", "b", "a"]):
            asked = self.reader().read(words)
            self.assertEqual((asked.name, asked.picture), ("a", "b"))


class EndsOfACommand(unittest.TestCase):
    def test_stop_names_the_command(self):
        with mock.patch.object(sys, "argv", ["/usr/bin/camtool-x"]):
            self.assertEqual(ended(command.stop, "no \x1b"), (2, "", "camtool-x: no \\x1b\n"))

    def test_a_file_that_cant_be_read(self):
        status, _, errors = ended(command.read, "/none/there")
        self.assertEqual((status, errors.split(": ", 1)[1]), (2, "/none/there: No such file or directory\n"))


class Programs(unittest.TestCase):
    def test_one_that_is_named(self):
        with mock.patch.dict(os.environ, CAMTOOL="/some/where"):
            self.assertEqual(programs.found("camtool"), "/some/where")
            self.assertFalse(programs.is_built("camtool"))

    def test_the_checkouts_launcher(self):
        with mock.patch.dict(os.environ), mock.patch.object(programs, "ROOT", ROOT):
            os.environ.pop("CAMREPORT", None)
            self.assertEqual(programs.found("camreport"), os.path.join(ROOT, "camreport"))

    def test_one_on_the_path(self):
        with tempfile.TemporaryDirectory() as folder, mock.patch.object(programs, "ROOT", None):
            file = os.path.join(folder, "camtool")
            with open(file, "w", encoding="ascii") as text:
                text.write('#!/bin/sh\necho "$@"\nexit 3\n')
            os.chmod(file, 0o755)
            with mock.patch.dict(os.environ, PATH=f"{folder}:{os.environ['PATH']}"):
                os.environ.pop("CAMTOOL", None)
                self.assertTrue(programs.is_built("camtool"))
                done = programs.run("camtool", "verify", "a b")
            self.assertEqual((done.returncode, done.stdout), (3, b"verify a b\n"))

    def test_none(self):
        with mock.patch.object(programs, "ROOT", None), mock.patch.dict(os.environ, PATH="/none"):
            os.environ.pop("CAMTOOL", None)
            self.assertFalse(programs.is_built("camtool"))
            self.assertRaises(FileNotFoundError, programs.run, "camtool")


class Package(unittest.TestCase):
    def commands(self):
        """The commands of pyproject.toml, with their modules."""
        with open(os.path.join(ROOT, "python", "pyproject.toml"), encoding="utf-8") as file:
            return re.findall(r'^(camtool-\w+) = "(camtool\.\w+):main"$', file.read(), re.M)

    def test_each_command_has_a_script_and_a_text(self):
        for name, module in self.commands():
            self.assertTrue(os.access(os.path.join(ROOT, "tools", name), os.X_OK), name)
            doc = importlib.import_module(module).__doc__
            self.assertTrue(doc.startswith(f"{name} "), name)
        self.assertGreater(len(self.commands()), 5)

    def test_the_version_is_that_of_the_programs(self):
        with open(os.path.join(ROOT, "crates", "mill_command", "src", "set.rt"), encoding="utf-8") as file:
            self.assertIn(f'VERSION: &str = "{version.__version__}"', file.read())

    def test_is_imported_without_the_library(self):
        script = """
import array
import camtool
import camtool.where
try:
    camtool.drop_heights(array.array("i"), camtool.flat(1), array.array("i"), 0)
except ImportError as why:
    print(why)
"""
        environment = {**os.environ, "PYTHONPATH": os.path.join(ROOT, "python"), "CAMTOOL_LIBRARY": "/none.so"}
        done = subprocess.run([sys.executable, "-c", script], env=environment, capture_output=True, text=True)
        self.assertEqual((done.returncode, done.stderr), (0, ""))
        self.assertIn("no library of camtool at /none.so", done.stdout)


if __name__ == "__main__":
    unittest.main()

"""What the tests share: a folder of files, the tools as they are called, and pictures as trees."""

import contextlib
import io
import pathlib
import runpy
import subprocess
import sys
import tempfile
import unittest
import xml.etree.ElementTree as tree

TOOLS = pathlib.Path(__file__).resolve().parent.parent
EXAMPLES = TOOLS.parent / "examples"
SVG = "{http://www.w3.org/2000/svg}"
# The built spatial_cli, which run.py sets.
PROGRAM = None


class Picture:
    """An SVG, looked at by its elements."""

    def __init__(self, text):
        self.text, self.root = text, tree.fromstring(text)

    def group(self, name):
        """The elements of a named group, an empty list where there is none."""
        return next((list(it) for it in self.root.iter(f"{SVG}g") if it.get("id") == name), [])

    def marked(self, kind):
        """The elements whose class has this word, but for those of the legend."""
        shown = {it for group in self.root.iter(f"{SVG}g") if group.get("id") == "legend" for it in group.iter()}
        return [it for it in self.root.iter() if kind in (it.get("class") or "").split() and it not in shown]

    def titles(self, name):
        """What is told where one points at the elements of a group."""
        return [it.find(f"{SVG}title").text for it in self.group(name) if it.find(f"{SVG}title") is not None]

    def words(self):
        """All texts that are written in the picture."""
        return [it.text for it in self.root.iter(f"{SVG}text")]

    def size(self):
        """The width and the height."""
        return float(self.root.get("width")), float(self.root.get("height"))


class Case(unittest.TestCase):
    """A test with a folder of its own."""

    def setUp(self):
        room = tempfile.TemporaryDirectory()
        self.addCleanup(room.cleanup)
        self.folder = pathlib.Path(room.name)

    def file(self, name, text):
        """A file of the folder."""
        path = self.folder / name
        path.write_bytes(text if isinstance(text, bytes) else text.encode())
        return path

    def call(self, name, *words, source=""):
        """The status of a tool, what it prints and what it says. It runs in this process, as a program does."""
        out, said, status = io.StringIO(), io.StringIO(), None
        before = sys.argv, sys.stdin
        sys.argv, sys.stdin = [name, *map(str, words)], io.TextIOWrapper(io.BytesIO(source.encode()))
        try:
            with contextlib.redirect_stdout(out), contextlib.redirect_stderr(said):
                runpy.run_path(str(TOOLS / name), run_name="__main__")
        except SystemExit as end:
            status = end.code
        finally:
            sys.argv, sys.stdin = before
        return status, out.getvalue(), said.getvalue()

    def made(self, name, *words, source=""):
        """What a tool prints that ends well."""
        status, out, said = self.call(name, *words, source=source)
        self.assertEqual(status, 0, said)
        return out

    def picture(self, name, *words):
        """The picture that a tool draws."""
        return Picture(self.made(name, *words))

    def refused(self, told, name, *words, source=""):
        """A tool refuses its input with this line on standard error, and prints nothing."""
        status, out, said = self.call(name, *words, source=source)
        self.assertEqual((status, out), (1, ""), said)
        self.assertIn(told, said)

    def misused(self, name, *words):
        """A tool refuses its words."""
        status, out, said = self.call(name, *words)
        self.assertEqual((status, out), (2, ""), said)
        self.assertIn("usage: ", said)

    def replayed(self, script, *words, command="replay"):
        """What the program prints of a script."""
        done = subprocess.run([PROGRAM, command, *words], input=script.encode(), capture_output=True, check=False)
        self.assertEqual(done.returncode, 0, done.stderr)
        return done.stdout.decode()

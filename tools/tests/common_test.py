"""Tests of what the tools share."""

import contextlib
import io
from unittest import mock

import common
import reports
import scripts
import wkt
from helpers import EXAMPLES, Case

SOUND = (
    "POINT (3 -4)",
    "POINT EMPTY",
    "LINESTRING (0 0, 5 5)",
    "POLYGON ((0 0, 4 0, 4 4, 0 0), (1 1, 2 1, 2 2, 1 1))",
    "MULTIPOINT ((1 2), (3 4))",
    "MULTILINESTRING ((0 0, 4 0), (4 0, 8 0))",
    "MULTIPOLYGON (((0 0, 1 0, 1 1, 0 0)))",
    "GEOMETRYCOLLECTION (POINT (1 2), LINESTRING EMPTY)",
)
FAULTY = (
    "", "POINT", "POINT (1)", "POINT (1 2", "POINT (1 2, 3 4)", "POINT (1,2)", "POINT 1 2", "(1 2)", "POINT (a b)",
    "POINT (1 2))", "LINESTRING (1 2; 3 4)", "POLYGON (1 2)", "GEOMETRYCOLLECTION (1 2)", "POINT (1e 2)",
)


class Shared(Case):
    """Progress, files and the program."""

    def told(self, quiet):
        """What is told where each step takes four tenths of a second."""
        said = io.StringIO()
        with mock.patch("time.monotonic", side_effect=[at * 0.4 for at in range(9)]), contextlib.redirect_stderr(said):
            progress = common.Progress("a.csv", quiet)
            for done in range(1, 6):
                progress.tell(done, "records", 5)
        return said.getvalue().split("\n")[:-1]

    def test_progress(self):
        self.assertEqual(self.told(False), ["a.csv: 3 of 5 records after 1 s"])
        self.assertEqual(self.told(True), [])

    def test_quiet(self):
        file = self.file("a.geojson", '{"type":"Point","coordinates":[1,2]}')
        self.assertIn("1 rows, 0 left out", self.call("import.py", file)[2])
        self.assertEqual(self.call("import.py", file, "--quiet")[2], "")

    def test_no_place_to_write(self):
        self.refused("No such file", "map.py", EXAMPLES / "first.script", "-o", self.folder / "none" / "a.svg")

    def test_program_that_fails(self):
        with self.assertRaisesRegex(common.Refused, "ended with 3: bad"):
            program = self.file("program", "#!/bin/sh\necho bad >&2\nexit 3\n")
            program.chmod(0o755)
            common.ask(str(program), [], "")


class Texts(Case):
    """Well-known text, scripts and reports."""

    def test_well_known_text(self):
        for text in SOUND:
            self.assertEqual(wkt.write(wkt.read_whole(text)), text)
        self.assertEqual(wkt.write(wkt.read_whole(" multipoint(1 2,+3.0 -0)")), "MULTIPOINT ((1 2), (3 0))")
        for text in FAULTY:
            with self.assertRaises(wkt.Fault, msg=text):
                wkt.read(text)

    def test_examples(self):
        """The commits of each example's report, carried out by their answers, leave the rows that it names."""
        for file in sorted(EXAMPLES.glob("*.script")):
            script = scripts.load_script(str(file), True)
            report = reports.read_report(file.name, file.with_suffix(".expected").read_text(), True)
            rows = dict(script.rows)
            for commit in report.commits:
                statements = script.sessions[commit.session][commit.transaction - 1].statements
                for statement, answer in zip(statements, commit.answers):
                    reports.change(rows, statement, answer)
            self.assertEqual(rows, report.rows, file.name)

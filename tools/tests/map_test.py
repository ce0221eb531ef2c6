"""Tests of map.py, and of where cells lie."""

import subprocess
import sys

import cells
import helpers
from helpers import EXAMPLES, TOOLS, Case


class Cells(Case):
    """The geometry of cells."""

    def test_curve(self):
        rows = ((0, 1, 14, 15), (3, 2, 13, 12), (4, 7, 8, 11), (5, 6, 9, 10))
        for y, row in enumerate(rows):
            for x, place in enumerate(row):
                self.assertEqual(cells.spot_of(4, place), (x, y))
        for side in (4, 8, 16):
            spots = [cells.spot_of(side, place) for place in range(side * side)]
            self.assertEqual(len(set(spots)), side * side)
            self.assertTrue(all(abs(a - c) + abs(b - d) == 1 for (a, b), (c, d) in zip(spots, spots[1:])))

    def test_boxes(self):
        grid = cells.grid_of("grid 0 0 256 256 low low low low".split(), "")
        self.assertEqual(grid.box("0.0.8.7"), (9, 10, 10, 11))
        self.assertEqual(grid.box("10"), (192, 192, 256, 256))
        self.assertIsNone(grid.box("16"))
        self.assertIsNone(grid.box("0.0.0.0.0"))
        auto = cells.grid_of("autogrid -10 0 90 100".split(), "")
        self.assertEqual((auto.cells, len(auto.sides)), (8, 8))
        self.assertEqual(auto.box("0"), (-10, 0, -4, 6))

    def test_a_row_lies_in_the_cells_that_are_told(self):
        """The program puts a point into the cell whose box has it, on grids of every density."""
        for line in ("grid -100 -70 155 130 low medium high low", "autogrid -100 -70 155 130", "grid 0 0 999 999"):
            words = line.split()
            spots = [(-100, -70), (155, 130), (0, 0), (77, 33), (12, 129)]
            inserts = "".join(f"insert {key} POINT ({x} {y})\n" for key, (x, y) in enumerate(spots, 1))
            text = self.replayed(f"{line}\nsession 1\nbegin\n{inserts}commit\n", "--labels")
            grid = cells.grid_of(words, line)
            told = [it.split() for it in text.split("\n") if " put cell " in it]
            self.assertEqual(len(told), len(spots))
            for words in told:
                x, y = spots[int(words[6]) - 1]
                if words[4] == "out":
                    self.assertFalse(grid.xmin <= x <= grid.xmax and grid.ymin <= y <= grid.ymax)
                    continue
                left, low, right, high = grid.box(words[4])
                self.assertTrue(left <= x < right or x == right == grid.xmax)
                self.assertTrue(low <= y < high or y == high == grid.ymax)


class Map(Case):
    """The structure of maps."""

    def test_rows_of_a_script(self):
        drawn = self.picture("map.py", EXAMPLES / "shapes.script")
        told = drawn.titles("areas") + drawn.titles("others")
        self.assertEqual(told, ["row 1: polygon", "row 2: point", "row 3: linestring"])
        self.assertEqual(drawn.group("areas")[0].get("d").count("M"), 2)
        self.assertTrue({"1", "2", "3", "rows, EMPTY shapes: 1"} <= set(drawn.words()))
        self.assertEqual(drawn.group("cells"), [])

    def test_rows_of_a_report(self):
        drawn = self.picture("map.py", EXAMPLES / "phantom.expected")
        self.assertEqual([it.get("data-row") for it in drawn.group("others")], ["3", "7"])

    def test_cells_of_a_row(self):
        words = ("--program", helpers.PROGRAM)
        drawn = self.picture("map.py", EXAMPLES / "index.script", "--row", 1, *words)
        self.assertEqual(len(drawn.marked("covered")), 16)
        self.assertTrue(all("level 1: covered" in told for told in drawn.titles("cells")))
        drawn = self.picture("map.py", EXAMPLES / "index.script", "--row", 2, *words)
        self.assertEqual(drawn.titles("cells"), ["cell 0.2.0.10, level 4: contains the whole shape"])
        drawn = self.picture("map.py", EXAMPLES / "index.script", "--row", 4, *words)
        self.assertEqual(drawn.group("cells"), [])
        self.assertIn("and the cell outside the grid's box", drawn.words())

    def test_marks(self):
        shape = "POLYGON ((0 0, 30 0, 30 20, 0 20, 0 0))"
        script = self.file("a.script", f"grid 0 0 256 256 low low low low 64\nrow 5 {shape}\n")
        drawn = self.picture("map.py", script, "--row", 5, "--program", helpers.PROGRAM)
        covered = {it.get("data-cell") for it in drawn.marked("covered")}
        met = {it.get("data-cell") for it in drawn.marked("met")}
        grid = cells.grid_of("grid 0 0 256 256 low low low low 64".split(), "")
        self.assertTrue(covered and met)
        self.assertEqual(drawn.marked("contained"), [])
        for path in covered:
            left, low, right, high = grid.box(path)
            self.assertTrue(left >= 0 and low >= 0 and right <= 30 and high <= 20, path)
        for path in met:
            left, low, right, high = grid.box(path)
            self.assertFalse(right <= 30 and high <= 20, path)

    def test_query(self):
        drawn = self.picture("map.py", EXAMPLES / "index.script", "--query", "1.1.1", "--program", helpers.PROGRAM)
        self.assertEqual([it.get("data-row") for it in drawn.marked("found")], ["1", "2"])
        self.assertEqual(len(drawn.group("query")), 1)
        self.assertEqual(len(drawn.group("cells")), 1)

    def test_query_sees_commits_before_it_and_its_own_statements(self):
        lines = ["row 1 POINT (0 0)", "row 2 POINT (1 1)", "row 3 POINT (2 2)", "session 1"]
        lines += ["begin", "insert 9 POINT (9 9)", "commit"]
        lines += ["begin", "update 1 POINT (5 5)", "delete where equals POINT (1 1)", "delete 3"]
        lines += ["select intersects POINT (5 5)", "insert 8 POINT (8 8)", "commit"]
        lines += ["begin", "insert 7 POINT (7 7)", "commit", ""]
        files = (self.file("a.script", "\n".join(lines)), self.file("a.report", self.replayed("\n".join(lines))))
        drawn = self.picture("map.py", *files, "--query", "1.2.4")
        self.assertEqual(drawn.titles("others"), ["row 9: point", "row 1: point, found"])
        drawn = self.picture("map.py", *files, "--query", "1.2.2")
        self.assertEqual([it.get("data-row") for it in drawn.group("others")], ["1", "3", "9", "2"])

    def test_query_of_distances(self):
        words = ("--query", "1.1.5", "--program", helpers.PROGRAM)
        drawn = self.picture("map.py", EXAMPLES / "index.script", *words)
        self.assertEqual(drawn.titles("query"), ["the bounds, moved out by the distance", "the query's shape"])
        self.assertEqual((len(drawn.marked("covered")), len(drawn.marked("met"))), (4, 3))

    def test_query_by_labels(self):
        files = (EXAMPLES / "phantom.script", EXAMPLES / "phantom.labels")
        drawn = self.picture("map.py", *files, "--query", "1.2.1")
        self.assertEqual({it.get("data-cell") for it in drawn.marked("locked")}, {"0.0.8.7", "10.0.8.0"})
        self.assertEqual([it.get("data-row") for it in drawn.marked("found")], ["7"])
        drawn = self.picture("map.py", *files, "--query", "1.1.1")
        self.assertEqual([it.get("data-row") for it in drawn.group("others")], ["3"])
        self.assertEqual(drawn.marked("found"), [])
        drawn = self.picture("map.py", *files, "--row", 7)
        self.assertEqual([it.get("data-cell") for it in drawn.marked("locked")], ["0.0.8.7"])

    def test_a_part(self):
        rows = "".join(f"row {key} POINT ({key * 10} 0)\n" for key in range(1, 11))
        drawn = self.picture("map.py", self.file("a.script", rows), "--box", 0, -50, 55, 50, "--width", 500)
        self.assertEqual([it.get("data-row") for it in drawn.group("others")], ["1", "2", "3", "4", "5"])
        self.assertIn("rows outside the picture: 5", drawn.words())

    def test_keys_stay_apart(self):
        rows = "".join(f"row {key} POINT ({key % 9} {key // 9})\n" for key in range(1000, 1060))
        drawn = self.picture("map.py", self.file("a.script", rows), "--width", 150)
        places = [(float(it.get("x")), float(it.get("y")), 6.3 * len(it.text)) for it in drawn.group("keys")]
        self.assertTrue(places)
        for at, (x, y, width) in enumerate(places):
            near = [1 for u, v, wide in places[:at] if u < x + width and x < u + wide and abs(v - y) < 11]
            self.assertEqual(near, [])

    def test_refused(self):
        script = EXAMPLES / "index.script"
        program = ("--program", helpers.PROGRAM)
        for words, told in (
            ((script, "--row", 9, *program), "there is no row 9"),
            ((script, "--row", 1), "cells are told by a program or by a report with labels"),
            ((script, "--query", "1.1.1"), "what a query found is told by a report, or by a program"),
            ((script, "--query", "1.1", *program), "is no SESSION.TRANSACTION.STATEMENT"),
            ((script, "--query", "1.9.1", *program), "there is no transaction 9 of a session 1"),
            ((script, "--query", "1.1.9", *program), "there is no statement 1.1.9"),
            ((script, "--query", "1.2.1", *program), "index.script:17: update is no query of shapes"),
            ((script, "--query", "1.2.2", *program), "transaction 2 of session 1 isn't among the commits"),
            ((script, "--query", "1.1.1", "--program", self.folder / "none"), "no program is there"),
            ((script, EXAMPLES / "deadlock.labels", "--query", "1.1.1"), "this is no report of"),
        ):
            self.refused(told, "map.py", *words)

    def test_refused_scripts(self):
        for text, told in (
            ("row 1 POINT (0 0)\nrow 1 POINT (0 0)\n", "a.script:2: key 1 isn't above"),
            ("row x POINT (0 0)\n", "a.script:1: 'x' stands where a number must stand"),
            ("row 1 POINT (0.5 0)\n", "a.script:1: 0.5 is no whole number"),
            ("grid 0 0 0 9\n", "a.script:1: these words make no grid"),
            ("grid 0 0 9\n", "a.script:1: four numbers must stand"),
            ("grid 0 0 9 9 low tiny low low\n", "a.script:1: these words make no grid"),
            ("\n# a\nrun\n", "a.script:3: no line of a script begins with 'run'"),
            ("get 1\n", "a.script:1: get stands outside a transaction"),
            ("session 1\nbegin\nselect near POINT (0 0)\n", "a.script:3: no test of shapes"),
            ("session 1\nbegin\n", "a.script:2: the text ends within a transaction"),
            ("session 1\ncommit\n", "a.script:2: commit can't stand here"),
            ("schedule 1\n", "a.script:1: there is no session 1"),
        ):
            self.refused(told, "map.py", self.file("a.script", text))

    def test_from_another_folder(self):
        """The tools run from anywhere, by no more than Python."""
        words = [sys.executable, "-S", "-E", TOOLS / "map.py", EXAMPLES / "first.expected", "-o", self.folder / "a.svg"]
        done = subprocess.run(list(map(str, words)), cwd=self.folder, capture_output=True, check=False)
        self.assertEqual((done.returncode, done.stdout, done.stderr), (0, b"", b""))
        self.assertIn('data-row="1"', (self.folder / "a.svg").read_text())

    def test_words(self):
        script = EXAMPLES / "index.script"
        for words in ((), (script, script), (script, "--row", "x"), (script, "--row", 1, "--query", "1.1.1"),
                      (script, "--box", 0, 0, 0, 5), (script, "--width", 1), (EXAMPLES / "index.expected", "--row", 1)):
            self.misused("map.py", *words)

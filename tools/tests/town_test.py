"""Tests of the worked case and of the pictures in docs."""

import json
import pathlib
import tempfile
import unittest

import helpers
import pictures
import reports
import town
from helpers import Picture


class Town(unittest.TestCase):
    """The case is made once for all of these."""

    @classmethod
    def setUpClass(cls):
        room = tempfile.TemporaryDirectory()
        cls.addClassCleanup(room.cleanup)
        cls.folder = pathlib.Path(room.name)
        town.town(helpers.PROGRAM, cls.folder, True)

    def text(self, name):
        """A file's text."""
        return (self.folder / name).read_text()

    def test_kinds(self):
        kinds = [it["geometry"]["type"] for it in json.loads(self.text("town.geojson"))["features"]]
        counts = {kind: kinds.count(kind) for kind in kinds}
        self.assertEqual(counts, {"Point": 1146, "LineString": 153, "Polygon": 1853})

    def test_the_sessions_collide(self):
        labels = reports.read_report("town.report", self.text("town.report"), True).labels
        waits = [(it.session, it.mode) for it in labels if it.kind == "wait"]
        self.assertIn((1, "X"), waits)
        self.assertIn((2, "RangeI-N"), waits)
        self.assertEqual([(it.session, it.others) for it in labels if it.kind == "victim"], [(2, (1, 2))])
        self.assertEqual([it.session for it in labels if it.kind == "commit"], [1, 2])

    def test_it_comes_back(self):
        before = {it["properties"]["id"]: it["geometry"] for it in json.loads(self.text("town.geojson"))["features"]}
        after = {it["id"]: it["geometry"] for it in json.loads(self.text("back.geojson"))["features"]}
        changed = {key for key in after if after[key] != before.get(key)}
        self.assertEqual(changed, {1594, 1595, 4001})
        self.assertEqual(len(after), len(before) + 1)

    def test_maps(self):
        whole = Picture(self.text("whole.svg"))
        self.assertEqual(len(whole.group("areas")), 1853)
        self.assertEqual(len(whole.group("others")), 1146 + 153 + 1)
        query = Picture(self.text("town-query.svg"))
        found = {it.get("data-row") for it in query.marked("found")}
        self.assertEqual(found, {"7", "1594", "1595", "1867", "1868"})
        self.assertEqual(len(query.group("query")), 1)
        self.assertTrue(query.marked("covered") and query.marked("met"))

    def test_timeline(self):
        drawn = Picture(self.text("town-timeline.svg"))
        labels = reports.read_report("town.report", self.text("town.report"), True).labels
        self.assertEqual(len(drawn.marked("label")), len(labels))
        self.assertEqual(len(drawn.marked("crossed")), 2)

    def test_the_pictures_of_docs(self):
        made = {name: self.text(name) for name in pictures.OF_TOWN}
        for name, title in pictures.RUNS.items():
            pictures.timeline(helpers.PROGRAM, name, title, self.folder)
            made[f"{name}.svg"] = self.text(f"{name}.svg")
        self.assertEqual(pictures.differing(made), [], "tools/pictures.py makes them anew")

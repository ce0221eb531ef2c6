"""Tests of import.py and export.py."""

import json

from helpers import Case

POINT = '{"type":"Point","coordinates":[%s,%s]}'
HEAD = '{"type":"FeatureCollection",\n"features":[\n'


def feature(geometry, properties="{}"):
    """The text of a feature."""
    return f'{{"type":"Feature","properties":{properties},"geometry":{geometry}}}'


def collection(*features):
    """The text of a collection, whose features begin on line 3, one a line."""
    return HEAD + ",\n".join(features) + "\n]}\n"


def rows(text):
    """The row lines of what was printed."""
    return [line for line in text.split("\n") if line.startswith("row ")]


class GeoJson(Case):
    """GeoJSON to rows."""

    def test_kinds(self):
        ring = "[[0,0],[4,0],[4,4],[0,0]]"
        hole = "[[1,1],[2,1],[2,2],[1,1]]"
        text = collection(
            feature(POINT % (1, 2)),
            feature('{"type":"LineString","coordinates":[[0,0],[5,5]]}'),
            feature(f'{{"type":"Polygon","coordinates":[{ring},{hole}]}}'),
            feature('{"type":"Polygon","coordinates":[]}'),
            feature('{"type":"MultiPoint","coordinates":[[7,8]]}'),
            POINT % (9, 9),
        )
        found = rows(self.made("import.py", self.file("a.geojson", text)))
        self.assertEqual(found, [
            "row 1 POINT (1 2)",
            "row 2 LINESTRING (0 0, 5 5)",
            "row 3 POLYGON ((0 0, 4 0, 4 4, 0 0), (1 1, 2 1, 2 2, 1 1))",
            "row 4 POLYGON EMPTY",
            "row 5 POINT (7 8)",
            "row 6 POINT (9 9)",
        ])

    def test_one_geometry(self):
        self.assertEqual(rows(self.made("import.py", "-", source=POINT % (1, 2))), ["row 1 POINT (1 2)"])
        self.assertEqual(rows(self.made("import.py", "-", source=feature(POINT % (3, 4)))), ["row 1 POINT (3 4)"])

    def test_scale_keeps_the_digits(self):
        file = self.file("a.geojson", collection(POINT % ("1.25", "-2"), POINT % ("3.5", "4")))
        text = self.made("import.py", file)
        self.assertTrue(text.startswith("# offset 0 0 scale 100\n# 2 rows, 0 left out, 0 rings closed, 0 coordinates"))
        self.assertEqual(rows(text), ["row 1 POINT (125 -200)", "row 2 POINT (350 400)"])

    def test_offset_where_it_is_needed(self):
        file = self.file("a.geojson", collection(POINT % ("500000.25", "5400000"), POINT % ("500001", "5400002.5")))
        text = self.made("import.py", file)
        self.assertTrue(text.startswith("# offset 500000 5400001 scale 100\n"))
        self.assertEqual(rows(text), ["row 1 POINT (25 -100)", "row 2 POINT (100 150)"])

    def test_wide_bounds_get_a_small_scale(self):
        text = self.made("import.py", self.file("a.geojson", collection(POINT % (0, 0), POINT % (3000000000, 0))))
        self.assertTrue(text.startswith("# offset 1500000000 0 scale 0.01\n"), text)
        self.assertEqual(rows(text), ["row 1 POINT (-15000000 0)", "row 2 POINT (15000000 0)"])

    def test_rounding_is_told(self):
        file = self.file("a.geojson", collection(POINT % ("0.5", "1.5"), POINT % ("2.26", "3")))
        text = self.made("import.py", file, "--scale", "1", "--offset", "0", "0")
        self.assertIn("3 coordinates rounded, by 0.5 at most", text)
        self.assertEqual(rows(text), ["row 1 POINT (0 2)", "row 2 POINT (2 3)"])

    def test_rings_are_closed(self):
        file = self.file("a.geojson", feature('{"type":"Polygon","coordinates":[[[0,0],[4,0],[4,4]]]}'))
        text = self.made("import.py", file)
        self.assertIn(" 1 rings closed,", text)
        self.assertEqual(rows(text), ["row 1 POLYGON ((0 0, 4 0, 4 4, 0 0))"])

    def test_keys_of_a_property(self):
        text = collection(feature(POINT % (1, 1), '{"n":9}'), feature(POINT % (2, 2), '{"n":"3"}'))
        file = self.file("a.geojson", text)
        self.assertEqual(rows(self.made("import.py", file, "--key", "n")), ["row 3 POINT (2 2)", "row 9 POINT (1 1)"])
        self.assertEqual(rows(self.made("import.py", file, "--first", 5)), ["row 5 POINT (1 1)", "row 6 POINT (2 2)"])

    def test_faulty_keys(self):
        text = collection(feature(POINT % (1, 1), '{"n":1}'), feature(POINT % (2, 2), '{"n":1}'), POINT % (0, 0))
        file = self.file("a.geojson", text)
        self.refused("a.geojson:4: feature 2: the key 1 comes twice", "import.py", file, "--key", "n")
        self.refused("a.geojson:3: feature 1: its 'm' is no key: None", "import.py", file, "--key", "m")
        text = collection(feature(POINT % (1, 1), '{"n":4294967296}'))
        file = self.file("b.geojson", text)
        self.refused("b.geojson:3: feature 1: the key 4294967296 is above", "import.py", file, "--key", "n")

    def test_what_does_not_fit(self):
        ring = ",".join(f"[{at},{at % 2}]" for at in range(2048))
        for geometry, told in (
            ("null", "it has no geometry"),
            ('{"type":"Circle"}', "no type that GeoJSON knows"),
            ('{"type":"Point","coordinates":[1]}', "coordinates that aren't numbers"),
            ('{"type":"Point","coordinates":[1,true]}', "coordinates that aren't numbers"),
            ('{"type":"LineString","coordinates":[1,2]}', "coordinates that aren't numbers"),
            ('{"type":"LineString","coordinates":[[1,2]]}', "a line of 1 spots"),
            ('{"type":"Polygon","coordinates":[[[1,2],[3,4]]]}', "a ring of 3 spots"),
            ('{"type":"Point","coordinates":[1,2,3]}', "a spot of 3 numbers"),
            ('{"type":"MultiPoint","coordinates":[[1,2],[3,4]]}', "a MULTIPOINT of 2 members"),
            ('{"type":"GeometryCollection","geometries":[]}', "a GEOMETRYCOLLECTION without members"),
            ('{"type":"LineString","coordinates":[%s,[0,9]]}' % ring, "2049 spots"),
            ('{"type":"Polygon","coordinates":[[%s]]}' % ring, "2049 spots with its rings closed"),
            ('{"type":"LineString","coordinates":[[0.1,0],[0.2,0]]}', "it shrinks to one spot"),
            ('{"type":"Point","coordinates":[99999999,0]}', "becomes 99999999, outside the limits"),
            ('{"type":"Point","coordinates":[1e99,0]}', "a number of more than 40 digits"),
        ):
            file = self.file("a.geojson", collection(POINT % (0, 0), feature(geometry)))
            words = ("import.py", file, "--scale", "1", "--offset", "0", "0")
            self.refused("a.geojson:4: feature 2: ", *words)
            self.refused(told, *words)
            status, out, said = self.call(*words, "--skip")
            self.assertEqual((status, rows(out)), (0, ["row 1 POINT (0 0)"]))
            self.assertIn("1 left out", out)
            self.assertIn("(left out)", said)

    def test_parts_and_flat(self):
        geometry = '{"type":"GeometryCollection","geometries":[%s,{"type":"MultiPoint","coordinates":[[3,4,9],[5,6]]}]}'
        file = self.file("a.geojson", feature(geometry % (POINT % (1, 2))))
        found = rows(self.made("import.py", file, "--parts", "--flat"))
        self.assertEqual(found, ["row 1 POINT (1 2)", "row 2 POINT (3 4)", "row 3 POINT (5 6)"])

    def test_no_json(self):
        for text, told in (
            (HEAD + "{},\n{", "a.geojson:4: no JSON"),
            (HEAD + '{"a":NaN}]}', "a.geojson:3: no JSON: NaN"),
            (HEAD + "{} {}]}", "a.geojson:3: no JSON"),
            (HEAD + "{}]} 1", "a.geojson:3: no JSON: something stands behind"),
            ("", "a.geojson:1: no JSON"),
            ("[]", "a.geojson:1: no JSON"),
            (HEAD + "[" * 100000, "a.geojson:3: no JSON"),
            (HEAD.encode() + b"\xff", "a.geojson:3: bytes that are no UTF-8"),
        ):
            self.refused(told, "import.py", self.file("a.geojson", text))

    def test_no_file(self):
        self.refused("nowhere.geojson: No such file", "import.py", self.folder / "nowhere.geojson")

    def test_no_fit(self):
        file = self.file("a.geojson", POINT % (0, "1e30"))
        self.refused("no offset and scale bring the coordinates within", "import.py", file, "--offset", 0, 0)

    def test_words(self):
        file = self.file("a.geojson", POINT % (1, 1))
        for words in (
            (), (file, file), (file, "--scale", "0"), (file, "--scale", "x"), (file, "--offset", "1", "y"),
            (file, "--parts", "--key", "n"), (file, "--first", "-1"), (file, "--autogrid", "0"),
            (file, "--wkt", "a", "--xy", "a", "b"), (file, "--format", "kml"), (file, "--delimiter", ",,"),
        ):
            self.misused("import.py", *words)


class Csv(Case):
    """CSV to rows."""

    def test_well_known_text(self):
        text = 'id,WKT\n4,"SRID=4326;point(1 2)"\n5,"LINESTRING(0 0,\n 1 1)"\n6,"POLYGON Z((0 0 1,1 1 1,1 0 1))"\n'
        found = rows(self.made("import.py", self.file("a.csv", text), "--key", "id", "--flat"))
        self.assertEqual(found[:2], ["row 4 POINT (1 2)", "row 5 LINESTRING (0 0, 1 1)"])
        self.assertEqual(found[2:], ["row 6 POLYGON ((0 0, 1 1, 1 0, 0 0))"])

    def test_x_and_y(self):
        file = self.file("a.csv", "n,Lon,LAT\n1,2,3.5\n")
        self.assertEqual(rows(self.made("import.py", file)), ["row 1 POINT (20 35)"])
        file = self.file("a.tsv", "e\tn\n1e2\t-3\n")
        self.assertEqual(rows(self.made("import.py", file, "--xy", "e", "n")), ["row 1 POINT (100 -3)"])

    def test_refused(self):
        for text, told in (
            ("", "a.csv:1: the names of the columns"),
            ("a,b\n1,2\n", "a.csv:1: no column has a known name"),
            ("x,y\n1,2\n3\n", "a.csv:3: record 2: 1 fields, where the first line has 2"),
            ("x,y\n1,2\n\n3,z\n", "a.csv:4: record 2: 'z' stands where a number must stand"),
            ('wkt\n"POINT(1\n 2)"\nPOINT(1)\n', "a.csv:4: record 2: ')' stands where a number must stand"),
            ("wkt\nPOINT(1 2\n", "a.csv:2: record 1: the text ends within the shape"),
            ("wkt\nPOINT(1 2) x\n", "a.csv:2: record 1: 'x' stands behind the shape"),
            ("wkt\nCIRCLE(1 2)\n", "a.csv:2: record 1: 'CIRCLE' is no kind of shape"),
            ('wkt\n""\n', "a.csv:2: record 1: it has no geometry"),
            ('wkt\n"POINT(1 2)"x\n', "a.csv:2: no CSV"),
        ):
            self.refused(told, "import.py", self.file("a.csv", text))
        self.refused("a.csv:1: there is no column 'geo'", "import.py", self.file("a.csv", "x,y\n"), "--wkt", "geo")


class Round(Case):
    """From GeoJSON through the program and back."""

    def test_round_trip(self):
        shapes = [
            {"type": "Point", "coordinates": [481000.25, 5412000.5]},
            {"type": "LineString", "coordinates": [[481000, 5412000], [481010.75, 5412001]]},
            {"type": "Polygon", "coordinates": [
                [[481000, 5412000], [481009, 5412000], [481009, 5412009.01], [481000, 5412000]],
                [[481004, 5412001], [481008, 5412001], [481008, 5412002], [481004, 5412001]],
            ]},
            {"type": "Polygon", "coordinates": []},
        ]
        features = [{"type": "Feature", "properties": {}, "geometry": shape} for shape in shapes]
        file = self.file("a.geojson", json.dumps({"type": "FeatureCollection", "features": features}))
        script = self.made("import.py", file, "--autogrid", "4")
        self.assertIn("\nautogrid ", script)
        report = self.file("a.report", self.replayed(script))
        back = json.loads(self.made("export.py", report, "--like", self.file("a.script", script)))
        self.assertEqual([it["geometry"] for it in back["features"]], shapes)
        self.assertEqual([it["id"] for it in back["features"]], [1, 2, 3, 4])
        again = self.made("export.py", self.folder / "a.script")
        self.assertEqual(json.loads(again), back)

    def test_changed_rows_come_back(self):
        script = "row 1 POINT (0 0)\nsession 1\nbegin\ninsert 2 POINT (3 -1)\ndelete 1\ncommit\n"
        report = self.file("a.report", self.replayed(script))
        words = ("export.py", report, "--offset", "10", "-20", "--scale", "4")
        back = json.loads(self.made(*words))
        self.assertEqual([(it["id"], it["geometry"]["coordinates"]) for it in back["features"]], [(2, [10.75, -20.25])])

    def test_refused(self):
        report = self.file("a.report", "rows 2\n  1 POINT (1 2)\n  x POINT (1 2)\n")
        self.refused("a.report:3: 'x' stands where a number must stand", "export.py", report)
        report = self.file("a.report", "rows 2\n  1 POINT (1 2)\n")
        self.refused("a.report:3: the text ends", "export.py", report)
        good = self.file("b.report", "rows 0\n")
        self.refused("no comment tells", "export.py", good, "--like", self.file("a.script", "row 1 POINT (1 1)\n"))
        faulty = self.file("a.script", "# offset a 0 scale 1\n")
        self.refused("has no sound numbers", "export.py", good, "--like", faulty)
        self.misused("export.py", good, "--offset", "1", "2")
        self.misused("export.py", good, "--offset", "1", "2", "--scale", "0")

"""Reads and writes GeoJSON; each feature is told with its line."""

import json
from decimal import Decimal
from json.decoder import scanstring
from typing import NamedTuple

import wkt
from common import Progress, Refused
from fitting import plain, sane

NAMES = {
    "Point": "POINT",
    "LineString": "LINESTRING",
    "Polygon": "POLYGON",
    "MultiPoint": "MULTIPOINT",
    "MultiLineString": "MULTILINESTRING",
    "MultiPolygon": "MULTIPOLYGON",
    "GeometryCollection": wkt.COLLECTION,
}
BLANKS = " \t\r\n"


class Feature(NamedTuple):
    """What a row is made of: the line, a name to tell it by, its properties, and its shape or what is wrong with it."""

    line: int
    name: str
    properties: dict
    shape: wkt.Shape | None
    fault: str


def refused_constant(word):
    """Refuses NaN and the infinities, which are no JSON."""
    raise ValueError(f"{word} is no number of JSON")


DECODER = json.JSONDecoder(parse_float=Decimal, parse_constant=refused_constant)


# -- Shapes -----------------------------------------------------------------------------------------------------------


def spot_of(value):
    """A spot's numbers."""
    is_spot = isinstance(value, list) and len(value) >= 2
    if not is_spot or not all(isinstance(it, (int, Decimal)) and not isinstance(it, bool) for it in value):
        raise wkt.Fault("coordinates that aren't numbers in brackets, as many as its type asks for")
    if any(sane(it) is None for it in value):
        raise wkt.Fault("a number of more than 40 digits")
    return tuple(value)


def nested(value, depth):
    """The spots under so many brackets."""
    if depth == 0:
        return spot_of(value)
    if not isinstance(value, list) or not value:
        raise wkt.Fault("coordinates that aren't numbers in brackets, as many as its type asks for")
    return [nested(item, depth - 1) for item in value]


def shape_of(geometry):
    """The shape of a geometry."""
    if geometry is None:
        raise wkt.Fault("it has no geometry")
    if not isinstance(geometry, dict) or geometry.get("type") not in NAMES:
        raise wkt.Fault("its geometry has no type that GeoJSON knows")
    kind = NAMES[geometry["type"]]
    if kind == wkt.COLLECTION:
        members = geometry.get("geometries")
        if not isinstance(members, list):
            raise wkt.Fault("a collection without a list of geometries")
        return wkt.Shape(kind, [shape_of(member) for member in members])
    if geometry.get("coordinates") == []:
        return wkt.Shape(kind, [])
    return wkt.Shape(kind, nested(geometry.get("coordinates"), wkt.DEPTHS[kind]))


# -- Reading ----------------------------------------------------------------------------------------------------------


def feature_of(value, line, name):
    """The feature of a value, which may be a geometry."""
    properties, geometry = {}, value
    if isinstance(value, dict) and value.get("type") == "Feature":
        geometry = value.get("geometry")
        properties = value.get("properties") if isinstance(value.get("properties"), dict) else {}
        properties = {"id": value["id"], **properties} if "id" in value else properties
    try:
        return Feature(line, name, properties, shape_of(geometry), "")
    except wkt.Fault as fault:
        return Feature(line, name, properties, None, str(fault))


class Reader:
    """Walks through a text, so that each feature's line is known."""

    def __init__(self, file, text, quiet):
        self.text, self.at, self.line, self.counted = text, 0, 1, 0
        self.progress = Progress(file, quiet)

    def skip(self, wanted=""):
        """Goes on to the next byte that is no blank, which has to be one of those wanted, and answers it."""
        while self.at < len(self.text) and self.text[self.at] in BLANKS:
            self.at += 1
        found = self.text[self.at : self.at + 1]
        if wanted and (not found or found not in wanted):
            raise json.JSONDecodeError(f"one of {' '.join(wanted)} must stand here", self.text, self.at)
        return found

    def line_here(self):
        """The line at which the walk stands."""
        self.line += self.text.count("\n", self.counted, self.at)
        self.counted = self.at
        return self.line

    def value(self):
        """Takes a whole value."""
        found, self.at = DECODER.raw_decode(self.text, self.at)
        return found

    def features(self):
        """Takes the list of a collection's features."""
        found = []
        self.at += 1
        while self.skip() != "]":
            if found:
                self.skip(",")
                self.at += 1
                self.skip()
            line = self.line_here()
            found.append(feature_of(self.value(), line, f"feature {len(found) + 1}"))
            self.progress.tell(len(found), "features")
        self.at += 1
        return found

    def members(self):
        """Takes an object; its features are taken one by one, each other member as a whole."""
        members = {}
        self.skip("{")
        self.at += 1
        while self.skip() != "}":
            if members:
                self.skip(",")
                self.at += 1
            self.skip('"')
            name, self.at = scanstring(self.text, self.at + 1)
            self.skip(":")
            self.at += 1
            is_list = self.skip() == "[" and name == "features"
            members[name] = self.features() if is_list else self.value()
        self.at += 1
        return members

    def all(self):
        """Takes the whole text: the features of a collection, of one feature or of a geometry."""
        self.skip("{")
        line = self.line_here()
        members = self.members()
        if self.skip():
            raise json.JSONDecodeError("something stands behind the value", self.text, self.at)
        if members.get("type") == "FeatureCollection" and isinstance(members.get("features"), list):
            return members["features"]
        return [feature_of(members, line, "the feature" if members.get("type") == "Feature" else "the geometry")]


def read(file, text, quiet):
    """The features of a text."""
    reader = Reader(file, text, quiet)
    try:
        return reader.all()
    except json.JSONDecodeError as error:
        raise Refused(file, error.lineno, f"no JSON: {error.msg}") from None
    except (ValueError, RecursionError) as error:
        raise Refused(file, reader.line_here(), f"no JSON: {error}") from None


# -- Writing ----------------------------------------------------------------------------------------------------------


def listed(items, depth, change):
    """The text of nested spots."""
    if depth == 0:
        return "[" + ",".join(plain(value) for value in change(items)) + "]"
    return "[" + ",".join(listed(item, depth - 1, change) for item in items) + "]"


def geometry(shape, change):
    """The text of a shape's geometry, with each spot changed."""
    name = next(name for name, kind in NAMES.items() if kind == shape.kind)
    if shape.kind == wkt.COLLECTION:
        inner = ",".join(geometry(member, change) for member in shape.coordinates)
        return f'{{"type":"{name}","geometries":[{inner}]}}'
    spots = "[]" if shape.coordinates == [] else listed(shape.coordinates, wkt.DEPTHS[shape.kind], change)
    return f'{{"type":"{name}","coordinates":{spots}}}'


def collection(rows, change):
    """The text of a collection of the rows, a feature a line."""
    features = [f'{{"type":"Feature","id":{key},"properties":{{"key":{key}}},"geometry":{geometry(shape, change)}}}'
                for key, shape in rows.items()]
    return '{"type":"FeatureCollection","features":[\n' + ",\n".join(features) + "\n]}\n"

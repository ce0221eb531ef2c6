"""Reads CSV with a column of well-known text, or with columns of x and y; each record is told with its line."""

import csv
import io
import sys

import wkt
from common import Progress, Refused
from fitting import sane
from geojson import Feature

TEXTS = ("wkt", "geom", "geometry", "the_geom", "shape", "ewkt", "st_astext", "st_asewkt", "astext")
PAIRS = (("x", "y"), ("lon", "lat"), ("lng", "lat"), ("longitude", "latitude"), ("easting", "northing"))


def place_of(file, header, name):
    """The place of a column, whose name is read in either case."""
    names = [it.strip().lower() for it in header]
    if name.lower() not in names:
        raise Refused(file, 1, f"there is no column {name!r} among {', '.join(header)}")
    return names.index(name.lower())


def columns_of(file, header, text, pair):
    """The places of the column of texts, or of those of x and y: as they are named, else the first that are known."""
    names = [it.strip().lower() for it in header]
    if text:
        return [place_of(file, header, text)]
    if pair:
        return [place_of(file, header, name) for name in pair]
    for name in TEXTS:
        if name in names:
            return [names.index(name)]
    for known in PAIRS:
        if all(name in names for name in known):
            return [names.index(name) for name in known]
    raise Refused(file, 1, "no column has a known name: name one with --wkt, or two with --xy")


def shape_of(fields):
    """The shape of a text, or of an x and a y."""
    if len(fields) == 1 and not fields[0].strip():
        raise wkt.Fault("it has no geometry")
    shape = wkt.read(fields[0]) if len(fields) == 1 else wkt.Shape("POINT", tuple(map(number_of, fields)))
    if any(sane(value) is None for spot in wkt.spots(shape) for value in spot):
        raise wkt.Fault("a number of more than 40 digits")
    return shape


def number_of(field):
    """The number of a field."""
    return wkt.number(field.strip())


def feature_of(line, number, header, record, places):
    """The feature of a record."""
    name, properties = f"record {number}", dict(zip(map(str.strip, header), record))
    try:
        if len(record) != len(header):
            raise wkt.Fault(f"{len(record)} fields, where the first line has {len(header)}")
        return Feature(line, name, properties, shape_of([record[at] for at in places]), "")
    except wkt.Fault as fault:
        return Feature(line, name, properties, None, str(fault))


def read(file, text, delimiter, column, pair, quiet):
    """The features of a text."""
    csv.field_size_limit(sys.maxsize)
    reader = csv.reader(io.StringIO(text, newline=""), delimiter=delimiter, strict=True)
    progress, found, line = Progress(file, quiet), [], 1
    try:
        header = next(reader, None)
        if not header:
            raise Refused(file, 1, "the names of the columns must stand in the first line")
        places = columns_of(file, header, column, pair)
        line = reader.line_num + 1
        for record in reader:
            if record:
                found.append(feature_of(line, len(found) + 1, header, record, places))
                progress.tell(len(found), "records")
            line = reader.line_num + 1
    except csv.Error as error:
        raise Refused(file, line, f"no CSV: {error}") from None
    return found

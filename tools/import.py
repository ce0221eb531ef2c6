#!/usr/bin/env python3
"""Makes row lines of GeoJSON, or of CSV with well-known text or with x and y.

    tools/import.py FILE [-o OUT] [--offset X Y] [--scale S] [--key NAME] [--skip] [--parts] [--flat] [--autogrid]

A file whose name ends in .csv or .tsv is read as CSV, any other as GeoJSON; --format says otherwise. Coordinates become
whole numbers: the offset is taken away, the scale multiplies, and what is left behind the dot is rounded, of two that
are as near to the even one. What isn't given is chosen from the bounds and the digits: the greatest power of ten up to
that which keeps all digits. A comment line tells both, so that tools/export.py can undo it, and a second one what was
rounded, closed and left out. Keys are counted from 1, or from --first, or are those of a property or column. What
doesn't fit is refused with its line and reason; with --skip it is left out, told and counted.
"""

import argparse
import sys

import fitting
import geojson
import tables
import wkt
from common import Progress, Refused, add_quiet, read_text, run, write_text
from fitting import Fitter, plain

KEYS = 4_294_967_295


def parser_of():
    """The words that may stand."""
    parser = argparse.ArgumentParser(prog="import.py", description="Makes row lines of GeoJSON or CSV.")
    parser.add_argument("file", metavar="FILE", help="what is read, - for standard input")
    parser.add_argument("-o", dest="out", metavar="OUT", help="where the lines are written")
    parser.add_argument("--format", choices=("geojson", "csv"), help="what FILE holds, where its name doesn't tell")
    parser.add_argument("--offset", nargs=2, metavar=("X", "Y"), help="what is taken from the coordinates")
    parser.add_argument("--scale", metavar="S", help="what multiplies them then")
    parser.add_argument("--key", metavar="NAME", help="the property or column of the key")
    parser.add_argument("--first", type=int, default=1, metavar="N", help="the first key, 1 if left out")
    parser.add_argument("--wkt", metavar="COLUMN", help="the column of well-known text")
    parser.add_argument("--xy", nargs=2, metavar=("X", "Y"), help="the columns of x and y")
    parser.add_argument("--delimiter", metavar="C", help="what stands between fields: a comma, or a tab in .tsv")
    parser.add_argument("--skip", action="store_true", help="leave out what doesn't fit")
    parser.add_argument("--parts", action="store_true", help="make a row of each member of a shape of several")
    parser.add_argument("--flat", action="store_true", help="take the first two numbers of each spot")
    parser.add_argument("--autogrid", nargs="?", const="", metavar="CELLS", help="begin with a grid of the bounds")
    add_quiet(parser)
    return parser


def positive(parser, word):
    """The scale of a word."""
    value = fitting.number_of(word)
    if value is None or value <= 0:
        parser.error(f"{word!r} is no scale")
    return value


def words_of():
    """The words of the command line, with their numbers read."""
    parser = parser_of()
    words = parser.parse_args()
    if words.offset:
        words.offset = [fitting.number_of(word) for word in words.offset]
        if None in words.offset:
            parser.error("the offset is two numbers")
    words.scale = positive(parser, words.scale) if words.scale else None
    if words.parts and words.key:
        parser.error("the members of a shape can't have its key: leave out --parts or --key")
    if words.wkt and words.xy:
        parser.error("either a column of well-known text or two of x and y")
    if not 0 <= words.first <= KEYS:
        parser.error(f"keys are from 0 to {KEYS}")
    if words.autogrid and not (words.autogrid.isdecimal() and 1 <= int(words.autogrid) <= 8192):
        parser.error("CELLS are from 1 to 8192")
    ending = words.file.lower().rpartition(".")[2]
    words.format = words.format or ("csv" if ending in ("csv", "tsv") else "geojson")
    words.delimiter = words.delimiter or ("\t" if ending == "tsv" else ",")
    if len(words.delimiter) != 1:
        parser.error("one byte stands between fields")
    return words


def features_of(words):
    """The features of the file."""
    text = read_text(words.file)
    if words.format == "csv":
        return tables.read(words.file, text, words.delimiter, words.wkt, words.xy, words.quiet)
    return geojson.read(words.file, text, words.quiet)


class Import:
    """The rows that are made, and what was left out."""

    def __init__(self, words):
        self.words, self.rows, self.count, self.left_out = words, {}, fitting.Count(), 0

    def refuse(self, feature, what):
        """Refuses a feature, or leaves it out."""
        told = Refused(self.words.file, feature.line, f"{feature.name}: {what}")
        if not self.words.skip:
            raise told
        print(f"{told} (left out)", file=sys.stderr)
        self.left_out += 1

    def members(self, feature):
        """The points, lines and polygons of a feature, which are several only where that is asked for."""
        if feature.shape is None:
            raise wkt.Fault(feature.fault)
        members = wkt.singles(feature.shape)
        kind = feature.shape.kind
        if not members:
            raise wkt.Fault(f"a {kind} without members")
        if len(members) > 1 and not self.words.parts:
            raise wkt.Fault(f"a {kind} of {len(members)} members; --parts makes a row of each")
        return members

    def key(self, feature):
        """The key of a feature."""
        if self.words.key is None:
            return self.words.first + len(self.rows)
        value = feature.properties.get(self.words.key)
        words = str(value).strip()
        if isinstance(value, bool) or not words.isdecimal():
            raise wkt.Fault(f"its {self.words.key!r} is no key: {value}")
        return int(words)

    def add(self, feature, shapes):
        """Adds the rows of a feature whose shapes are whole."""
        for shape in shapes:
            key = self.key(feature)
            if key > KEYS:
                raise wkt.Fault(f"the key {key} is above {KEYS}")
            if key in self.rows:
                raise wkt.Fault(f"the key {key} comes twice")
            self.rows[key] = shape

    def take(self, fitter, feature, members):
        """Takes one feature: all of its members, or none where one doesn't fit."""
        try:
            found = [fitter.shape(member) for member in members]
            self.add(feature, [shape for shape, _ in found])
        except wkt.Fault as fault:
            self.refuse(feature, str(fault))
            return
        for _, count in found:
            self.count.add(count)

    def all(self, features):
        """Takes all features, and answers the fit."""
        sound = []
        for feature in features:
            try:
                sound.append((feature, self.members(feature)))
            except wkt.Fault as fault:
                self.refuse(feature, str(fault))
        shapes = [member for _, members in sound for member in members]
        fit = fitting.chosen(shapes, self.words.offset, self.words.scale)
        if fit is None:
            raise Refused(self.words.file, 0, "no offset and scale bring the coordinates within the limits")
        fitter, progress = Fitter(fit, self.words.flat), Progress(self.words.file, self.words.quiet)
        for at, (feature, members) in enumerate(sound, 1):
            self.take(fitter, feature, members)
            progress.tell(at, "features fitted", len(sound))
        return fit

    def told(self):
        """What was done, in one line."""
        most = f", by {plain(self.count.most.normalize())} at most" if self.count.rounded else ""
        return (f"{len(self.rows)} rows, {self.left_out} left out, {self.count.closed} rings closed, "
                f"{self.count.rounded} coordinates rounded{most}")


def grid_line(words, rows):
    """The grid line of the rows' bounds, where one is asked for."""
    if words.autogrid is None:
        return []
    xmin, ymin, xmax, ymax = wkt.bounds(rows.values()) or (0, 0, 1, 1)
    xmax, ymax = max(xmax, xmin + 1), max(ymax, ymin + 1)
    if max(xmax, ymax) > fitting.LIMIT:
        raise Refused(words.file, 0, "the rows lie on one line at the limit, so that no grid is around them")
    return [f"autogrid {xmin} {ymin} {xmax} {ymax} {words.autogrid}".rstrip()]


def main():
    """Reads the file and writes its rows."""
    words = words_of()
    made = Import(words)
    fit = made.all(features_of(words))
    lines = [fit.text(), "# " + made.told(), *grid_line(words, made.rows)]
    lines += [f"row {key} {wkt.write(made.rows[key])}" for key in sorted(made.rows)]
    write_text(words.out, "\n".join(lines) + "\n")
    if not words.quiet:
        print(made.told(), file=sys.stderr)
    return 0


if __name__ == "__main__":
    run(main)

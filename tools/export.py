#!/usr/bin/env python3
"""Makes GeoJSON of the rows of a report, or of the opening rows of a script.

    tools/export.py FILE [-o OUT] [--like SCRIPT | --offset X Y --scale S]

The whole coordinates are divided by the scale, and the offset is added: those of the comment line that
tools/import.py has put into SCRIPT, or into FILE itself, or those that are given; 0, 0 and 1 where there are none.
"""

import argparse
from decimal import Decimal

import fitting
import geojson
from common import Refused, add_quiet, read_text, run, write_text
from fitting import Fit
from reports import is_report, read_report
from scripts import load_script, read_script


def words_of():
    """The words of the command line, with their numbers read."""
    parser = argparse.ArgumentParser(prog="export.py", description="Makes GeoJSON of rows.")
    parser.add_argument("file", metavar="FILE", help="a report or a script, - for standard input")
    parser.add_argument("-o", dest="out", metavar="OUT", help="where the GeoJSON is written")
    parser.add_argument("--like", metavar="SCRIPT", help="the script whose comment tells the offset and the scale")
    parser.add_argument("--offset", nargs=2, metavar=("X", "Y"), help="what is added to the coordinates")
    parser.add_argument("--scale", metavar="S", help="what they are divided by before")
    add_quiet(parser)
    words = parser.parse_args()
    if (words.offset is None) != (words.scale is None):
        parser.error("--offset and --scale go together")
    if words.offset and words.like:
        parser.error("either --like or --offset and --scale")
    if words.offset:
        numbers = [fitting.number_of(word) for word in (*words.offset, words.scale)]
        if None in numbers or numbers[2] <= 0:
            parser.error("the offset is two numbers, and the scale one above 0")
        words.fit = Fit(*numbers)
    return words


def fit_of(words, script):
    """The offset and scale to be undone."""
    if words.offset:
        return words.fit
    if words.like:
        script = load_script(words.like, words.quiet)
    if script is None or script.fit is None:
        if words.like:
            raise Refused(words.like, 0, "no comment tells an offset and a scale")
        return Fit(Decimal(0), Decimal(0), Decimal(1))
    numbers = [fitting.number_of(word) for word in script.fit]
    if None in numbers or numbers[2] <= 0:
        raise Refused(script.file, 0, "the comment of the offset and the scale has no sound numbers")
    return Fit(*numbers)


def main():
    """Reads the rows and writes them."""
    words = words_of()
    text = read_text(words.file)
    script = None if is_report(text) else read_script(words.file, text, words.quiet)
    rows = (script or read_report(words.file, text, words.quiet)).rows
    write_text(words.out, geojson.collection(rows, fit_of(words, script).back))
    return 0


if __name__ == "__main__":
    run(main)

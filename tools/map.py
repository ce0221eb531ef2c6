#!/usr/bin/env python3
"""Draws the rows of a script or of a report as a map, with the cells of a row or of a query.

    tools/map.py SCRIPT [REPORT] [--row KEY | --query S.T.N] [--program PROGRAM] [--box XMIN YMIN XMAX YMAX]
    tools/map.py REPORT

An SVG is written to OUT (-o), else to standard output. Which file is the script is seen from the texts. The rows drawn
are the report's where there is one, else the script's; with a query, those that it has seen, by the commits of the
report. With --row or --query the cells of the row or of the query are drawn with their marks and levels: PROGRAM, the
built spatial_cli, tells them; without it those are drawn whose keys the report's labels name. A query is named by its
session, transaction and statement, as 1.2.3; with a report the rows that it found are drawn apart.
"""

import argparse

import asked
from common import Refused, add_quiet, ask, program_at, read_text, run, write_text
from drawing import Map, Scene
from reports import is_report, read_report, seen_by
from scripts import QUERIES, read_script


def words_of():
    """The words of the command line."""
    parser = argparse.ArgumentParser(prog="map.py", description="Draws rows, cells and a query as a map.")
    parser.add_argument("files", nargs="+", metavar="FILE", help="a script, a report, or one of each")
    parser.add_argument("-o", dest="out", metavar="OUT", help="where the SVG is written")
    parser.add_argument("--row", type=int, metavar="KEY", help="draw this row's cells")
    parser.add_argument("--query", metavar="S.T.N", help="draw this query, its cells and what it found")
    parser.add_argument("--program", metavar="PROGRAM", help="the built spatial_cli, which tells cells and marks")
    parser.add_argument("--box", nargs=4, type=int, metavar=("XMIN", "YMIN", "XMAX", "YMAX"), help="draw only this")
    parser.add_argument("--width", type=int, default=900, metavar="N", help="how wide the map is, 900 if left out")
    add_quiet(parser)
    words = parser.parse_args()
    check(parser, words)
    return parser, words


def check(parser, words):
    """Ends with the usage where words don't go together."""
    if len(words.files) > 2:
        parser.error("there is one script and one report at most")
    if words.box and (words.box[0] >= words.box[2] or words.box[1] >= words.box[3]):
        parser.error("the box has no inside")
    if words.row is not None and words.query is not None:
        parser.error("either the cells of a row are drawn or those of a query")
    if not 100 <= words.width <= 10_000:
        parser.error("the width is from 100 to 10000")


def read_files(parser, words):
    """The script and the report, each None where there is none."""
    script = report = None
    for file in words.files:
        text = read_text(file)
        if is_report(text) and report is None:
            report = read_report(file, text, words.quiet)
        elif not is_report(text) and script is None:
            script = read_script(file, text, words.quiet)
        else:
            parser.error("two files of one kind")
    if script is None and (words.row is not None or words.query is not None):
        parser.error("cells are drawn in the grid of a script")
    return script, report


def row_cells(words, script, report, rows):
    """The cells of the row that is named."""
    if words.row not in rows:
        raise Refused(words.files[0], 0, f"there is no row {words.row}")
    if script.grid is None:
        return []
    if words.program is None:
        return asked.labelled_cells(report, words.row)
    return asked.cells_by(program_at(words.program), script.grid, script.grid.cells, rows[words.row])


def query_cells(words, script, report, grown):
    """The cells of the query that is named."""
    if script.grid is None:
        return []
    if words.program is None:
        return asked.locked_by(report, words.query)
    return asked.cells_by(program_at(words.program), script.grid, script.window, grown)


def report_of(words, script, report):
    """The report of a query's run: the one that was read, else what the program prints of the script."""
    if report is not None:
        return report
    if words.program is None:
        raise Refused(script.file, 0, "what a query found is told by a report, or by a program that makes one")
    program = program_at(words.program)
    return read_report(program, ask(program, ["replay", "--labels"], read_text(script.file)), words.quiet)


def query_scene(words, script, report):
    """The scene of a query: what it has seen, what it found, and its cells."""
    statement = script.statement(words.query)
    if statement.kind not in QUERIES:
        raise Refused(script.file, statement.line, f"{statement.kind} is no query of shapes")
    report = report_of(words, script, report)
    rows, found = seen_by(script, report, words.query)
    grown = asked.grown(statement.shape, statement.bound) if statement.bound else statement.shape
    cells = query_cells(words, script, report, grown)
    told = "" if script.grid is None else "cells of the query" if words.program else "cells of keys that it locked"
    title = f"{statement.kind} {statement.test or ''} of session {words.query.split('.')[0]}"
    return Scene(title, rows, found, "found", statement.shape, grown, cells, told, script.grid)


def scene_of(words, script, report):
    """The scene that the words ask for."""
    if words.query is not None:
        return query_scene(words, script, report)
    rows = (report or script).rows
    grid = script.grid if script else None
    if words.row is None:
        return Scene(f"{len(rows)} rows", rows, [], "", None, None, [], "", grid)
    told = "" if grid is None else f"cells of row {words.row}"
    cells = row_cells(words, script, report, rows)
    return Scene(f"row {words.row}", rows, [words.row], "named", None, None, cells, told, grid)


def main():
    """Draws the map."""
    parser, words = words_of()
    script, report = read_files(parser, words)
    write_text(words.out, Map(scene_of(words, script, report), words.box, words.width).draw())
    return 0


if __name__ == "__main__":
    run(main)

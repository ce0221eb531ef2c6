"""The cells of shapes as the program tells them, and those that a run's labels name.

The program says which cells a shape has: it is inserted as a row, and the labels `put cell C row K` name its cells.
The program says which of them it covers: a plan of one point, the lower left corner of a cell, which is a point of the
cell, counts the row as sure exactly where the row's cell there is covered.
"""

import re
from typing import NamedTuple

import wkt
from cells import OUT
from common import Refused, ask
from reports import read_report

LIMIT = 16_000_000
PLAN = re.compile(r"plan ([0-9]+) ([0-9]+) [0-9]+ keys")
MET, COVERED, CONTAINED, LOCKED = "met", "covered", "contained", "locked"


class Cell(NamedTuple):
    """A cell's path and its mark: it is met by the shape, it is covered by it, or the shape is contained in it; or,
    where labels tell no more, its key was locked."""

    path: str
    mark: str


def grown(shape, bound):
    """The shape whose cells a query of distances has: the bounds, moved out by the bound, within the limits."""
    found = wkt.bounds([shape])
    if found is None:
        return shape
    low = [max(value - bound, -LIMIT) for value in found[:2]]
    high = [min(value + bound, LIMIT) for value in found[2:]]
    if low == high:
        return wkt.Shape("POINT", tuple(low))
    if low[0] == high[0] or low[1] == high[1]:
        return wkt.Shape("LINESTRING", [tuple(low), tuple(high)])
    corners = [(low[0], low[1]), (high[0], low[1]), (high[0], high[1]), (low[0], high[1]), (low[0], low[1])]
    return wkt.Shape("POLYGON", [corners])


def put_cells(labels, key):
    """The paths of the cells whose keys of this row were put, in order."""
    cells = [label.cell() for label in labels if label.kind == "put"]
    return [cell[0] for cell in cells if cell and cell[1] == key]


def cells_by(program, grid, limit, shape):
    """The cells of a shape under a limit, with their marks, as the program tells them."""
    head = f"{grid.line} {limit}\n"
    insert = f"{head}session 1\nbegin\ninsert 1 {wkt.write(shape)}\ncommit\n"
    report = read_report(program, ask(program, ["replay", "--labels"], insert), True)
    paths = put_cells(report.labels, 1)
    inside = [path for path in paths if path != OUT]
    plans = "".join("plan intersects POINT ({} {})\n".format(*grid.box(path)[:2]) for path in inside)
    question = f"{head}row 1 {wkt.write(shape)}\nsession 1\nbegin\n{plans}commit\n"
    answers = read_report(program, ask(program, ["replay"], question), True).commits[0].answers
    marks = dict(zip(inside, map(mark_of, answers)))
    if len(paths) == 1 and inside and marks[inside[0]] == MET:
        marks[inside[0]] = CONTAINED
    return [Cell(path, marks.get(path, MET)) for path in paths]


def mark_of(answer):
    """The mark that a plan of a point in the cell tells."""
    return COVERED if PLAN.match(answer).group(2) == "1" else MET


def asked_stretch(report, name):
    """The labels of a statement, from its ask to its answer."""
    session, transaction, number = map(int, name.split("."))
    found, begun, asked = [], 0, 0
    for label in report.labels or []:
        if label.session != session:
            continue
        begun = label.number if label.kind == "begin" else begun
        asked = label.number if label.kind == "ask" else 0 if label.kind == "begin" else asked
        if (begun, asked) == (transaction, number):
            found.append(label)
    return found


def locked_by(report, name):
    """The cells whose keys a statement locked, each once, as the labels of a run tell."""
    cells = [label.cell() for label in asked_stretch(report, name) if label.kind in ("take", "put")]
    return [Cell(path, LOCKED) for path in dict.fromkeys(cell[0] for cell in cells if cell)]


def labelled_cells(report, key):
    """The cells of a row whose keys the labels of a run name."""
    if report is None or report.labels is None:
        raise Refused(report.file if report else "map", 0, "cells are told by a program or by a report with labels")
    cells = [label.cell() for label in report.labels if label.kind in ("take", "put")]
    return [Cell(path, LOCKED) for path in dict.fromkeys(cell[0] for cell in cells if cell and cell[1] == key)]

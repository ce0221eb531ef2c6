#!/usr/bin/env python3
"""Tells which fronts of a script are scripts themselves, by a reader of its own.

    bench/fronts.py SCRIPT

The script is cut behind each of its bytes, and before the first. Printed are the lengths of the fronts that are scripts,
from the first to the last of neighbours a line, which is what a file `cuts` of tests/README.md says: those of examples/
are made so. The reader knows the lines of the examples that are cut: first, phantom and deadlock.
"""

import pathlib
import re
import sys

NUMBER = r"-?\d+"
SPOT = rf"{NUMBER} {NUMBER}"
SHAPE = rf"(POINT \({SPOT}\)|POLYGON \(\(({SPOT}, )+{SPOT}\)\))"
GRID = re.compile(rf"grid( {NUMBER}){{4}}( (low|medium|high)){{4}}( \d+)?|grid( {NUMBER}){{4}}")
ROW = re.compile(rf"row \d+ {SHAPE}")
SESSION = re.compile(r"session \d+")
STATEMENT = re.compile(rf"(insert|update) \d+ {SHAPE}|(get|delete) \d+|select intersects {SHAPE}")
SCHEDULE = re.compile(r"schedule( \d+)*")


def is_box(line):
    """Whether the box of a grid line has a width and a height."""
    left, bottom, right, top = map(int, line.split()[1:5])
    return left < right and bottom < top


def is_script(text):
    """Whether each line may stand where it stands, and no transaction is open at the end."""
    is_open = in_sessions = False
    for line in (line.strip(" \t\r") for line in text.split("\n")):
        if not line or line.startswith("#"):
            continue
        if GRID.fullmatch(line):
            stands = not in_sessions and is_box(line)
        elif ROW.fullmatch(line):
            stands = not in_sessions
        elif SESSION.fullmatch(line):
            stands, in_sessions = not is_open, True
        elif line == "begin":
            stands, is_open = in_sessions and not is_open, True
        elif line in ("commit", "rollback"):
            stands, is_open = is_open, False
        elif SCHEDULE.fullmatch(line):
            stands = not is_open
        else:
            stands = is_open and STATEMENT.fullmatch(line) is not None
        if not stands:
            return False
    return not is_open


def ranges(lengths):
    """The first and the last of each run of neighbours among rising numbers."""
    found = []
    for length in lengths:
        if found and found[-1][1] == length - 1:
            found[-1][1] = length
        else:
            found.append([length, length])
    return found


def main():
    if len(sys.argv) != 2:
        print(__doc__, file=sys.stderr)
        return 2
    text = pathlib.Path(sys.argv[1]).read_text(encoding="ascii")
    for first, last in ranges(end for end in range(len(text) + 1) if is_script(text[:end])):
        print(first, last)
    return 0


if __name__ == "__main__":
    sys.exit(main())

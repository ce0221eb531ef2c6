#!/usr/bin/env python3
"""Times selects through the grid index, and prints the figures. Nothing is asserted on time.

    bench/index.py PROGRAM

PROGRAM is the built spatial_cli. Tables of 200, 1,000 and 5,000 random rectangles are searched with 1,000 small
windows. The time of the selects is that of the processor for a script that has them several times over, less that for a
script that has them once, divided by how many times more; the least of several runs each. The exponent tells how it grows from one table to the next: 1 would be the
growth of the table itself. Where sqlite3 with SpatiaLite is installed, its times for the same rows and windows, with
its R-tree, stand beside, and the numbers of keys found are compared.
"""

import math
import os
import random
import resource
import shutil
import subprocess
import sys
import tempfile

RUNS = 2
TIMES = 21
SIDE = 100_000
SELECTS = 1_000
WINDOW = 200
EXTENSIONS = ("/usr/lib/x86_64-linux-gnu/mod_spatialite.so",)


def box(largest):
    x, y = random.randrange(SIDE - largest), random.randrange(SIDE - largest)
    w, h = random.randint(1, largest), random.randint(1, largest)
    return f"POLYGON (({x} {y}, {x + w} {y}, {x + w} {y + h}, {x} {y + h}, {x} {y}))"


def script(rows, windows, grid):
    lines = [f"grid 0 0 {SIDE} {SIDE}"] if grid else []
    lines += [f"row {key} {shape}" for key, shape in enumerate(rows, 1)]
    lines += ["session 1", "begin"]
    lines += [f"select intersects {window}" for window in windows]
    lines += ["commit"]
    return "\n".join(lines) + "\n"


def processor(words, text):
    """The least processor time of several runs, and what the last one printed."""
    best = math.inf
    for _ in range(RUNS):
        before = resource.getrusage(resource.RUSAGE_CHILDREN)
        done = subprocess.run(words, input=text.encode(), capture_output=True, check=True)
        after = resource.getrusage(resource.RUSAGE_CHILDREN)
        best = min(best, after.ru_utime - before.ru_utime + after.ru_stime - before.ru_stime)
    return best, done.stdout.decode()


def found(text):
    return sum(len(line.split()) - 1 for line in text.splitlines() if line.startswith("  keys"))


def own(program, rows, windows, grid):
    """Load and select times of the program, and how many keys it found."""
    load, _ = processor([program, "replay"], script(rows, [], grid))
    once, text = processor([program, "replay"], script(rows, windows, grid))
    often, _ = processor([program, "replay"], script(rows, windows * TIMES, grid))
    return load, max(often - once, 1e-6) / (TIMES - 1), found(text)


def spatialite(extension, rows, windows):
    """Load and select times of SpatiaLite with its R-tree."""
    head = [f"SELECT load_extension('{extension}');", "SELECT InitSpatialMetaData(1);", "CREATE TABLE t (k INTEGER PRIMARY KEY);"]
    head += ["SELECT AddGeometryColumn('t', 'g', 0, 'POLYGON', 'XY');", "BEGIN;"]
    head += [f"INSERT INTO t VALUES ({key}, GeomFromText('{shape}', 0));" for key, shape in enumerate(rows, 1)]
    head += ["COMMIT;", "SELECT CreateSpatialIndex('t', 'g');"]
    asks = [
        f"SELECT 'keys', k FROM t WHERE ROWID IN (SELECT ROWID FROM SpatialIndex WHERE f_table_name = 't' "
        f"AND search_frame = GeomFromText('{window}', 0)) AND Intersects(g, GeomFromText('{window}', 0));"
        for window in windows
    ]
    load, _ = processor(["sqlite3", ":memory:"], "\n".join(head))
    once, text = processor(["sqlite3", ":memory:"], "\n".join(head + asks))
    often, _ = processor(["sqlite3", ":memory:"], "\n".join(head + asks * TIMES))
    return load, max(often - once, 1e-6) / (TIMES - 1), sum(line.startswith("keys") for line in text.splitlines())


def main():
    program = sys.argv[1]
    random.seed(7)
    windows = [box(WINDOW) for _ in range(SELECTS)]
    extension = next((e for e in EXTENSIONS if os.path.exists(e)), None) if shutil.which("sqlite3") else None
    before = None
    for count in (200, 1_000, 5_000):
        rows = [box(900) for _ in range(count)]
        load, selects, keys = own(program, rows, windows, True)
        line = f"{count:5} rows  load {load * 1000:8.1f} ms  selects {selects * 1000:8.1f} ms  keys {keys:5}"
        if before:
            line += f"  exponent {math.log(selects / before[1]) / math.log(count / before[0]):5.2f}"
        before = (count, selects)
        if count <= 200:
            _, plain, same = own(program, rows, windows, False)
            line += f"  without an index {plain * 1000:8.1f} ms"
            line += "" if same == keys else f"  OTHER KEYS {same}"
        if extension:
            lite_load, lite, same = spatialite(extension, rows, windows)
            line += f"  SpatiaLite load {lite_load * 1000:8.1f} ms  selects {lite * 1000:8.1f} ms"
            line += "" if same == keys else f"  OTHER KEYS {same}"
        print(line, flush=True)


if __name__ == "__main__":
    main()

#!/usr/bin/env python3
"""Times selects whose candidates are shared among 1, 2 and 4 workers, and prints the figures. Nothing is
asserted on time.

    bench/workers.py PROGRAM [CORES]

PROGRAM is the built spatial_cli, and CORES, 2 where it is left out, how many processors it may use. The table has
4,000 stars of 256 spots each and no grid, so a select tests each of them against another star, which lies in all of
them: that takes the whole sweep, where one that is settled early costs hardly more than the copy of the row into the
job. A figure is the time by the clock of a script with 3 selects, less that of a script that has none, for each
select; the least of three runs each. The keys that were found have to be the same.
"""

import math
import os
import random
import subprocess
import sys
import time

RUNS = 3
ROWS = 4_000
SPOTS = 256
SELECTS = 3
WORKERS = (1, 2, 4)


def star(centre, inner, outer):
    """A star polygon."""
    spots = []
    for k in range(SPOTS):
        radius = outer if k % 2 == 0 else inner
        angle = 2 * math.pi * k / SPOTS
        spots.append((round(centre[0] + radius * math.cos(angle)), round(centre[1] + radius * math.sin(angle))))
    return "POLYGON ((" + ", ".join(f"{x} {y}" for x, y in spots + spots[:1]) + "))"


def run(program, workers, script):
    """The least time by the clock of several runs, and what the last one printed of the select."""
    best = math.inf
    for _ in range(RUNS):
        start = time.perf_counter()
        done = subprocess.run([program, "replay", "--workers", str(workers)], input=script, capture_output=True, check=True)
        best = min(best, time.perf_counter() - start)
    return best, [line for line in done.stdout.split(b"\n") if line.startswith(b"  keys")]


def main():
    program = sys.argv[1]
    cores = sorted(os.sched_getaffinity(0))[: int(sys.argv[2]) if len(sys.argv) > 2 else 2]
    os.sched_setaffinity(0, cores)
    random.seed(7)
    rows = [star((random.randint(-900_000, 900_000), random.randint(-900_000, 900_000)), 6_000_000, 9_000_000) for _ in range(ROWS)]
    table = "".join(f"row {key} {row}\n" for key, row in enumerate(rows, 1)) + "session 1\nbegin\n"
    query = star((0, 0), 1_000_000, 1_200_000)
    without = (table + "commit\n").encode()
    script = (table + f"select contains {query}\n" * SELECTS + "commit\n").encode()
    print(f"{ROWS} candidates of {SPOTS} spots, {len(cores)} processors")
    first = None
    for workers in WORKERS:
        rest, _ = run(program, workers, without)
        took, keys = run(program, workers, script)
        took = (took - rest) / SELECTS
        first = first or (took, keys)
        line = f"{workers} workers  select {took * 1000:9.1f} ms  all else {rest * 1000:9.1f} ms  {first[0] / took:5.2f} times as fast as one"
        print(line + ("" if keys == first[1] else "  OTHER KEYS"), flush=True)


if __name__ == "__main__":
    main()

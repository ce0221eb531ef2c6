#!/usr/bin/env python3
"""Times the ordered store and what rests on it, and prints the figures. Nothing is asserted on time.

    bench/pages.py PAGES_BENCH [SPATIAL_CLI]

PAGES_BENCH is the built pages_bench: stores of 1,000, 10,000 and 100,000 keys are filled in no order, looked up, stepped
through and half emptied. A call's time is the processor time of many rounds less that of one, divided by the further
rounds and the calls of each; of a removal, less the filling as well. The least of several runs counts. The exponent
tells how a call's time grows from the smallest store to the largest: 0 would be a time that doesn't grow.

SPATIAL_CLI is the built spatial_cli: scripts insert 20,000 and 200,000 rows in no order, and the exponent is that of the
whole time: 1 would be a time in proportion to the rows.
"""

import math
import random
import resource
import subprocess
import sys

RUNS = 5
COUNTS = (1_000, 10_000, 100_000)
CALLS = 1_000_000
ROWS = (20_000, 200_000)
SIDE = 1_000_000


def processor(words, text=""):
    """The least processor time of several runs."""
    best = math.inf
    for _ in range(RUNS):
        before = resource.getrusage(resource.RUSAGE_CHILDREN)
        subprocess.run(words, input=text.encode(), capture_output=True, check=True)
        after = resource.getrusage(resource.RUSAGE_CHILDREN)
        best = min(best, after.ru_utime - before.ru_utime + after.ru_stime - before.ru_stime)
    return best


def round_time(program, task, count):
    """The time of one round of a task."""
    rounds = CALLS // count
    often = processor([program, task, str(count), str(rounds + 1)])
    once = processor([program, task, str(count), "1"])
    return max(often - once, 1e-9) / rounds


def exponent(small, large, growth):
    return math.log(large / small) / math.log(growth)


def stores(program):
    times = {"insert": [], "find": [], "step": [], "remove": []}
    for count in COUNTS:
        filling = round_time(program, "insert", count)
        times["insert"].append(filling / count)
        times["find"].append(round_time(program, "find", count) / count)
        times["step"].append(round_time(program, "step", count) / count)
        times["remove"].append(max(round_time(program, "remove", count) - filling, 1e-9) / (count / 2))
    for task, each in times.items():
        figures = "  ".join(f"{count:7,} keys {time * 1e9:7.1f} ns" for count, time in zip(COUNTS, each))
        print(f"{task:7} {figures}  exponent {exponent(each[0], each[-1], COUNTS[-1] / COUNTS[0]):5.2f}", flush=True)


def script(count):
    keys = list(range(1, count + 1))
    random.shuffle(keys)
    lines = ["session 1", "begin"]
    lines += [f"insert {key} POINT ({random.randrange(SIDE)} {random.randrange(SIDE)})" for key in keys]
    lines += ["commit"]
    return "\n".join(lines) + "\n"


def rows(program):
    times = [processor([program, "replay"], script(count)) for count in ROWS]
    figures = "  ".join(f"{count:7,} rows {time:7.2f} s" for count, time in zip(ROWS, times))
    print(f"{'script':7} {figures}  exponent {exponent(times[0], times[1], ROWS[1] / ROWS[0]):5.2f}", flush=True)


def main():
    random.seed(7)
    stores(sys.argv[1])
    if len(sys.argv) > 2:
        rows(sys.argv[2])


if __name__ == "__main__":
    main()

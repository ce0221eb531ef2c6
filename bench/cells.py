#!/usr/bin/env python3
"""Times the cutting of shapes into cells, and prints the figures. Nothing is asserted on time.

    bench/cells.py PROGRAM

PROGRAM is the built cells_bench. Each figure is the time of one shape: the least of three runs of many
rounds over the shapes, less that of one round, divided by the number of further rounds and of shapes.
"""

import math
import random
import subprocess
import sys
import time

RUNS = 3


def points(count):
    return [f"POINT ({random.randint(-16_000_000, 16_000_000)} {random.randint(-16_000_000, 16_000_000)})" for _ in range(count)]


def boxes(count, side):
    shapes = []
    for _ in range(count):
        x, y = (random.randint(-15_000_000, 15_000_000) for _ in range(2))
        shapes.append(f"POLYGON (({x} {y}, {x + side} {y}, {x + side} {y + side}, {x} {y + side}, {x} {y}))")
    return shapes


def rectangles(count, least, most, side):
    shapes = []
    for _ in range(count):
        x, y = (random.randint(least, most - side) for _ in range(2))
        w, h = (random.randint(1, side) for _ in range(2))
        shapes.append(f"POLYGON (({x} {y}, {x + w} {y}, {x + w} {y + h}, {x} {y + h}, {x} {y}))")
    return shapes


def star(count, inner, outer):
    spots = []
    for k in range(count):
        radius = outer if k % 2 == 0 else inner
        angle = 2 * math.pi * k / count
        spots.append(f"{round(radius * math.cos(angle))} {round(radius * math.sin(angle))}")
    return [f"POLYGON (({', '.join(spots + spots[:1])}))"]


def seconds(program, words, text):
    best = math.inf
    for _ in range(RUNS):
        start = time.perf_counter()
        done = subprocess.run([program, *words], input=text.encode(), capture_output=True, check=True)
        best = min(best, time.perf_counter() - start)
    return best, done.stdout.decode().strip()


def show(program, name, shapes, density, limit, times):
    text = "\n".join(shapes) + "\n"
    once, cells = seconds(program, (density, str(limit), "1"), text)
    many, _ = seconds(program, (density, str(limit), str(times + 1)), text)
    took = max(many - once, 0.0) / times / len(shapes)
    print(f"{name:32} {density:7} limit {limit:5} {took * 1000:10.3f} ms   {int(cells) / len(shapes):9.1f} cells", flush=True)


def main():
    program = sys.argv[1]
    random.seed(7)
    for density in ("low", "medium", "high", "auto"):
        show(program, "points", points(200), density, 16, 5)
        show(program, "boxes of 10,000", boxes(100, 10_000), density, 16, 5)
        show(program, "boxes of 1,000,000", boxes(100, 1_000_000), density, 16, 5)
    for count in (64, 256, 2047):
        for limit in (16, 256, 8192):
            show(program, f"a star of {count} spots", star(count, 3_000_000, 9_000_000), "medium", limit, 5)
    for limit in (8, 256, 8192):
        show(program, "a star of 2047 spots", star(2047, 3_000_000, 9_000_000), "auto", limit, 5)
    show(program, "rows: 5,000 boxes up to 900,000", rectangles(5_000, -15_000_000, 15_000_000, 900_000), "medium", 16, 1)
    show(program, "windows: 1,000 boxes up to 200", rectangles(1_000, -10_000, 10_000, 200), "medium", 16, 5)
    show(program, "the whole box", ["POLYGON ((-16000000 -16000000, 16000000 -16000000, 16000000 16000000, -16000000 16000000, -16000000 -16000000))"], "high", 8192, 100)


if __name__ == "__main__":
    main()

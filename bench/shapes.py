#!/usr/bin/env python3
"""Times the built program on hard pairs of shapes, and prints the figures. Nothing is asserted on time.

    bench/shapes.py PROGRAM [WORD]

PROGRAM is the built spatial_cli; with a WORD only pairs whose name has it are timed. Each figure is the
processor time of one select: the least of three runs of a script with selects, less that of a script
that reads the same shapes and selects nothing, divided by the number of selects. A run of more than two
seconds isn't repeated, and one of more than 300 is cut off. Where Shapely is there (Debian's stands
under /usr/bin/python3), the processor time of the same predicate of GEOS is printed beside it, and the
ratio; else a line says that GEOS isn't there. Pairs that are timed at several sizes end with the
exponent of their growth, unless they take less than can be told from reading.
"""

import math
import resource
import subprocess
import sys
import time

try:
    from shapely import wkt
except ImportError:
    wkt = None

RUNS = 3
SIZES = (512, 2048)
LONG = 2.0
LONGEST = 300
LEAST = 0.2
MOST_SELECTS = 100
TOLD = 0.00002


def text(spots):
    return ", ".join(f"{x} {y}" for x, y in spots)


def polygon(*rings):
    return "POLYGON (" + ", ".join(f"({text(ring)})" for ring in rings) + ")"


def line(spots):
    return f"LINESTRING ({text(spots)})"


def closed(spots):
    return spots + spots[:1]


def star(count, centre, inner, outer, turn=0.0):
    """A star polygon of count spots, the last of which is the first."""
    spots = []
    for k in range(count - 1):
        radius = outer if k % 2 == 0 else inner
        angle = 2 * math.pi * (k + turn) / (count - 1)
        spots.append((round(centre[0] + radius * math.cos(angle)), round(centre[1] + radius * math.sin(angle))))
    return closed(spots)


def nested(count):
    return polygon(star(count, (0, 0), 6_000_000, 9_000_000)), polygon(star(count, (0, 0), 1_000_000, 2_000_000, 0.5))


def overlapping(count):
    return (polygon(star(count, (0, 0), 3_000_000, 9_000_000)),
            polygon(star(count, (4_000_000, 1_000_000), 3_000_000, 9_000_000, 0.5)))


def far_apart(count):
    return (polygon(star(count, (-9_000_000, 0), 100_000, 200_000)),
            polygon(star(count, (9_000_000, 0), 100_000, 200_000)))


def toothed(count, mirror):
    """A polygon whose teeth leave room for those of its mirror image, so that the two interlock and lie apart."""
    teeth = count // 4
    spots = []
    for k in range(teeth):
        y = 12_000 * k + (6_000 if mirror < 0 else 0)
        spots += [(-6_000_000, y), (5_000_000, y + 500), (5_000_000, y + 2_500), (-6_000_000, y + 3_000)]
    back = [(-7_000_000, spots[-1][1]), (-7_000_000, spots[0][1])]
    return closed([(mirror * x, y) for x, y in spots[:count - 3] + back])


def interlocked(count):
    return polygon(toothed(count, 1)), polygon(toothed(count, -1))


def border(count, side):
    """A box with one jagged side that both boxes have in common: the left or the right one."""
    jagged = [(1000 * (k % 2) + 37 * (k % 7), 5000 * k) for k in range(count - 3)]
    far = -6_000_000 if side == "left" else 6_000_000
    top = jagged[-1][1]
    return closed(jagged + [(far, top), (far, 0)])


def bordering(count):
    return polygon(border(count, "left")), polygon(border(count, "right"))


def zigzag(count, shift):
    """A line that goes up and down over all heights."""
    return [(7000 * k + shift, 12_000_000 * (k % 2) - 6_000_000 + 11 * k) for k in range(count)]


def zigzags(count):
    return line(zigzag(count, 0)), line(zigzag(count, 3333))


def comb(count, lean):
    """A line with long upright edges, or with such as lean, each by another little."""
    length = 5000 * (count // 2)
    spots = []
    for k in range(count // 2):
        ends = [(5000 * k + 1, -1 - lean * k), (5000 * k + 1 + lean * (37 + k), length + lean * 3 * k)]
        if k % 2:
            ends.reverse()
        spots += ends
    return spots


def combs(count):
    """The long edges of the one cross those of the other: a fourth of count² crossings, on few heights."""
    return line(comb(count, 0)), line([(y + 3, x + 5) for x, y in comb(count, 0)])


def tilted_combs(count):
    """The same, but each crossing has a height of its own."""
    return line(comb(count, 1)), line([(y + 3, x + 5) for x, y in comb(count, 1)])


def box(x, y, side):
    return closed([(x, y), (x + side, y), (x + side, y + side), (x, y + side)])


RELATIONS = ("intersects", "contains", "within", "equals", "touches")
PAIRS = (
    ("a star in a star", nested, RELATIONS),
    ("overlapping stars", overlapping, RELATIONS),
    ("interlocked, but apart", interlocked, ("intersects", "contains", "touches")),
    ("a jagged border in common", bordering, ("intersects", "touches")),
    ("zigzag lines", zigzags, ("intersects", "touches", "within")),
    ("two combs", combs, ("intersects", "touches")),
    ("two tilted combs", tilted_combs, ("intersects", "touches")),
    ("shapes that lie apart", far_apart, ("intersects", "touches")),
)
SMALL = (
    ("a point inside", "POINT (1000000 1000001)"),
    ("a point at a spot", "POINT (9000000 0)"),
    ("a point beside it", "POINT (6500000 6500000)"),
    ("a box inside", polygon(box(1_000_000, 1_000_000, 2000))),
    ("a box over the border", polygon(box(7_000_000, 1_000_000, 100_000))),
    ("a box beside it", polygon(box(8_900_000, 8_900_000, 2000))),
)


class TooLong(Exception):
    pass


def spent():
    """Processor seconds of the runs so far."""
    usage = resource.getrusage(resource.RUSAGE_CHILDREN)
    return usage.ru_utime + usage.ru_stime


def seconds(program, script):
    """Processor seconds of the least of some runs."""
    best = math.inf
    for _ in range(RUNS):
        before = spent()
        try:
            subprocess.run([program, "replay"], input=script.encode(), capture_output=True, check=True, timeout=LONGEST)
        except subprocess.TimeoutExpired:
            raise TooLong from None
        best = min(best, spent() - before)
        if best > LONG:
            break
    return best


def each(program, row, query, test, times):
    """Seconds of one select, beyond reading its line."""
    head = f"row 1 {row}\nsession 1\nbegin\n"
    read = f"insert 1 {query}\n" * times
    without = seconds(program, head + read + read + "commit\n")
    with_selects = seconds(program, head + read + f"select {test} {query}\n" * times + "commit\n")
    return max(with_selects - without, 0.0) / times


def one(program, row, query, test):
    """The same, by as many selects as take some tenths of a second."""
    first = each(program, row, query, test, 5) if len(row) < 100_000 else each(program, row, query, test, 1)
    times = min(MOST_SELECTS, int(LEAST / max(first, 1e-6)))
    return each(program, row, query, test, times) if times > 5 else first


def geos(row, query, test):
    """Processor seconds of the predicate, by as many calls as take some tenths of a second."""
    a, b = wkt.loads(row), wkt.loads(query)
    calls = 1
    while True:
        start = time.process_time()
        for _ in range(calls):
            getattr(a, test)(b)
        took = time.process_time() - start
        if took >= LEAST:
            return took / calls
        calls *= 2


def show(program, name, row, query, test):
    name = f"{name}, {test}"
    try:
        took = one(program, row, query, test)
    except TooLong:
        print(f"{name:48} over {LONGEST} s", flush=True)
        return math.inf
    shown = f"{name:48} {took * 1000:10.3f} ms"
    if wkt:
        other = geos(row, query, test)
        shown += f"   GEOS {other * 1000:10.3f} ms   ratio {took / other:8.2f}"
    print(shown, flush=True)
    return took


def relations(program, word):
    for name, pair, tests in PAIRS:
        for test in tests if word in name else ():
            took = [show(program, f"{name}, {count} spots", *pair(count), test) for count in SIZES]
            if TOLD < took[0] and TOLD < took[-1] < math.inf:
                print(f"{'':48} growth as n^{math.log(took[-1] / took[0]) / math.log(SIZES[-1] / SIZES[0]):.2f}")


def small(program, word):
    """A point and a small box against a polygon of many spots: inside, on its border and beside it."""
    large = polygon(star(SIZES[-1], (0, 0), 6_000_000, 9_000_000))
    for name, query in SMALL:
        for test in ("intersects", "contains", "touches") if word in name else ():
            show(program, name, large, query, test)


def distances(program, word):
    for name, test, pair in (
        ("far, small bound", "distance < 1000", far_apart),
        ("far, large bound", "distance < 64000000", far_apart),
        ("a star in a star, small bound", "distance < 1000", nested),
        ("overlapping stars, no distance", "distance <= 0", overlapping),
        ("jagged border, strictly no distance", "distance < 1", bordering),
    ):
        if word in name:
            took = one(program, *pair(SIZES[-1]), test)
            print(f"{name:48} {took * 1000:10.3f} ms", flush=True)


def main():
    program, word = sys.argv[1], sys.argv[2] if len(sys.argv) > 2 else ""
    if not wkt:
        print("GEOS isn't there: this Python has no Shapely")
    relations(program, word)
    small(program, word)
    distances(program, word)


if __name__ == "__main__":
    main()

#!/usr/bin/env python3
"""Makes the parcels of a town as GeoJSON: the same ones of the same seed.

    tools/parcels.py [SEED]

Streets cross at uneven distances; between them lie blocks, each cut into two lines of parcels, with a wall between
these. Every ninth block is a park with a pond cut out and trees in it; trees stand along the streets. So there are
polygons, some with a hole, lines and points; each has an `id` and a `kind`. Coordinates are metres of two digits behind
the dot, far from 0, as those of surveys are.
"""

import json
import sys

from common import BAD_WORDS

COLUMNS, ROWS = 13, 11
EAST, NORTH = 481_000.0, 5_412_000.0
LONG, DEEP = 118.0, 92.0
# Half of a street's width.
STREET = 6.0


class Draw:
    """Numbers from 0 to 1 by a linear congruence of 64 bits."""

    def __init__(self, seed):
        self.state = seed

    def next(self):
        """The next number."""
        self.state = (self.state * 6364136223846793005 + 1442695040888963407) % 2**64
        return (self.state >> 33) / 2**31

    def between(self, low, high):
        """A number between two."""
        return low + (high - low) * self.next()


def spot(x, y):
    """A spot in centimetres."""
    return [round(x, 2), round(y, 2)]


def crossings(draw):
    """Where the streets cross, by row and column."""
    return [[(EAST + column * LONG + draw.between(-14, 14), NORTH + row * DEEP + draw.between(-9, 9))
             for column in range(COLUMNS + 1)] for row in range(ROWS + 1)]


def inside(corners, across, upward):
    """A place in a block: 0, 0 is its lower left corner and 1, 1 its upper right one."""
    (ax, ay), (bx, by), (cx, cy), (dx, dy) = corners
    low = (ax + (bx - ax) * across, ay + (by - ay) * across)
    high = (dx + (cx - dx) * across, dy + (cy - dy) * across)
    return low[0] + (high[0] - low[0]) * upward, low[1] + (high[1] - low[1]) * upward


def ring(corners, box):
    """The ring of a part of a block."""
    left, low, right, high = box
    places = [(left, low), (right, low), (right, high), (left, high)]
    spots = [spot(*inside(corners, across, upward)) for across, upward in places]
    return [*spots, spots[0]]


class Town:
    """The features so far."""

    def __init__(self, seed):
        self.draw, self.features = Draw(seed), []

    def add(self, kind, name, coordinates):
        """Adds a feature with the next id."""
        properties = {"id": len(self.features) + 1, "kind": kind}
        geometry = {"type": name, "coordinates": coordinates}
        self.features.append({"type": "Feature", "properties": properties, "geometry": geometry})

    def block(self, corners, number):
        """Adds a block of parcels, or a park."""
        edge, top = STREET / LONG, STREET / DEEP
        if number % 9 == 4:
            hole = ring(corners, (0.4, 0.35, 0.62, 0.6))
            self.add("park", "Polygon", [ring(corners, (edge, top, 1 - edge, 1 - top)), hole])
            for _ in range(24):
                self.tree(corners, (self.draw.between(0.08, 0.38), self.draw.between(0.1, 0.9)))
            return
        middle = self.draw.between(0.44, 0.56)
        for low, high in ((top, middle), (middle, 1 - top)):
            cuts = [edge]
            while cuts[-1] < 1 - edge - 0.18:
                cuts.append(cuts[-1] + self.draw.between(0.09, 0.16))
            for left, right in zip(cuts, [*cuts[1:], 1 - edge]):
                self.add("parcel", "Polygon", [ring(corners, (left, low, right, high))])
        ends = [spot(*inside(corners, across, middle)) for across in (edge, 0.5, 1 - edge)]
        self.add("wall", "LineString", ends)
        for at in range(6):
            self.tree(corners, (0.1 + 0.16 * at, top / 2))

    def tree(self, corners, place):
        """Adds a tree."""
        self.add("tree", "Point", spot(*inside(corners, *place)))

    def build(self):
        """Adds all."""
        nodes = crossings(self.draw)
        for line in [*nodes, *(list(column) for column in zip(*nodes))]:
            self.add("street", "LineString", [spot(*node) for node in line])
        for row in range(ROWS):
            for column in range(COLUMNS):
                low, high = nodes[row][column : column + 2], nodes[row + 1][column : column + 2]
                self.block((*low, *reversed(high)), row * COLUMNS + column)
        return self.features


def main():
    """Prints the town."""
    if len(sys.argv) > 2 or not all(word.isdecimal() for word in sys.argv[1:]):
        print("usage: parcels.py [SEED]", file=sys.stderr)
        return BAD_WORDS
    features = Town(int(sys.argv[1]) if len(sys.argv) > 1 else 7).build()
    lines = ",\n".join(json.dumps(feature, separators=(",", ":")) for feature in features)
    print('{"type":"FeatureCollection","features":[\n' + lines + "\n]}")
    return 0


if __name__ == "__main__":
    sys.exit(main())

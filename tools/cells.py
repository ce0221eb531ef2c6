"""Where a cell of a grid lies: the geometry of docs/FORMATS.md. Which cells a shape has is asked of the program."""

from typing import NamedTuple

SIDES = {"low": 4, "medium": 8, "high": 16}
AUTO = (16, 4, 4, 4, 4, 4, 4, 4)
OUT = "out"


def spot_of(side, place):
    """The column and row of a place on the Hilbert curve of a side."""
    if side == 1:
        return 0, 0
    half = side // 2
    quarter, rest = divmod(place, half * half)
    x, y = spot_of(half, rest)
    return ((y, x), (x, y + half), (x + half, y + half), (2 * half - 1 - y, half - 1 - x))[quarter]


class Grid(NamedTuple):
    """A grid: its box, the sides of its levels, how many cells a row may have, and its line without that number."""

    xmin: int
    ymin: int
    xmax: int
    ymax: int
    sides: tuple
    cells: int
    line: str

    def edge(self, is_upward, across, at):
        """The low edge of a column among so many, or of a row."""
        low, high = (self.ymin, self.ymax) if is_upward else (self.xmin, self.xmax)
        return low + at * (high - low) // across

    def places(self, path):
        """The places of a cell's path from level 1 down, or None where the grid has no such cell."""
        words = path.split(".")
        if len(words) > len(self.sides) or not all(word.isdecimal() for word in words):
            return None
        places = [int(word) for word in words]
        fits = all(place < side * side for place, side in zip(places, self.sides))
        return places if fits else None

    def box(self, path):
        """The box of a cell, or None where the grid has no such cell."""
        places = self.places(path)
        if places is None:
            return None
        across, column, row = 1, 0, 0
        for place, side in zip(places, self.sides):
            x, y = spot_of(side, place)
            across, column, row = across * side, column * side + x, row * side + y
        return (
            self.edge(False, across, column),
            self.edge(True, across, row),
            self.edge(False, across, column + 1),
            self.edge(True, across, row + 1),
        )


def level_of(path):
    """The level of a cell, 0 of the one outside."""
    return 0 if path == OUT else path.count(".") + 1


def grid_of(words, line):
    """The grid of the words of a grid or autogrid line, or None where they make none."""
    box = [int(word) for word in words[1:5]]
    rest = words[5:]
    sides = AUTO
    if words[0] == "grid":
        named = rest[:4] if rest else ["medium"] * 4
        rest = rest[4:]
        if len(named) < 4 or not all(word in SIDES for word in named):
            return None
        sides = tuple(SIDES[word] for word in named)
        line = " ".join(words[:5] + named)
    count = int(rest[0]) if rest else 16 if words[0] == "grid" else 8
    if len(rest) > 1 or box[0] >= box[2] or box[1] >= box[3]:
        return None
    return Grid(*box, sides, count, line)

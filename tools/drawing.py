"""Draws a map: rows in their shapes, cells with their marks, a query's shape, and a legend beside."""

from collections import Counter
from typing import NamedTuple

import svg
import wkt
from asked import CONTAINED, COVERED, LOCKED, MET
from cells import OUT, level_of

LEGEND = 270
MARGIN = 12
SMALLEST = 4.0
# How wide a digit of a key is.
WIDE = 6.3
# With more rows than this in the picture, points are drawn smaller; with no more than these, each key stands there.
CROWD, FEW = 600, 80
MARKS = {
    COVERED: "covered by the shape",
    MET: "met by the shape, not covered",
    CONTAINED: "contains the whole shape",
    LOCKED: "its key was locked",
}
STROKES = (0.8, 2.6, 2.0, 1.5, 1.1, 0.9, 0.8, 0.7, 0.6)
STYLE = (
    f"text{{{svg.FONT};font-size:11px}}"
    ".key{font-size:10px;paint-order:stroke;stroke:#ffffff;stroke-width:2.5px;stroke-linejoin:round}"
    ".level{font-size:9px}.head{font-size:12px;font-weight:bold}"
    ".grid{stroke:#c4c4c4;stroke-width:.6;fill:none}"
    ".cell{fill-opacity:.45}"
    f".{COVERED}{{fill:#6cc5a4;stroke:#00604a}}.{MET}{{fill:#ffdf80;stroke:#8a6200}}"
    f".{CONTAINED}{{fill:#cfa8f0;stroke:#5b2391}}.{LOCKED}{{fill:#e4e4e4;stroke:#404040;stroke-dasharray:4 2}}"
    ".polygon{fill:#9db4d0;fill-opacity:.3;stroke:#4a6282;stroke-width:.8;fill-rule:evenodd}"
    ".line{fill:none;stroke:#7a4a1e;stroke-width:1.5}.point{fill:#1d5fa8;stroke:#ffffff;stroke-width:.6}"
    ".polygon.found{fill:#f07820;fill-opacity:.4;stroke:#9a3c00;stroke-width:1.8}"
    ".line.found{stroke:#d04a00;stroke-width:3}.point.found{fill:#d04a00;stroke:#3a1400}"
    ".query{fill:none;stroke:#b0006e;stroke-width:2.2}.query.point{fill:#b0006e}"
    ".grown{fill:none;stroke:#b0006e;stroke-width:1.2;stroke-dasharray:6 4}"
    "[data-row]:hover,.cell:hover{stroke:#000000;stroke-width:3}"
)


class Scene(NamedTuple):
    """What is drawn: rows by key, the keys of those that stand out and why they do, a query's shape and the one whose
    cells it looks at, cells with their marks and whose they are, the grid, and what the picture is called."""

    title: str
    rows: dict
    found: list
    why: str
    query: wkt.Shape | None
    grown: wkt.Shape | None
    cells: list
    cells_of: str
    grid: object


def joined(boxes):
    """The box around all that are some, or None."""
    boxes = [box for box in boxes if box is not None]
    if not boxes:
        return None
    return (*(min(box[at] for box in boxes) for at in (0, 1)), *(max(box[at] for box in boxes) for at in (2, 3)))


def view_of(scene):
    """The box that shows all of the scene, with a margin."""
    cells = [scene.grid.box(cell.path) for cell in scene.cells if cell.path != OUT]
    shapes = [shape for shape in (scene.query, scene.grown) if shape is not None]
    box = joined([wkt.bounds([shape]) for shape in [*scene.rows.values(), *shapes]] + cells) or (0, 0, 1, 1)
    margin = max(box[2] - box[0], box[3] - box[1], 1) * 0.03
    return (box[0] - margin, box[1] - margin, box[2] + margin, box[3] + margin)


class Labels:
    """Texts that lie within the picture and not on each other."""

    def __init__(self, width, height):
        self.width, self.height, self.taken, self.items = width, height, {}, []

    @staticmethod
    def squares(x, y, width):
        """The squares of 12 by 12 that a text of such a width at this place lies on."""
        across = range(int(x // 12), int((x + width) // 12) + 1)
        return [(column, row) for column in across for row in (int((y - 9) // 12), int(y // 12))]

    def is_free(self, x, y, width):
        """Whether a text may lie at this place."""
        if not (MARGIN < x and x + width < MARGIN + self.width and MARGIN + 9 < y < MARGIN + self.height - 2):
            return False
        near = [other for square in self.squares(x, y, width) for other in self.taken.get(square, [])]
        return not any(ox < x + width and x < ox + other and abs(oy - y) < 11 for ox, oy, other in near)

    def put(self, words, places):
        """Puts the text at the first of the places, its lower left corners, that is free."""
        width = WIDE * len(words)
        for x, y in places:
            if self.is_free(x, y, width):
                for square in self.squares(x, y, width):
                    self.taken.setdefault(square, []).append((x, y, width))
                self.items.append(svg.text(x, y, words, class_="key"))
                return


class Map:
    """A map of a scene, so many pixels wide."""

    def __init__(self, scene, box, width):
        self.scene, self.box = scene, box or view_of(scene)
        self.scale = width / (self.box[2] - self.box[0])
        self.width = width
        self.height = max((self.box[3] - self.box[1]) * self.scale, 60.0)
        self.labels, self.shown = Labels(width, self.height), Counter()

    def at(self, spot):
        """Where a spot lies in the picture."""
        return MARGIN + (spot[0] - self.box[0]) * self.scale, MARGIN + (self.box[3] - spot[1]) * self.scale

    def is_seen(self, box):
        """Whether a box meets the picture's."""
        return box is not None and all(box[at] <= self.box[at + 2] and self.box[at] <= box[at + 2] for at in (0, 1))

    def is_whole(self, box):
        """Whether all of a box is in the picture."""
        return all(self.box[at] <= box[at] and box[at + 2] <= self.box[at + 2] for at in (0, 1))

    def path(self, spots, is_closed):
        """The path of a line or a ring."""
        places = [self.at(spot) for spot in (spots[:-1] if is_closed else spots)]
        return "M" + "L".join(f"{x:.1f} {y:.1f}".replace(".0", "") for x, y in places) + ("z" if is_closed else "")

    def single(self, shape, title, kind, radius, row):
        """A point, a line or a polygon."""
        data = {} if row is None else {"data_row": row}
        if shape.kind == "POINT":
            x, y = self.at(shape.coordinates)
            return svg.element("circle", title=title, cx=x, cy=y, r=radius, class_=f"point {kind}".strip(), **data)
        if shape.kind == "LINESTRING":
            path = self.path(shape.coordinates, False)
            return svg.element("path", title=title, d=path, class_=f"line {kind}".strip(), **data)
        path = "".join(self.path(ring, True) for ring in shape.coordinates)
        return svg.element("path", title=title, d=path, class_=f"polygon {kind}".strip(), **data)

    def shape(self, shape, title, kind="", radius=3, row=None):
        """All that a shape consists of; the polygons of a MULTIPOLYGON are one area of all their rings."""
        if shape.kind == "MULTIPOLYGON":
            shape = wkt.Shape("POLYGON", [ring for polygon in shape.coordinates for ring in polygon])
        return [self.single(it, title, kind, radius, row) for it in wkt.singles(shape) if it.coordinates != []]

    def place(self, shape):
        """The place of a row's key: the middle of what is seen of an area, or a spot that is seen of a line."""
        if "LINESTRING" in shape.kind:
            spots = wkt.spots(shape)
            ends = [pair for pair in zip(spots, spots[1:]) for _ in range(9)]
            ways = [tuple(a + (b - a) * (at % 9) / 8 for a, b in zip(*pair)) for at, pair in enumerate(ends)]
            seen = [spot for spot in ways if self.is_seen((*spot, *spot))]
            return (seen[len(seen) // 2],) * 2 if seen else None
        box = wkt.bounds([shape])
        return [max(box[at], self.box[at]) for at in (0, 1)], [min(box[at], self.box[at]) for at in (2, 3)]

    def key(self, key, shape, is_found, few):
        """Puts the key beside or into its row, where there is room."""
        place = self.place(shape)
        if place is None:
            return
        (left, low), (right, high) = map(self.at, place)
        words, width = str(key), WIDE * len(str(key))
        middle = ((left + right - width) / 2, (low + high) / 2 + 4)
        if right - left >= width + 2 and low - high >= 12:
            self.labels.put(words, [middle])
        elif (is_found or few) and (shape.kind.endswith("LINESTRING") or self.is_whole(wkt.bounds([shape]))):
            beside = [(right + 7, middle[1]), (left - width - 7, middle[1])]
            self.labels.put(words, [*beside, (middle[0], high - 5), (middle[0], low + 14)])

    def rows(self):
        """The rows in the picture: polygons, and others. Those that stand out come last; their keys are put first."""
        found, seen = set(self.scene.found), {}
        for key, shape in self.scene.rows.items():
            if self.is_seen(wkt.bounds([shape])):
                seen[key] = shape
                self.shown[shape.kind] += 1
        keys = sorted(seen, key=lambda key: (key in found, key))
        for key in reversed(keys):
            self.key(key, seen[key], key in found, len(seen) <= FEW)
        areas, others, radius = [], [], 3 if len(seen) <= CROWD else 1.6
        for key in keys:
            kind, told = ("found", f", {self.scene.why}") if key in found else ("", "")
            title = f"row {key}: {seen[key].kind.lower()}{told}"
            drawn = self.shape(seen[key], title, kind, 4 if key in found else radius, key)
            (areas if "POLYGON" in seen[key].kind else others).extend(drawn)
        return areas, others

    def cell(self, cell):
        """A cell with its mark; its level stands in it where there is room."""
        box = self.scene.grid.box(cell.path)
        (left, low), (right, high) = self.at(box[:2]), self.at(box[2:])
        width, height = max(right - left, SMALLEST), max(low - high, SMALLEST)
        level = level_of(cell.path)
        title = f"cell {cell.path}, level {level}: {MARKS[cell.mark]}"
        items = [
            svg.element(
                "rect", title=title, x=left, y=low - height, width=width, height=height,
                class_=f"cell {cell.mark}", stroke_width=STROKES[level], data_cell=cell.path,
            )
        ]
        if width >= 14 and height >= 14:
            items.append(svg.text(max(left, MARGIN) + 3, max(high, MARGIN) + 11, str(level), class_="level"))
        return items

    def cells(self):
        """The cells in the picture, those of low levels first."""
        cells = [cell for cell in self.scene.cells if cell.path != OUT and self.is_seen(self.scene.grid.box(cell.path))]
        return [item for cell in sorted(cells, key=lambda it: level_of(it.path)) for item in self.cell(cell)]

    def grid(self):
        """The lines between the cells of the first level, as far as the picture shows them."""
        grid = self.scene.grid
        if grid is None:
            return []
        side, items = grid.sides[0], []
        for at in range(side + 1):
            x, y = grid.edge(False, side, at), grid.edge(True, side, at)
            for ends in (((x, grid.ymin), (x, grid.ymax)), ((grid.xmin, y), (grid.xmax, y))):
                (x1, y1), (x2, y2) = map(self.at, ends)
                items.append(svg.line(x1, y1, x2, y2, class_="grid"))
        return items

    def query(self):
        """The query's shape, and the one whose cells are looked at where that is another."""
        items = []
        if self.scene.grown is not None and self.scene.grown != self.scene.query:
            items += self.shape(self.scene.grown, "the bounds, moved out by the distance", "grown")
        if self.scene.query is not None:
            items += self.shape(self.scene.query, "the query's shape", "query", 4)
        return [item.replace('class="polygon ', 'class="').replace('class="line ', 'class="') for item in items]

    # -- The legend ---------------------------------------------------------------------------------------------------

    def legend_rows(self):
        """The entries of the legend: a swatch and its text each."""
        found = [key for key in self.scene.found if key in self.scene.rows]
        entries = []
        for kind, name in (("POINT", "point"), ("LINESTRING", "line"), ("POLYGON", "polygon")):
            if self.shown[kind]:
                entries.append((name, f"rows, {name}s: {self.shown[kind]}"))
        several = sum(count for kind, count in self.shown.items() if kind not in ("POINT", "LINESTRING", "POLYGON"))
        if several:
            entries.append(("polygon", f"rows of several members: {several}"))
        if self.scene.query is not None:
            entries.append(("query", "the query's shape"))
        if self.scene.why:
            entries.append(("polygon found", f"rows, {self.scene.why}: {len(found)}"))
        if self.scene.grown is not None and self.scene.grown != self.scene.query:
            entries.append(("grown", "its bounds moved out"))
        return entries + self.legend_cells()

    def legend_cells(self):
        """The entries of the cells: how many have each mark, and each level."""
        entries = [("head", self.scene.cells_of)] if self.scene.cells_of else []
        marks = Counter(cell.mark for cell in self.scene.cells if cell.path != OUT)
        entries += [(f"cell {mark}", f"{MARKS[mark]}: {marks[mark]}") for mark in MARKS if marks[mark]]
        levels = Counter(level_of(cell.path) for cell in self.scene.cells if cell.path != OUT)
        if levels:
            entries += [("", f"of level {level}: {count}") for level, count in sorted(levels.items())]
        if any(cell.path == OUT for cell in self.scene.cells):
            entries.append(("", "and the cell outside the grid's box"))
        if self.scene.cells_of and not self.scene.cells:
            entries.append(("", "none"))
        return entries

    def legend(self):
        """The legend, right of the map."""
        left = MARGIN * 2 + self.width
        title = self.scene.title if len(self.scene.title) < 36 else self.scene.title[:33] + ".."
        items, y = [svg.text(left, MARGIN + 12, title, class_="head")], MARGIN + 34
        for kind, words in self.legend_rows():
            if kind == "head":
                items.append(svg.text(left, y + 6, words, class_="head"))
            else:
                items += self.swatch(kind, left, y) + [svg.text(left + (30 if kind else 0), y + 4, words)]
            y += 22
        hidden = sum(shape.coordinates != [] for shape in self.scene.rows.values()) - sum(self.shown.values())
        empty = sum(shape.coordinates == [] for shape in self.scene.rows.values())
        for count, words in ((hidden, "rows outside the picture"), (empty, "rows, EMPTY shapes")):
            if count:
                items.append(svg.text(left, y + 4, f"{words}: {count}"))
                y += 22
        return items + self.measure(left, y + 14), y + 40

    @staticmethod
    def swatch(kind, x, y):
        """What stands before an entry of the legend."""
        if kind == "point":
            return [svg.element("circle", cx=x + 11, cy=y, r=3, class_=kind)]
        if kind in ("line", "query", "grown"):
            return [svg.line(x, y, x + 22, y, class_=kind)]
        return [svg.element("rect", x=x, y=y - 7, width=22, height=14, class_=kind)] if kind else []

    def measure(self, x, y):
        """A bar that tells how long so many units are."""
        units = 10 ** (len(str(int(max(120 / self.scale, 1)))) - 1)
        units *= next(times for times in (5, 2, 1) if times == 1 or units * times * self.scale <= 120)
        length = units * self.scale
        bar = f"M{x} {y - 4}v4h{length:.1f}v-4"
        return [svg.element("path", d=bar, fill="none", stroke=svg.INK), svg.text(x + length + 6, y + 2, f"{units}")]

    def draw(self):
        """The whole picture."""
        items = [svg.element("clipPath", svg.element("rect", x=MARGIN, y=MARGIN, width=self.width, height=self.height),
                             id="view")]
        areas, others = self.rows()
        parts = (("grid", self.grid()), ("areas", areas), ("cells", self.cells()), ("others", others),
                 ("query", self.query()), ("keys", self.labels.items))
        groups = [svg.element("g", "\n" + "\n".join(inner) + "\n", id=name) for name, inner in parts if inner]
        items.append(svg.element("g", "\n" + "\n".join(groups) + "\n", clip_path="url(#view)"))
        items.append(svg.element("rect", x=MARGIN, y=MARGIN, width=self.width, height=self.height, fill="none",
                                 stroke="#808080"))
        legend, bottom = self.legend()
        items.append(svg.element("g", "\n" + "\n".join(legend) + "\n", id="legend"))
        height = max(self.height + 2 * MARGIN, bottom)
        return svg.picture(self.width + LEGEND + 3 * MARGIN, height, STYLE, self.scene.title, items)

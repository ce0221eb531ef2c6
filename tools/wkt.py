"""Well-known text to shapes and back. A shape is its kind and its coordinates, nested as GeoJSON nests them."""

import re
from decimal import Decimal, InvalidOperation
from typing import NamedTuple

TOKEN = re.compile(r"[(),]|[^(),\s]+")
WHOLE = re.compile(r"[+-]?[0-9]+\Z")
NUMBER = re.compile(r"[+-]?([0-9]+\.?[0-9]*|\.[0-9]+)([eE][+-]?[0-9]+)?\Z")
# How many brackets stand around a spot of each kind.
DEPTHS = {
    "POINT": 0,
    "LINESTRING": 1,
    "POLYGON": 2,
    "MULTIPOINT": 1,
    "MULTILINESTRING": 2,
    "MULTIPOLYGON": 3,
}
COLLECTION = "GEOMETRYCOLLECTION"
SINGLE = {"MULTIPOINT": "POINT", "MULTILINESTRING": "LINESTRING", "MULTIPOLYGON": "POLYGON"}


class Fault(Exception):
    """What is wrong with a shape."""


class Shape(NamedTuple):
    """A kind, and the coordinates: a spot, or a list of what is one level deeper. An empty list is an empty shape.
    The coordinates of a collection are its shapes."""

    kind: str
    coordinates: list


def number(token):
    """The number that a token spells, as a whole number where it has no dot."""
    if WHOLE.match(token):
        return int(token)
    if not NUMBER.match(token):
        raise Fault(f"{token!r} stands where a number must stand")
    try:
        return Decimal(token)
    except InvalidOperation:
        raise Fault(f"{token!r} is too great a number") from None


class Tokens:
    """The tokens of a text, from the left."""

    def __init__(self, text):
        self.items = TOKEN.findall(text)
        self.at = 0

    def peek(self):
        """The next token in upper case, or an empty text at the end."""
        return self.items[self.at].upper() if self.at < len(self.items) else ""

    def take(self):
        """Takes the next token."""
        if self.at == len(self.items):
            raise Fault("the text ends within the shape")
        self.at += 1
        return self.items[self.at - 1]

    def expect(self, *wanted):
        """Takes the next token, which has to be one of these."""
        token = self.take()
        if token.upper() not in wanted:
            raise Fault(f"{token!r} stands where {' or '.join(wanted)} must stand")
        return token.upper()


def spot_of(tokens):
    """The numbers of one spot, two or more."""
    numbers = [number(tokens.take()), number(tokens.take())]
    while tokens.peek() not in ("", ",", ")"):
        numbers.append(number(tokens.take()))
    return tuple(numbers)


def items_of(tokens, item):
    """The items between brackets, with commas between them."""
    tokens.expect("(")
    items = [item(tokens)]
    while tokens.expect(",", ")") == ",":
        items.append(item(tokens))
    return items


def nested(tokens, depth):
    """The spots under so many brackets."""
    if depth == 0:
        return spot_of(tokens)
    return items_of(tokens, lambda inner: nested(inner, depth - 1))


def point_of(tokens):
    """A spot of a MULTIPOINT, with brackets of its own or without."""
    if tokens.peek() != "(":
        return spot_of(tokens)
    return items_of(tokens, spot_of)[0]


def coordinates_of(kind, tokens):
    """What stands behind the word of a kind."""
    if tokens.peek() in ("Z", "M", "ZM"):
        tokens.take()
    if tokens.peek() == "EMPTY":
        tokens.take()
        return []
    if kind == COLLECTION:
        return items_of(tokens, shape_of)
    if kind == "POINT":
        spots = items_of(tokens, spot_of)
        if len(spots) > 1:
            raise Fault("a point of more than one spot")
        return spots[0]
    if kind == "MULTIPOINT":
        return items_of(tokens, point_of)
    return nested(tokens, DEPTHS[kind])


def shape_of(tokens):
    """One shape."""
    word = tokens.take().upper()
    kind = word if word in DEPTHS or word == COLLECTION else re.sub(r"(ZM|Z|M)\Z", "", word)
    if kind not in DEPTHS and kind != COLLECTION:
        raise Fault(f"{word!r} is no kind of shape")
    return Shape(kind, coordinates_of(kind, tokens))


def read(text):
    """The shape of a text, behind `SRID=..;` where PostGIS has put that."""
    tokens = Tokens(re.sub(r"\A\s*SRID=[0-9]+;", "", text, flags=re.IGNORECASE))
    try:
        shape = shape_of(tokens)
    except RecursionError:
        raise Fault("brackets within brackets, too deep") from None
    if tokens.peek():
        raise Fault(f"{tokens.take()!r} stands behind the shape")
    return shape


def whole(value):
    """A number without a broken part as a whole number."""
    if value != int(value):
        raise Fault(f"{value} is no whole number")
    return int(value)


def each_spot(shape, change):
    """The shape with each spot changed."""
    if shape.kind == COLLECTION:
        return Shape(shape.kind, [each_spot(inner, change) for inner in shape.coordinates])
    if shape.coordinates == []:
        return shape
    return Shape(shape.kind, at_depth(shape.coordinates, DEPTHS[shape.kind], change))


def at_depth(items, depth, change):
    """The nested spots, each changed."""
    return change(items) if depth == 0 else [at_depth(item, depth - 1, change) for item in items]


def read_whole(text):
    """The shape of a text whose numbers are whole."""
    return each_spot(read(text), lambda spot: tuple(whole(value) for value in spot))


def spots_in(items, depth):
    """The spots under so many brackets, in order."""
    return [items] if depth == 0 else [spot for item in items for spot in spots_in(item, depth - 1)]


def spots(shape):
    """All spots of a shape, in order."""
    if shape.kind == COLLECTION:
        return [spot for inner in shape.coordinates for spot in spots(inner)]
    return [] if shape.coordinates == [] else spots_in(shape.coordinates, DEPTHS[shape.kind])


def singles(shape):
    """The points, lines and polygons that a shape consists of."""
    if shape.kind == COLLECTION:
        return [single for inner in shape.coordinates for single in singles(inner)]
    if shape.kind in SINGLE:
        return [Shape(SINGLE[shape.kind], item) for item in shape.coordinates]
    return [shape]


def bounds(shapes):
    """The least and greatest coordinates of the shapes, xmin, ymin, xmax and ymax, or None where there is no spot."""
    found = [spot for shape in shapes for spot in spots(shape)]
    if not found:
        return None
    across, upward = [spot[0] for spot in found], [spot[1] for spot in found]
    return min(across), min(upward), max(across), max(upward)


def listed(items, depth):
    """The text of nested spots, with its brackets."""
    if depth == 0:
        return f"{items[0]} {items[1]}"
    return "(" + ", ".join(listed(item, depth - 1) for item in items) + ")"


def write(shape):
    """The canonical text of a shape of whole numbers."""
    if shape.coordinates == []:
        return f"{shape.kind} EMPTY"
    if shape.kind == COLLECTION:
        return f"{shape.kind} (" + ", ".join(write(inner) for inner in shape.coordinates) + ")"
    if shape.kind == "POINT":
        return f"POINT ({listed(shape.coordinates, 0)})"
    if shape.kind == "MULTIPOINT":
        return "MULTIPOINT (" + ", ".join(f"({listed(spot, 0)})" for spot in shape.coordinates) + ")"
    return f"{shape.kind} {listed(shape.coordinates, DEPTHS[shape.kind])}"

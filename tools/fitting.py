"""Coordinates to whole numbers and back: the offset is taken away, then the scale multiplies, then it is rounded."""

from decimal import ROUND_FLOOR, ROUND_HALF_EVEN, Context, Decimal, localcontext
from typing import NamedTuple

import wkt

LIMIT = 16_000_000
MOST_SPOTS = 2_048
LEAST_POWER, GREATEST_POWER = -9, 12
# Enough for any number that is taken: longer ones are refused.
EXACT = Context(prec=120)
LONGEST = 40


class Fit(NamedTuple):
    """An offset across and upward, and a scale."""

    x: Decimal
    y: Decimal
    scale: Decimal

    def text(self):
        """The comment line that tells it."""
        return f"# offset {plain(self.x)} {plain(self.y)} scale {plain(self.scale)}"

    def back(self, spot):
        """The coordinates of a whole spot as they were, but for what was rounded."""
        with localcontext(EXACT if is_power(self.scale) else Context(prec=17)):
            return tuple(Decimal(value) / self.scale + offset for value, offset in zip(spot, (self.x, self.y)))


class Count:
    """What was done to the coordinates."""

    def __init__(self):
        self.rounded, self.closed, self.most = 0, 0, Decimal(0)

    def add(self, other):
        """Adds what was done to one more shape."""
        self.rounded += other.rounded
        self.closed += other.closed
        self.most = max(self.most, other.most)


def plain(value):
    """A number's digits without an exponent and without needless zeros."""
    text = format(value, "f")
    text = text.rstrip("0").rstrip(".") if "." in text else text
    return "0" if text in ("-0", "") else text


def is_power(scale):
    """Whether the scale is a power of ten, so that dividing by it is exact."""
    return scale.normalize().as_tuple().digits == (1,)


def power(exponent):
    """A power of ten."""
    return Decimal(1).scaleb(exponent)


def places_of(value):
    """How many digits a number has behind its dot."""
    return max(0, -Decimal(value).normalize(EXACT).as_tuple().exponent) if isinstance(value, Decimal) else 0


def offset_for(low, high, scale):
    """The offset across or upward for a scale: 0 where that will do, else the middle, as a whole number of units."""
    if max(abs(low), abs(high)) * scale <= LIMIT:
        return Decimal(0)
    unit = max(Decimal(1), 1 / scale)
    return ((low + high) / 2 / unit).to_integral_value(ROUND_FLOOR) * unit


def fits(low, high, offset, scale):
    """Whether the bounds are within the limits, and stay so when they are rounded."""
    return max(abs(low - offset), abs(high - offset)) * scale <= LIMIT


def chosen(shapes, offset, scale):
    """The fit of the shapes: with the offset and scale where they are given, else chosen from the bounds. None where no
    scale will do."""
    bounds = wkt.bounds(shapes) or (0, 0, 0, 0)
    low, high = bounds[:2], bounds[2:]
    digits = max((places_of(value) for shape in shapes for spot in wkt.spots(shape) for value in spot[:2]), default=0)
    scales = [scale] if scale else [power(it) for it in range(min(digits, GREATEST_POWER), LEAST_POWER - 1, -1)]
    with localcontext(EXACT):
        for each in scales:
            found = offset or [offset_for(Decimal(low[at]), Decimal(high[at]), each) for at in (0, 1)]
            if offset and scale or all(fits(low[at], high[at], found[at], each) for at in (0, 1)):
                return Fit(*found, each)
    return None


class Fitter:
    """Brings shapes to whole numbers."""

    def __init__(self, fit, is_flat):
        self.fit, self.is_flat = fit, is_flat

    def spot(self, spot, count):
        """The whole spot nearest to a spot; of two that are as near, the even one."""
        if len(spot) > 2 and not self.is_flat:
            raise wkt.Fault(f"a spot of {len(spot)} numbers; --flat takes the first two")
        whole = []
        for value, offset in zip(spot, (self.fit.x, self.fit.y)):
            exact = (value - offset) * self.fit.scale
            near = exact.to_integral_value(ROUND_HALF_EVEN)
            if abs(near) > LIMIT:
                raise wkt.Fault(f"the coordinate {plain(Decimal(value))} becomes {plain(near)}, outside the limits")
            if near != exact:
                count.rounded += 1
                count.most = max(count.most, abs(near - exact) / self.fit.scale)
            whole.append(int(near))
        return tuple(whole)

    def path(self, spots, least, count):
        """A line, or a ring with its last spot at its first."""
        if least == 4 and spots[0][:2] != spots[-1][:2]:
            spots = [*spots, spots[0]]
            count.closed += 1
        if len(spots) < least:
            raise wkt.Fault(f"a {'ring' if least == 4 else 'line'} of {len(spots)} spots, where {least} are the fewest")
        found = [self.spot(spot, count) for spot in spots]
        if len(set(found)) == 1 and len({spot[:2] for spot in spots}) > 1:
            raise wkt.Fault("it shrinks to one spot when it is rounded")
        return found

    def shape(self, shape):
        """The shape in whole numbers, and what was done to it."""
        count = Count()
        with localcontext(EXACT):
            if shape.coordinates == []:
                return shape, count
            if len(wkt.spots(shape)) > MOST_SPOTS:
                raise wkt.Fault(f"{len(wkt.spots(shape))} spots, where {MOST_SPOTS} are the most")
            if shape.kind == "POINT":
                return wkt.Shape(shape.kind, self.spot(shape.coordinates, count)), count
            if shape.kind == "LINESTRING":
                return wkt.Shape(shape.kind, self.path(shape.coordinates, 2, count)), count
            rings = [self.path(ring, 4, count) for ring in shape.coordinates]
        if sum(map(len, rings)) > MOST_SPOTS:
            raise wkt.Fault(f"{sum(map(len, rings))} spots with its rings closed, where {MOST_SPOTS} are the most")
        return wkt.Shape(shape.kind, rings), count


def number_of(text):
    """The number of a word, or None where it is none or has more than 40 digits."""
    try:
        value = wkt.number(text)
    except wkt.Fault:
        return None
    return sane(value)


def sane(value):
    """The number as a decimal, or None where it has more digits, before and behind the dot, than any coordinate."""
    found = Decimal(value)
    if not found.is_finite() or abs(found.adjusted()) > LONGEST or len(found.as_tuple().digits) > LONGEST:
        return None
    return found

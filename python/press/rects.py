# SPDX-License-Identifier: Apache-2.0
"""Rectangles and polygons, in points."""
from collections.abc import Iterator
from typing import NamedTuple

Point = tuple[float, float]
Polygon = list[Point]
SAME, STRAIGHT = 3, 0.002


class Rect(NamedTuple):
    """A rectangle, in points."""

    left: float
    lower: float
    right: float
    upper: float

    @property
    def area(self) -> float:
        """Its area, in square points."""
        return (self.right - self.left) * (self.upper - self.lower)

    def common(self, other: "Rect") -> "Rect":
        """What it has in common with another, or NOTHING."""
        both = Rect(max(self.left, other.left), max(self.lower, other.lower), min(self.right, other.right),
                    min(self.upper, other.upper))
        return both if both.left < both.right and both.lower < both.upper else NOTHING

    def meets(self, other: "Rect") -> bool:
        """Whether it has more than a border in common with another."""
        return (self.left < other.right and other.left < self.right and self.lower < other.upper
                and other.lower < self.upper)

    def drawn_in(self, margin: float) -> "Rect":
        """The rectangle without a strip along its border."""
        small = Rect(self.left + margin, self.lower + margin, self.right - margin, self.upper - margin)
        return small if small.left < small.right and small.lower < small.upper else NOTHING


NOTHING = Rect(0, 0, 0, 0)


def rect_of(points: Polygon) -> Rect | None:
    """The rectangle that a polygon is, or None for another shape."""
    xs, ys = sorted({round(x, SAME) for x, _ in points}), sorted({round(y, SAME) for _, y in points})
    if len(xs) != 2 or len(ys) != 2:
        return None
    sides = zip(points, points[1:] + points[:1])
    is_upright = all(abs(a[0] - b[0]) < STRAIGHT or abs(a[1] - b[1]) < STRAIGHT for a, b in sides)
    return Rect(xs[0], ys[0], xs[1], ys[1]) if is_upright else None


def around(points: Polygon) -> Rect:
    """The rectangle around a polygon."""
    xs, ys = [x for x, _ in points], [y for _, y in points]
    return Rect(min(xs), min(ys), max(xs), max(ys))


def without(rect: Rect, other: Rect) -> Iterator[Rect]:
    """What is left of a rectangle beside another: at most four rectangles."""
    both = rect.common(other)
    if both == NOTHING:
        yield rect
        return
    for piece in (rect._replace(upper=both.lower), rect._replace(lower=both.upper),
                  both._replace(left=rect.left, right=both.left), both._replace(left=both.right, right=rect.right)):
        if piece.left < piece.right and piece.lower < piece.upper:
            yield piece

# SPDX-License-Identifier: Apache-2.0
"""What a page paints beside images: type, line work, masks and patterns, in the order of painting, with the boxes that
they fill. Coordinates are those of the trace.
"""
from __future__ import annotations

import math
from collections.abc import Iterator, Sequence
from dataclasses import dataclass

from .rects import Point, Rect, around, without

# A glyph's box in ems: below and above the baseline.
DESCENT, ASCENT = -0.25, 0.95
# A shape of at most so many points a side is one box; slanted sides of larger ones are cut into boxes of so many.
SMALL_SHAPE, SIDE_STEP = 12.0, 4.0
# An upright side has so much of a box around it, so that it is one.
SIDE_WIDTH = 0.01
MOST_PIECES = 64
# More boxes than this are not kept: a map say, on which no image has type above it that matters.
MOST_BOXES = 100_000


@dataclass(frozen=True)
class Mark:
    """Something that is painted: its place in the order of painting, the box around it, and the boxes along its
    outline, as far as the clips let them show."""

    order: int
    box: Rect
    outline: tuple[Rect, ...]


def grown(rect: Rect, by: float) -> Rect:
    """A rectangle with a strip around."""
    return Rect(rect.left - by, rect.lower - by, rect.right + by, rect.upper + by)


def outline_of(polygons: Sequence[Sequence[Point]], closed: bool, half_width: float) -> tuple[Rect, ...]:
    """Boxes along the outline of a path: one for a small shape, else one for each side, and several for a slanted
    one."""
    points = [point for points in polygons for point in points]
    if not points:
        return ()
    box = grown(around(list(points)), half_width)
    if max(box.right - box.left, box.upper - box.lower) <= SMALL_SHAPE:
        return (box,)
    return tuple(grown(side, half_width + SIDE_WIDTH) for points in polygons for side in sides_of(points, closed))


def sides_of(points: Sequence[Point], closed: bool) -> Iterator[Rect]:
    """Boxes of the sides of a polygon."""
    ends = [*points[1:], points[0]] if closed else points[1:]
    for (x0, y0), (x1, y1) in zip(points, ends):
        count = max(1, min(MOST_PIECES, math.ceil(min(abs(x1 - x0), abs(y1 - y0)) / SIDE_STEP)))
        for at in range(count):
            first, last = at / count, (at + 1) / count
            yield around([(x0 + (x1 - x0) * part, y0 + (y1 - y0) * part) for part in (first, last)])


def glyph_corners(x: float, y: float, advance: float, trm: Sequence[float]) -> list[Point]:
    """The corners of a glyph's box, before the matrix of its text."""
    a, b, c, d = trm
    return [(x + a * across + c * up, y + b * across + d * up)
            for across, up in ((0, DESCENT), (advance, DESCENT), (advance, ASCENT), (0, ASCENT))]


def above(marks: Sequence[Mark], images: Sequence[tuple[int, Rect]], margin: float) -> list[Rect]:
    """The boxes of what is painted over an image, with a margin around, but for what a later image hides. `images` are
    the places of images with their place in the order of painting."""
    found = []
    for mark in marks:
        below = [place for order, place in images if order < mark.order and place.meets(mark.box)]
        if not below:
            continue
        later = [place for order, place in images if order > mark.order and place.meets(mark.box)]
        for box in mark.outline:
            if not any(place.meets(box) for place in below):
                continue
            left = [box]
            for place in later:
                left = [piece for one in left for piece in without(one, place)]
            found += [grown(one, margin) for one in left]
    return found

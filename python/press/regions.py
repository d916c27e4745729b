# SPDX-License-Identifier: Apache-2.0
"""Rectangles and shapes on a page, in points from the lower left corner of the page as it is drawn."""
from __future__ import annotations

import functools
from collections.abc import Sequence

from .images import joined
from .rects import NOTHING, Point, Rect, around, rect_of, without
from .source import PageInfo

Shape = tuple[tuple[Point, ...], ...]
# What is smaller than this many points is left to the zone below it.
SMALL = 0.5
# How often the gap is doubled within which rectangles are taken together.
MOST_DOUBLINGS = 12


def shape_of(rect: Rect) -> Shape:
    """A rectangle as a shape."""
    return (((rect.left, rect.lower), (rect.right, rect.lower), (rect.right, rect.upper), (rect.left, rect.upper)),)


def box_on_page(info: PageInfo, box: str, drawn: str) -> Rect:
    """Where a box of the PDF lies on the page, of which the box `drawn` is drawn."""
    left, lower, right, upper = info.box(drawn)[0]
    one = info.box(box)[0]
    ways = {0: (one[0] - left, one[1] - lower, one[2] - left, one[3] - lower),
            90: (one[1] - lower, right - one[2], one[3] - lower, right - one[0]),
            180: (right - one[2], upper - one[3], right - one[0], upper - one[1]),
            270: (upper - one[3], one[0] - left, upper - one[1], one[2] - left)}
    return Rect(*(side * info.unit for side in ways[info.rotate // 90 * 90])).common(Rect(0, 0, *info.size(drawn)))


def disjoint(rects: Sequence[Rect]) -> list[Rect]:
    """Rectangles that cover the same area and do not overlap."""
    levels = sorted({level for rect in rects for level in (rect.lower, rect.upper)})
    starting = sorted(rects, key=lambda one: one.lower)
    active: list[Rect] = []
    slabs: list[Rect] = []
    at = 0
    for lower, upper in zip(levels, levels[1:]):
        active = [rect for rect in active if rect.upper > lower]
        while at < len(starting) and starting[at].lower <= lower:
            active.append(starting[at])
            at += 1
        end = float("-inf")
        for rect in sorted(active):
            if rect.right <= end:
                continue
            if rect.left <= end:
                slabs[-1] = slabs[-1]._replace(right=rect.right)
            else:
                slabs.append(Rect(rect.left, lower, rect.right, upper))
            end = rect.right
    return stacked(slabs)


def stacked(slabs: Sequence[Rect]) -> list[Rect]:
    """Rectangles, those of the same width that touch one above the other being one."""
    out: list[Rect] = []
    for rect in sorted(slabs, key=lambda one: (one.left, one.right, one.lower)):
        if out and out[-1][0::2] == rect[0::2] and out[-1].upper == rect.lower:
            out[-1] = out[-1]._replace(upper=rect.upper)
        else:
            out.append(rect)
    return out


def fewer(rects: Sequence[Rect], most: int, gap: float = 0.5) -> list[Rect]:
    """At most so many rectangles that cover these, as far as near ones can be taken together."""
    out = list(rects)
    for _ in range(MOST_DOUBLINGS):
        if len(out) <= most:
            break
        out = taken_together(out, gap)
        gap *= 2
    return out


def in_lines(across: int, along: int, gap: float, rect: Rect) -> tuple[int, float]:
    """By what rectangles are sorted so that near ones of a row or a column follow one another."""
    return round(rect[across] / max(gap, 1)), rect[along]


def joined_along(rects: Sequence[Rect], across: int, along: int, gap: float) -> list[Rect]:
    """Rectangles of which neighbours in a row or a column are one, if they are near and share half of their sides."""
    found: list[Rect] = []
    for rect in rects:
        if found and rect[along] - found[-1][along + 2] <= gap and shares(found[-1], rect, across) > 0.5:
            found[-1] = around([found[-1][:2], found[-1][2:], rect[:2], rect[2:]])
        else:
            found.append(rect)
    return found


def taken_together(rects: Sequence[Rect], gap: float) -> list[Rect]:
    """Rectangles of about the same height in a row are one, and then those of about the same width in a column."""
    out = list(rects)
    for across, along in ((1, 0), (0, 1)):
        out = joined_along(sorted(out, key=functools.partial(in_lines, across, along, gap)), across, along, gap)
    return out


def shares(one: Rect, other: Rect, axis: int) -> float:
    """How much of the shorter side both rectangles have in common along an axis."""
    both = min(one[axis + 2], other[axis + 2]) - max(one[axis], other[axis])
    return both / max(1e-9, min(one[axis + 2] - one[axis], other[axis + 2] - other[axis]))


# Shapes

def is_within(shape: Shape, x: float, y: float) -> bool:
    """Whether a point lies within a shape, by the nonzero rule."""
    winding = 0
    for points in shape:
        for (x0, y0), (x1, y1) in zip(points, points[1:] + points[:1]):
            if (y0 <= y) != (y1 <= y) and x0 + (x1 - x0) * (y - y0) / (y1 - y0) > x:
                winding += 1 if y1 > y0 else -1
    return winding != 0


def crosses(shape: Shape, rect: Rect) -> bool:
    """Whether a side of a shape runs through a rectangle."""
    return any(side_meets(start, end, rect) for points in shape for start, end in zip(points, points[1:] + points[:1]))


def side_meets(start: Point, end: Point, rect: Rect) -> bool:
    """Whether a line from one point to another has more than a point in common with the inside of a rectangle."""
    first, last = 0.0, 1.0
    for axis in (0, 1):
        step = end[axis] - start[axis]
        near, far = rect[axis] - start[axis], rect[axis + 2] - start[axis]
        if abs(step) < 1e-9:
            if near >= 0 or far <= 0:
                return False
            continue
        one, other = sorted((near / step, far / step))
        first, last = max(first, one), min(last, other)
    return first < last


def split_by(rect: Rect, shape: Shape) -> tuple[list[Rect], list[Rect]]:
    """A rectangle in pieces: those within a shape, and those outside it. At a slanted border pieces below half a point
    are neither."""
    bounds = around([point for points in shape for point in points]) if any(shape) else NOTHING
    if rect.common(bounds) == NOTHING:
        return [], [rect]
    plain = rect_of(list(shape[0])) if len(shape) == 1 else None
    if plain:
        both = rect.common(plain)
        return [both] if both != NOTHING else [], list(without(rect, plain))
    if not crosses(shape, rect):
        middle = is_within(shape, (rect.left + rect.right) / 2, (rect.lower + rect.upper) / 2)
        return ([rect], []) if middle else ([], [rect])
    wide, high = rect.right - rect.left, rect.upper - rect.lower
    if max(wide, high) < SMALL:
        return [], []
    across, along = (rect.left + rect.right) / 2, (rect.lower + rect.upper) / 2
    halves = (rect._replace(right=across), rect._replace(left=across)) if wide > high else \
        (rect._replace(upper=along), rect._replace(lower=along))
    found = [split_by(half, shape) for half in halves]
    return joined(found[0][0] + found[1][0]), joined(found[0][1] + found[1][1])

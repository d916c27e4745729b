# SPDX-License-Identifier: Apache-2.0
"""The trap widths that leave thin strokes their colour.

A trap of the page's width fills small type and hairlines. `narrow_lines` gives each line of thin strokes a trap of a
third of its stroke; `boxes_by_width` says where, and `own_share` how much of the strokes the traps leave alone.

Vocabulary

- A line is parts of one colour side by side, as the letters of a line of type.
- A reach is how far a trap goes on one side of an edge, in pixels.
"""
from __future__ import annotations

import bisect
import functools
import math
from collections.abc import Iterable, Sequence
from dataclasses import dataclass, replace
from itertools import product

import numpy as np

from . import bits
from .bits import Words
from .canvas import Canvas, canvases_of
from .stroke_runs import Plane
from .strokes import SHARE, SLANT, SPECK, Box, Ink, Part, Rule, edges_of, steps_of

# A third may be so many pixels short of a reach.
SLACK = 0.05
# The trap of a lighter stroke lies around it, and takes nothing of it.
LIGHTER_SLACK = 0.1
# Below this third of a stroke a centred trap is left out.
LEAST_CENTRED = 0.55
# The reach that closes slanted edges too.
CLOSING = math.sqrt(5) / 2
# The distances from the middle of a pixel to an edge, in pixels: widths between two of them give the same trap.
REACHES = tuple(sorted({math.sqrt(a * a + b * b) / 2 for a in range(1, 80, 2) for b in range(0, 80, 2)}))
# What is added to a reach so that rounding to four digits of a point does not fall below it.
ROUNDING = 0.005
# Boxes in a row are joined if no more than so much of an inch lies between them.
NEAR_INCHES = 0.03
MOST_MEASURED = 400


@dataclass(frozen=True)
class Line:
    """Parts that get one trap width. `reach` is in pixels on one side of an edge, `width` in points; 0 switches
    trapping off."""

    parts: tuple[Part, ...]
    stroke: float
    slides: bool
    reach: float
    width: float

    @property
    def is_specks(self) -> bool:
        """Whether it is no stroke, but specks that are pieces of one."""
        return all(part.area < SPECK for part in self.parts)


def stroke_of(parts: Iterable[Part]) -> float:
    """The mean thickness of the parts' strokes, in pixels."""
    parts = tuple(parts)
    return SLANT * 2 * sum(part.area for part in parts) / max(1, sum(part.outline for part in parts))


def lines_of(parts: Sequence[Part]) -> list[list[tuple[Part, Box]]]:
    """The covers of parts, those of one line together: parts of one colour, side by side, nearer than half the
    taller one's height; a dot or an accent belongs to the letter below or above it."""
    items = sorted(((part, box) for part in parts for box in part.covers), key=lambda one: one[1].left)
    parent = list(range(len(items)))

    def root(k: int) -> int:
        while parent[k] != k:
            parent[k] = parent[parent[k]]
            k = parent[k]
        return k

    cells: dict[tuple[tuple[int, ...], bool, int, int], list[int]] = {}
    for k, (part, box) in enumerate(items):
        for row, column in cells_around(box.grown(int(min(max(4, 0.6 * (box.lower - box.upper)), 60)))):
            cell = cells.setdefault((part.colour, part.attached, row, column), [])
            for other in cell:
                if root(other) != root(k) and are_beside(box, items[other][1]):
                    parent[root(other)] = root(k)
            cell.append(k)
    together: dict[int, list[tuple[Part, Box]]] = {}
    for k, item in enumerate(items):
        together.setdefault(root(k), []).append(item)
    return list(together.values())


def cells_around(box: Box) -> Iterable[tuple[int, int]]:
    """The cells of a grid over the page that a box lies in."""
    return product(range(box.upper // 32, box.lower // 32 + 1), range(box.left // 64, box.right // 64 + 1))


def slides_at(items: Iterable[tuple[Part, Box]]) -> bool:
    """Whether most parts of a line have centred traps."""
    return sum(1 if part.slides else -1 for part, _ in items) > 0


def with_pieces(lines: list[list[tuple[Part, Box]]]) -> list[list[tuple[Part, Box]]]:
    """Lines with what touches them and is by itself a little too thin for a centred trap, as half a letter that hangs
    on the other half by a corner."""
    faint = [slides_at(items) and REACHES[0] <= stroke_of(part for part, _ in items) / SHARE < LEAST_CENTRED
             for items in lines]
    cells: dict[tuple[tuple[int, ...], int, int], list[tuple[int, Box]]] = {}
    for at, items in enumerate(lines):
        for part, box in () if faint[at] else items:
            for row, column in cells_around(box):
                cells.setdefault((part.colour, row, column), []).append((at, box))
    for at, items in enumerate(lines):
        beside = (home for part, box in items if faint[at] for row, column in cells_around(box)
                  for home, other in cells.get((part.colour, row, column), ()) if is_piece(box, other))
        home = next(beside, None)
        if home is not None:
            lines[home].extend(items)
            lines[at] = []
    return [items for items in lines if items]


def between(one: Box, other: Box) -> tuple[tuple[int, int], int, int]:
    """The heights of two boxes, the lesser first, and how far apart they are across and down; below 0 they overlap."""
    # Called for each pair of letters that are near: comparisons take half the time of calls of min and max.
    high, other_high = one.lower - one.upper, other.lower - other.upper
    left = one.left if one.left > other.left else other.left
    right = one.right if one.right < other.right else other.right
    upper = one.upper if one.upper > other.upper else other.upper
    lower = one.lower if one.lower < other.lower else other.lower
    heights = (high, other_high) if high < other_high else (other_high, high)
    return heights, left - right, upper - lower


def is_piece(one: Box, other: Box) -> bool:
    """Whether two boxes touch, as those of a letter's halves that meet at a corner."""
    _, across, down = between(one, other)
    return max(across, down) <= 0


def are_beside(one: Box, other: Box) -> bool:
    """Whether two boxes are in one line."""
    heights, across, down = between(one, other)
    in_line = down < -0.3 * heights[0] and across < 0.5 * heights[1]
    dot = heights[0] < 0.4 * heights[1] and down < 0.25 * heights[1] and across < 0.1 * heights[1]
    return in_line or dot


def reach_for(stroke: float, slides: bool = False, attached: bool = False, slack: float = SLACK) -> float:
    """The greatest reach that leaves a stroke at least a third: no more pixels on either side than a third of its
    thickness.

    Reaches between the engine's steps are alike, so the answer is one of them. A stroke of less than three pixels
    gets half a pixel, the least that traps at all, and one of less than 1.5 pixels no trap. A centred trap would
    fill both the stroke and its rim there, so it begins a little later. What is attached to a thick shape gets a
    reach that closes slanted edges too.
    """
    third = stroke / SHARE
    if attached:
        third = max(third, CLOSING)
    if third < (LEAST_CENTRED if slides else REACHES[0]):
        return 0.0
    most = max(math.floor(third), 1) + 0.5 - ROUNDING
    return REACHES[bisect.bisect_right(REACHES, min(third + slack, most)) - 1]


def narrow_lines(parts: Sequence[Part], rule: Rule, resolution: int) -> list[Line]:
    """The lines whose trap has to be narrower than the page's, each with its width."""
    found = []
    for items in with_pieces(lines_of(parts)):
        members, slides = tuple(part for part, _ in items), slides_at(items)
        stroke = stroke_of(members)
        slack = LIGHTER_SLACK if all(part.lighter for part in members) else SLACK
        reach = reach_for(stroke, slides, members[0].attached, slack)
        pixels = (reach + ROUNDING) * (2 if slides else 1) if reach else 0.0
        if pixels < rule.width * resolution / 72 - 0.01:
            pieces = tuple(replace(part, box=box, covers=(box,)) for part, box in items)
            found.append(Line(pieces, stroke, slides, reach, pixels * 72 / resolution))
    return found


# Zones

def boxes_by_width(lines: Sequence[Line], rule: Rule, resolution: int) -> dict[float, list[Box]]:
    """For each width in points, the widest first, the boxes that get it: those of the strokes with the page's own
    trap around, since the trap of a light stroke lies outside it. Boxes in a row are joined."""
    around = math.ceil(rule.width * resolution / 72)
    found: dict[float, list[Box]] = {}
    for line in lines:
        found.setdefault(line.width, []).extend(part.box.grown(around) for part in line.parts)
    return {width: joined(found[width], resolution * NEAR_INCHES) for width in sorted(found, reverse=True)}


def joined(boxes: Sequence[Box], gap: float) -> list[Box]:
    """Boxes in a row with at most `gap` pixels between them are one, and then those one above the
    other."""
    rows: list[Box] = []
    for box in sorted(boxes, key=lambda one: (one.upper // 8, one.left)):
        last = rows[-1] if rows else None
        if last and box.left - last.right <= gap and _share(last.upper, last.lower, box.upper, box.lower) > 0.5:
            rows[-1] = _around(last, box)
        else:
            rows.append(box)
    out: list[Box] = []
    for box in sorted(rows, key=lambda one: (one.left, one.right, one.upper)):
        last = out[-1] if out else None
        if last and abs(box.left - last.left) < 2 and abs(box.right - last.right) < 2 and box.upper - last.lower <= gap:
            out[-1] = _around(last, box)
        else:
            out.append(box)
    return out


def _share(first: int, end: int, other_first: int, other_end: int) -> float:
    """How much of the shorter one of two spans both have in common."""
    return (min(end, other_end) - max(first, other_first)) / max(1, min(end - first, other_end - other_first))


def _around(one: Box, other: Box) -> Box:
    return Box(min(one.left, other.left), min(one.upper, other.upper), max(one.right, other.right),
               max(one.lower, other.lower))


# What traps leave of strokes

def own_share(planes: Sequence[Plane], inks: Sequence[Ink], rule: Rule, lines: Sequence[Line],
              reaches: Sequence[float]) -> float:
    """The share of the strokes' pixels that no trap changes, with a reach in pixels for each line. Some
    of many parts are measured, evenly spread; 1.0 if there is none."""
    counted = [(np.asarray(plane) if isinstance(plane, np.ndarray) else plane, ink)
               for plane, ink in zip(planes, inks) if ink.counts]
    steps = steps_of([ink for _, ink in counted], rule)
    items = [(part, reach) for line, reach in zip(lines, reaches) for part in line.parts]
    alike: dict[tuple[float, bool], list[Part]] = {}
    for part, reach in items[::max(1, len(items) // MOST_MEASURED)]:
        alike.setdefault((reach, part.lighter), []).append(part)
    page = Box(0, 0, planes[0].shape[1], planes[0].shape[0]) if planes else Box(0, 0, 0, 0)
    kept = total = 0
    for (reach, lighter), parts in alike.items():
        far = math.ceil(reach) + 1
        for canvas in canvases_of([part.box.grown(far).common(page) for part in parts], far):
            own, changed = own_pixels(canvas, parts, [plane for plane, _ in counted], steps, 0 if lighter else reach)
            total += bits.count(own)
            kept += bits.count(own & ~changed)
    return kept / total if total else 1.0


def own_pixels(canvas: Canvas, parts: Sequence[Part], planes: Sequence[Plane], steps: Sequence[int],
               reach: float) -> tuple[Words, Words]:
    """The pixels of a canvas that have the colours of their parts, and those that traps of a reach change."""
    copies = [canvas.copied(plane) for plane in planes]
    inside, own = (bits.empty(canvas.height, canvas.width) for _ in range(2))
    alike = canvas.filled([1] * len(parts)).view(bool)
    bits.put(inside, alike)
    for at, copy in enumerate(copies):
        alike &= (255 - copy) // 32 == canvas.filled([part.colour[at] for part in parts])
    bits.put(own, alike)
    if not reach:
        return own, bits.empty(canvas.height, canvas.width)
    edges = edges_of(copies, steps)
    right, lower = edges.right_calls & inside & bits.moved(inside, -1), edges.lower_calls & inside
    lower[:-1] &= inside[1:]
    return own, within_reach(right, lower, reach)


def within_reach(right: Words, lower: Words, reach: float) -> Words:
    """The pixels whose middle lies within a reach of the middle of an edge."""
    out = np.zeros_like(right)
    for mask, moves in zip((right, lower), moves_within(reach)):
        for down, across in moves:
            source, target = (mask[:-down], out[down:]) if down > 0 else (mask[-down:], out[:max(0, len(out) + down)])
            bits.add_moved(target, source, across)
    return out


@functools.lru_cache(maxsize=64)
def moves_within(reach: float) -> tuple[tuple[tuple[int, int], ...], tuple[tuple[int, int], ...]]:
    """The rows and columns from an edge to the pixels within a reach of it: of an edge to the right neighbour, and of
    one to the lower neighbour."""
    far = math.ceil(reach)
    moves = [(down, across) for down in range(-far, far + 1) for across in range(-far, far + 1)]
    return (tuple((down, across) for down, across in moves if math.hypot(down, across - 0.5) <= reach),
            tuple((down, across) for down, across in moves if math.hypot(down - 0.5, across) <= reach))

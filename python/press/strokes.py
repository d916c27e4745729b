# SPDX-License-Identifier: Apache-2.0
"""Thin strokes on plates as separated: where they are, and how thick they are.

The strokes are measured on the plates and not in the PDF, so outlined type, rotated type, logos and another RIP's
plates are treated alike. The page is read strip by strip; only the stretches that have edges to trap are looked at
more closely.

Vocabulary

- A part is connected pixels of a page, bounded by every change of colour and by the thick shape that it hangs on.
- A stroke is the mean thickness of a part, or of all parts of a line, in pixels.

"""
from __future__ import annotations

import math
from collections.abc import Iterator, Sequence
from dataclasses import dataclass, field

import numpy as np
import numpy.typing as npt

from . import bits
from .bits import Words
from .stroke_runs import Covers, Mask, Numbers, Plane, Runs, Tallies, roots_of

# Twice the area over the outline is low at slanted strokes, whose outline is a staircase.
SLANT = 1.15
# A stroke keeps at least a third: each of the two traps at its sides takes at most a third.
SHARE = 3
# A part counts when at least a quarter of its outline calls for a trap.
LEAST_OUTLINE = 0.25
# A part that fills less than this share of its box is covered by tiles, so that the zone leaves alone what the
# part surrounds.
SPARSE = 0.2
# A part of fewer pixels is a speck: a piece of a slanted stroke, or grain where there are more specks than strokes.
SPECK = 3
# What is attached to a thick shape has an outline of so many thicknesses.
LONG = 6
TILE_WIDTHS = 8
STRIP_ROWS = 256
# So many pixels of some planes fit a processor's cache.
BLOCK_PIXELS = 65_536
TILE = 64


@dataclass(frozen=True)
class Ink:
    """An ink as the engine sees it: the neutral density of full ink, and whether it counts (Normal and
    Opaque)."""

    density: float
    counts: bool = True
    step_limit: float | None = None


@dataclass(frozen=True)
class Rule:
    """The trapping parameters in force on the page, named as in the job language; `width` is in points."""

    width: float
    black_width: float
    black_color_limit: float
    black_density_limit: float
    step_limit: float
    sliding_limit: float


@dataclass(frozen=True)
class Box:
    """Pixels of a page, from the upper left corner; `right` and `lower` are the first column and row beyond."""

    left: int
    upper: int
    right: int
    lower: int

    def grown(self, by: int) -> Box:
        """The box with so many pixels more on each side."""
        return Box(self.left - by, self.upper - by, self.right + by, self.lower + by)

    def common(self, other: Box) -> Box:
        """What it has in common with another one that it meets."""
        return Box(max(self.left, other.left), max(self.upper, other.upper), min(self.right, other.right),
                   min(self.lower, other.lower))

    def meets(self, other: Box) -> bool:
        """Whether both have a pixel in common."""
        return (self.left < other.right and other.left < self.right
                and self.upper < other.lower and other.upper < self.lower)


@dataclass(frozen=True)
class Part:
    """A thin part: its box, the boxes that cover it, its colour (tints in 32nds), its area and outline in
    pixels."""

    box: Box
    covers: tuple[Box, ...]
    colour: tuple[int, ...]
    area: int
    outline: int
    slides: bool
    lighter: bool
    attached: bool


def drawn_reach(width: float, resolution: int) -> int:
    """How many pixels a trap of `width` points takes at a straight edge."""
    return int(width * resolution / 72 + 0.5)


# Edges

@dataclass
class Edges:
    """The edges of a window: the pixels that have one to the right neighbour, and to the lower neighbour; those that
    have one that calls for a trap; and those that have none to the right and to the lower neighbour. `inside` is the
    row of the window's columns."""

    right: Words
    lower: Words
    right_calls: Words
    lower_calls: Words
    inside: Words
    across: Words = field(init=False)
    down: Words = field(init=False)

    def __post_init__(self) -> None:
        self.across, self.down = ~self.right & bits.moved(self.inside[None], -1), ~self.lower


def steps_of(inks: Sequence[Ink], rule: Rule) -> list[int]:
    """By how many of 255 tints an ink has to change at an edge."""
    return [max(1, math.ceil(255 * (rule.step_limit if ink.step_limit is None else ink.step_limit))) for ink in inks]


def edges_of(planes: Sequence[Plane], steps: Sequence[int]) -> Edges:
    """The edges at which any plane changes by its step; those at which one rises and another falls call for a
    trap."""
    height, width = planes[0].shape
    found = np.stack([bits.empty(height, width)] * 4)
    block = Block(min(height, max(16, BLOCK_PIXELS // max(1, width))), found.shape[2] * bits.WORD)
    for top in range(0, height, block.rows):
        own = min(block.rows, height - top)
        if block.mark([plane[top:top + own + 1] for plane in planes], steps):
            found[:, top:top + own] = bits.packed(block.marks)[:, :own]
    inside = bits.columns(0, width, width)
    found[:2] &= bits.columns(0, width - 1, width)
    found[2:] &= inside
    rising, falling, rising_down, falling_down = found
    return Edges(rising | falling, rising_down | falling_down, rising & falling, rising_down & falling_down, inside)


class Block:
    """Some rows of a window as one line of samples, so that NumPy's loops are long. `marks` has the pixels from which a
    plane rises and falls to the right, and rises and falls down."""

    def __init__(self, rows: int, pitch: int):
        self.rows, self.pitch = rows, pitch
        self.marks = np.zeros((4, rows, pitch), bool)
        self.samples, self.reduced = np.zeros((2, rows + 1, pitch), np.uint8)
        self.more = np.zeros(rows * pitch, bool)

    def mark(self, planes: Sequence[Plane], steps: Sequence[int]) -> bool:
        """Marks the edges of some rows and of one more, unless they end with the page, and answers whether there may be
        any. What is marked beyond the planes' columns and rows means nothing."""
        is_first = True
        for plane, step in zip(planes, steps):
            height, width = plane.shape
            self.samples[:height, :width] = plane
            self.samples[:height, width:] = plane[:, -1:]
            samples = self.samples[:height].reshape(-1)
            if int(samples.max()) - int(samples.min()) < step:
                continue
            reduced = self.reduced[:height].reshape(-1)
            np.maximum(samples, np.uint8(step - 1), out=reduced)
            reduced -= np.uint8(step - 1)
            for marks, ahead in zip(self.marks.reshape(4, -1), (1, -1, self.pitch, -self.pitch)):
                self.add(marks, samples, reduced, ahead, is_first)
            is_first = False
        return not is_first

    def add(self, marks: Mask, samples: Plane, reduced: Plane, ahead: int, is_first: bool) -> None:
        """Marks where the samples rise by the step to those so many samples ahead, or fall if `ahead` is below 0."""
        far = abs(ahead)
        one, other = (reduced[far:], samples[:-far]) if ahead > 0 else (reduced[:-far], samples[far:])
        count = min(len(marks), len(one))
        if is_first:
            marks[count:] = False
            np.greater(one[:count], other[:count], out=marks[:count])
            return
        more = np.greater(one[:count], other[:count], out=self.more[:count])
        marks[:count] |= more


def grown_within(words: Words, edges: Edges) -> Words:
    """Each pixel that is set or has a neighbour that is, with no edge between."""
    out = words.copy()
    bits.add_moved(out, words & edges.across, 1)
    out |= bits.moved(words, -1) & edges.across
    out[1:] |= words[:-1] & edges.down[:-1]
    out[:-1] |= words[1:] & edges.down[:-1]
    return out


# One strip

@dataclass
class Rows:
    """The rows of a strip with a margin above and below. The strip's own rows go from `first` up to `last`, without it;
    `upper` is where the first row of all lies on the page."""

    planes: list[Plane]
    upper: int
    first: int
    last: int

    def __post_init__(self) -> None:
        self.width = self.planes[0].shape[1]
        self.samples = [plane.reshape(-1) for plane in self.planes]


@dataclass
class Window:
    """A stretch of a strip that has edges to trap: its columns from `left` up to `right`, without it, and the numbers
    of the planes that change there."""

    rows: Rows
    left: int
    right: int
    changing: list[int]

    def __post_init__(self) -> None:
        self.width = self.right - self.left
        self.pitch = bits.WORD * -(-self.width // bits.WORD)

    def edges(self, steps: Sequence[int]) -> Edges:
        """Its edges, where an ink has to change by so many tints."""
        planes = [self.rows.planes[at][:, self.left:self.right] for at in self.changing]
        return edges_of(planes, [steps[at] for at in self.changing])

    def rows_and_columns(self, places: Numbers) -> tuple[Numbers, Numbers]:
        """Where places of the window's masks are on the page."""
        row = places // self.pitch
        return row + self.rows.upper, places - row * self.pitch + self.left

    def samples(self, places: Numbers) -> Numbers:
        """Where places of the window's masks are in the samples of the strip's rows."""
        row = places // self.pitch
        return places + row * (self.rows.width - self.pitch) + self.left


class Finder:
    """Finds the thin parts of a page whose planes have the rows and columns of `planes[0]`, 0 being full ink."""

    def __init__(self, planes: Sequence[Plane], inks: Sequence[Ink], rule: Rule, resolution: int,
                 skip: Sequence[Box] = ()):
        kept = [(plane, ink) for plane, ink in zip(planes, inks) if ink.counts]
        self.planes, self.inks = [plane for plane, _ in kept], [ink for _, ink in kept]
        self.rule, self.skip = rule, skip
        self.height, self.width = planes[0].shape if planes else (0, 0)
        self.steps = steps_of(self.inks, rule)
        self.pixels = rule.width * resolution / 72
        self.least_thick = SHARE * max(self.pixels, drawn_reach(rule.width, resolution))
        self.reach = int(1.5 * self.pixels + 2)
        self.margin = 3 * self.reach + 2
        self.tile = int(TILE_WIDTHS * self.pixels) + 1
        tints = np.arange(255, -1, -1) / 255
        self.densities = [(tints * ink.density).astype(np.float32) for ink in self.inks]
        self.black_level = math.floor(255 * (1 - rule.black_color_limit))

    def parts(self) -> Iterator[Part]:
        """The thin parts, as the strips that they end in are read."""
        if len(self.planes) < 2 or self.pixels <= 0:
            return
        open_runs, open_tallies, open_covers = Runs.none(), self.no_tallies(), Covers.none()
        rows = max(STRIP_ROWS, 4 * self.margin)
        for top in range(0, self.height, rows):
            bottom = min(self.height, top + rows)
            strip = Strip(self, self.rows(top, bottom), open_runs, open_tallies)
            yield from strip.finished(open_covers)
            open_runs, open_tallies, open_covers = strip.still_open(open_covers)
        yield from self.as_parts(open_tallies, open_covers)

    def no_tallies(self) -> Tallies:
        """The tallies of no part."""
        return Tallies.of_runs(Runs.none(), np.zeros((len(self.planes), 0), np.uint8))

    def rows(self, top: int, bottom: int) -> Rows:
        """The rows of a strip."""
        above, below = max(0, top - self.margin), min(self.height, bottom + self.margin)
        return Rows([np.asarray(plane[above:below]) for plane in self.planes], above, top - above, bottom - above)

    def windows(self, rows: Rows) -> Iterator[Window]:
        """The stretches of a strip in which two planes change, with a tile and the margin around."""
        step = max(TILE, self.margin)
        upper, lower = max(0, rows.first - 1), min(len(rows.planes[0]), rows.last + 1)
        changes = np.stack([tiles_that_change(plane[upper:lower], step, least)
                            for plane, least in zip(rows.planes, self.steps)])
        lively = changes.sum(axis=0) >= 2
        for box in self.skip:
            if box.upper <= upper + rows.upper and lower + rows.upper <= box.lower:
                lively[-(-box.left // step):box.right // step] = False
        around = lively.copy()
        around[1:] |= lively[:-1]
        around[:-1] |= lively[1:]
        bounds = np.flatnonzero(np.diff(np.concatenate(([False], around, [False])))).tolist()
        if not bounds:
            return
        for at, (plane, least) in enumerate(zip(rows.planes, self.steps)):
            for margin in (plane[:upper + 1], plane[lower - 1:]):
                changes[at] |= tiles_that_change(margin, step, least)
        for first, last in zip(bounds[::2], bounds[1::2]):
            used = np.flatnonzero(changes[:, first:last].any(axis=1)).tolist()
            yield Window(rows, first * step, min(self.width, last * step), used)

    def is_black(self, values: Sequence[npt.NDArray[np.uint8]]) -> Mask:
        """Where an ink that is dense enough is black by its tint."""
        out = np.zeros(values[0].shape, bool)
        for plane, ink in zip(values, self.inks):
            if ink.density >= self.rule.black_density_limit:
                out |= plane <= self.black_level
        return out

    def is_kept(self, tallies: Tallies) -> Mask:
        """Which parts are thin strokes whose outline is trapped, and not black or within black. What is attached
        to a thick shape has to be long, and to be changed by its traps: the ground between letters is not."""
        outline = np.maximum(tallies.outline, 1)
        slides = 2 * tallies.slides > tallies.calls
        thickness = SLANT * 2 * tallies.area / outline
        kept = (2 * tallies.black <= tallies.area) & (2 * tallies.at_black < outline)
        kept &= tallies.calls > LEAST_OUTLINE * outline
        kept &= thickness < np.where(slides, self.least_thick / 2, self.least_thick)
        free = tallies.attached == 0
        receives = 2 * (tallies.darker + tallies.slides) > tallies.calls
        long = tallies.outline > LONG * np.maximum(thickness, self.pixels)
        return np.asarray(kept & (free | (receives & long)))

    def as_parts(self, tallies: Tallies, covers: Covers) -> Iterator[Part]:
        """The parts of tallies that are kept; `covers` has the tiles of those that are sparse."""
        kept = np.flatnonzero(self.is_kept(tallies))
        some = tallies.chosen(kept)
        order = np.argsort(covers.part, kind="stable")
        tiles = boxes_of(covers.left[order], covers.upper[order], covers.right[order], covers.lower[order])
        numbers = covers.part[order]
        spans = zip(np.searchsorted(numbers, kept).tolist(), np.searchsorted(numbers, kept, "right").tolist())
        columns = (some.area, some.outline, 2 * some.slides > some.calls, 2 * (some.darker + some.slides) <= some.calls,
                   some.attached > 0, self.is_sparse(some))
        for box, colour, span, (area, outline, slides, lighter, attached, sparse) in zip(
                boxes_of(some.left, some.upper, some.right, some.lower), ((255 - some.colour) // 32).T.tolist(), spans,
                zip(*(column.tolist() for column in columns))):
            covering = tuple(tiles[slice(*span)]) if sparse else (box,)
            yield Part(box, covering, tuple(colour), area, outline, slides, lighter, attached)

    def is_sparse(self, tallies: Tallies) -> Mask:
        """Which parts fill little of a box of many trap widths."""
        high, wide = tallies.lower - tallies.upper + 1, tallies.right - tallies.left + 1
        return np.asarray((tallies.area < SPARSE * high * wide) & (np.maximum(high, wide) > TILE_WIDTHS * self.pixels))


def tiles_that_change(plane: Plane, step: int, least: int) -> Mask:
    """In which tiles of so many columns a plane may change from one pixel to the next; a change between two tiles
    belongs to the first one."""
    starts = np.arange(0, plane.shape[1], step)
    high, low = np.maximum.reduceat(plane.max(axis=0), starts), np.minimum.reduceat(plane.min(axis=0), starts)
    high[:-1], low[:-1] = np.maximum(high[:-1], high[1:]), np.minimum(low[:-1], low[1:])
    return np.asarray(high.astype(np.int16) - low >= least)


def boxes_of(left: Numbers, upper: Numbers, right: Numbers, lower: Numbers) -> list[Box]:
    """Boxes of which the sides are given inclusive."""
    return [Box(*sides) for sides in zip(left.tolist(), upper.tolist(), (right + 1).tolist(), (lower + 1).tolist())]


class Strip:
    """The parts of some rows, joined with those that the rows above left open."""

    def __init__(self, finder: Finder, rows: Rows, open_runs: Runs, open_tallies: Tallies):
        self.finder, self.rows = finder, rows
        self.links: list[tuple[Numbers, Numbers]] = []
        self.runs, self.tallies = Runs.none(), open_tallies
        for window in finder.windows(rows):
            self.add(window, open_runs)
        count = len(self.tallies.area)
        one = np.concatenate([link[0] for link in self.links]) if self.links else np.zeros(0, np.int64)
        other = np.concatenate([link[1] for link in self.links]) if self.links else np.zeros(0, np.int64)
        self.component = roots_of(count, one, other)
        self.count = int(self.component.max()) + 1 if count else 0
        self.tallies = self.tallies.merged(self.component, self.count)
        self.runs.part = self.component[self.runs.part]
        self.open = np.zeros(self.count, bool)
        self.bottom = rows.upper + rows.last
        if self.bottom < finder.height:
            self.open[self.runs.part[self.runs.row == self.bottom - 1]] = True

    def add(self, window: Window, open_runs: Runs) -> None:
        """The runs of a window, what is counted of them, and how they hang together."""
        edges = window.edges(self.finder.steps)
        if not (edges.right_calls[self.rows.first:self.rows.last].any()
                or edges.lower_calls[max(0, self.rows.first - 1):self.rows.last].any()):
            return
        thin = self.thin_pixels(window, edges)
        if not self.is_bounded(edges, thin):
            return
        pieces = WindowRuns(self.finder, window, edges, thin)
        at = len(self.tallies.area)
        self.links += [(at + one, at + other) for one, other in pieces.links()]
        runs = pieces.runs(at)
        self.links.append(self.links_above(window, edges, open_runs, runs))
        self.runs = self.runs.joined(runs)
        self.tallies = self.tallies.joined(pieces.tallies(runs))

    def is_bounded(self, edges: Edges, thin: Words) -> bool:
        """Whether any thin pixel of the strip lies at an edge that calls for a trap."""
        rows = slice(max(0, self.rows.first - 1), self.rows.last)
        right, lower, some = edges.right_calls[rows], edges.lower_calls[rows], thin[rows]
        return bool((right & (some | bits.moved(some, -1))).any() or (lower & some).any()
                    or (lower[:-1] & some[1:]).any())

    def thin_pixels(self, window: Window, edges: Edges) -> Words:
        """What no thick shape reaches: it is thick around every pixel without an edge near."""
        touching = edges.right | edges.lower
        bits.add_moved(touching, edges.right, 1)
        touching[1:] |= edges.lower[:-1]
        seen = np.broadcast_to(edges.inside, touching.shape)
        for box in self.finder.skip:
            if box.meets(Box(window.left, self.rows.upper, window.right, self.rows.upper + len(touching))):
                seen = seen.copy()
                seen[max(0, box.upper - self.rows.upper):max(0, box.lower - self.rows.upper)] &= ~bits.columns(
                    box.left - window.left, box.right - window.left, window.width)
        reach = self.finder.reach
        # No edge lies within `reach` of a core, so what is spread from it by as much belongs to the same part.
        thick = bits.spread(~bits.spread(touching, reach, edges.inside) & seen, reach, edges.inside)
        for _ in range(reach // 2 + 1):
            thick = grown_within(thick, edges)
        return np.asarray(~thick & seen)

    def links_above(self, window: Window, edges: Edges, above: Runs, runs: Runs) -> tuple[Numbers, Numbers]:
        """Which runs of the first row go on from runs of the row above the strip."""
        row = self.rows.first - 1
        first = np.flatnonzero(runs.row == self.rows.first + self.rows.upper)
        if row < 0 or first.size == 0 or above.row.size == 0:
            return np.zeros(0, np.int64), np.zeros(0, np.int64)
        part_above, part_below = (np.full(window.width, -1) for _ in range(2))
        for table, some in ((part_above, above), (part_below, runs.chosen(first))):
            for start, last, part in zip(some.first - window.left, some.last - window.left, some.part):
                if last >= 0 and start < window.width:
                    table[max(0, start):last + 1] = part
        joined = (part_above >= 0) & (part_below >= 0) & bits.unpacked(edges.down[row:row + 1], window.width)[0]
        pairs = np.unique(np.stack((part_above[joined], part_below[joined])), axis=1)
        return pairs[0], pairs[1]

    def covers(self, open_covers: Covers) -> Covers:
        """The tiles of the parts that are open or sparse."""
        before = Covers(open_covers.left, open_covers.upper, open_covers.right, open_covers.lower,
                        self.component[open_covers.part] if len(open_covers.part) else open_covers.part)
        wanted = self.open | (self.finder.is_sparse(self.tallies) & self.finder.is_kept(self.tallies))
        some = self.runs.chosen(wanted[self.runs.part]) if len(self.runs.part) else self.runs
        return before.joined(Covers.of_runs(some, self.finder.tile)).packed(self.finder.tile)

    def finished(self, open_covers: Covers) -> Iterator[Part]:
        """The parts that no later strip goes on."""
        done = np.flatnonzero(~self.open)
        covers = self.covers(open_covers)
        number = np.full(self.count, -1)
        number[done] = np.arange(len(done))
        covers.part = number[covers.part] if len(covers.part) else covers.part
        yield from self.finder.as_parts(self.tallies.chosen(done), covers.chosen(covers.part >= 0))

    def still_open(self, open_covers: Covers) -> tuple[Runs, Tallies, Covers]:
        """The last runs of the parts that the next strip may go on, with their tallies and covers."""
        left = np.flatnonzero(self.open)
        number = np.full(self.count, -1)
        number[left] = np.arange(len(left))
        covers = self.covers(open_covers)
        covers.part = number[covers.part] if len(covers.part) else covers.part
        runs = self.runs.chosen(self.runs.row == self.bottom - 1)
        runs.part = number[runs.part] if len(runs.part) else runs.part
        return runs, self.tallies.chosen(left), covers.chosen(covers.part >= 0)


class WindowRuns:
    """The runs of the thin pixels of a window."""

    def __init__(self, finder: Finder, window: Window, edges: Edges, thin: Words):
        self.finder, self.window, self.edges = finder, window, edges
        thin[:window.rows.first] = 0
        thin[window.rows.last:] = 0
        self.thin = thin
        self.begins = thin & ~bits.moved(thin & edges.across, 1)
        self.starts = bits.places(self.begins)
        self.stops = bits.places(thin & ~(bits.moved(thin, -1) & edges.across))

    def of(self, places: Numbers) -> Numbers:
        """Of places within thin pixels the runs that they lie in."""
        return np.searchsorted(self.starts, places, "right") - 1

    def runs(self, base: int) -> Runs:
        """The runs by rows and columns; their numbers begin with `base`."""
        row, first = self.window.rows_and_columns(self.starts)
        _, last = self.window.rows_and_columns(self.stops)
        return Runs(row, first, last, base + np.arange(len(row)))

    def links(self) -> Iterator[tuple[Numbers, Numbers]]:
        """Runs one above the other that no edge parts: each pair once for each stretch that they share."""
        joined = self.thin[:-1] & self.thin[1:] & self.edges.down[:-1]
        first = joined & (~bits.moved(joined, 1) | self.begins[:-1] | self.begins[1:])
        places = bits.places(first)
        yield self.of(places), self.of(places + self.window.pitch)

    def tallies(self, runs: Runs) -> Tallies:
        """What is counted of each run."""
        at = self.window.samples(self.starts)
        colour = np.stack([plane[at] for plane in self.window.rows.samples])
        out = Tallies.of_runs(runs, colour)
        out.black = np.where(self.finder.is_black(list(colour)), out.area, 0)
        # The rows above and below the strip may be thin too: nothing is cut off there.
        cuts = grown_within(~self.thin & self.edges.inside, self.edges) & self.thin
        cuts[self.window.rows.first] = cuts[self.window.rows.last - 1] = 0
        count = len(self.starts)
        out.attached = np.bincount(self.of(bits.places(cuts)), minlength=count)
        beside = self.thin | bits.moved(self.thin, -1)
        self.count_edges(out, self.edges.right & beside, self.edges.right_calls, (1, 1))
        beside = self.thin.copy()
        beside[:-1] |= self.thin[1:]
        self.count_edges(out, self.edges.lower & beside, self.edges.lower_calls,
                         (self.window.pitch, self.window.rows.width))
        return out

    def count_edges(self, out: Tallies, edges: Words, calls: Words, step: tuple[int, int]) -> None:
        """The outline of each run: how much of it calls for a trap, lies beside black, slides, and has the run as
        its darker side. `step` is how far the pixel beyond an edge is in the masks, and in the samples."""
        first = bits.places(edges)
        at = self.window.samples(first)
        values = [[plane[place] for plane in self.window.rows.samples] for place in (at, at + step[1])]
        tables = self.finder.densities
        densities = [np.sum([table[value] for table, value in zip(tables, one)], axis=0) for one in values]
        called = bits.has(calls, first)
        slid = called & (np.minimum(*densities) >= self.finder.rule.sliding_limit * np.maximum(*densities))
        for side, place in enumerate((first, first + step[0])):
            inside = bits.has(self.thin, place)
            run = self.of(place[inside])
            darker = called & ~slid & (densities[side] > densities[1 - side])
            beside_black = self.finder.is_black(values[1 - side])
            out.outline += np.bincount(run, minlength=len(self.starts))
            for name, which in (("at_black", beside_black), ("calls", called), ("slides", slid), ("darker", darker)):
                getattr(out, name)[:] += np.bincount(run[which[inside]], minlength=len(self.starts))


def find_strokes(planes: Sequence[Plane], inks: Sequence[Ink], rule: Rule, resolution: int,
                 skip: Sequence[Box] = ()) -> list[Part]:
    """The thin parts of a page: connected pixels whose stroke is below three trap widths and whose outline is
    trapped. If more than half of them are specks, the specks are left out.

    `planes` are rows by columns, 0 is full ink. Within the boxes of `skip`, those of images say, nothing is
    looked at.
    """
    parts = list(Finder(planes, inks, rule, resolution, skip).parts())
    strokes = [part for part in parts if part.area >= SPECK]
    return parts if len(parts) <= 2 * len(strokes) else strokes

# SPDX-License-Identifier: Apache-2.0
"""Why a pixel is trapped, or is not: the trapping rule of docs/RULE.md on a small window of the page.

The window holds every pixel that can decide about the one that is asked for, so the answer is that of the
whole page. Edges are decided with NumPy; one pixel's trap is then worked out in whole numbers.
"""
from __future__ import annotations

import math
from collections.abc import Sequence
from dataclasses import dataclass
from functools import cached_property

import numpy as np
from numpy.typing import NDArray

from press.job_language import SCALE, Job, JobInk, JobZone, Parameters, Subpath

Tints = NDArray[np.int64]
Mask = NDArray[np.bool_]
Pixel = tuple[int, int]

HALF_PIXEL = 36 * SCALE
"""Half a pixel at 1 dpi, in ten-thousandths of a point."""

KINDS_WITHOUT_DENSITY = ("Transparent", "OpaqueIgnore")
KINDS_THAT_SPREAD = ("Normal",)


@dataclass(frozen=True)
class Colour:
    """The colour of a pixel: tints by plate from 0 (no ink) to maxval, and its neutral density."""

    tints: tuple[int, ...]
    density: float


@dataclass(frozen=True)
class DecidingEdge:
    """The edge that a pixel answers to: its two pixels, the colours on both sides, and how far it reaches."""

    pixels: tuple[Pixel, Pixel]
    own: Colour
    across: Colour
    distance: float
    reach: float
    is_black: bool
    is_centred: bool


@dataclass(frozen=True)
class Answer:
    """Tints of one pixel before and after trapping, its zone, and the reason in one sentence."""

    zone: int
    parameters: Parameters
    before: tuple[int, ...]
    after: tuple[int, ...]
    reason: str
    edge: DecidingEdge | None


def zone_reach(zone: JobZone, resolution: int) -> int:
    """How far an edge can trap in a zone, in half-pixels."""
    parameters = zone.parameters
    return parameters.trap_width * max(parameters.black_width, SCALE) * resolution // (36 * SCALE * SCALE)


def page_reach(job: Job) -> int:
    """How far an edge can trap anywhere on the page, in half-pixels."""
    return max((zone_reach(one, job.resolution) for one in job.zones if one.parameters.enabled), default=0)


def window_radius(job: Job) -> int:
    """How many pixels on each side of a pixel decide about it."""
    return page_reach(job) // 2 + 2


@dataclass(frozen=True)
class Place:
    """Where a window lies: its first column and row on the page, and the page's height, in pixels."""

    left: int
    top: int
    page_height: int


class Window:
    """A part of a page: tints (plates × rows × columns, 0 is no ink), the inks' details, and the job."""

    def __init__(self, tints: Tints, maxval: int, inks: Sequence[str], job: Job, place: Place) -> None:
        self.tints, self.maxval, self.names = tints.astype(np.int64), maxval, list(inks)
        self.job, self.place = job, place
        self.inks = [job.inks.get(name, JobInk()) for name in self.names]
        self.counting = [k for k, ink in enumerate(self.inks) if ink.kind not in KINDS_WITHOUT_DENSITY]
        self.spreading = [ink.kind in KINDS_THAT_SPREAD for ink in self.inks]
        self.shape = self.tints.shape[1:]

    @cached_property
    def zones(self) -> NDArray[np.int64]:
        """The number of each pixel's zone: the last one whose path winds round its centre, else 0."""
        found = np.zeros(self.shape, np.int64)
        for number, zone in enumerate(self.job.zones[1:], 1):
            winding = np.zeros(self.shape, np.int64)
            for subpath in zone.subpaths:
                add_winding(winding, subpath, self.job.resolution, self.place)
            found[winding != 0] = number
        return found

    @cached_property
    def is_shut(self) -> Mask:
        """Where an ink lies that keeps traps away."""
        closing = [k for k, ink in enumerate(self.inks) if ink.kind == "OpaqueIgnore"]
        return np.asarray((self.tints[closing] > 0).any(axis=0))

    @cached_property
    def densities(self) -> NDArray[np.int64]:
        """The sum of density times tint over the inks that count."""
        weights = np.array([self.inks[k].density for k in self.counting], np.int64)
        return np.tensordot(weights, self.tints[self.counting], 1)

    @cached_property
    def enabled(self) -> Mask:
        """Where the zone is trapped at all."""
        return np.array([zone.parameters.enabled for zone in self.job.zones])[self.zones]

    @cached_property
    def steps(self) -> NDArray[np.int64]:
        """By zone and counting ink, the least change of tint that counts, times SCALE."""
        return np.array([[zone.step_limits.get(self.names[k], zone.parameters.step_limit) * self.maxval
                          for k in self.counting] for zone in self.job.zones], np.int64)

    def edges_between(self, first: tuple[slice, slice], second: tuple[slice, slice]) -> tuple[Mask, Mask, Mask]:
        """For pairs of neighbours: whether colours differ, whether both zones are on, and whether the edge decides."""
        one, two = self.tints[(slice(None), *first)], self.tints[(slice(None), *second)]
        differ = (one != two).any(axis=0)
        both_on = self.enabled[first] & self.enabled[second]
        decides = differ & both_on & ~self.is_shut[first] & ~self.is_shut[second]
        rows, columns = np.nonzero(decides)
        change = (two - one)[self.counting][:, rows, columns] * SCALE
        for zones in (self.zones[first], self.zones[second]):
            step = self.steps[zones[rows, columns]].T
            apart = ((change > 0) & (change >= step)).any(axis=0) & ((change < 0) & (-change >= step)).any(axis=0)
            decides[rows, columns] &= apart
        return differ, both_on, decides

    @cached_property
    def edges(self) -> list[tuple[Pixel, tuple[Mask, Mask, Mask]]]:
        """Vertical and horizontal edges: the step to the second pixel (column, row), and edges_between."""
        every, but_last, but_first = slice(None), slice(None, -1), slice(1, None)
        return [((1, 0), self.edges_between((every, but_last), (every, but_first))),
                ((0, 1), self.edges_between((but_last, every), (but_first, every)))]

    def nearest(self, pixel: Pixel, which: int) -> tuple[int, int, int] | None:
        """The nearest edge of one kind: its squared distance and its place on the doubled grid, column and row; the
        leftmost, then the topmost of several. None if there is none."""
        found = []
        for step, masks in self.edges:
            rows, columns = np.nonzero(masks[which])
            if rows.size:
                across, down = 2 * columns + step[0], 2 * rows + step[1]
                squares = (across - 2 * pixel[0]) ** 2 + (down - 2 * pixel[1]) ** 2
                least = np.flatnonzero(squares == squares.min())
                found += list(zip(squares[least].tolist(), across[least].tolist(), down[least].tolist()))
        return min(found, default=None)

    def colour(self, pixel: Pixel) -> Colour:
        """The colour of a pixel of the window."""
        tints = tuple(int(one) for one in self.tints[:, pixel[1], pixel[0]])
        return Colour(tints, int(self.densities[pixel[1], pixel[0]]) / SCALE / self.maxval)


def add_winding(winding: NDArray[np.int64], subpath: Subpath, resolution: int, place: Place) -> None:
    """Adds a closed subpath's winding number about each pixel's centre."""
    height, width = winding.shape
    crossings = np.zeros((height, width + 1), np.int64)
    points = [(x * resolution, y * resolution) for x, y in subpath]
    for (x0, y0), (x1, y1) in zip(points, points[1:] + points[:1]):
        if y0 == y1:
            continue
        low, high = min(y0, y1), max(y0, y1)
        # The centre of row r lies at (2 (page height - r) - 1) half-pixels above the lower border.
        last = place.page_height - 1 - (-(-low // HALF_PIXEL) // 2)
        first = place.page_height - 1 - ((-(-high // HALF_PIXEL) - 2) // 2)
        for row in range(max(first - 1, place.top), min(last + 1, place.top + height - 1) + 1):
            centre = (2 * (place.page_height - row) - 1) * HALF_PIXEL
            if low <= centre < high:
                # Columns whose centre lies left of the crossing: (2 x + 1) half-pixels < crossing.
                across = (x1 - x0) * (centre - y0) * (1 if y1 > y0 else -1) + x0 * (high - low)
                limit = -(-(across - HALF_PIXEL * (high - low)) // (2 * HALF_PIXEL * (high - low)))
                crossings[row - place.top, min(max(limit - place.left, 0), width)] += 1 if y1 > y0 else -1
    winding += crossings[:, ::-1].cumsum(axis=1)[:, ::-1][:, 1:]


def explain(window: Window, pixel: Pixel) -> Answer:
    """Why a pixel of the window is trapped, or is not."""
    number = int(window.zones[pixel[1], pixel[0]])
    parameters = window.job.zones[number].parameters
    old = window.colour(pixel).tints
    found = window.nearest(pixel, 2)
    if found is None:
        return Answer(number, parameters, old, old, _why_no_edge(window, pixel), None)
    trap = _Trap(window, pixel, parameters, found)
    reason = trap.obstacle()
    if reason:
        return Answer(number, parameters, old, old, reason, trap.edge() if trap.is_within() else None)
    reason = ("trapped: both sides are about as dark, so the trap is centred on the edge" if trap.is_centred else
              "trapped: this side is darker, so the lighter colour spreads into it")
    return Answer(number, parameters, old, trap.new_tints(), reason, trap.edge())


def _why_no_edge(window: Window, pixel: Pixel) -> str:
    """Why no edge of the window decides."""
    if window.is_shut[pixel[1], pixel[0]]:
        return "not trapped: an ink that keeps traps away lies here"
    if not window.enabled[pixel[1], pixel[0]]:
        return "not trapped: traps are off in this zone"
    differing = window.nearest(pixel, 0)
    if differing is None or differing[0] > page_reach(window.job) ** 2:
        return "not trapped: no two colours meet within a trap width"
    both_on = [differ & on for _, (differ, on, _) in window.edges]
    if not any(mask.any() for mask in both_on):
        return "not trapped: traps are off on one side of each edge nearby"
    return ("not trapped: no edge nearby needs a trap, since one colour holds all inks of the other,"
            " or the step is below StepLimit")


class _Trap:
    """What the rule says of a pixel of a window and the edge that it answers to, in whole numbers."""

    def __init__(self, window: Window, pixel: Pixel, parameters: Parameters, edge: tuple[int, int, int]) -> None:
        self.window, self.pixel, self.parameters = window, pixel, parameters
        self.square, across, down = edge
        first, second = (across // 2, down // 2), ((across + 1) // 2, (down + 1) // 2)
        axis = 0 if across % 2 else 1
        is_first = 2 * pixel[axis] < (across, down)[axis]
        self.pixels = first, second
        self.own, self.across = (first, second) if is_first else (second, first)
        low, high = sorted(self.density(one) for one in self.pixels)
        self.is_centred = low * SCALE >= parameters.sliding_trap_limit * high
        self.is_black = any(self.is_black_at(one) for one in self.pixels if self.density(one) == high)
        factor = parameters.black_width if self.is_black else SCALE
        self.width = parameters.trap_width * factor * window.job.resolution

    def density(self, pixel: Pixel) -> int:
        """Density times maxval times SCALE."""
        return int(self.window.densities[pixel[1], pixel[0]])

    def tint(self, plate: int, pixel: Pixel) -> int:
        """The tint of one plate at a pixel."""
        return int(self.window.tints[plate, pixel[1], pixel[0]])

    def is_black_at(self, pixel: Pixel) -> bool:
        """Whether an ink that counts as black lies on a pixel."""
        return any(self.window.inks[k].density >= self.parameters.black_density_limit and self.tint(k, pixel) > 0
                   and self.tint(k, pixel) * SCALE >= self.parameters.black_color_limit * self.window.maxval
                   for k in self.window.counting)

    def is_within(self) -> bool:
        """Whether the edge is near enough: the trap width, times the black width at black, half if centred."""
        halves = 2 if self.is_centred else 1
        return bool(self.square * (36 * SCALE * SCALE * halves) ** 2 <= self.width ** 2)

    def is_apart(self) -> bool:
        """Whether one ink ends and another begins between the pixel and the edge's other side."""
        number = int(self.window.zones[self.pixel[1], self.pixel[0]])
        pairs = [((self.tint(k, self.across) - self.tint(k, self.pixel)) * SCALE, int(self.window.steps[number, place]))
                 for place, k in enumerate(self.window.counting)]
        return (any(change > 0 and change >= step for change, step in pairs)
                and any(change < 0 and -change >= step for change, step in pairs))

    def obstacle(self) -> str | None:
        """Why the pixel is not trapped, or None if it is."""
        window, (column, row) = self.window, self.pixel
        if window.is_shut[row, column]:
            return "not trapped: an ink that keeps traps away lies here"
        if not self.parameters.enabled:
            return "not trapped: traps are off in this zone"
        if not self.is_within():
            return "not trapped: the nearest edge is farther away than the trap width"
        if not self.is_apart():
            return "not trapped: this colour and the one across the edge share their inks"
        if not self.is_centred and self.density(self.across) >= self.density(self.own):
            return "not trapped: this side is lighter, so the trap lies on the other side of the edge"
        return None

    def new_tints(self) -> tuple[int, ...]:
        """The tints after trapping: both colours over each other, scaled down by TrapColorScaling."""
        window, plates = self.window, range(len(self.window.inks))
        old = [self.tint(k, self.pixel) for k in plates]
        full = [max(old[k], self.tint(k, self.across)) if window.spreading[k] else old[k] for k in plates]
        before, after = (sum(window.inks[k].density * tints[k] for k in window.counting) for tints in (old, full))
        share = before * SCALE + self.parameters.trap_color_scaling * (after - before)
        return tuple(full[k] * share // (after * SCALE) if window.spreading[k] else old[k] for k in plates)

    def edge(self) -> DecidingEdge:
        """The edge for people: places on the page, colours, distance and reach in pixels."""
        left, top = self.window.place.left, self.window.place.top
        first, second = ((column + left, row + top) for column, row in self.pixels)
        reach = self.width / (72 * SCALE * SCALE) / (2 if self.is_centred else 1)
        return DecidingEdge((first, second), self.window.colour(self.own), self.window.colour(self.across),
                            math.sqrt(self.square) / 2, reach, self.is_black, self.is_centred)

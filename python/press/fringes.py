# SPDX-License-Identifier: Apache-2.0
"""Where a press out of register shows a coloured fringe at the edge of a rich black: what keepaway is there to prevent.

Each plate may be off by a distance of up to a radius of samples, each its own way. A sample has a fringe if black may
leave it uncovered and an ink that black covers may show there, by more than a margin over what that ink has on every
uncovered sample within the radius in register.
"""
import functools
import math
from collections.abc import Callable, Sequence
from dataclasses import dataclass
from typing import Any

import numpy

from . import keepaway
from .folder import JOB, PageFolder
from .job_language import JobSyntaxError, read_job
from .plates import Array, release

# Samples of 8 bits, 0 is full ink: black covers from half of full ink on, and a tenth of an ink is seen.
UNCOVERED, MARGIN = 128, 26
PAPER = 255
# Columns of a stretch that is searched alone.
STRETCH = 512


def spread_round(plane: Array, radius: int, choose: Callable[..., Any]) -> Array:
    """Of each sample the greatest or the least within a distance of the radius."""
    out, across, reached = plane.copy(), plane.copy(), 0
    for down in range(radius, -1, -1):
        half = math.isqrt(radius * radius - down * down)
        for step in range(reached + 1, half + 1):
            choose(across[:, step:], plane[:, :-step], out=across[:, step:])
            choose(across[:, :-step], plane[:, step:], out=across[:, :-step])
        reached = half
        choose(out[down:], across[:across.shape[0] - down], out=out[down:])
        choose(out[:out.shape[0] - down], across[down:], out=out[:out.shape[0] - down])
    return out


@dataclass(frozen=True)
class Fringes:
    """Finds fringes: `blacks` and `others` are the places of the black inks and of those that are drawn back under them
    among a page's plates, `radius` how far each plate is off, in samples."""

    blacks: Sequence[int]
    others: Sequence[int]
    radius: int

    def both(self, before: Sequence[Array], after: Sequence[Array], rows: range) -> tuple[Array, Array]:
        """Where fringes can show in some rows of two states of a page: arrays of bool, rows × columns. What did not
        change is looked at once."""
        found = self.within(before, rows)
        around = slice(max(0, rows.start - self.radius), rows.stop + self.radius)
        same = all(before[at] is after[at] or numpy.array_equal(before[at][around], after[at][around])
                   for at in (*self.blacks, *self.others))
        return found, found.copy() if same else self.within(after, rows)

    def within(self, planes: Sequence[Array], rows: range) -> Array:
        """Where fringes can show in some rows of a page."""
        height, width = planes[0].shape
        out = numpy.zeros((len(rows), width), dtype=bool)
        if not self.blacks or not self.others:
            return out
        around = slice(max(0, rows.start - self.radius), min(height, rows.stop + self.radius))
        own_rows = slice(rows.start - around.start, rows.stop - around.start)
        for left in range(0, width, STRETCH):
            right = min(width, left + STRETCH)
            wide = slice(max(0, left - self.radius), min(width, right + self.radius))
            found = self.of_stretch([planes[at][around, wide] for at in self.blacks],
                                    [planes[at][around, wide] for at in self.others])
            if found is not None:
                out[:, left:right] = found[own_rows, left - wide.start:right - wide.start]
        release(*planes)
        return out

    def of_stretch(self, blacks: Sequence[Array], others: Sequence[Array]) -> Array | None:
        """Where fringes can show in a stretch and its border; None if no ink lies under black, or all is black."""
        least = functools.reduce(numpy.minimum, blacks)
        covered = least < UNCOVERED
        if not covered.any() or covered.all():
            return None
        under = [plane for plane in others if (plane[covered] < PAPER - MARGIN).any()]
        if not under:
            return None
        found = numpy.zeros(covered.shape, dtype=bool)
        for plane in under:
            hidden = spread_round(numpy.where(covered, plane, PAPER).astype("i2"), self.radius, numpy.minimum)
            open_now = spread_round(numpy.where(covered, PAPER, plane).astype("i2"), self.radius, numpy.minimum)
            found |= hidden + MARGIN < open_now
        opened: Array = spread_round(least, self.radius, numpy.maximum) >= UNCOVERED
        return found & opened


def fringes_of(page: PageFolder, radius: int) -> Fringes:
    """What finds the fringes of a page; without a job that can be read it finds none."""
    try:
        with open(page.file(JOB), "rb") as file:
            blacks, others = keepaway.blacks_and_others(page, read_job(file.read()))
    except (JobSyntaxError, RecursionError, IndexError):
        blacks, others = [], []
    at = {ink.name: place for place, ink in enumerate(page.inks)}
    return Fringes([at[ink.name] for ink in blacks], [at[ink.name] for ink in others], radius)

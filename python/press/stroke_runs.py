# SPDX-License-Identifier: Apache-2.0
"""Parts of a page as runs of pixels: what is counted of each part, the tiles that it fills, and which runs hang
together."""
from __future__ import annotations

from dataclasses import dataclass, fields
from typing import Self

import numpy as np
import numpy.typing as npt

Plane = npt.NDArray[np.uint8]
Mask = npt.NDArray[np.bool_]
Numbers = npt.NDArray[np.int64]


def roots_of(count: int, one: Numbers, other: Numbers) -> Numbers:
    """Of each node the number of its component, from 0, where `one` and `other` are the ends of the links."""
    parent = np.arange(count)
    while len(one):
        first, second = parent[one], parent[other]
        apart = first != second
        one, other = first[apart], second[apart]
        parent[np.maximum(one, other)] = np.minimum(one, other)
        while True:
            above = parent[parent]
            if np.array_equal(above, parent):
                break
            parent = above
    return np.asarray((np.cumsum(parent == np.arange(count)) - 1)[parent])


SUMS = ("area", "outline", "calls", "slides", "darker", "black", "at_black", "attached")


@dataclass
class Tallies:
    """What is counted of parts, one column for each part. Boxes are inclusive here; `colour` has a row for each
    plane."""

    area: Numbers
    outline: Numbers
    calls: Numbers
    slides: Numbers
    darker: Numbers
    black: Numbers
    at_black: Numbers
    attached: Numbers
    left: Numbers
    upper: Numbers
    right: Numbers
    lower: Numbers
    colour: Plane

    @classmethod
    def of_runs(cls, runs: Runs, colour: Plane) -> Tallies:
        """Runs of which nothing but their size is counted yet."""
        area = runs.last - runs.first + 1
        one, two, three, four, five, six, seven = np.zeros((7, len(area)), np.int64)
        return cls(area, one, two, three, four, five, six, seven, runs.first, runs.row, runs.last, runs.row, colour)

    def chosen(self, which: Numbers) -> Tallies:
        """Some of the columns."""
        return Tallies(**{one.name: getattr(self, one.name)[..., which] for one in fields(self)})

    def joined(self, other: Tallies) -> Tallies:
        """The columns of both."""
        return Tallies(**{one.name: np.concatenate((getattr(self, one.name), getattr(other, one.name)), axis=-1)
                          for one in fields(self)})

    def merged(self, of: Numbers, count: int) -> Tallies:
        """The tallies of components, where `of` is the component of each column. The first column gives the
        colour."""
        if not count:
            return self
        values: dict[str, Numbers] = {}
        for name in SUMS:
            values[name] = np.bincount(of, getattr(self, name), count).astype(np.int64)
        order = np.argsort(of, kind="stable")
        starts = np.searchsorted(of[order], np.arange(count))
        values["left"], values["upper"] = (np.minimum.reduceat(one[order], starts) for one in (self.left, self.upper))
        values["right"], values["lower"] = (np.maximum.reduceat(one[order], starts) for one in (self.right, self.lower))
        return Tallies(**values, colour=self.colour[:, order[starts]])


@dataclass
class Columns:
    """Columns of numbers, all of one length: a row for each of several things."""

    @classmethod
    def none(cls) -> Self:
        """No row."""
        return cls(*(np.zeros(0, np.int64) for _ in fields(cls)))

    def chosen(self, which: Numbers | Mask) -> Self:
        """Some rows."""
        return type(self)(*(getattr(self, one.name)[which] for one in fields(self)))

    def joined(self, other: Self) -> Self:
        """Its rows, and those of another one."""
        return type(self)(*(np.concatenate((getattr(self, one.name), getattr(other, one.name)))
                            for one in fields(self)))


@dataclass
class Runs(Columns):
    """Runs of pixels of one part in a row: the row, the first and the last column, and the part's number."""

    row: Numbers
    first: Numbers
    last: Numbers
    part: Numbers


@dataclass
class Covers(Columns):
    """Boxes within tiles that a part's pixels fill, inclusive, with the part's number."""

    left: Numbers
    upper: Numbers
    right: Numbers
    lower: Numbers
    part: Numbers

    @classmethod
    def of_runs(cls, runs: Runs, tile: int) -> Covers:
        """The boxes of runs, tile by tile."""
        first, last = runs.first // tile, runs.last // tile
        count = last - first + 1
        again = np.repeat(np.arange(len(count)), count)
        column = first[again] + np.arange(len(again)) - np.repeat(np.cumsum(count) - count, count)
        left = np.maximum(runs.first[again], column * tile)
        right = np.minimum(runs.last[again], column * tile + tile - 1)
        return cls(left, runs.row[again], right, runs.row[again], runs.part[again]).packed(tile)

    def packed(self, tile: int) -> Covers:
        """One box for each part and tile."""
        if self.part.size == 0:
            return self
        order = np.lexsort((self.left // tile, self.upper // tile, self.part))
        columns, rows, parts = (self.left // tile)[order], (self.upper // tile)[order], self.part[order]
        new = np.ones(len(order), bool)
        new[1:] = (np.diff(columns) != 0) | (np.diff(rows) != 0) | (np.diff(parts) != 0)
        starts = np.flatnonzero(new)
        left, upper = (np.minimum.reduceat(one[order], starts) for one in (self.left, self.upper))
        right, lower = (np.maximum.reduceat(one[order], starts) for one in (self.right, self.lower))
        return Covers(left, upper, right, lower, parts[starts])

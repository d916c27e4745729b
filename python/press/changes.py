# SPDX-License-Identifier: Apache-2.0
"""What trapping changed on a page, found in one pass over its plates before and after: how much, and where on a small
picture and in a grid. Few samples change, so their places are taken and not whole planes of marks."""
from collections.abc import Iterator, Sequence
from dataclasses import dataclass

import numpy

from .plates import Array, release

BAND_ROWS = 240


@dataclass(frozen=True)
class Grid:
    """A grid of parts of a page, each of so many columns and rows of samples; those at the page's right and lower edges
    are cut."""

    width: int
    height: int

    def counted(self, where: Array) -> Array:
        """How many marks of an array of bool (rows × columns) each part has."""
        return self.of_places(numpy.flatnonzero(where), where.shape)

    def of_places(self, places: Array, shape: tuple[int, ...]) -> Array:
        """How many places, counted through an array of that shape, each part has."""
        rows, columns = -(-shape[0] // self.height), -(-shape[1] // self.width)
        row, column = numpy.divmod(places, shape[1])
        counts: Array = numpy.bincount(row // self.height * columns + column // self.width, minlength=rows * columns)
        return counts.reshape(rows, columns)


@dataclass(frozen=True)
class Changes:
    """What changed. `added` says for each plate how many samples have more ink; `marks` has for each plate an array of
    bool, whose points are squares of `times` samples: those of which some sample has more ink; `counts` says how many
    samples of each part of a grid changed on any plate."""

    added: tuple[int, ...]
    marks: tuple[Array, ...]
    counts: Array


@dataclass(frozen=True)
class Found:
    """What changed in some rows. `places` are for each plate those of its points on the small picture."""

    added: tuple[int, ...]
    places: tuple[Array, ...]
    counts: Array


def changes_in(before: Sequence[Array], after: Sequence[Array], times: int, grid: Grid, rows: range) -> Found:
    """What changed in some rows of plates (rows × columns, 0 is full ink), band by band. What makes no square at the
    right or lower edge has no place."""
    shape, added = before[0].shape, [0] * len(before)
    places: list[list[Array]] = [[] for _ in before]
    counts = grid.of_places(numpy.zeros(0, dtype="i8"), shape)
    for first, end in bands(rows, grid.height):
        changed = numpy.zeros((end - first, shape[1]), dtype=bool)
        for number, (old, new) in enumerate(zip(before, after)):
            row, column = more_ink(old[first:end], new[first:end], changed)
            added[number] += len(row)
            places[number].append(small_places(row + first, column, shape, times))
        counts += grid.of_places(numpy.flatnonzero(changed) + first * shape[1], shape)
        release(*before, *after)
    return Found(tuple(added), tuple(numpy.concatenate(one) for one in places), counts)


def together(parts: Sequence[Found], like: Array, times: int) -> Changes:
    """What changed in all parts of plates that have the rows and columns of `like`."""
    added = [sum(counts) for counts in zip(*(one.added for one in parts))]
    marks = [marked(numpy.concatenate(places), like.shape, times) for places in zip(*(one.places for one in parts))]
    return Changes(tuple(added), tuple(marks), numpy.sum([one.counts for one in parts], axis=0))


def small_shape(shape: tuple[int, ...], times: int) -> tuple[int, int]:
    """The rows and columns of a picture whose points are squares of so many samples."""
    return max(1, shape[0] // times), max(1, shape[1] // times)


def bands(rows: range, step: int) -> Iterator[tuple[int, int]]:
    """Bands of so many rows of a grid."""
    for first in rows[::max(1, BAND_ROWS // step) * step]:
        yield first, min(rows.stop, first + max(1, BAND_ROWS // step) * step)


def more_ink(old: Array, new: Array, changed: Array) -> tuple[Array, Array]:
    """The rows and columns of the samples that have more ink; those that differ are marked as changed."""
    differs = old != new
    changed |= differs
    row, column = numpy.divmod(numpy.flatnonzero(differs), differs.shape[1])
    more = new[row, column] < old[row, column]
    return row[more], column[more]


def small_places(row: Array, column: Array, shape: tuple[int, ...], times: int) -> Array:
    """The places, counted through a small picture, of the points on it that have some of the samples, each once."""
    rows, columns = small_shape(shape, times)
    row, column = row // times, column // times
    there = (row < rows) & (column < columns)
    found: Array = numpy.unique(row[there] * columns + column[there])
    return found


def marked(places: Array, shape: tuple[int, ...], times: int) -> Array:
    """The small picture, an array of bool, with these places set."""
    out = numpy.zeros(small_shape(shape, times), dtype=bool)
    out.flat[places] = True
    return out

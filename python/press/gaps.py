# SPDX-License-Identifier: Apache-2.0
"""Where a press out of register still prints lighter than anything that lies near: what a trap is there to close.

Each plate may be off by a radius of samples in both directions, each its own way. At a sample the worst that can come
of it is that each plate has its least ink within the radius. It counts as a gap if the density of that is less than
that of every sample within the radius in register, by more than a margin: a white or a light gap between two
colours. The edge of a shape on unprinted paper is not a gap, since paper lies next to it in register too.
"""
from collections.abc import Callable, Iterator, Sequence
from typing import Any

import numpy

from .plates import Array, release

MARGIN = 0.15
# Rows and columns of a block, and how many blocks in a row are one stretch.
BAND_ROWS, BLOCK, MOST_BLOCKS = 128, 64, 8
# Sums of floats may differ by so little.
NEARLY = 0.999


def spread(plane: Array, radius: int, choose: Callable[..., Any]) -> Array:
    """Of each sample the greatest or the least within a square of the radius."""
    across = plane.copy()
    for step in range(1, radius + 1):
        choose(across[:, step:], plane[:, :-step], out=across[:, step:])
        choose(across[:, :-step], plane[:, step:], out=across[:, :-step])
    out = across.copy()
    for step in range(1, radius + 1):
        choose(out[step:], across[:-step], out=out[step:])
        choose(out[:-step], across[step:], out=out[:-step])
    return out


def bared_twice(before: Sequence[Array], after: Sequence[Array], densities: Sequence[float], radius: int,
                rows: range) -> tuple[Array, Array]:
    """Where gaps open in some rows before trapping, and after: arrays of bool, rows × columns. The planes have 8 bits,
    0 is full ink. What did not change is looked at once."""
    out = [numpy.zeros((len(rows), before[0].shape[1]), dtype=bool) for _ in range(2)]
    for lines, columns, around in stretches(before, after, densities, radius, rows):
        own = tuple(slice(one.start - far.start, one.stop - far.start) for one, far in zip((lines, columns), around))
        cut = [[numpy.ascontiguousarray(plane[around]) for plane in planes] for planes in (before, after)]
        same = before is after or all(numpy.array_equal(old, new) for old, new in zip(*cut))
        seams = [seams_of(one, densities, radius)[own] for one in (cut[:1] if same else cut)]
        place = slice(lines.start - rows.start, lines.stop - rows.start), columns
        out[0][place], out[1][place] = seams[0], seams[-1]
    return out[0], out[1]


def seams_of(planes: Sequence[Array], densities: Sequence[float], radius: int) -> Array:
    """Where gaps open in a stretch."""
    there = numpy.zeros(planes[0].shape, dtype="f4")
    worst = there.copy()
    for plane, density in zip(planes, densities):
        if plane.min() < 255:
            share = numpy.float32(density / 255)
            there += (255 - plane) * share
            worst += (255 - spread(plane, radius, numpy.maximum)) * share
    seams: Array = worst < spread(there, radius, numpy.minimum) - numpy.float32(MARGIN)
    return seams


# Where to look

def stretches(before: Sequence[Array], after: Sequence[Array], densities: Sequence[float], radius: int,
              lines: range) -> Iterator[tuple[slice, slice, tuple[slice, slice]]]:
    """The stretches of some rows of a page in which a gap may be: rows, columns, and both with what is needed around.

    A gap is by no more lighter than all inks but one change around it, each by its greatest tint less its least: if
    that is no more than the margin in a block with its neighbours, none can be there."""
    height, width = before[0].shape
    step = max(BLOCK, 2 * radius)
    starts = numpy.arange(0, width, step)
    for top in lines[::BAND_ROWS]:
        rows = slice(top, min(lines.stop, top + BAND_ROWS))
        around = slice(max(0, top - 2 * radius), min(height, rows.stop + 2 * radius))
        lively = may_part(before, densities, around, starts)
        if after is not before:
            lively |= may_part(after, densities, around, starts)
        release(*before, *after)
        for first, last in runs_of(lively):
            columns = slice(first * step, min(width, last * step))
            wide = slice(max(0, columns.start - 2 * radius), min(width, columns.stop + 2 * radius))
            yield rows, columns, (around, wide)


def may_part(planes: Sequence[Array], densities: Sequence[float], rows: slice, starts: Array) -> Array:
    """Which blocks of a band may have a gap."""
    parts = []
    for plane, density in zip(planes, densities):
        most = numpy.maximum.reduceat(plane[rows].max(axis=0), starts).astype("i4")
        least = numpy.minimum.reduceat(plane[rows].min(axis=0), starts).astype("i4")
        parts.append((widened(most, numpy.maximum) - widened(least, numpy.minimum)) * (density / 255))
    found: Array = numpy.sum(parts, axis=0) - numpy.max(parts, axis=0) > MARGIN * NEARLY
    return found


def widened(values: Array, choose: Callable[..., Any]) -> Array:
    """Of each block the greatest or the least of it and its neighbours."""
    out = values.copy()
    choose(out[1:], values[:-1], out=out[1:])
    choose(out[:-1], values[1:], out=out[:-1])
    return out


def runs_of(lively: Array) -> Iterator[tuple[int, int]]:
    """The runs of blocks that are looked at, none of them longer than what fits a processor's cache."""
    bounds = numpy.flatnonzero(numpy.diff(numpy.pad(lively, 1)))
    for first, last in zip(bounds[::2].tolist(), bounds[1::2].tolist()):
        for start in range(first, last, MOST_BLOCKS):
            yield start, min(last, start + MOST_BLOCKS)

# SPDX-License-Identifier: Apache-2.0
"""Tiles of traps: which pixels of a page are painted, and each square of them as the data of a PDF image."""
import zlib
from collections.abc import Iterator
from dataclasses import dataclass

import numpy as np
from numpy.typing import NDArray

from .plates import Plates, release

Samples = NDArray[np.uint8]
Mask = NDArray[np.bool_]

SIDE = 256
LEVEL = 6
LONGEST_PALETTE = 255


@dataclass(frozen=True)
class Tile:
    """A part of the page in pixels, y down from the top."""

    x: int
    y: int
    width: int
    height: int


@dataclass(frozen=True)
class TileImage:
    """The data of a tile's image, deflated, and its colour key. Without a palette its samples are tints of every
    ink."""

    tile: Tile
    bits: int
    data: bytes
    palette: bytes | None
    key: tuple[int, ...]


@dataclass
class TrapCount:
    """What was counted while tiles were made: pixels that trapping changed, and pixels that are painted."""

    changed: int = 0
    painted: int = 0


def widen(mask: Mask, margin: int) -> Mask:
    """The mask, and so many pixels around it."""
    for _ in range(margin):
        for axis in (0, 1):
            wide = mask.copy()
            here, there = [slice(None)] * 2, [slice(None)] * 2
            here[axis], there[axis] = slice(1, None), slice(None, -1)
            wide[tuple(here)] |= mask[tuple(there)]
            wide[tuple(there)] |= mask[tuple(here)]
            mask = wide
    return mask


def changed_rows(before: Plates, after: Plates, first: int, end: int) -> Mask:
    """Which pixels of the rows from `first` to before `end` differ on some plate."""
    changed = np.zeros((end - first, after.width), np.bool_)
    for old, new in zip(before.arrays, after.arrays):
        changed |= old[first:end] != new[first:end]
    return changed


def tints_of(plates: Plates, first: int, end: int) -> Samples:
    """The tints of the rows from `first` to before `end` as rows, columns and inks: 0 is no ink, 255 full ink."""
    tints = np.empty((end - first, plates.width, len(plates.arrays)), np.uint8)
    for ink, plate in enumerate(plates.arrays):
        np.subtract(255, plate[first:end], out=tints[:, :, ink])
    return tints


def tiles_in(mask: Mask, top: int) -> Iterator[Tile]:
    """The squares of a band of rows, which begins at `top`, that have pixels, each cut down to them."""
    for left in range(0, mask.shape[1], SIDE):
        part = mask[:, left:left + SIDE]
        columns, rows = np.flatnonzero(part.any(axis=0)), np.flatnonzero(part.any(axis=1))
        if len(columns):
            width, height = int(columns[-1] - columns[0]) + 1, int(rows[-1] - rows[0]) + 1
            yield Tile(left + int(columns[0]), top + int(rows[0]), width, height)


def distinct_tints(tints: Samples) -> tuple[Samples, NDArray[np.intp]]:
    """The different tints among pixels of so many inks, and for each pixel which of them it has."""
    count = tints.shape[1]
    words = np.zeros((len(tints), -(-count // 8) * 8), np.uint8)
    words[:, :count] = tints
    keys = words.view(np.uint64)
    which = np.unique(keys[:, 0], return_inverse=True)[1]
    for column in range(1, keys.shape[1]):
        more = np.unique(keys[:, column], return_inverse=True)[1]
        which = np.unique(which * len(tints) + more, return_inverse=True)[1]
    first = np.zeros(int(which.max()) + 1, np.intp)
    first[which] = np.arange(len(which))
    return tints[first], which


def packed(numbers: Samples, bits: int) -> bytes:
    """Rows of small numbers as so many bits each. A row begins at a byte."""
    if bits == 8:
        return numbers.tobytes()
    each = 8 // bits
    height, width = numbers.shape
    rows = np.zeros((height, -(-width // each) * each), np.uint8)
    rows[:, :width] = numbers
    out = np.zeros((height, rows.shape[1] // each), np.uint8)
    for place in range(each):
        out |= np.left_shift(rows[:, place::each], 8 - bits * (place + 1)).astype(np.uint8)
    return out.tobytes()


def palette_image(tile: Tile, distinct: Samples, which: NDArray[np.intp], mask: Mask) -> TileImage:
    """A tile of few tints. The palette's first entry is the colour key."""
    bits = next(bits for bits in (1, 2, 4, 8) if len(distinct) < 1 << bits)
    numbers = np.zeros(mask.shape, np.uint8)
    numbers[mask] = which + 1
    palette = bytes(distinct.shape[1]) + distinct.tobytes()
    return TileImage(tile, bits, zlib.compress(packed(numbers, bits), LEVEL), palette, (0, 0))


def free_tint(distinct: Samples) -> bytes:
    """A tint that no pixel of the tile has: there are at most 65,536 of them."""
    taken = {bytes(one) for one in distinct}
    others = distinct.shape[1] - 1
    tints = (bytes([value >> 8]) + bytes([value & 255]) * others for value in range(1 << 16))
    return next(tint for tint in tints if tint not in taken)


def keyed_image(tile: Tile, tints: Samples, mask: Mask, key: bytes) -> TileImage:
    """A tile of many tints: every ink's tint for each pixel, and the key where nothing is painted."""
    data = np.where(mask[:, :, None], tints, np.frombuffer(key, np.uint8)).astype(np.uint8)
    key_range = tuple(value for byte in key for value in (byte, byte))
    return TileImage(tile, 8, zlib.compress(data.tobytes(), LEVEL), None, key_range)


def image_of(tile: Tile, tints: Samples, mask: Mask) -> TileImage:
    """The image of a tile, whose pixels have the tints of all inks."""
    distinct, which = distinct_tints(tints[mask])
    if len(distinct) <= LONGEST_PALETTE:
        return palette_image(tile, distinct, which, mask)
    return keyed_image(tile, tints, mask, free_tint(distinct))


def tile_images(before: Plates, after: Plates, margin: int, count: TrapCount) -> Iterator[TileImage]:
    """The images that paint what trapping changed, and so many pixels around it. One band of rows is in memory at a
    time."""
    for first, end, top, bottom in after.bands(SIDE, margin):
        release(*before.arrays, *after.arrays)
        changed = changed_rows(before, after, top, bottom)
        if not changed.any():
            continue
        own = slice(first - top, end - top)
        mask = widen(changed, margin)[own]
        count.changed += int(np.count_nonzero(changed[own]))
        count.painted += int(np.count_nonzero(mask))
        tints = tints_of(after, first, end)
        for tile in tiles_in(mask, first):
            place = slice(tile.y - first, tile.y - first + tile.height), slice(tile.x, tile.x + tile.width)
            yield image_of(tile, tints[place], mask[place])

# SPDX-License-Identifier: Apache-2.0
"""Reduced copies of a page's plates, so that any zoom shows as fast as any other.

Level k is reduced 2**k times. Levels 0 and 1 are read from the plates themselves; the others lie in one file
beside them, which is made once and opened again as a memory map as long as the plates are the same. Its header says of
which plates it is; a thread writes that once the disk has the rest, and nobody waits for the disk.
"""
from __future__ import annotations

import json
import logging
import os
import threading
from collections.abc import Sequence
from concurrent.futures import ThreadPoolExecutor
from dataclasses import dataclass
from functools import cached_property
from pathlib import Path
from typing import Any

import numpy as np
from numpy.typing import NDArray
from PIL import Image

Plane = NDArray[Any]
"""One plate, rows × columns, of one or two bytes a sample; as in its PGM file, 0 is full ink."""

Tints = NDArray[np.uint8]
"""Samples of eight bits; 0 is full ink."""

LOG = logging.getLogger("press.desk")
FIRST_LEVEL = 2
SMALLEST_SIDE = 256
BLOCK_ROWS = 2048
HEADER_BYTES = 4096
MOST_READ = 4 << 20
FORMAT = 1


@dataclass(frozen=True)
class Part:
    """A rectangle of one level, in that level's own pixels."""

    level: int
    left: int
    top: int
    width: int
    height: int


def eight_bits(plane: Plane, maxval: int) -> Tints:
    """Samples of 0 to maxval as 0 to 255, rounded; plates of 255 levels are handed on as they are."""
    if maxval == 255:
        return np.asarray(plane, np.uint8)
    return np.asarray((plane.astype(np.uint32) * 255 + maxval // 2) // maxval, np.uint8)


def blank(shape: tuple[int, ...]) -> Tints:
    """A part of a plate without ink; it takes no memory."""
    return np.broadcast_to(np.uint8(255), shape)


def reduced(plane: Tints, times: int) -> Tints:
    """Each square of pixels as its mean; the last ones of a row or column are smaller."""
    height, width = plane.shape
    image = Image.frombuffer("L", (width, height), np.ascontiguousarray(plane), "raw", "L", 0, 1)
    return np.asarray(image.reduce(times))


def reduced_sides(height: int, width: int) -> list[tuple[int, int]]:
    """Rows and columns of the levels that are kept, from FIRST_LEVEL on."""
    times, sides = 1 << FIRST_LEVEL, []
    while True:
        sides.append((-(-height // times), -(-width // times)))
        if max(sides[-1]) <= SMALLEST_SIDE:
            return sides
        times *= 2


def plates_key(paths: Sequence[str | os.PathLike[str]]) -> str:
    """Changes if a plate's file does: number, size and time of each."""
    states = [os.stat(path) for path in paths]
    return json.dumps([FORMAT, [[one.st_ino, one.st_size, one.st_mtime_ns] for one in states]])


class Pyramid:
    """Plates of one size with their reduced copies."""

    def __init__(self, planes: Sequence[Plane], maxval: int, levels: Sequence[Sequence[Tints]]) -> None:
        self.planes, self.maxval, self.levels = list(planes), maxval, [list(level) for level in levels]
        self.height, self.width = self.planes[0].shape

    @property
    def last_level(self) -> int:
        """The level of the smallest copy."""
        return FIRST_LEVEL + len(self.levels) - 1

    @cached_property
    def coverage(self) -> list[float]:
        """How much of the page each plate covers, as a share of full ink: of the largest copy that is read at once."""
        level = next((one for one in self.levels if one[0].size <= MOST_READ), self.levels[-1])
        return [1 - float(plane.mean()) / 255 for plane in level]

    @cached_property
    def ink_boxes(self) -> list[list[int] | None]:
        """Where each plate has ink, by the copy that `coverage` reads: left, top, width and height in pixels."""
        at = next((k for k, one in enumerate(self.levels) if one[0].size <= MOST_READ), len(self.levels) - 1)
        scale = 1 << FIRST_LEVEL + at
        found: list[list[int] | None] = []
        for plane in self.levels[at]:
            rows, columns = (np.flatnonzero(plane.min(axis=axis) < 255) for axis in (1, 0))
            if not rows.size:
                found.append(None)
                continue
            left, top = int(columns[0]) * scale, int(rows[0]) * scale
            right, bottom = (int(columns[-1]) + 1) * scale, (int(rows[-1]) + 1) * scale
            found.append([left, top, min(right, self.width) - left, min(bottom, self.height) - top])
        return found

    def part(self, part: Part, shown: int = -1) -> list[Tints]:
        """A rectangle of all plates as eight bits, cut at the page's border. Plates whose bit is not set in `shown` are
        not read, and blank."""
        scale = 1 << part.level if part.level < FIRST_LEVEL else 1
        rows = slice(part.top * scale, (part.top + part.height) * scale)
        columns = slice(part.left * scale, (part.left + part.width) * scale)
        level = self.planes if part.level < FIRST_LEVEL else self.levels[min(part.level, self.last_level) - FIRST_LEVEL]
        shape = tuple(-(-side // scale) for side in level[0][rows, columns].shape)
        return [self._read(plane[rows, columns], part.level) if shown >> k & 1 else blank(shape)
                for k, plane in enumerate(level)]

    def _read(self, samples: Plane, level: int) -> Tints:
        """A part of a plate or of a copy, as a level shows it."""
        if level >= FIRST_LEVEL:
            return np.array(samples)
        full = eight_bits(np.array(samples), self.maxval)
        return reduced(full, 2) if level == 1 and full.size else full


def open_pyramid(planes: Sequence[Plane], maxval: int, kept: Path, key: str) -> Pyramid:
    """The pyramid of some plates. Its file is made if it is not there, or is that of other plates."""
    sides = reduced_sides(*planes[0].shape)
    header = json.dumps({"key": key, "plates": len(planes), "levels": sides}).encode().ljust(HEADER_BYTES - 1) + b"\n"
    if not _is_current(kept, header):
        file = _make(planes, maxval, kept, sides)
        threading.Thread(target=_confirm, args=(file, header), daemon=True, name="reduced-copies").start()
    return Pyramid(planes, maxval, _mapped(kept, len(planes), sides))


def _is_current(kept: Path, header: bytes) -> bool:
    try:
        with open(kept, "rb") as file:
            return file.read(HEADER_BYTES) == header
    except OSError:
        return False


def _mapped(kept: Path, plates: int, sides: Sequence[tuple[int, int]]) -> list[list[Tints]]:
    """The levels of a pyramid's file as memory maps."""
    data, place, levels = np.memmap(kept, np.uint8, "r"), HEADER_BYTES, []
    for height, width in sides:
        level = data[place:place + plates * height * width].reshape(plates, height, width)
        levels.append([level[k] for k in range(plates)])
        place += level.size
    return levels


def _make(planes: Sequence[Plane], maxval: int, kept: Path, sides: Sequence[tuple[int, int]]) -> int:
    """Writes a pyramid's file, without a header, and gives it its name. Answers the open file."""
    kept.parent.mkdir(parents=True, exist_ok=True)
    made = kept.with_name(f".{kept.name}.{os.getpid()}")
    total = HEADER_BYTES + len(planes) * sum(height * width for height, width in sides)
    file = os.open(made, os.O_RDWR | os.O_CREAT | os.O_TRUNC | os.O_CLOEXEC, 0o666)
    try:
        os.truncate(file, total)
        data = np.memmap(made, np.uint8, "r+")
        with ThreadPoolExecutor(min(4, len(planes))) as pool:
            list(pool.map(lambda k: _fill(planes[k], maxval, data, (k, len(planes)), sides), range(len(planes))))
        os.replace(made, kept)
    except BaseException:
        made.unlink(missing_ok=True)
        os.close(file)
        raise
    return file


def _confirm(file: int, header: bytes) -> None:
    """Writes the header of a pyramid's file once the disk has the rest, so that no file is taken for whole that a fault
    of the machine cut short; then closes it."""
    try:
        os.fdatasync(file)
        os.pwrite(file, header, 0)
    except OSError as fault:
        # It is made anew when the page is opened next.
        LOG.warning("reduced copies: %s", fault.strerror)
    finally:
        os.close(file)


def _fill(plane: Plane, maxval: int, data: Tints, which: tuple[int, int], sides: Sequence[tuple[int, int]]) -> None:
    """Writes all levels of one plate, the first from the plate by blocks of rows, each other from the one before."""
    (number, plates), place, before = which, HEADER_BYTES, None
    for height, width in sides:
        first = place + number * height * width
        level = data[first:first + height * width].reshape(height, width)
        if before is None:
            times = 1 << FIRST_LEVEL
            for row in range(0, plane.shape[0], BLOCK_ROWS):
                block = eight_bits(plane[row:row + BLOCK_ROWS], maxval)
                small = reduced(block, times)
                level[row // times:row // times + small.shape[0]] = small
        else:
            level[:] = reduced(before, 2)
        before, place = level, place + plates * height * width

# SPDX-License-Identifier: Apache-2.0
"""Plates: one raster for each ink, in memory or mapped from PGM files.

An array has rows × columns from the upper left corner. As in a PGM file, 0 is full ink and `maxval` is no ink.
8-bit samples are `u1`; 16-bit samples are big-endian, `>u2`, as in the file.
"""
import mmap
import os
import re
from collections.abc import Iterator
from dataclasses import dataclass
from typing import Any

import numpy
import numpy.typing

from .errors import PressError, Status
from .files import named, refusing

Array = numpy.typing.NDArray[Any]
LONGEST_SIDE, MOST_SAMPLES = 16_384, 160_000_000
# The sides of a sheet, which trapsheet traps window by window.
LONGEST_SHEET_SIDE = 262_144
BLOCK_BYTES = 1 << 22
HEAD_BYTES = 65_536
GAP = rb"(?:[ \t\r\n\v\f]|#[^\r\n]*[\r\n])+"
HEADER = re.compile(rb"P5" + GAP + rb"(\d+)" + GAP + rb"(\d+)" + GAP + rb"(\d+)[ \t\r\n\v\f]")


@dataclass(frozen=True)
class Head:
    """What the header of a PGM file says, and the offset of its raster in bytes."""

    width: int
    height: int
    maxval: int
    start: int = 0

    @property
    def dtype(self) -> str:
        """The type of a sample, as NumPy writes it."""
        return "u1" if self.maxval < 256 else ">u2"


@dataclass(frozen=True)
class Plates:
    """The plates of a page, all of one size.

    `names` are the inks' names in the job, `arrays` their rasters (rows × columns, 0 is full ink), `resolution`
    is in pixels per inch.
    """

    names: tuple[str, ...]
    arrays: tuple[Array, ...]
    maxval: int
    resolution: int

    @property
    def width(self) -> int:
        """Columns of samples."""
        return int(self.arrays[0].shape[1])

    @property
    def height(self) -> int:
        """Rows of samples."""
        return int(self.arrays[0].shape[0])

    def __getitem__(self, name: str) -> Array:
        return self.arrays[self.names.index(name)]

    def has_ink(self) -> tuple[bool, ...]:
        """Of each plate whether it has ink anywhere."""
        return tuple(not is_blank(array, self.maxval) for array in self.arrays)

    def bands(self, rows: int, overlap: int = 0) -> Iterator[tuple[int, int, int, int]]:
        """Bands of so many rows as (first, end, top, bottom): a band's own rows, and with the overlap above and
        below."""
        for first in range(0, self.height, rows):
            end = min(self.height, first + rows)
            yield first, end, max(0, first - overlap), min(self.height, end + overlap)


def release(*arrays: Array) -> None:
    """Lets go of the memory of mapped plates that were read. They are read again when they are looked at."""
    for array in arrays:
        whole: Any = array
        while whole is not None and not isinstance(whole, mmap.mmap) and not hasattr(whole, "_mmap"):
            whole = getattr(whole, "base", None)
        mapped = getattr(whole, "_mmap", whole)
        if isinstance(mapped, mmap.mmap) and hasattr(mmap, "MADV_DONTNEED"):
            mapped.madvise(mmap.MADV_DONTNEED)


def thickened(marks: Array) -> Array:
    """Samples that are marked, and those to the left and right, above and below of one that is: an array of bool."""
    out: Array = marks.copy()
    out[1:] |= marks[:-1]
    out[:-1] |= marks[1:]
    out[:, 1:] |= marks[:, :-1]
    out[:, :-1] |= marks[:, 1:]
    return out


def is_blank(array: Array, maxval: int) -> bool:
    """Whether a plate has no ink anywhere. It is looked at block by block."""
    rows = max(1, BLOCK_BYTES // max(1, array.shape[1] * array.itemsize))
    starts = range(0, array.shape[0] if array.size else 0, rows)
    return all(int(array[start:start + rows].min()) >= maxval for start in starts)


def fits_page(width: int, height: int, plates: int) -> bool:
    """Whether `trap` and `presscheck` take a page of this size in so many plates; `trapsheet` takes larger ones."""
    return width * height * plates <= MOST_SAMPLES and max(width, height) <= LONGEST_SIDE


def head_of(path: str) -> Head:
    """The header of a PGM file whose length fits it."""
    with refusing(path), open(path, "rb") as file:
        found = HEADER.match(file.read(HEAD_BYTES))
        size = os.fstat(file.fileno()).st_size
    if found is None:
        raise PressError(Status.PLATES, "no plate: it does not begin as a raw PGM file", path)
    width, height, maxval = (int(number) for number in found.groups())
    if size != found.end() + width * height * (1 if maxval < 256 else 2):
        raise PressError(Status.PLATES, f"no plate: {width} by {height} samples do not make {size} bytes", path)
    return Head(width, height, maxval, found.end())


def read_pgm(path: str) -> Array:
    """The raster of a PGM file, mapped and not read: rows × columns, read-only."""
    head = head_of(path)
    if head.width * head.height == 0:
        return numpy.zeros((head.height, head.width), dtype=head.dtype)
    return numpy.memmap(path, dtype=head.dtype, mode="r", offset=head.start, shape=(head.height, head.width))


def write_pgm(path: str, array: Array, maxval: int) -> None:
    """Writes a raster (rows × columns, 0 is full ink) as a raw PGM file, block by block."""
    height, width = array.shape
    rows = max(1, BLOCK_BYTES // max(1, width * array.itemsize))
    with named(path), open(path, "wb") as file:
        file.write(b"P5\n%d %d\n%d\n" % (width, height, maxval))
        for start in range(0, height, rows):
            block = numpy.ascontiguousarray(array[start:start + rows], dtype="u1" if maxval < 256 else ">u2")
            file.write(block.data)


def read_plates(paths: dict[str, str], resolution: int) -> Plates:
    """Plates of PGM files by their names in the job, mapped. They must have one size and one maxval."""
    heads = {name: head_of(path) for name, path in paths.items()}
    first = next(iter(heads))
    for name, head in heads.items():
        if (head.width, head.height) != (heads[first].width, heads[first].height):
            raise PressError(Status.PLATES, f"{head.width} by {head.height} samples, and {first} has "
                             f"{heads[first].width} by {heads[first].height}", paths[name])
        if head.maxval != heads[first].maxval:
            raise PressError(Status.PLATES, f"maxval {head.maxval}, and {first} has {heads[first].maxval}", paths[name])
    return Plates(tuple(paths), tuple(read_pgm(path) for path in paths.values()), heads[first].maxval, resolution)

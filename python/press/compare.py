# SPDX-License-Identifier: Apache-2.0
"""Two versions of a job compared: which pages, plates and parts of them differ."""
import os
from collections.abc import Iterator
from dataclasses import dataclass

import numpy
from PIL import Image

from .errors import PressError, Status
from .files import need_folder, whole_file
from .folder import NOT_KEPT, TABLE, TIFF, JobFolder, PageFolder, PageSource, read_table
from .inks import Ink
from .names import readable
from .picture import Painter, pale
from .plates import Array, read_pgm, release
from .tiff import open_separation, read_separation

PICTURE = "compare.png"
ROWS, BLOCK, MOST_PARTS = 512, 16, 8
# A picture has at most so many points a side; a frame is so thick, and so far from the part.
MOST_POINTS, FRAME, GAP = 2000, 2, 3
RED = (215, 0, 30)
Place = tuple[int, int, int, int]


@dataclass(frozen=True)
class PlateDifference:
    """A plate that differs: its ink's name in the PDF, how many pixels have another tint, and the version, A or B, that
    alone has such a plate, if only one has it."""

    ink: str
    pixels: int
    only_in: str | None = None


@dataclass(frozen=True)
class PageDifference:
    """What differs on a page: why it cannot be compared, or its plates and parts. A part is left, top, width and
    height in pixels from the upper left corner; `where` marks the pixels (rows × columns)."""

    page: int
    why: str | None = None
    plates: tuple[PlateDifference, ...] = ()
    parts: tuple[Place, ...] = ()
    resolution: int = 0
    height: int = 0
    where: Array | None = None

    @property
    def is_same(self) -> bool:
        """Whether no pixel of any plate differs."""
        return not self.why and not self.plates


# What is compared

def pages_in(folder: str) -> dict[int, str]:
    """The page folders in the folder of a run, or a page's folder itself, by their pages' numbers."""
    need_folder(folder)
    if os.path.isfile(os.path.join(folder, TABLE)):
        return {read_table(folder)[0].page: folder}
    found = JobFolder(folder).pages()[0]
    if not found:
        raise PressError(Status.NO_PLATES, "no pages of press/all, and no page that is trapped", folder)
    return found


@dataclass(frozen=True)
class Version:
    """A page of one version: its folder, its source, and its plates by the names of their inks in the PDF."""

    folder: str
    source: PageSource
    plates: dict[bytes, Array]
    inked: frozenset[bytes]

    @classmethod
    def read(cls, folder: str, untrapped: bool) -> "Version":
        """The plates of a page: the PGM files, or the TIFF files where those alone were kept."""
        source, inks = read_table(folder)
        plates = {ink.colorant: plate_of(folder, ink, source, untrapped) for ink in inks}
        return cls(folder, source, plates, frozenset(ink.colorant for ink in inks if ink.has_ink))

    @property
    def size(self) -> tuple[int, int]:
        """Columns and rows of pixels."""
        first = next(iter(self.plates.values()))
        return first.shape[1], first.shape[0]

    def __str__(self) -> str:
        width, height = self.size
        bits = 8 * next(iter(self.plates.values())).dtype.itemsize
        return f"{width} by {height} pixels of {bits} bits at {self.source.resolution} dpi"


def plate_of(folder: str, ink: Ink, source: PageSource, untrapped: bool) -> Array:
    """A plate of a page (rows × columns, 0 is full ink)."""
    path = os.path.join(folder, *([] if untrapped else ["trapped"]), ink.name + ".pgm")
    if os.path.isfile(path):
        return read_pgm(path)
    stem = os.fsencode(os.path.splitext(os.fsdecode(source.pdf))[0]) + b"-%d" % source.page
    path = os.fsdecode(os.path.join(os.fsencode(folder), TIFF.encode(), stem + b"(" + ink.suffix + b").tif"))
    if untrapped or not os.path.isfile(path):
        raise PressError(Status.NO_PLATES, NOT_KEPT, folder)
    return read_separation(open_separation(path), False)


# Comparing

def differences(a: str, b: str, untrapped: bool = False) -> Iterator[PageDifference]:
    """Compares two folders of runs, or two pages, page by page."""
    pages = pages_in(a), pages_in(b)
    if len(pages[0]) == len(pages[1]) == 1:
        for (_, one), (number, other) in zip(pages[0].items(), pages[1].items()):
            yield compare_page(number, one, other, untrapped)
        return
    for number in sorted({*pages[0], *pages[1]}):
        if number in pages[0] and number in pages[1]:
            yield compare_page(number, pages[0][number], pages[1][number], untrapped)
        else:
            yield PageDifference(number, f"only in {a if number in pages[0] else b}")


def compare_page(number: int, a: str, b: str, untrapped: bool) -> PageDifference:
    """Compares a page of two versions."""
    one, other = Version.read(a, untrapped), Version.read(b, untrapped)
    if str(one) != str(other):
        return PageDifference(number, f"{one} in A, and {other} in B")
    where: Array = numpy.zeros(one.size[::-1], dtype=bool)
    found = []
    for colorant in dict.fromkeys([*one.plates, *other.plates]):
        if colorant in one.plates and colorant in other.plates:
            pixels = mark(where, one.plates[colorant], other.plates[colorant])
            found += [PlateDifference(readable(colorant), pixels)] if pixels else []
        elif colorant in one.inked | other.inked:
            side, plate = ("A", one.plates[colorant]) if colorant in one.plates else ("B", other.plates[colorant])
            found.append(PlateDifference(readable(colorant), mark(where, plate, paper(plate)), side))
    return PageDifference(number, None, tuple(found), tuple(parts_of(where)), one.source.resolution, one.size[1], where)


def paper(plate: Array) -> Array:
    """A plate of that size without ink."""
    return numpy.broadcast_to(numpy.array(numpy.iinfo(plate.dtype).max, plate.dtype), plate.shape)


def mark(where: Array, one: Array, other: Array) -> int:
    """Marks the pixels that differ between two plates of one size. Answers how many they are."""
    count = 0
    for top in range(0, where.shape[0], ROWS):
        differs = one[top:top + ROWS] != other[top:top + ROWS]
        where[top:top + ROWS] |= differs
        count += int(numpy.count_nonzero(differs))
    release(one, other)
    return count


def parts_of(where: Array) -> list[Place]:
    """The rectangles of what is marked, the largest first: marks that are closer than a block or two are one part."""
    height, width = where.shape
    rows = numpy.logical_or.reduceat(where, range(0, height, BLOCK), axis=0)
    blocks = {(int(row), int(column))
              for row, column in numpy.argwhere(numpy.logical_or.reduceat(rows, range(0, width, BLOCK), axis=1))}
    parts = []
    while blocks:
        group, edge = [], [blocks.pop()]
        while edge:
            row, column = edge.pop()
            group.append((row, column))
            near = {(row + down, column + right) for down in (-1, 0, 1) for right in (-1, 0, 1)} & blocks
            blocks -= near
            edge += near
        top, left = (min(one[side] for one in group) * BLOCK for side in (0, 1))
        bottom, right = ((max(one[side] for one in group) + 1) * BLOCK for side in (0, 1))
        parts.append(tight(where, (left, top, min(width, right) - left, min(height, bottom) - top)))
    return sorted(parts, key=lambda part: (-part[2] * part[3], part))


def tight(where: Array, part: Place) -> Place:
    """The least rectangle within one that has all marks."""
    left, top, width, height = part
    marked = where[top:top + height, left:left + width]
    rows, columns = (numpy.flatnonzero(marked.any(axis=axis)) for axis in (1, 0))
    return (left + int(columns[0]), top + int(rows[0]), int(columns[-1] - columns[0]) + 1,
            int(rows[-1] - rows[0]) + 1)


# What people see

def lines_of(page: PageDifference) -> Iterator[str]:
    """A page as lines: whether it differs, the plates, and the largest parts in millimetres."""
    if page.why:
        yield f"page {page.page}: {page.why}"
        return
    if page.is_same:
        yield f"page {page.page}: the same"
        return
    yield f"page {page.page}: differs: {', '.join(map(plate_text, page.plates))}"
    for part in page.parts[:MOST_PARTS]:
        yield f"page {page.page}: part: {part_text(part, page)}"
    if len(page.parts) > MOST_PARTS:
        yield f"page {page.page}: and {len(page.parts) - MOST_PARTS} smaller parts"


def plate_text(plate: PlateDifference) -> str:
    """A plate that differs."""
    only = f", only in {plate.only_in}" if plate.only_in else ""
    return f"{plate.ink} ({plate.pixels} pixels{only})"


def part_text(part: Place, page: PageDifference) -> str:
    """A part in millimetres, and its place from the lower left corner of the page as it is drawn."""
    left, top, width, height = part
    unit = 25.4 / page.resolution
    return (f"{width * unit:.1f} by {height * unit:.1f} mm at {left * unit:.1f}, "
            f"{(page.height - top - height) * unit:.1f} mm")


def draw(page: PageDifference, folder: str, untrapped: bool) -> str:
    """Draws the page of the second version, pale, with what differs in red and a frame around each part, into its
    folder. Answers the path of the picture."""
    found = PageFolder.read(folder)
    painter = Painter(found, not untrapped)
    times = -(-max(found.head.width, found.head.height) // MOST_POINTS)
    picture = pale(painter.small(painter.before if untrapped else painter.after, times))
    if page.where is not None:
        rows = numpy.logical_or.reduceat(page.where, range(0, page.where.shape[0], times), axis=0)
        marks = numpy.logical_or.reduceat(rows, range(0, page.where.shape[1], times), axis=1)
        marks = marks[:picture.shape[0], :picture.shape[1]]
        picture[:marks.shape[0], :marks.shape[1]][marks] = RED
    for left, top, width, height in page.parts:
        frame(picture, left // times, top // times, (left + width) // times, (top + height) // times)
    path = os.path.join(folder, PICTURE)
    with whole_file(path) as made:
        Image.fromarray(picture).save(made, format="PNG", optimize=True)
    return path


def frame(picture: Array, left: int, top: int, right: int, bottom: int) -> None:
    """Draws a frame around a rectangle of a picture."""
    outer, inner = GAP + FRAME, GAP
    down, across = picture.shape[:2]
    first, last = (max(0, top - outer), max(0, left - outer)), (min(down, bottom + outer), min(across, right + outer))
    rows, columns = numpy.ogrid[first[0]:last[0], first[1]:last[1]]
    is_inside = (rows >= top - inner) & (rows < bottom + inner) & (columns >= left - inner) & (columns < right + inner)
    picture[first[0]:last[0], first[1]:last[1]][~is_inside] = RED

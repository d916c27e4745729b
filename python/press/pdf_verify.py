# SPDX-License-Identifier: Apache-2.0
"""Whether a trapped PDF renders to the trapped plates: Ghostscript draws it again, and every byte of every plate is
compared."""
import tempfile
from collections.abc import Sequence
from dataclasses import dataclass

import numpy as np

from .errors import PressError, Status
from .names import readable
from .pdf_tiles import Samples
from .plates import release
from .render import BOX_OPTIONS, link, plane, profile_words, suffixes_in
from .source import complaint, ghostscript

PAPER = 255
# What refusals call the file.
MADE = "the trapped PDF"
ROWS = 512
# Plates of so many bytes are drawn by one run of Ghostscript.
MOST_BYTES = 1 << 28


@dataclass(frozen=True)
class Grid:
    """How a page was drawn: pixels per inch, the box, and the profile of the press."""

    dpi: int
    box: str
    icc: str | None = None


@dataclass(frozen=True)
class Expected:
    """The trapped plates of a page: by each ink's name in the PDF its samples, of which 0 is full ink."""

    page: int
    grid: Grid
    plates: dict[bytes, Samples]

    @property
    def bytes(self) -> int:
        """What its plates take on the disk."""
        return sum(plate.size for plate in self.plates.values())


@dataclass(frozen=True)
class Difference:
    """The first pixel of a page that is not as it should be, and how many there are on that plate."""

    page: int
    ink: bytes
    x: int
    y: int
    found: int
    wanted: int
    count: int

    def line(self) -> str:
        """The difference in words, with tints in bytes."""
        return (f"{readable(self.ink)}: pixel {self.x},{self.y} has tint {255 - self.found} of 255, and the trapped "
                f"plate {255 - self.wanted}; {self.count} pixels of this plate differ")


def first_difference(one: Samples, other: Samples) -> tuple[int, int, int] | None:
    """The first pixel that differs, as x and y, and how many do."""
    first, count = None, 0
    for top in range(0, one.shape[0], ROWS):
        differ = one[top:top + ROWS] != other[top:top + ROWS]
        here = int(np.count_nonzero(differ))
        if here and first is None:
            row, column = np.unravel_index(int(np.argmax(differ)), differ.shape)
            first = int(column), top + int(row)
        count += here
    return None if first is None else (*first, count)


def compare_page(expected: Expected, folder: str, stem: str) -> Difference | None:
    """The first plate's first difference; a plate that should not be there has to be blank. tiffsep's files of the page
    are called STEM(Cyan).tif and so on."""
    suffixes = suffixes_in(folder, stem, list(expected.plates))
    for ink, wanted in expected.plates.items():
        if ink not in suffixes:
            return Difference(expected.page, ink, 0, 0, PAPER, int(wanted[0, 0]), wanted.size)
        found = plane(folder, stem, suffixes[ink], MADE)
        if found.shape != wanted.shape:
            raise PressError(Status.PDF, f"Ghostscript draws {found.shape[1]} by {found.shape[0]} pixels, and the "
                             f"plates have {wanted.shape[1]} by {wanted.shape[0]}", f"page {expected.page}")
        place = first_difference(found, wanted)
        release(found, wanted)
        if place is not None:
            x, y, count = place
            return Difference(expected.page, ink, x, y, int(found[y, x]), int(wanted[y, x]), count)
    for ink in suffixes.keys() - expected.plates.keys():
        found = plane(folder, stem, suffixes[ink], MADE)
        if int(found.min()) < PAPER:
            row, column = np.unravel_index(int(np.argmin(found)), found.shape)
            count = int(np.count_nonzero(found < PAPER))
            return Difference(expected.page, ink, int(column), int(row), int(found[row, column]), PAPER, count)
    return None


def render_again(path: str, folder: str, run: Sequence[Expected]) -> None:
    """Has tiffsep make page000001(Cyan).tif and so on of pages, as press/plates has it."""
    grid, first, last = run[0].grid, run[0].page, run[-1].page
    words = ["-q", "-dBATCH", "-dPDFSTOPONERROR", "-sDEVICE=tiffsep", "-dMaxBitmap=0", f"-r{grid.dpi}", "-dMaxSpots=60",
             "-sCompression=none", f"-dFirstPage={first}", f"-dLastPage={last}", "-sOutputFile=page%06d.tif",
             *BOX_OPTIONS[grid.box]]
    link(path, folder, "in.pdf")
    words += profile_words(grid.icc, folder)
    done = ghostscript(folder, [*words, "in.pdf"], None, MADE)
    if done.returncode != 0:
        raise PressError(Status.PDF, f"Ghostscript cannot read it: {complaint(done)}", MADE)


def runs_of(pages: Sequence[Expected]) -> list[list[Expected]]:
    """Pages that one run of Ghostscript draws: neighbours that were drawn in the same way."""
    runs: list[list[Expected]] = []
    for one in sorted(pages, key=lambda page: page.page):
        last = runs[-1] if runs else []
        is_next = bool(last) and last[-1].grid == one.grid and last[-1].page + 1 == one.page
        if is_next and sum(page.bytes for page in last) < MOST_BYTES:
            last.append(one)
        else:
            runs.append([one])
    return runs


def verify(path: str, pages: Sequence[Expected], scratch: str) -> Difference | None:
    """Draws the pages again and compares them. Returns the first difference, or None if there is none."""
    for run in runs_of(pages):
        with tempfile.TemporaryDirectory(dir=scratch) as folder:
            render_again(path, folder, run)
            for at, expected in enumerate(run, 1):
                different = compare_page(expected, folder, f"page{at:06d}")
                if different is not None:
                    return different
    return None

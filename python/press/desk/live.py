# SPDX-License-Identifier: Apache-2.0
"""Traps what is visible anew, by windows of the library, while a page's job changes.

The window is cut into bands for a few threads of their own, which the work on whole pages never delays.
"""
from __future__ import annotations

import math
import threading
from collections import OrderedDict
from collections.abc import Callable, Sequence
from concurrent.futures import ThreadPoolExecutor
from dataclasses import dataclass
from typing import Any, TypeVar

import numpy as np
from numpy.typing import NDArray

import trapping

Plane = NDArray[Any]
Taken = TypeVar("Taken")

THREADS = 4
MOST_OPENED = 2
SMALLEST_BAND = 64
"""Rows of a band at least: each band traps its halo too."""

_POOL = ThreadPoolExecutor(THREADS, thread_name_prefix="live-traps")


@dataclass(frozen=True)
class InkNames:
    """The job's name of each plate, and the numbers of the plates that hold ink, which the engine is given."""

    names: list[str]
    inked: list[int]


def corner_step(resolution: int) -> int:
    """A window's lower left corner lies at a multiple of so many pixels from the page's, so that zones move exactly."""
    return resolution // math.gcd(resolution, 720_000)


@dataclass(frozen=True)
class Opened:
    """A job that the library has read, and the rows and columns that a window needs around its core."""

    job: trapping.OpenJob
    halo: int


@dataclass(frozen=True)
class Wanted:
    """A part that is being trapped: the job, the plates that it begins from, and where the part lies."""

    opened: Opened
    planes: Sequence[Plane]
    left: int
    top: int
    width: int
    height: int


@dataclass(frozen=True)
class Band:
    """Some rows of a part that are trapped, of all plates; 0 is full ink."""

    first: int
    last: int
    planes: Sequence[Plane]


class LivePage:
    """A page's plates that traps begin from, as their files hold them (0 is full ink), and which of them the engine is
    given, by name."""

    def __init__(self, planes: Sequence[Plane], maxval: int, inks: InkNames, resolution: int) -> None:
        self.planes, self.maxval, self.names, self.inked = list(planes), maxval, inks.names, inks.inked
        self.step = corner_step(resolution)
        self.height, self.width = self.planes[0].shape
        self.kind = np.uint8 if maxval < 256 else np.uint16
        self.lock = threading.Lock()
        self.opened: OrderedDict[bytes, Opened] = OrderedDict()

    def _open(self, job: bytes) -> Opened:
        """A job, which is read once for all windows of a few changes. Raises trapping.Refusal if it has a fault."""
        with self.lock:
            found = self.opened.get(job)
            if found is None:
                read = trapping.OpenJob(job)
                found = self.opened[job] = Opened(read, read.halo())
            self.opened.move_to_end(job)
            while len(self.opened) > MOST_OPENED:
                self.opened.popitem(last=False)
            return found

    def tints(self, planes: Sequence[Plane], rows: slice, columns: slice, inked: Sequence[int]) -> NDArray[Any]:
        """A part of some plates, plates × rows × columns, with 0 for no ink."""
        out = np.empty((len(inked), rows.stop - rows.start, columns.stop - columns.start), self.kind)
        for place, k in enumerate(inked):
            np.subtract(self.maxval, planes[k][rows, columns], out=out[place], casting="unsafe")
        return out

    def trapped(self, job: bytes, left: int, top: int, width: int, height: int) -> list[Plane]:
        """All plates of a part of the page, trapped by a job as the whole page would be; 0 is full ink.

        Raises trapping.Refusal if the job has a fault.
        """
        bands = self.in_bands(job, (left, top, width, height), lambda band: band.planes)
        return [np.concatenate(rows) for rows in zip(*bands)]

    def check(self, job: bytes) -> None:
        """Has the engine trap one pixel by a job, with all inks. Raises trapping.Refusal if it does not accept it."""
        opened = self._open(job)
        side = opened.halo + 1
        y0 = self.height - max(0, self.height - side) // self.step * self.step
        window = self.tints(self.planes, slice(0, min(y0, self.height)), slice(0, min(side, self.width)), self.inked)
        if self.inked:
            opened.job.trap_window([self.names[k] for k in self.inked], window, sheet=(self.width, self.height),
                                   at=(0, 0), core=(0, 0, 1, 1), maxval=self.maxval)

    def in_bands(self, job: bytes, part: tuple[int, int, int, int], take: Callable[[Band], Taken]) -> list[Taken]:
        """What `take` makes of each band of a part of the page, in their order; it is called by several threads at
        once. Raises trapping.Refusal if the job has a fault."""
        wanted = Wanted(self._open(job), self.planes, *part)
        bands = max(1, min(THREADS, wanted.height // SMALLEST_BAND))
        cuts = [wanted.height * k // bands for k in range(bands + 1)]
        return list(_POOL.map(lambda first, last: take(self._trapped_band(wanted, first, last)), cuts[:-1], cuts[1:]))

    def _trapped_band(self, wanted: Wanted, first: int, last: int) -> Band:
        """Traps some rows of a part."""
        left, top, width = wanted.left, wanted.top + first, wanted.width
        x0, y0, x1, y1 = self._window(wanted, first, last)
        own = slice(top, top + last - first), slice(left, left + width)
        planes = [np.asarray(plane[own], self.kind) for plane in wanted.planes]
        inked = [k for k in self.inked if is_inked(wanted.planes[k][y0:y1, x0:x1], self.maxval)]
        if not inked or not planes[0].size:
            return Band(first, last, planes)
        # A plate without ink in the window changes no trap there.
        window = self.tints(wanted.planes, slice(y0, y1), slice(x0, x1), inked)
        core = left - x0, top - y0, width, last - first
        # An open job takes one call at a time.
        with wanted.opened.job.share() as job:
            job.trap_window([self.names[k] for k in inked], window, sheet=(self.width, self.height), at=(x0, y0),
                            core=core, maxval=self.maxval)
        made = window[:, core[1]:core[1] + core[3], core[0]:core[0] + width]
        for place, k in enumerate(inked):
            planes[k] = np.subtract(self.maxval, made[place], dtype=self.kind, casting="unsafe")
        return Band(first, last, planes)

    def _window(self, wanted: Wanted, first: int, last: int) -> tuple[int, int, int, int]:
        """The window around some rows of a part: its first column and row, and those behind its last ones."""
        left, top, halo = wanted.left, wanted.top + first, wanted.opened.halo
        x0, x1 = max(0, left - halo) // self.step * self.step, min(self.width, left + wanted.width + halo)
        y1 = self.height - max(0, self.height - (top + last - first + halo)) // self.step * self.step
        return x0, max(0, top - halo), x1, y1


def is_inked(plane: Plane, maxval: int) -> bool:
    """Whether a plate has ink in a part of it."""
    return bool(plane.size) and int(plane.min()) < maxval

# SPDX-License-Identifier: Apache-2.0
"""What is done of a page while Ghostscript draws it: its trace, and its thin strokes, which are looked for in the rows
that are written already. Ghostscript writes the planes of all inks row by row, which takes most of its time.

What was found is taken only if the page turns out to be what was expected of it: the same inks, size and parameters.
"""
from __future__ import annotations

import mmap
import os
import struct
import time
from collections.abc import Sequence
from dataclasses import dataclass, replace
from typing import Any

import numpy

from . import precedence
from .errors import PressError
from .inks import Ink, InkBook, Separation
from .layout import FindStrokes, image_places, pictures_alone, pixels_of, stroke_rule
from .names import PROCESS
from .origins import origins_from
from .pairs import directed, pairs_file, read_pairs
from .plates import Array, Plates
from .render import DRAWN, ENDED, ERRORS, separations_in
from .settings import Settings
from .source import PageInfo, Source
from .strokes import Box, Part, Rule, find_strokes
from .strokes import Ink as StrokeInk
from .tables import counts
from .trace import Trace, trace_page
from .zones import base_rule

NOT_LOOKED_FOR = "images are not looked for, and are trapped inside"
UNREAD = f"mutool cannot read the page, or is at it for too long: {NOT_LOOKED_FOR}"
# How often it is looked whether there are more rows.
LOOK_SECONDS = 0.01
BIG = 255
# A TIFF file's head, the entries of a directory, and the bytes of a value of each type.
HEAD_BYTES, TIFF, VALUE_BYTES = 8, 42, {1: 1, 2: 1, 3: 2, 4: 4, 5: 8, 6: 1, 7: 1, 8: 2, 9: 4, 10: 8, 11: 4, 12: 8}
# The directory of a plane is among so many.
DIRECTORY_BYTES = 1 << 16


def traced(source: Source, number: int, info: PageInfo | None, settings: Settings) -> tuple[Trace | None, str | None]:
    """What a page paints, or why that is not known. Neither is there if it is not asked for."""
    if not info or not (settings.layer or not settings.trap_images):
        return None, None
    try:
        trace = trace_page(source, number, settings.time)
        return trace, None if trace else UNREAD
    except PressError as refusal:
        return None, f"{refusal}: {NOT_LOOKED_FOR}"


def raster_start(data: bytes) -> int | None:
    """Where the samples of an uncompressed plane begin whose file libtiff began with these bytes: after the directory
    and its values. None if they are not written yet."""
    order = "<" if data[:2] == b"II" else ">"
    if len(data) < HEAD_BYTES:
        return None
    version, start = struct.unpack(order + "HI", data[2:HEAD_BYTES])
    if version != TIFF:
        raise ValueError("no TIFF file of 32 bits")
    if start == 0 or len(data) < start + 2:
        return None
    (count,) = struct.unpack(order + "H", data[start:start + 2])
    end: int = start + 2 + 12 * count + 4
    if len(data) < end:
        return None
    for at in range(start + 2, end - 4, 12):
        _, kind, values, place = struct.unpack(order + "HHII", data[at:at + 12])
        size = VALUE_BYTES[kind] * values
        end = max(end, place + size) if size > 4 else end
    return end


def has_ended(folder: str) -> bool:
    """Whether Ghostscript has ended that draws a page in a folder."""
    return os.path.exists(os.path.join(folder, ENDED))


def need_more(may_grow: bool) -> None:
    """Waits a moment for what is not there. Refuses what will never be."""
    if not may_grow:
        raise ValueError("the page is not what was expected of it")
    time.sleep(LOOK_SECONDS)


class Growing:
    """A plane that Ghostscript is writing: rows × columns, 0 is full ink. A row that is not there yet is waited for."""

    def __init__(self, path: bytes, shape: tuple[int, int]) -> None:
        self.path, self.shape, self.size = path, shape, shape[0] * shape[1]
        self.rows: Array = numpy.zeros((0, shape[1]), dtype="u1")
        with open(path, "rb") as file:
            self.start = raster_start(file.read(DIRECTORY_BYTES)) or 0

    def __getitem__(self, where: Any) -> Any:
        lines = where[0] if isinstance(where, tuple) else where
        self.wait(min(self.shape[0], lines.stop))
        return self.rows[where]

    def wait(self, count: int) -> None:
        """Waits until so many rows are written. Refuses a plane that ends before."""
        folder = os.fsdecode(os.path.dirname(self.path))
        while len(self.rows) < count:
            may_grow = not has_ended(folder)
            there = min(self.shape[0], (os.stat(self.path).st_size - self.start) // self.shape[1])
            if there < count:
                need_more(may_grow)
                continue
            with open(self.path, "rb") as file:
                mapped = mmap.mmap(file.fileno(), self.start + there * self.shape[1], access=mmap.ACCESS_READ)
            self.rows = numpy.frombuffer(mapped, "u1", offset=self.start).reshape(there, self.shape[1])


@dataclass(frozen=True)
class KnownParts:
    """The thin parts that were found in planes of so many columns and rows at a resolution, all of them with ink, by
    these inks and this rule, but for the boxes of images. `starts` says where their samples were in their files."""

    shape: tuple[int, int, int]
    starts: tuple[int, ...]
    inks: tuple[tuple[str, StrokeInk], ...]
    rule: Rule
    skip: tuple[Box, ...]
    parts: tuple[Part, ...]

    def fit(self, plates: Plates, inks: Sequence[Ink], rule: Rule, skip: Sequence[Box]) -> bool:
        """Whether these are the parts of a page's plates too. A plate without ink has no edge, and is no darker than
        paper if black is any ink at all."""
        return (self.shape == (plates.width, plates.height, plates.resolution) and plates.maxval == BIG
                and self.inks == tuple(map(stroke_ink, inks)) and self.rule == rule and self.skip == tuple(skip)
                and rule.black_color_limit > 0
                and self.starts == tuple(getattr(one, "offset", 0) for one in plates.arrays))

    def of(self, plates: Plates, inks: Sequence[Ink]) -> FindStrokes:
        """Finds the thin parts of a page's plates: these, if they are its own."""
        def find(planes: Sequence[Any], known: Sequence[StrokeInk], rule: Rule, resolution: int,
                 skip: Sequence[Box] = ()) -> list[Part]:
            if not self.fit(plates, inks, rule, skip):
                return find_strokes(planes, known, rule, resolution, skip)
            inked = [at for at, ink in enumerate(ink for ink in inks if counts(ink.kind)) if ink.has_ink]
            return [replace(part, colour=tuple(part.colour[at] for at in inked)) for part in self.parts]
        return find


def stroke_ink(ink: Ink) -> tuple[str, StrokeInk]:
    """An ink as the finder of strokes takes it, with its name."""
    return ink.name, StrokeInk(float(ink.density), counts(ink.kind))


@dataclass(frozen=True)
class Ahead:
    """What is known of a page when it is drawn. Without `trace`, `untraced` says why there is none."""

    trace: Trace | None
    untraced: str | None
    parts: KnownParts | None = None


def look_ahead(source: Source, number: int, settings: Settings, book: InkBook, folder: str) -> Ahead:
    """The trace of a page, and the thin parts of the planes that Ghostscript writes into a folder meanwhile."""
    info = source.page(number)
    trace, untraced = traced(source, number, info, settings)
    parts = None
    if info and settings.thin_zones:
        try:
            parts = parts_ahead(source, number, settings, book, trace, info, folder)
        except (PressError, OSError, ValueError):
            # What is wrong is found again, and said, once the page is drawn.
            pass
    return Ahead(trace, untraced, parts)


def has_begun(path: str) -> bool:
    """Whether rows of a plane are written."""
    with open(path, "rb") as file:
        start = raster_start(file.read(DIRECTORY_BYTES))
        return bool(start and os.fstat(file.fileno()).st_size > start)


def begun(folder: str) -> list[Separation]:
    """The separations of the page that Ghostscript draws in a folder, once it writes rows: it has printed by then what
    it says of them."""
    while True:
        may_grow = not has_ended(folder)
        planes = [os.path.join(folder, name) for name in os.listdir(folder) if name.startswith(DRAWN + "(")]
        if len(planes) >= len(PROCESS) and all(map(has_begun, planes)):
            break
        need_more(may_grow)
    with open(os.path.join(folder, ERRORS), "rb") as file:
        return separations_in(folder, file.read()) or []


def parts_ahead(source: Source, number: int, settings: Settings, book: InkBook, trace: Trace | None, info: PageInfo,
                folder: str) -> KnownParts | None:
    """The thin parts of the planes that Ghostscript writes into a folder."""
    own = precedence.own_statements(settings, source.path, number)
    settings, rule = settings.but(pairs=pairs_file(settings, source.path)), base_rule(own)
    places = image_places(own, info, origins_from(own, info, trace, settings).trace(), settings)
    inks = inks_ahead(begun(folder), settings, book)
    plates = growing_plates(inks, info, settings, folder)
    if len(inks) < 2 or not rule.enabled:
        return None
    skip = [pixels_of(place, info.size(settings.box), plates) for place in pictures_alone(*places)]
    known = tuple(map(stroke_ink, inks))
    parts = find_strokes(plates.arrays, [ink for _, ink in known], stroke_rule(rule), settings.dpi, skip)
    starts = tuple(plane.start for plane in plates.arrays)
    return KnownParts((plates.width, plates.height, settings.dpi), starts, known, stroke_rule(rule), tuple(skip),
                      tuple(parts))


def inks_ahead(separations: Sequence[Separation], settings: Settings, book: InkBook) -> tuple[Ink, ...]:
    """The inks of separations, each with ink on its plate."""
    inks = book.page_inks(separations, [True] * len(separations))
    return tuple(directed(inks, read_pairs(settings.pairs))) if settings.pairs else inks


def growing_plates(inks: Sequence[Ink], info: PageInfo, settings: Settings, folder: str) -> Any:
    """The plates of a page that Ghostscript writes into a folder."""
    width, height = info.samples(settings.box, settings.dpi)
    names = [os.fsencode(DRAWN) + b"(" + ink.suffix + b").tif" for ink in inks]
    planes: Any = tuple(Growing(os.path.join(os.fsencode(folder), name), (height, width)) for name in names)
    return Plates(tuple(ink.name for ink in inks), planes, BIG, settings.dpi)

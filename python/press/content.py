# SPDX-License-Identifier: Apache-2.0
"""Preflight of content: colours, type, lines, images and ink of a page, and what a file says of itself. One function
for each subject; each finding names the place in millimetres from the lower left corner of the page as it is drawn."""
from __future__ import annotations

import contextlib
import functools
import math
import re
from collections.abc import Iterator, Sequence
from dataclasses import dataclass
from typing import Any

import numpy
import pikepdf

from .crew import ALONE, Crew
from .findings import NOTE, WARNING, Finding, remedy
from .icc import read_profile
from .images import moved_to_page
from .inks import Ink
from .names import readable
from .plates import Array, Plates, release
from .rects import Rect
from .settings import Settings
from .source import MOST_DEPTH, UNREAD, PageInfo, inherited
from .tables import counts
from .trace import Trace

MILLIMETRES = 25.4 / 72
# The spaces that need no conversion, as the trace names them.
OF_PLATES = re.compile(r"DeviceCMYK|DeviceGray|Separation\(.*|DeviceN\(.*|None|")
# Type is black from these parts on, and made of several inks if others have at least so much.
DARK_RGB, DARK_BLACK, OTHER_INK = 0.25, 0.5, 0.1
# Type and lines below so many points are small; an ink that covers so much of the ground is one of it.
SMALL_TYPE, HAIRLINE, GROUND_SHARE = 7.0, 0.25, 0.3
# A white has the shape of the type above it if no more of it lies beside colour, as a share; colour is a tenth of full
# ink, as for keepaway; and so far around a glyph is looked at, in points.
BESIDE_SHARE, SOME_COLOUR, AROUND_GLYPH = 0.1, 0.1, 1.0
# The stroke of a plain typeface, as a share of its size, and the pixels that a stroke needs for a trap.
STEM, LEAST_PIXELS = 0.08, 3.0
# An image of less dpi is coarse.
COARSE = 150.0
BAND_ROWS, COVERAGE_ROWS, COVERAGE_PARTS = 256, 64, 8
# Where a text has its place.
AT = "<at>"


@dataclass(frozen=True)
class Coverage:
    """How much ink a page takes: the mean tint of each plate, the highest sum of tints, both as shares of full ink, and
    the place of that in points."""

    plates: tuple[float, ...]
    total: float
    place: tuple[float, float]


def placed(kind: str, page: int, rect: Rect, text: str) -> Finding:
    """A note of a place, which stands where the text has AT."""
    x, y = (rect.left + rect.right) / 2 * MILLIMETRES, (rect.lower + rect.upper) / 2 * MILLIMETRES
    return Finding(kind, NOTE, page, text.replace(AT, f"at {x:.0f}, {y:.0f} mm"), place=(x, y))


# Ink

def coverage_of(plates: Plates, inks: Sequence[Ink], within: Rect | None = None, crew: Crew = ALONE) -> Coverage:
    """How much ink a page takes, row block by row block, some parts of it at once if the crew can. Varnish, die lines
    and the like are left out of the total, and so is what lies outside a box in points: marks are on every plate."""
    step = COVERAGE_ROWS * max(1, -(-plates.height // COVERAGE_ROWS // COVERAGE_PARTS))
    parts = [range(top, min(plates.height, top + step)) for top in range(0, plates.height, step)]
    seen = crew.each([functools.partial(covered, plates, inks, within, rows) for rows in parts])
    # Of equal sums the first is taken.
    total, place = max((one[1:] for one in seen), key=lambda one: one[0])
    tints = [sum(several) for several in zip(*(one[0] for one in seen))]
    scale, samples = 72 / plates.resolution, plates.width * plates.height * plates.maxval
    return Coverage(tuple(one / samples for one in tints), max(total, 0) / plates.maxval,
                    ((place[1] + 0.5) * scale, (plates.height - place[0] - 0.5) * scale))


def covered(plates: Plates, inks: Sequence[Ink], within: Rect | None,
            rows: range) -> tuple[list[int], int, tuple[int, int]]:
    """The sum of each plate's tints in some rows, the highest sum of all that count within a box, and its place."""
    inked = [array for array, ink in zip(plates.arrays, inks) if ink.has_ink and counts(ink.kind)]
    columns, lines = inside(plates, within)
    lines = slice(max(lines.start, rows.start), min(lines.stop, rows.stop))
    total, place = highest_of_page(inked, plates.maxval, columns, lines)
    tints = [tints_of(array, plates.maxval, rows) if ink.has_ink else 0 for array, ink in zip(plates.arrays, inks)]
    release(*plates.arrays)
    return tints, total, place


def tints_of(array: Array, maxval: int, rows: range) -> int:
    """The sum of a plate's tints in some rows."""
    bands = (array[start:min(rows.stop, start + COVERAGE_ROWS)] for start in rows[::COVERAGE_ROWS])
    return sum(band.size * maxval - int(band.sum(dtype=numpy.uint64)) for band in bands if int(band.min()) < maxval)


def highest_of_page(arrays: Sequence[Array], maxval: int, columns: slice, lines: slice) -> tuple[int, tuple[int, int]]:
    """The highest sum of the tints of plates in a part of a page, and its row and column, the first from the top and
    the left. -1 if no plate counts."""
    best, place = -1, (0, 0)
    for first in range(lines.start, lines.stop, COVERAGE_ROWS) if arrays else ():
        rows = slice(first, min(lines.stop, first + COVERAGE_ROWS))
        # No sum of tints in a column is more than that of its greatest tints.
        most = sum(maxval - array[rows, columns].min(axis=0).astype("i4") for array in arrays)
        some = numpy.flatnonzero(most > best) + columns.start
        if len(some):
            found, row, column = highest(arrays, maxval, rows, slice(int(some[0]), int(some[-1]) + 1))
            if found > best:
                best, place = found, (row, column)
    return best, place


def highest(arrays: Sequence[Array], maxval: int, rows: slice, columns: slice) -> tuple[int, int, int]:
    """The highest sum of the tints of plates in a part, and its row and column."""
    total = numpy.zeros((rows.stop - rows.start, columns.stop - columns.start),
                        dtype=numpy.uint16 if maxval < 256 else numpy.uint32)
    for array in arrays:
        total += total.dtype.type(maxval) - array[rows, columns]
    row, column = divmod(int(total.argmax()), total.shape[1])
    return int(total[row, column]), rows.start + row, columns.start + column


def inside(plates: Plates, within: Rect | None) -> tuple[slice, slice]:
    """The columns and rows of a box."""
    if within is None:
        return slice(0, plates.width), slice(0, plates.height)
    scale = plates.resolution / 72
    top, bottom = plates.height - within.upper * scale, plates.height - within.lower * scale
    return (slice(max(0, int(within.left * scale)), max(0, int(within.right * scale + 0.5))),
            slice(max(0, int(top)), max(0, int(bottom + 0.5))))


def ink_findings(plates: Plates, inks: Sequence[Ink], page: int, limit: float) -> Iterator[Finding]:
    """That a place takes more ink than the limit, a share of full ink."""
    yield from coverage_findings(coverage_of(plates, inks), page, limit)


def coverage_findings(found: Coverage, page: int, limit: float) -> Iterator[Finding]:
    """The same, of the ink that a page is known to take."""
    if found.total > limit + 0.005:
        x, y = found.place
        yield placed("total-ink", page, Rect(x, y, x, y), f"{100 * found.total:.0f}% of ink {AT}, and the limit is "
                     f"{100 * limit:.0f}% (--total-ink)")


def untrapped_edges(plates: Plates, inks: Sequence[Ink], page: int, step: float) -> Iterator[Finding]:
    """Inks that meet along edges of which none is trapped, because of their kinds."""
    inked = [(array, ink) for array, ink in zip(plates.arrays, inks) if ink.has_ink and counts(ink.kind)]
    for number, (array, ink) in enumerate(inked):
        if ink.kind == "Normal":
            continue
        for other_number, (other, beside) in enumerate(inked):
            both_opaque = beside.kind != "Normal"
            if other_number == number or both_opaque and other_number < number:
                continue
            if not both_opaque and float(beside.density) <= float(ink.density):
                continue
            edges, (column, row) = meeting(array, other, step * plates.maxval)
            if edges:
                why = "both are opaque" if both_opaque else f"{readable(ink.colorant)} is opaque and the lighter one"
                names = f"{readable(ink.colorant)} and {readable(beside.colorant)}"
                yield Finding("untrapped-inks", WARNING, page, f"{names} meet along {edges} edges, and none of them is "
                              f"trapped: {why}, and no trap spreads an opaque ink (--density, --kind or --role says "
                              f"otherwise)", place=pixel_place(plates, column, row))


def meeting(one: Array, other: Array, least: float) -> tuple[int, tuple[int, int]]:
    """Between how many neighbours one plate gains ink and another loses it, each by a step; and the first of them, its
    column and row."""
    count, first, need = 0, (0, 0), max(1, int(least + 0.999))
    for start in range(0, one.shape[0], BAND_ROWS):
        planes = [array[start:start + BAND_ROWS + 1].astype(numpy.int32) for array in (one, other)]
        for axis in (0, 1):
            rise, fall = (numpy.diff(plane, axis=axis) for plane in planes)
            marks = (((rise >= need) & (fall <= -need)) | ((rise <= -need) & (fall >= need)))[:BAND_ROWS]
            if marks.any() and not count:
                row, column = numpy.unravel_index(int(marks.argmax()), marks.shape)
                first = int(column), start + int(row)
            count += int(marks.sum())
    return count, first


def pixel_place(plates: Plates, column: int, row: int) -> tuple[float, float]:
    """The place of a pixel in millimetres."""
    scale = 25.4 / plates.resolution
    return (column + 0.5) * scale, (plates.height - row - 0.5) * scale


# What is painted

def on_page(rect: Rect, info: PageInfo, settings: Settings) -> Rect:
    """A rectangle of the trace on the page; where it lies outside, the whole page."""
    return next(iter(moved_to_page([rect], info, settings.box)), Rect(0, 0, *info.size(settings.box)))


def colour_findings(trace: Trace, info: PageInfo, settings: Settings, page: int) -> Iterator[Finding]:
    """Colours that are no inks, and black type of several."""
    others: dict[str, Rect] = {}
    for paint in trace.paints.values():
        if not OF_PLATES.fullmatch(paint.space):
            others.setdefault(paint.space, paint.box)
    for space, box in sorted(others.items()):
        profile = "the profile of --icc" if settings.icc else "Ghostscript's own profile (--icc or --output-intent)"
        yield placed("colour-space", page, on_page(box, info, settings),
                     f"colour in {readable(space.encode())} {AT} is separated by {profile}")
    for paint in trace.paints.values():
        if paint.size and is_rich_black(paint.space, paint.colour):
            yield placed("rich-type", page, on_page(paint.box, info, settings), f"black type of {paint.size:.1f} pt is "
                         f"made of several inks {AT}: out of register it has coloured rims")
            break


def is_rich_black(space: str, colour: Sequence[float]) -> bool:
    """Whether a colour of type is black, and is printed with three or four inks."""
    if "RGB" in space and len(colour) == 3:
        return max(colour) <= DARK_RGB
    return space == "DeviceCMYK" and len(colour) == 4 and colour[3] >= DARK_BLACK and \
        sum(part >= OTHER_INK for part in colour) >= 3


def line_findings(trace: Trace, info: PageInfo, settings: Settings, page: int) -> Iterator[Finding]:
    """Lines that are too thin to print, and images that are too coarse."""
    if trace.hairline and trace.hairline[0] < HAIRLINE:
        width, box = trace.hairline
        yield placed("hairline", page, on_page(box, info, settings),
                     f"a line of {width:.2f} pt {AT} may not print: {HAIRLINE:g} pt is the least")
    if trace.coarsest and trace.coarsest[0] < COARSE:
        resolution, box = trace.coarsest
        yield placed("image-resolution", page, on_page(box, info, settings),
                     f"an image has {resolution:.0f} pixels per inch {AT}: {COARSE:.0f} is the least")


def type_findings(trace: Trace, info: PageInfo, settings: Settings, page: int) -> Iterator[Finding]:
    """The smallest coloured type, if its strokes are too thin for a trap at the settings' resolution."""
    coloured = [paint for paint in trace.paints.values() if paint.size and not is_paper(paint)
                and not is_plain_black(paint.space, paint.colour)]
    smallest = min(coloured, key=lambda paint: paint.size, default=None)
    if smallest is None:
        return
    stroke = STEM * smallest.size * settings.dpi / 72
    if stroke < LEAST_PIXELS:
        enough = math.ceil(LEAST_PIXELS * 72 / (STEM * smallest.size) / 100) * 100
        yield placed("thin-strokes", page, on_page(smallest.box, info, settings), f"coloured type of "
                     f"{smallest.size:.1f} pt {AT} has strokes of about {stroke:.1f} pixels at {settings.dpi} dpi: "
                     f"traps take its colour or leave gaps ({remedy(enough)})")


def is_plain_black(space: str, colour: Sequence[float]) -> bool:
    """Whether a colour is black ink alone."""
    if space == "DeviceGray":
        return True
    return space == "DeviceCMYK" and not any(colour[:3])


def reversed_findings(trace: Trace, plates: Plates, inks: Sequence[Ink], info: PageInfo, settings: Settings,
                      page: int) -> Iterator[Finding]:
    """Small white type in a ground of several inks."""
    for paint in trace.paints.values():
        if not paint.size or paint.size >= SMALL_TYPE or not is_paper(paint):
            continue
        box = on_page(paint.box, info, settings)
        ground = ground_inks(plates, inks, box)
        if len(ground) > 1:
            yield placed("small-reverse", page, box, f"type of {paint.size:.1f} pt is reversed out of "
                         f"{' + '.join(ground)} {AT}: out of register it fills in")
            return


def is_paper(paint: Any) -> bool:
    """Whether a colour is that of unprinted paper."""
    if paint.space == "DeviceCMYK" or paint.space.startswith(("Separation", "DeviceN")):
        return bool(paint.colour) and not any(paint.colour)
    return bool(paint.colour) and min(paint.colour) >= 1


def white_type_findings(trace: Trace, plates: Plates, inks: Sequence[Ink], info: PageInfo, settings: Settings,
                        page: int) -> Iterator[Finding]:
    """Small type over a white of the same shape, of which keepaway cannot take enough."""
    whites = [ink for ink in inks if ink.has_ink and ink.role == "white"]
    for paint in trace.paints.values() if whites else ():
        if not paint.size or paint.size >= SMALL_TYPE or is_paper(paint):
            continue
        box = on_page(paint.box, info, settings)
        if found := [readable(ink.colorant) for ink in whites if has_shape_of_colour(plates, inks, ink, box)]:
            x, y = (box.left + box.right) / 2 * MILLIMETRES, (box.lower + box.upper) / 2 * MILLIMETRES
            yield Finding("type-on-white", WARNING, page, f"type of {paint.size:.1f} pt at {x:.0f}, {y:.0f} mm is over "
                          f"{' + '.join(found)} of the same shape: out of register white shows next to it, and the "
                          f"type lacks white; put it on a panel of white that is wider than the line", place=(x, y))
            return


def has_shape_of_colour(plates: Plates, inks: Sequence[Ink], white: Ink, box: Rect) -> bool:
    """Whether a white around a glyph is below most of the colour there, and hardly anywhere else."""
    part = part_of(plates, Rect(box.left - AROUND_GLYPH, box.lower - AROUND_GLYPH, box.right + AROUND_GLYPH,
                                box.upper + AROUND_GLYPH))
    tints = {ink.name: 1 - array[part].astype("f4") / plates.maxval for array, ink in zip(plates.arrays, inks)}
    colours = [tints[ink.name] for ink in inks if ink.role != "white" and ink.kind in ("Normal", "Opaque")]
    if not colours:
        return False
    colour = numpy.sum(colours, axis=0) >= SOME_COLOUR
    below = tints[white.name] >= 0.5
    count = int(below.sum())
    return 0 < count < below.size * (1 - BESIDE_SHARE) and 2 * count >= int(colour.sum()) and \
        int((below & ~colour).sum()) <= BESIDE_SHARE * count


def ground_inks(plates: Plates, inks: Sequence[Ink], box: Rect) -> list[str]:
    """The inks that cover a good part of a box."""
    found, place = [], part_of(plates, box)
    for array, ink in zip(plates.arrays, inks):
        part = array[place]
        if counts(ink.kind) and part.size and 1 - float(part.mean()) / plates.maxval >= GROUND_SHARE:
            found.append(readable(ink.colorant))
    return found


def part_of(plates: Plates, box: Rect) -> tuple[slice, slice]:
    """The rows and columns of all pixels that a box in points touches."""
    scale = plates.resolution / 72
    return (slice(max(0, int(plates.height - box.upper * scale)), max(0, int(plates.height - box.lower * scale) + 1)),
            slice(max(0, int(box.left * scale)), max(0, int(box.right * scale) + 1)))


# What the file says

def file_findings(path: str, settings: Settings) -> Iterator[Finding]:
    """What a PDF says of itself: encryption, traps, layers and output intents."""
    with contextlib.suppress(*UNREAD, AttributeError, TypeError, ValueError, KeyError), pikepdf.open(path) as pdf:
        yield from trapped_findings(pdf)
        if pdf.is_encrypted and not (pdf.allow.print_highres and pdf.allow.print_lowres):
            yield Finding("encrypted", WARNING, None, "printing is forbidden by the file's encryption")
        yield from layer_findings(pdf)
        yield from intent_findings(pdf, settings)


def trapped_findings(pdf: Any) -> Iterator[Finding]:
    """That a file was trapped before."""
    trapped = str(pdf.docinfo.get("/Trapped", "")) if "/Info" in pdf.trailer else ""
    nets = [number for number, page in enumerate(pdf.pages, 1) for one in page.obj.get("/Annots", [])
            if str(one.get("/Subtype", "")) == "/TrapNet"]
    if trapped in ("/True", "True", "true") or nets:
        what = "the page has a trap network" if nets else "the file says that it is (/Trapped)"
        yield Finding("already-trapped", WARNING, nets[0] if nets else None,
                      f"trapped already: {what}; traps of traps print as rims")


def layer_findings(pdf: Any) -> Iterator[Finding]:
    """The layers of a file, and which of them are off."""
    properties = pdf.Root.get("/OCProperties")
    if properties is None:
        return
    default = properties.get("/D", pikepdf.Dictionary())
    off = {one.objgen for one in default.get("/OFF", [])}
    base_off = str(default.get("/BaseState", "/ON")) == "/OFF"
    on = {one.objgen for one in default.get("/ON", [])}
    names, hidden = [], []
    for group in properties.get("/OCGs", []):
        name = str(group.get("/Name", ""))
        names.append(name)
        if group.objgen in off or base_off and group.objgen not in on:
            hidden.append(name)
    if names:
        state = f"off, and so not printed or trapped: {', '.join(hidden)}" if hidden else "all are on"
        yield Finding("layers", NOTE, None, f"{len(names)} layers ({', '.join(names)}); {state}")


def intent_findings(pdf: Any, settings: Settings) -> Iterator[Finding]:
    """The output intents of a file, and whether one is used."""
    names = [str(one.get("/OutputConditionIdentifier", one.get("/Info", "without a name")))
             for one in pdf.Root.get("/OutputIntents", [])]
    if names:
        unused = f"it gives way to --icc {settings.icc}" if settings.icc else "it is used"
        state = unused if settings.output_intent else "it is not used (--output-intent uses it)"
        yield Finding("output-intent", NOTE, None, f"output intent {', '.join(names)}; {state}")


def intent_profile(path: str, out: str) -> bool:
    """Writes the profile of a file's first output intent for a press, else of the first one that has a profile;
    whether there is any."""
    try:
        with pikepdf.open(path) as pdf:
            found = [one["/DestOutputProfile"].read_bytes() for one in pdf.Root.get("/OutputIntents", [])
                     if "/DestOutputProfile" in one]
    except UNREAD:
        return False
    if not found:
        return False
    profiles = ((data, read_profile(data)) for data in found)
    with open(out, "wb") as file:
        file.write(next((data for data, profile in profiles if profile and profile.is_of_press), found[0]))
    return True


def font_findings(path: str, page: int, known: Sequence[str] = ()) -> Iterator[Finding]:
    """Fonts of a page that the file does not embed, but for those that are known to lack."""
    try:
        with pikepdf.open(path) as pdf:
            names = sorted(set(fonts_outside(inherited(pdf.pages[page - 1].obj, "/Resources"), set(), 0)))
    except (*UNREAD, AttributeError, TypeError, ValueError, KeyError, IndexError):
        return
    names = [name for name in names if name not in known]
    if names:
        yield Finding("font-embedded", NOTE, page, f"fonts that the file does not embed: {', '.join(names)}")


def fonts_outside(resources: Any, seen: set[tuple[int, int]], depth: int) -> Iterator[str]:
    """The names of fonts in resources, and in those of forms, that have no font file."""
    if not isinstance(resources, pikepdf.Dictionary) or depth > MOST_DEPTH:
        return
    for font in dict(resources.get("/Font", {})).values():
        inner = font["/DescendantFonts"][0] if "/DescendantFonts" in font else font
        descriptor = inner.get("/FontDescriptor", {})
        is_inside = any(f"/FontFile{kind}" in descriptor for kind in ("", "2", "3"))
        if not is_inside and str(font.get("/Subtype")) != "/Type3":
            yield str(font.get("/BaseFont", "/without a name"))[1:]
    for form in dict(resources.get("/XObject", {})).values():
        if form.objgen not in seen:
            seen.add(form.objgen)
            yield from fonts_outside(form.get("/Resources"), seen, depth + 1)

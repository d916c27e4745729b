# SPDX-License-Identifier: Apache-2.0
"""Pictures of a page for press/look: as it is, its traps, or before and after with the plates out of register."""
import math
import os
import re
from collections.abc import Sequence
from dataclasses import dataclass

import numpy
from PIL import Image

from .errors import UsageError
from .files import whole_file
from .folder import PageFolder
from .picture import Painter, Part, Shift, mean_of, usual_shifts
from .plates import Array

SPACE, PNG_LEVEL = 12, 6
# So many points take less than a gigabyte while a picture is drawn.
MOST_POINTS = 100_000_000


@dataclass(frozen=True)
class LookOptions:
    """What is drawn: the plates from the PDF, or where ink was added, or the page out of register by shifts, DX,DY or
    NAME=DX,DY each; which part, X,Y,W,H or most or most:WxH; and how many points or samples a side become one."""

    untrapped: bool = False
    traps: bool = False
    misregister: Sequence[str] | None = None
    part: str | None = None
    enlarge: int = 1
    shrink: int = 1


def look(folder: str, out: str, options: LookOptions) -> list[str]:
    """Draws a page into a PNG file. Answers the table of its traps if these are drawn."""
    if not out.lower().endswith(".png"):
        raise UsageError(f"a picture is a PNG file, and '{out}' has another name")
    compares = options.traps or options.misregister is not None
    if compares and options.untrapped or options.traps and options.misregister is not None:
        raise UsageError("--traps, --misregister and --untrapped do not go together")
    page = PageFolder.read(folder)
    with_trapped = not options.untrapped and (compares or page.is_trapped)
    if with_trapped:
        page.need_trapped()
    painter = Painter(page, with_trapped)
    part = part_of(options.part, painter)
    need_points(part, options)
    with whole_file(out) as path:
        Image.fromarray(drawn(painter, part, options)).save(path, format="PNG", compress_level=PNG_LEVEL)
    return painter.table(part) if options.traps else []


def draw_pictures(page: PageFolder) -> None:
    """Draws page.png, traps.png, and register.png, the part with most traps out of register, into a page's folder."""
    for name, options in (("page", LookOptions()), ("traps", LookOptions(traps=True)),
                          ("register", LookOptions(misregister=(), part="most", enlarge=4))):
        look(page.path, page.file(f"{name}.png"), options)


def drawn(painter: Painter, part: Part, options: LookOptions) -> Array:
    """The picture: rows × columns × red, green and blue."""
    if options.traps:
        # Of a small picture a point has the trap's colour if some sample of it has a trap.
        traps = painter.traps(part) if options.shrink == 1 else painter.traps_made_small(part, options.shrink)
        return enlarged(traps, options.enlarge)
    planes, shifts = [painter.after or painter.before], None
    if options.misregister is not None:
        planes, shifts = [painter.before, painter.after], shifts_of(options.misregister, painter.page)
    pictures = [enlarged(shrunk(painter.picture(one, part, shifts), options.shrink), options.enlarge) for one in planes]
    space = numpy.full((pictures[0].shape[0], SPACE, 3), 255, dtype="u1")
    return pictures[0] if len(pictures) == 1 else numpy.concatenate([pictures[0], space, pictures[1]], axis=1)


def need_points(part: Part, options: LookOptions) -> None:
    """Refuses to enlarge a picture beyond what memory holds, and says what would fit."""
    _, _, width, height = part
    width, height = width // options.shrink, height // options.shrink
    points = width * height * (1 if options.misregister is None else 2)
    if options.enlarge == 1 or points * options.enlarge ** 2 <= MOST_POINTS:
        return
    raise UsageError(f"--enlarge {options.enlarge} makes {width * options.enlarge} by {height * options.enlarge} "
                     f"points of this part, and a picture has at most {MOST_POINTS}: --enlarge "
                     f"{max(1, math.isqrt(MOST_POINTS // points))} would fit, or a --part of "
                     f"{math.isqrt(MOST_POINTS) // options.enlarge} samples a side")


def shifts_of(words: Sequence[str], page: PageFolder) -> list[Shift]:
    """For each plate how far it is off; the usual shifts if no words are given."""
    if not words:
        return usual_shifts(page)
    shifts, at = [(0, 0)] * len(page.inks), 0
    for word in words:
        found = re.fullmatch(r"(?:(.+)=)?([-+]?\d{1,5}),([-+]?\d{1,5})", word)
        if not found:
            raise UsageError(f"--misregister takes DX,DY or NAME=DX,DY, and not '{word}'")
        shift = int(found[2]), int(found[3])
        if found[1] is None:
            if at == len(shifts):
                raise UsageError(f"--misregister has more shifts than the page has plates, {len(shifts)}")
            shifts[at], at = shift, at + 1
            continue
        places = [k for k, ink in enumerate(page.inks) if os.fsencode(found[1]) in (ink.colorant, ink.name.encode())]
        if not places:
            raise UsageError(f"--misregister: no plate of the page is called {found[1]}")
        shifts[places[0]] = shift
    return shifts


def part_of(text: str | None, painter: Painter) -> Part:
    """The part of the page that is drawn, the whole page if none is asked for."""
    head = painter.page.head
    if text is None:
        return 0, 0, head.width, head.height
    if most := re.fullmatch(r"most(?::(\d{1,5})x(\d{1,5}))?", text):
        if not painter.after:
            raise UsageError("--part most needs the traps, and there is --untrapped")
        return painter.most(*(max(1, int(side)) for side in most.groups() if side))
    found = re.fullmatch(r"(\d{1,5}),(\d{1,5}),(\d{1,5}),(\d{1,5})", text)
    if found is None:
        raise UsageError(f"--part is X,Y,W,H, most or most:WxH, and not '{text}'")
    left, top, width, height = (int(number) for number in found.groups())
    if width == 0 or height == 0 or left + width > head.width or top + height > head.height:
        raise UsageError(f"--part {text} is not on the page of {head.width} by {head.height} samples")
    return left, top, width, height


def shrunk(picture: Array, times: int) -> Array:
    """Each square of samples as one point of their mean; a strip at the edge that makes no square is left out."""
    if min(picture.shape[:2]) < times:
        raise UsageError(f"--shrink {times} leaves nothing of the picture")
    return mean_of(picture, times)


def enlarged(picture: Array, times: int) -> Array:
    """Each sample as a square of points."""
    return picture if times == 1 else numpy.repeat(numpy.repeat(picture, times, axis=0), times, axis=1)

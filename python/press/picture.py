# SPDX-License-Identifier: Apache-2.0
"""Pictures of plates: inks laid over each other as in a proof, each taking its share of the light that the others
leave.

Varnish is not drawn. A spot has the colour of the process inks that look like it. Planes are rows × columns of 8 bits,
0 is full ink; pictures are rows × columns × red, green and blue, of 8 bits. A part is left, top, width and height in
samples from the upper left corner; a shift is samples to the right and down.
"""
import functools
import os
from collections.abc import Callable, Sequence

import numpy
from PIL import Image, ImageCms

from . import job
from .errors import PressError, Status, reason
from .folder import JOB, PageFolder, read_layout
from .icc import need_press_profile
from .inks import Look
from .names import PROCESS, readable
from .plates import Array, release
from .tables import is_seen

Part = tuple[int, int, int, int]
Shift = tuple[int, int]
Light = tuple[int, int, int]
# Widths that differ by less, in points, are one.
SAME_WIDTH = 0.0002
# Of red, green and blue light, what paper under full ink gives back, in 255ths.
LIGHTS = ((0, 166, 232), (232, 20, 134), (255, 238, 20), (36, 32, 34))
BAND_ROWS, MOST_POINTS = 256, 2000
MOST_WIDTH, MOST_HEIGHT, SEARCH_STEP = 160, 120, 8
# The light gray of each sum of red, green and blue.
PALE = (205 + numpy.arange(3 * 255 + 1, dtype="f4") / 3 * 50 / 255).astype("u1")


def light_of(look: Look) -> Light:
    """The light of full ink of a spot, from the process inks that look like it."""
    light = [255.0, 255.0, 255.0]
    for ink, share in zip(LIGHTS, look):
        light = [part * (1 - share / 100 * (1 - back / 255)) for part, back in zip(light, ink)]
    red, green, blue = (round(part) for part in light)
    return red, green, blue


def mean_of(plane: Array, times: int) -> Array:
    """Each square of samples, or of points of a picture, as one of their mean; what makes no square at the right or
    lower edge is left out."""
    if times == 1:
        return plane
    height, width = max(1, plane.shape[0] // times), max(1, plane.shape[1] // times)
    cut = plane[:height * times, :width * times]
    if cut.shape[:2] != (height * times, width * times):
        return plane[:height, :width]
    wide = "u2" if 255 * times * times < 1 << 16 else "u4"
    rows = cut[::times].astype(wide)
    for k in range(1, times):
        rows += cut[k::times]
    sums = rows[:, ::times] + rows.dtype.type(times * times // 2)
    for k in range(1, times):
        sums += rows[:, k::times]
    means: Array = (sums // rows.dtype.type(times * times)).astype("u1")
    return means


def eight_bits(array: Array, maxval: int) -> Array:
    """A plate with 8 bits a sample."""
    plane: Array = numpy.asarray(array)
    return plane if maxval == 255 else (plane.astype("u4") * 255 // maxval).astype("u1")


def shifted(plane: Array, shift: Shift, part: Part) -> Array:
    """A part of a plate that lies so far to the right and down. What it does not cover is paper."""
    (right, down), (left, top, width, height) = shift, part
    out: Array = numpy.full((height, width), 255, dtype="u1")
    first_x, first_y = max(left, right), max(top, down)
    last_x, last_y = min(left + width, plane.shape[1] + right), min(top + height, plane.shape[0] + down)
    if first_x < last_x and first_y < last_y:
        out[first_y - top:last_y - top, first_x - left:last_x - left] = \
            plane[first_y - down:last_y - down, first_x - right:last_x - right]
    return out


def in_bands(draw: Callable[[Part], Array], part: Part) -> Array:
    """A picture of a part, drawn in bands of rows, so that a large page takes little memory."""
    left, top, width, height = part
    return numpy.concatenate([draw((left, top + row, width, min(BAND_ROWS, height - row)))
                              for row in range(0, height, BAND_ROWS)])


class Painter:
    """The plates of a page, before and after trapping, and how they are drawn."""

    def __init__(self, page: PageFolder, with_trapped: bool) -> None:
        self.page = page
        self.lights = [light_of(ink.look) for ink in page.inks]
        # Of each plate, and each of red, green and blue, what share of the light a sample's value leaves.
        values = 1 - numpy.arange(256, dtype="f4") / 255
        self.shares = [[1 - values * (1 - back / 255) for back in light] for light in self.lights]
        self.drawn = [at for at, ink in enumerate(page.inks) if is_seen(ink.kind)]
        maxval = page.head.maxval
        self.before = [eight_bits(array, maxval) for array in page.plates().arrays]
        self.after = [eight_bits(array, maxval) for array in page.plates(True).arrays] if with_trapped else []

    def picture(self, planes: Sequence[Array], part: Part, shifts: Sequence[Shift] | None = None) -> Array:
        """The light that comes back through all inks, the plates being off by the shifts."""
        where = shifts or [(0, 0)] * len(planes)
        return in_bands(lambda band: self.laid_over([shifted(*one, band) for one in zip(planes, where)]), part)

    def laid_over(self, planes: Sequence[Array]) -> Array:
        """The light of planes of one size."""
        out = numpy.full((3, *planes[0].shape), 255, dtype="f4")
        for at in self.drawn:
            if planes[at].size and planes[at].min() < 255:
                for channel in range(3):
                    out[channel] *= self.shares[at][channel][planes[at]]
        light: Array = (out + 0.5).astype("u1")
        return light.transpose(1, 2, 0)

    def small(self, planes: Sequence[Array], times: int, profile: str | None = None) -> Array:
        """The page made small, each square of samples a point of its mean; by a profile if one is given."""
        parts = []
        for rows in self.small_rows(times):
            small = [mean_of(plane[rows.start:rows.stop], times) for plane in planes]
            parts.append(self.by_profile(small, profile) if profile else self.laid_over(small))
            release(*planes)
        return numpy.concatenate(parts)

    def small_rows(self, times: int) -> list[range]:
        """The rows of bands that can be made small one by one."""
        height, step = self.before[0].shape[0], times * max(1, BAND_ROWS // times)
        end = max(1, height // times) * times
        return [range(start, min(start + step, end, height)) for start in range(0, end, step)]

    def small_both(self, times: int, rows: range) -> tuple[Array, Array]:
        """A band made small before and after trapping. What did not change is drawn once."""
        part = slice(rows.start, rows.stop)
        old = [mean_of(plane[part], times) for plane in self.before]
        new = [small if numpy.array_equal(one[part], other[part]) else mean_of(other[part], times)
               for small, one, other in zip(old, self.before, self.after)]
        before = self.laid_over(old)
        changed = numpy.any([one != other for one, other in zip(old, new) if one is not other] or [[False]], axis=0)
        after = before
        if changed.any():
            after = before.copy()
            after[changed] = self.laid_over([small[changed][None] for small in new])[0]
        release(*self.before, *self.after)
        return before, after

    def by_profile(self, planes: Sequence[Array], profile: str) -> Array:
        """The light of planes, the process inks by a profile, and each spot by the process inks that look like it."""
        blank = numpy.full(planes[0].shape, 255, dtype="u1")
        by_name = {ink.name: planes[at] for at, ink in enumerate(self.page.inks)}
        process = numpy.stack([255 - by_name.get(name, blank) for name in PROCESS], axis=2)
        out = converted(process, profile).astype("f4")
        for at in self.drawn:
            ink = self.page.inks[at]
            if not ink.is_process and planes[at].size and planes[at].min() < 255:
                look = numpy.array([[[round(part * 2.55) for part in ink.look]]], dtype="u1")
                light = converted(look, profile)[0, 0]
                share = (1 - planes[at].astype("f4") / 255)[:, :, None]
                out *= 1 - share * (1 - light.astype("f4") / 255)
        return (out + 0.5).astype("u1")

    def traps(self, part: Part) -> Array:
        """Where ink was added, in its colour at full tint, on a pale page."""
        return in_bands(self.added, part)

    def added(self, part: Part) -> Array:
        """The same of one band."""
        left, top, width, height = part
        gray = self.laid_over([shifted(plane, (0, 0), part) for plane in self.before]).sum(axis=2, dtype="u4") // 3
        out: Array = numpy.repeat((205 + gray * 50 // 255)[:, :, None], 3, axis=2).astype("u1")
        where = self.changed[top:top + height, left:left + width]
        added = numpy.full((numpy.count_nonzero(where), 3), 255, dtype="u4")
        for light, old, new in zip(self.lights, self.before, self.after):
            more = (new[top:top + height, left:left + width] < old[top:top + height, left:left + width])[where]
            added[more] = added[more] * numpy.array(light, dtype="u4") // 255
        out[where] = added
        return out

    def traps_made_small(self, part: Part, times: int) -> Array:
        """The same made small: a point has an ink's colour if some sample of it has more of that ink."""
        left, top, width, height = part
        planes = [(old[top:top + height, left:left + width], new[top:top + height, left:left + width])
                  for old, new in zip(self.before, self.after)]
        out = pale(self.laid_over([mean_of(old, times) for old, _ in planes]))
        for light, (old, new) in zip(self.lights, planes):
            rows, columns = height // times * times, width // times * times
            if rows and columns:
                squares = (new < old)[:rows, :columns].reshape(rows // times, times, columns // times, times)
                out[squares.any(axis=(1, 3))] = light
        return out

    @functools.cached_property
    def changed(self) -> Array:
        """Where some plate was changed: an array of bool."""
        out: Array = numpy.zeros(self.before[0].shape, dtype=bool)
        for old, new in zip(self.before, self.after):
            out |= old != new
        return out

    def most(self, width: int = MOST_WIDTH, height: int = MOST_HEIGHT) -> Part:
        """The part of that size in which most samples changed, looked for in steps of 8 samples."""
        rows, columns = self.before[0].shape
        wide, high = min(width, columns), min(height, rows)
        sums = numpy.zeros((rows + 1, columns + 1), dtype="i4")
        sums[1:, 1:] = self.changed.cumsum(axis=0, dtype="i4").cumsum(axis=1, dtype="i4")
        counts = sums[high:, wide:] - sums[:-high, wide:] - sums[high:, :-wide] + sums[:-high, :-wide]
        counts = counts[::SEARCH_STEP, ::SEARCH_STEP]
        row, column = divmod(int(counts.argmax()), counts.shape[1])
        return column * SEARCH_STEP, row * SEARCH_STEP, wide, high

    def table(self, part: Part) -> list[str]:
        """Lines for people: of each ink how many samples of the part have more or less of it, how much paper that is,
        and how much of it was added; and where most traps are."""
        source = self.page.source
        lines = [f"page {source.page} of {readable(source.pdf)} at {source.resolution} pixels per inch, part " +
                 ",".join(map(str, part))]
        wide = max(len("ink"), *(len(ink.name) for ink in self.page.inks))
        lines.append(f"{'ink':<{wide}} {'more':>9} {'less':>9} {'mm2':>9} {'added':>6}")
        for ink, before, after in zip(self.page.inks, self.before, self.after):
            old, new = (shifted(plane, (0, 0), part).astype("i2") for plane in (before, after))
            more, less = int((new < old).sum()), int((new > old).sum())
            area = (more + less) * (25.4 / source.resolution) ** 2
            added = int((old - new)[new < old].sum()) / (2.55 * more) if more else 0
            lines.append(f"{ink.name:<{wide}} {more:>9} {less:>9} {area:>9.2f} {added:>5.0f}%")
        left, top, width, height = part
        lines.append(f"samples changed {int(self.changed[top:top + height, left:left + width].sum())}")
        return [*lines, "most traps: --part " + ",".join(map(str, self.most()))]


def pale(picture: Array) -> Array:
    """A picture in light gray."""
    out = numpy.empty_like(picture)
    out[:] = PALE[picture[:, :, 0].astype("u2") + picture[:, :, 1] + picture[:, :, 2]][:, :, None]
    return out


# Widths

def trap_width(page: PageFolder) -> float:
    """How many samples wide the page's traps are: of its narrowest zone that is trapped at all, but for those of thin
    strokes; 0 if none is."""
    with open(page.file(JOB), "rb") as file:
        zones = job.read(file.read()).zones
    thin = {place[0] for place in read_layout(page).get("thin", {}).get("places", ())}
    widths = [zone.width * page.source.resolution / 72 for zone in zones
              if zone.enabled and not any(abs(zone.width - one) < SAME_WIDTH for one in thin)]
    return min((width for width in widths if width >= 1), default=0.0)


def usual_shifts(page: PageFolder) -> list[Shift]:
    """How far each plate is off if nobody says it: no two of them part by more than a trap is wide, so that what
    is closed looks closed."""
    most = int(trap_width(page))
    near, far = most // 2, most - most // 2
    shifts = ((0, 0), (far, 0), (-near, 0), (0, near), (0, -near))
    return [shifts[at % len(shifts)] for at in range(len(page.inks))]


# Profiles and files

def need_profile(path: str) -> None:
    """Refuses a file that is not the profile of a press with four inks, or that cannot be read whole."""
    need_press_profile(path)
    try:
        ImageCms.getOpenProfile(path)  # type: ignore[no-untyped-call]
    except (OSError, ImageCms.PyCMSError) as fault:
        raise PressError(Status.INPUT, reason(fault), path) from fault


def converted(picture: Array, profile: str) -> Array:
    """A picture of cyan, magenta, yellow and black as red, green and blue by the press's profile."""
    inks = Image.fromarray(numpy.ascontiguousarray(picture), "CMYK")
    light = ImageCms.profileToProfile(inks, profile, ImageCms.createProfile("sRGB"), outputMode="RGB")
    return numpy.asarray(light)


def write_overview(path: bytes, page: PageFolder, trapped: bool, profile: str | None) -> None:
    """Writes a picture of the page in red, green and blue, of 2,000 points a side at most."""
    painter = Painter(page, trapped)
    times = -(-max(page.head.width, page.head.height) // MOST_POINTS)
    small = painter.small(painter.after if trapped else painter.before, times, profile)
    dpi = page.source.resolution / times
    Image.fromarray(small).save(os.fsdecode(path), format="PNG", dpi=(dpi, dpi))

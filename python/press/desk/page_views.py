# SPDX-License-Identifier: Apache-2.0
"""What browsers see of a page: tiles of any zoom, parts at 1:1 by the job as it is now or by another, and why a pixel
is trapped."""
from __future__ import annotations

from collections.abc import Mapping, Sequence
from dataclasses import dataclass, field
from typing import Any

import numpy as np
from numpy.typing import NDArray

from press.job_language import KEYS, Job
from press.names import readable
from press.picture import shifted

from . import why
from .colours import GAP, png
from .edits_json import BadRequest
from .gap_marks import gaps_opened
from .live import Band
from .page import DeskPage
from .pyramid import FIRST_LEVEL, Part, Pyramid, eight_bits

TILE = 512
MOST_PIXELS = 4 << 20
MOST_SHIFT = 256
MODES = ("before", "after", "traps", "difference", "ink")


@dataclass(frozen=True)
class View:
    """What a browser asks to see at 1:1: a part of the page in pixels, a picture's kind, plates as bits, and how far
    each plate is out of register, in pixels. `other` says by which other job it is trapped, if not by the newest.
    `gaps` marks what prints lighter than all around it in register."""

    left: int
    top: int
    width: int
    height: int
    mode: str = "after"
    inks: int = 0xFFFF
    shifts: Sequence[tuple[int, int]] | None = None
    delta: bool = False
    soft: bool = False
    gaps: bool = False
    other: Mapping[str, Any] = field(default_factory=dict)

    @classmethod
    def of_json(cls, said: Mapping[str, Any]) -> View:
        """A view as a browser asks for it. Raises BadRequest if it is none."""
        try:
            left, top, width, height = (int(said[name]) for name in ("left", "top", "width", "height"))
            shifts = [(int(x), int(y)) for x, y in said["shifts"]] if said.get("shifts") else None
            return cls(left, top, width, height, str(said["mode"]), int(said["inks"]), shifts,
                       bool(said.get("delta")), bool(said.get("soft")), bool(said.get("gaps")),
                       dict(said.get("other") or {}))
        except (KeyError, TypeError, ValueError) as bad:
            raise BadRequest(f"this is no view: {bad}") from bad


@dataclass(frozen=True)
class Drawn:
    """The pixels of a view; and how many of them are gaps, None if these are not marked."""

    pixels: NDArray[np.uint32]
    gaps: int | None = None


class PageViews:
    """The pictures of one page that is open."""

    def __init__(self, page: DeskPage) -> None:
        self.page = page
        self._marks: tuple[int, Pyramid | None] = (0, None)

    def tile(self, mode: str, inks: int, level: int, place: tuple[int, int], soft: bool = False) -> bytes | None:
        """A tile of a level as PNG; None outside the page."""
        page, part = self.page, Part(level, place[0] * TILE, place[1] * TILE, TILE, TILE)
        before, after = page.before, page.after
        planes = (after if mode in ("after", "ink") else before).part(part, inks)
        if not planes[0].size:
            return None
        if mode not in ("traps", "difference"):
            return png(page.inks.picture(mode, planes, inks, soft))
        if level < FIRST_LEVEL:
            changed = [new != old for old, new in zip(planes, after.part(part, inks))]
        else:
            changed = [np.asarray(mark > 0) for mark in self._changes().part(part, inks)]
        return png(page.inks.paint_traps(planes, changed, inks, mode == "difference"))

    def _changes(self) -> Pyramid:
        """Where traps changed each plate: reduced copies in which a pixel is marked if any of its pixels changed."""
        page = self.page
        with page.lock:
            shown, before, after = page.shown, page.before, page.after
            held, found = self._marks
        if found is None or held != shown:
            found = marks_of(before, after)
            with page.lock:
                self._marks = (shown, found)
        return found

    def view(self, view: View) -> Drawn:
        """A part at 1:1 by the job as it is now; with `delta` only the pixels that differ from the part before."""
        page = self.page
        self.check(view)
        if view.delta and not view.shifts and view.mode != "before":
            found = self._live_changes(view)
            if found is not None:
                return Drawn(found)
        most = max((abs(part) for shift in view.shifts or [] for part in shift), default=0)
        x0, y0 = max(0, view.left - most), max(0, view.top - most)
        width = min(page.width, view.left + view.width + most) - x0
        height = min(page.height, view.top + view.height + most) - y0
        before = page.before.part(Part(0, x0, y0, width, height))
        after = before if view.mode == "before" else self._trapped(view.other, (x0, y0, width, height))
        gaps = None
        if most and view.shifts:
            frame = view.left - x0, view.top - y0, view.width, view.height
            if view.gaps:
                gaps = gaps_opened(after, page.densities(), view.shifts)[frame[1]:, frame[0]:][:frame[3], :frame[2]]
            before = [shifted(plane, shift, frame) for plane, shift in zip(before, view.shifts)]
            after = [shifted(plane, shift, frame) for plane, shift in zip(after, view.shifts)]
        if view.delta:
            return Drawn(page.inks.changes(before, after, view.inks))
        pixels = self._painted(view, before, after)
        if gaps is None:
            return Drawn(pixels)
        pixels[gaps] = GAP
        return Drawn(pixels, int(np.count_nonzero(gaps)))

    def _painted(self, view: View, before: Sequence[NDArray[np.uint8]],
                 after: Sequence[NDArray[np.uint8]]) -> NDArray[np.uint32]:
        """The picture of a part."""
        inks = self.page.inks
        if view.mode in ("traps", "difference"):
            changed = [new != old for old, new in zip(before, after)]
            return inks.paint_traps(before, changed, view.inks, view.mode == "difference")
        return inks.picture(view.mode, after, view.inks, view.soft)

    def _live_changes(self, view: View) -> NDArray[np.uint32] | None:
        """The pixels of a part that traps change, by the job as it is now or by another; None if the page is done. Each
        band is trapped, compared and painted by a thread of its own."""
        page = self.page
        with page.lock:
            is_done, before, text = page.version == page.shown, page.before, page.text
        if is_done and not view.other:
            return None
        text = page.other_text(view.other) if view.other else text

        def changes(band: Band) -> NDArray[np.uint32]:
            rows = Part(0, view.left, view.top + band.first, view.width, band.last - band.first)
            after = [eight_bits(plane, page.maxval) for plane in band.planes]
            return page.inks.changes(before.part(rows), after, view.inks)
        bands = page.live.in_bands(text, (view.left, view.top, view.width, view.height), changes)
        return joined(bands, view.width, view.height)

    def _trapped(self, other: Mapping[str, Any], part: tuple[int, int, int, int]) -> list[NDArray[np.uint8]]:
        """A part of the trapped plates as eight bits: of the page if that is done, else trapped now."""
        page = self.page
        with page.lock:
            is_done, after, text = page.version == page.shown, page.after, page.text
        text = page.other_text(other) if other else text
        if is_done and not other:
            return after.part(Part(0, *part))
        return [eight_bits(plane, page.maxval) for plane in page.live.trapped(text, *part)]

    def check(self, view: View) -> None:
        """Raises BadRequest if a view is none of this page."""
        page = self.page
        if view.mode not in MODES:
            raise BadRequest(f"no picture {view.mode}")
        if view.left < 0 or view.top < 0 or view.width < 1 or view.height < 1:
            raise BadRequest("the view has no pixel of the page")
        if view.left + view.width > page.width or view.top + view.height > page.height:
            raise BadRequest("the view goes beyond the page")
        if view.width * view.height > MOST_PIXELS:
            raise BadRequest(f"a view has at most {MOST_PIXELS} pixels")
        if view.shifts and (len(view.shifts) != len(page.names)
                            or any(abs(part) > MOST_SHIFT for shift in view.shifts for part in shift)):
            raise BadRequest(f"a plate is out of register by at most {MOST_SHIFT} pixels")

    def why(self, x: int, y: int) -> dict[str, Any]:
        """Why a pixel is trapped, or is not."""
        page = self.page
        with page.lock:
            job = page.job
        radius = why.window_radius(job)
        left, top = max(0, x - radius), max(0, y - radius)
        right, bottom = min(page.width, x + radius + 1), min(page.height, y + radius + 1)
        tints = page.live.tints(page.live.planes, slice(top, bottom), slice(left, right), page.inked)
        names = [page.names[k] for k in page.inked]
        window = why.Window(tints, page.maxval, names, job, why.Place(left, top, page.height))
        answer = why.explain(window, (x - left, y - top))
        said = answer_json(answer, (x, y), [readable(page.folder.inks[k].colorant) for k in page.inked])
        separated = [page.maxval - int(page.before.planes[k][y, x]) for k in page.inked]
        drawn_back = [said["inks"][at] for at, tint in enumerate(separated) if tint != answer.before[at]]
        return {**said, "before": separated, "drawnBack": drawn_back, "zoneName": page.zone_name(answer.zone),
                "settings": settings_json(job, answer.zone)}


def settings_json(job: Job, zone: int) -> dict[str, Any]:
    """The parameters of a zone, in ten-thousandths."""
    return {key: getattr(job.zones[zone].parameters, name) for key, name in KEYS.items()}


def joined(bands: Sequence[NDArray[np.uint32]], width: int, height: int) -> NDArray[np.uint32]:
    """The changes of bands as those of the whole part: all places, then all colours."""
    halves = [np.split(one, 2) for one in bands]
    starts = [height * k // len(bands) * width for k in range(len(bands))]
    return np.concatenate([*(places + np.uint32(start) for (places, _), start in zip(halves, starts)),
                           *(colours for _, colours in halves)])


def marks_of(before: Pyramid, after: Pyramid) -> Pyramid:
    """For each reduced copy where some pixel of a square changed, as 255."""
    levels: list[list[NDArray[np.uint8]]] = []
    for level in before.levels:
        height, width = level[0].shape
        levels.append([np.zeros((height, width), np.uint8) for _ in level])
    times = 1 << FIRST_LEVEL
    for k, (old, new) in enumerate(zip(before.planes, after.planes)):
        for row in range(0, before.height, 1024):
            rows = slice(row, row + 1024)
            marks = any_of(np.asarray(old[rows] != new[rows]), times)
            levels[0][k][row // times:row // times + marks.shape[0]] = marks * np.uint8(255)
        for smaller, larger in zip(levels[1:], levels):
            smaller[k][:] = any_of(larger[k] > 0, 2) * np.uint8(255)
    return Pyramid(before.planes, before.maxval, levels)


def any_of(mask: NDArray[np.bool_], times: int) -> NDArray[np.bool_]:
    """Whether any pixel of each square is marked."""
    height, width = (-(-side // times) * times for side in mask.shape)
    full = np.zeros((height, width), bool)
    full[:mask.shape[0], :mask.shape[1]] = mask
    return np.asarray(full.reshape((height // times, times, width // times, times)).any(axis=(1, 3)))


def answer_json(answer: why.Answer, pixel: tuple[int, int], titles: Sequence[str]) -> dict[str, Any]:
    """An answer for a browser."""
    edge = answer.edge
    said = {"pixels": edge.pixels, "own": vars(edge.own), "across": vars(edge.across), "distance": edge.distance,
            "reach": edge.reach, "isBlack": edge.is_black, "isCentred": edge.is_centred} if edge else None
    return {"x": pixel[0], "y": pixel[1], "zone": answer.zone, "reason": answer.reason, "inks": list(titles),
            "before": answer.before, "after": answer.after, "edge": said}

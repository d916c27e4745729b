# SPDX-License-Identifier: Apache-2.0
"""Where a page is trapped and how wide: what the zones of its job are made of, from the PDF's boxes and layers, from
what the page paints, and from its plates.
"""
from __future__ import annotations

import json
import math
import re
from collections.abc import Callable, Iterator, Sequence
from dataclasses import dataclass, replace
from typing import Any

import numpy

from . import images, tables
from .errors import UsageError
from .files import write_text
from .findings import NOTE, WARNING, Finding, remedy
from .inks import Ink
from .job import Statement, read_all
from .job_language import KEYS, SCALE, Parameters
from .marks import above
from .origins import Origins, origins_from
from .pairs import pair_places, read_pairs
from .plates import Plates
from .rects import NOTHING, Rect, without
from .regions import box_on_page, fewer
from .settings import Settings
from .source import BOX_NAMES, PageInfo
from .strokes import SHARE, SPECK, Box, Part, find_strokes
from .strokes import Ink as StrokeInk
from .strokes import Rule
from .thin import Line, boxes_by_width, narrow_lines, own_share
from .trace import Trace
from .zones import IMAGES, LAYERS, OWNER, TRIM, Composed, Layer, Pair, Wanted, base_rule, compose, reach

BIG = 255
# The entry of zones.json that says what zones were made of.
MADE_OF = "made_of"
# What finds the thin parts of planes, as strokes.find_strokes does.
FindStrokes = Callable[..., list[Part]]
# So many holes are cut out of images in which no strokes are looked for.
MOST_HOLES = 200
# From this share of a page on it is warned that it is not trapped.
MUCH = 0.005
REASONS = {IMAGES: "images (--trap-images)", TRIM: "outside the {} box", LAYERS: "layers (--layer)",
           OWNER: "the owner's zones (--zones)"}


@dataclass(frozen=True)
class Strokes:
    """What was found of thin strokes: parts, lines, zones, and the share of their colour that is left with the page's
    trap width and with theirs. `places` are the lines' boxes in points, each with its trap width."""

    parts: int
    lines: int
    zones: int
    own_before: float
    own_after: float
    too_thin: int
    least: float
    places: tuple[tuple[float, Rect], ...]


@dataclass(frozen=True)
class Layout:
    """All statements of a page's job before showpage, and what became of the press room's zones."""

    statements: tuple[Statement, ...]
    warnings: tuple[str, ...] = ()
    untrapped: tuple[tuple[str, float], ...] = ()
    strokes: Strokes | None = None
    coverage: tuple[tuple[str, float], ...] = ()
    total_ink: float = 0.0
    origins: Origins | None = None

    def findings(self, page: int | None, resolution: int) -> Iterator[Finding]:
        """What the owner should know: what was given up, and strokes that are too thin for this resolution."""
        yield from (Finding("zones-limit", WARNING, page, text) for text in self.warnings)
        one = self.strokes
        if one and one.too_thin:
            enough = math.ceil(SHARE * 72 / one.least / 100) * 100
            yield Finding("thin-strokes", NOTE, page, f"{one.too_thin} of {one.lines} lines of thin strokes are less "
                          f"than three pixels thick at {resolution} dpi, the thinnest {one.least:.2f} pt: a trap takes "
                          f"all of their colour or leaves gaps at slanted edges ({remedy(enough)})")

    def untrapped_line(self, box: str) -> str | None:
        """How much of the page is not trapped, and why. Traps are kept within this box."""
        shares = [(reason, share) for reason, share in self.untrapped if share >= MUCH]
        if not shares:
            return None
        whole = 100 * sum(share for _, share in shares)
        parts = ", ".join(f"{100 * share:.0f}% {REASONS[reason].format(box)}" for reason, share in shares)
        return f"{whole:.0f}% of the page is not trapped: {parts}"

    def as_data(self) -> dict[str, Any]:
        """The layout for report.json."""
        found: dict[str, Any] = {"untrapped": {reason: round(share, 4) for reason, share in self.untrapped},
                                 "warnings": list(self.warnings)}
        found["coverage"] = {name: round(100 * share, 2) for name, share in self.coverage}
        found["total_ink"] = round(100 * self.total_ink, 1)
        if one := self.strokes:
            found["thin"] = {"parts": one.parts, "lines": one.lines, "zones": one.zones,
                             "own_before": round(one.own_before, 3), "own_after": round(one.own_after, 3),
                             "too_thin": one.too_thin, "thinnest_points": round(one.least, 3),
                             "places": [[round(width, 4), *(round(side, 3) for side in rect)]
                                        for width, rect in one.places]}
        if self.origins:
            found[MADE_OF] = self.origins.as_data()
        return found

    def write(self, path: str) -> None:
        """Writes the layout beside the page's job."""
        write_text(path, json.dumps(self.as_data()) + "\n")


def lay_out(own: Sequence[Statement], info: PageInfo | None, trace: Trace | None, plates: Plates, inks: Sequence[Ink],
            settings: Settings, find: FindStrokes = find_strokes) -> Layout:
    """The layout of a page. Without `info`, as for plates of another RIP, the page is what its plates are."""
    size = info.size(settings.box) if info else (plates.width * 72 / plates.resolution,
                                                 plates.height * 72 / plates.resolution)
    within, box = trap_box(info, settings)
    origins = origins_from(own, info, trace, settings)
    places, over = image_places(own, info, origins.trace(), settings)
    rule = base_rule(own)
    wanted = Wanted(size, within, box, tuple(layer_zones(info, trace, settings)), {},
                    tuple(pair_zones(plates, inks, rule, settings)), tuple(places), tuple(over), settings.only_zones)
    if not settings.thin_zones:
        return finished(compose(own, wanted), None, origins)
    lines, parts = strokes_of(plates, inks, rule, [pixels_of(place, size, plates) for place in
                                                   pictures_alone(places, over)], find)
    boxes = boxes_by_width(lines, stroke_rule(rule), plates.resolution)
    thin = {width: [points_of(one, plates) for one in some] for width, some in boxes.items()}
    composed = compose(own, replace(wanted, thin=thin))
    return finished(composed, report_of(lines, parts, composed, plates, inks, rule, thin) if lines else None,
                    origins)


def finished(composed: Composed, strokes: Strokes | None, origins: Origins) -> Layout:
    """The layout of composed zones."""
    untrapped = tuple(sorted(composed.untrapped.items()))
    return Layout(tuple(composed.statements), tuple(composed.warnings), untrapped, strokes, origins=origins)


# Boxes

def trap_box(info: PageInfo | None, settings: Settings) -> tuple[Rect | None, str]:
    """Where traps may be, None being the whole page; and the name of the box."""
    box = settings.trap_within or usual_box(info)
    if info is None or box == "media" or box not in info.boxes:
        return None, box
    rect = box_on_page(info, box, settings.box)
    whole = Rect(0, 0, *info.size(settings.box))
    is_all = all(abs(one - other) < 0.01 for one, other in zip(rect, whole))
    return (None if is_all or rect == NOTHING else rect), box


def usual_box(info: PageInfo | None) -> str:
    """The box within which traps are kept if none is named: the bleed box if it lies inside the media box, else the
    trim box."""
    if info is None:
        return "media"
    bleed, media = info.boxes.get("bleed"), info.boxes["media"]
    if bleed and any(abs(one - other) > 0.01 for one, other in zip(bleed, media)):
        return "bleed"
    return "trim" if "trim" in info.boxes else "media"


def box_line(info: PageInfo, settings: Settings) -> str | None:
    """That the page lacks the box of --trap-within."""
    box = settings.trap_within
    if box and box != "media" and box not in info.boxes:
        return f"the page has no {BOX_NAMES[box]}, so traps may be on the whole page (--trap-within {box})"
    return None


# Images and layers

def image_places(own: Sequence[Statement], info: PageInfo | None, trace: Trace | None,
                 settings: Settings) -> tuple[list[Rect], list[Rect]]:
    """The places of images in which nothing is trapped, and those of what is drawn above them."""
    if info is None or trace is None or settings.trap_images or not trace.images:
        return [], []
    margin = reach(read_all(own), settings.dpi)
    places = images.image_places(trace.images, info, settings.box, margin)
    if not settings.over_images:
        return places, []
    over = above(trace.marks, images.ordered_bounds(trace.images), margin)
    return places, images.moved_to_page(over, info, settings.box)


def pictures_alone(places: Sequence[Rect], over: Sequence[Rect]) -> list[Rect]:
    """The places of images, without what is drawn above them."""
    holes = fewer(over, MOST_HOLES)
    left = []
    for place in places:
        pieces = [place]
        for hole in holes:
            if hole.meets(place):
                pieces = [rest for piece in pieces for rest in without(piece, hole)]
        left += pieces
    return left


def layer_entries(words: Sequence[str]) -> dict[str, dict[str, float | bool]]:
    """The entries of settrapparams that --layer NAME=KEY=VALUE,.. or NAME=off gives each layer."""
    found: dict[str, dict[str, float | bool]] = {}
    for word in words:
        name, equals, rest = word.partition("=")
        if not equals or not name or not rest:
            raise UsageError(f"--layer is NAME=off or NAME=KEY=VALUE[,KEY=VALUE], and not '{word}'")
        found[name] = {"Enabled": False} if rest == "off" else dict(entry_of(part, word) for part in rest.split(","))
    return found


def entry_of(text: str, word: str) -> tuple[str, float | bool]:
    """A KEY=VALUE of --layer."""
    key, _, value = text.partition("=")
    if key not in KEYS or key not in tables.parameters():
        raise UsageError(f"--layer: '{word}' has no key of settrapparams: {', '.join(KEYS)}")
    if key == "Enabled" and value in ("true", "false"):
        return key, value == "true"
    if key == "Enabled" or not re.fullmatch(r"\d{1,3}(\.\d*)?|\.\d+", value):
        raise UsageError(f"--layer: '{value}' is no value of {key}")
    return key, float(value)


def layer_zones(info: PageInfo | None, trace: Trace | None, settings: Settings) -> Iterator[Layer]:
    """The layers that have parameters of their own, with where they paint."""
    if info is None or trace is None:
        return
    for name, entries in layer_entries(settings.layer).items():
        yield Layer(name, tuple(images.moved_to_page(trace.painted.get(name, []), info, settings.box)), entries)


def layer_lines(trace: Trace, settings: Settings) -> Iterator[str]:
    """Layers of --layer that the page does not have."""
    for name in layer_entries(settings.layer):
        if name not in trace.painted:
            known = ", ".join(sorted(trace.painted)) or "none"
            yield f"--layer: no layer {name} paints on the page; layers that do: {known}"


# Pairs of inks

def pair_zones(plates: Plates, inks: Sequence[Ink], rule: Parameters, settings: Settings) -> Iterator[Pair]:
    """Where inks meet of which the table of pairs gives the width."""
    if not settings.pairs:
        return
    planes = [array if plates.maxval == BIG else EightBits(array) for array in plates.arrays]
    for one in pair_places(planes, inks, read_pairs(settings.pairs), stroke_rule(rule), plates.resolution):
        yield Pair(tuple(points_of(box, plates) for box in one.boxes), one.factor, one.reason)


# Thin strokes

class EightBits:
    """A plate of 16 bits, read as one of eight."""

    def __init__(self, array: Any) -> None:
        self.array, self.shape = array, array.shape

    def __getitem__(self, where: Any) -> Any:
        return (self.array[where] >> 8).astype(numpy.uint8)


def stroke_rule(rule: Parameters) -> Rule:
    """The trapping parameters as the finder of strokes takes them."""
    return Rule(*(getattr(rule, name) / SCALE for name in ("trap_width", "black_width", "black_color_limit",
                                                           "black_density_limit", "step_limit", "sliding_trap_limit")))


def planes_of(plates: Plates, inks: Sequence[Ink]) -> tuple[list[Any], list[StrokeInk]]:
    """The plates with ink, and their inks."""
    kept = [(array, StrokeInk(float(ink.density), tables.counts(ink.kind))) for array, ink in zip(plates.arrays, inks)
            if ink.has_ink]
    planes = [array if plates.maxval == BIG else EightBits(array) for array, _ in kept]
    return planes, [ink for _, ink in kept]


def strokes_of(plates: Plates, inks: Sequence[Ink], rule: Parameters, skip: Sequence[Box],
               find: FindStrokes = find_strokes) -> tuple[list[Line], int]:
    """The lines of thin strokes whose traps have to be narrower, and how many thin strokes there are."""
    planes, stroke_inks = planes_of(plates, inks)
    if len(planes) < 2 or not rule.enabled:
        return [], 0
    parts = find(planes, stroke_inks, stroke_rule(rule), plates.resolution, skip)
    return narrow_lines(parts, stroke_rule(rule), plates.resolution), sum(part.area >= SPECK for part in parts)


def report_of(lines: Sequence[Line], parts: int, composed: Composed, plates: Plates, inks: Sequence[Ink],
              rule: Parameters, thin: dict[float, list[Rect]]) -> Strokes:
    """What was found of thin strokes, but for specks."""
    planes, stroke_inks = planes_of(plates, inks)
    lines = [line for line in lines if not line.is_specks]
    pixels = rule.trap_width / SCALE * plates.resolution / 72
    before = [pixels / 2 if line.slides else pixels for line in lines]
    own_before, own_after = (own_share(planes, stroke_inks, stroke_rule(rule), lines, reaches)
                             for reaches in (before, [line.reach for line in lines]))
    least = min((line.stroke for line in lines), default=0.0)
    places = tuple((width, rect) for width, rects in thin.items() for rect in rects)
    return Strokes(parts, len(lines), composed.thin_zones, own_before, own_after,
                   sum(line.stroke < SHARE for line in lines), least * 72 / plates.resolution, places)


def pixels_of(rect: Rect, size: tuple[float, float], plates: Plates) -> Box:
    """A rectangle in points as a box of pixels."""
    scale = plates.resolution / 72
    return Box(int(rect.left * scale), int((size[1] - rect.upper) * scale), int(rect.right * scale + 1),
               int((size[1] - rect.lower) * scale + 1))


def points_of(box: Box, plates: Plates) -> Rect:
    """A box of pixels as a rectangle in points. The lower left corner of the plates is that of the page."""
    scale = 72 / plates.resolution
    lower, upper = plates.height - box.lower, plates.height - box.upper
    return Rect(box.left * scale, lower * scale, box.right * scale, upper * scale)

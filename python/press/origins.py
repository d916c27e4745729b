# SPDX-License-Identifier: Apache-2.0
"""What the zones of a page are made of, as far as zones.json keeps it: the page's boxes, its images and what
lies above them, its layers, the options; and the widths that the zones were made for."""
from __future__ import annotations

import os
from collections.abc import Iterator, Mapping, Sequence
from dataclasses import dataclass, fields
from typing import Any

from .images import ordered_bounds
from .job import Statement, read_all
from .job_language import Parameters
from .marks import Mark, above
from .rects import Polygon, Rect
from .settings import Settings
from .source import PageInfo
from .trace import Image, Trace
from .zones import base_rule, reach

# The options that decide on zones.
OPTIONS = ("box", "trap_images", "over_images", "trap_within", "only_zones", "thin_zones")
LAST, DIGITS = 1 << 30, 6


@dataclass(frozen=True)
class Origins:
    """What zones are made of. Coordinates are those of the trace; without `info` the page is what its plates are."""

    rule: Parameters
    reach: float
    info: PageInfo | None
    images: tuple[Image, ...]
    over: tuple[Rect, ...]
    painted: Mapping[str, Sequence[Rect]]
    options: Mapping[str, Any]
    layers: tuple[str, ...]
    pairs: str | None

    @property
    def thin_zones(self) -> bool:
        """Whether thin strokes get zones."""
        return bool(self.options["thin_zones"])

    def trace(self) -> Trace | None:
        """What the page paints, as far as zones depend on it."""
        if self.info is None:
            return None
        marks = [Mark(LAST, rect, (rect,)) for rect in self.over]
        painted = {name: list(some) for name, some in self.painted.items()}
        return Trace(images=list(self.images), marks=marks, painted=painted)

    def settings(self, dpi: int) -> Settings:
        """The settings that decide on zones."""
        return Settings(dpi=dpi, layer=self.layers, pairs=self.pairs, **self.options)

    def as_data(self) -> dict[str, Any]:
        """For zones.json."""
        page = self.info and {"boxes": self.info.boxes, "rotate": self.info.rotate, "unit": self.info.unit}
        return {"rule": {one.name: getattr(self.rule, one.name) for one in fields(Parameters)},
                "reach": round(self.reach, 4), "page": page, "options": dict(self.options),
                "images": [[rounded(image.corners), [[rounded(one) for one in clip] for clip in image.clips]]
                           for image in self.images],
                "over": rounded(self.over), "layers": list(self.layers),
                "painted": {name: rounded(rects) for name, rects in self.painted.items()}, "pairs": self.pairs}

    @classmethod
    def of_data(cls, data: Mapping[str, Any]) -> Origins:
        """What zones.json keeps. Raises KeyError, TypeError or ValueError if it is not that."""
        page = data["page"]
        info = page and PageInfo({name: (box[0], box[1], box[2], box[3]) for name, box in page["boxes"].items()},
                                 int(page["rotate"]), float(page["unit"]), ())
        images = tuple(Image(points(corners), [[points(one) for one in clip] for clip in clips])
                       for corners, clips in data["images"])
        return cls(Parameters(**data["rule"]), float(data["reach"]), info or None, images, rects(data["over"]),
                   {name: rects(some) for name, some in data["painted"].items()},
                   {name: data["options"][name] for name in OPTIONS}, tuple(data["layers"]), data["pairs"])


def origins_from(own: Sequence[Statement], info: PageInfo | None, trace: Trace | None, settings: Settings) -> Origins:
    """What the zones of a page are made of."""
    names = tuple(word.partition("=")[0] for word in settings.layer)
    painted = {name: tuple(trace.painted.get(name, ())) for name in names} if trace else {}
    images = tuple(trace.images) if trace and not settings.trap_images else ()
    over = tuple(above(trace.marks, ordered_bounds(images), 0)) if trace and images and settings.over_images else ()
    pairs = os.path.abspath(settings.pairs) if settings.pairs else None
    return Origins(base_rule(own), reach(read_all(own), settings.dpi), info, images, over, painted,
                   {name: getattr(settings, name) for name in OPTIONS}, settings.layer, pairs)


def rounded(several: Sequence[Sequence[float]]) -> list[list[float]]:
    """Points or rectangles with few digits."""
    return [[round(number, DIGITS) for number in one] for one in several]


def points(data: Sequence[Sequence[float]]) -> Polygon:
    """A polygon of a file."""
    return [(float(x), float(y)) for x, y in data]


def rects(data: Sequence[Sequence[float]]) -> tuple[Rect, ...]:
    """Rectangles of a file."""
    return tuple(Rect(*map(float, one)) for one in data)


def changed_values(before: Parameters, now: Parameters) -> Iterator[str]:
    """The parameters that are not what they were."""
    return (one.name for one in fields(Parameters) if getattr(before, one.name) != getattr(now, one.name))

# SPDX-License-Identifier: Apache-2.0
"""What preflight found on a page, with the places that it speaks of."""
from __future__ import annotations

import os
import re
from collections.abc import Iterable, Sequence
from typing import Any

from press import tools
from press.folder import WARNINGS, PageFolder, read_layout, read_text
from press.names import readable
from press.rects import Rect

AROUND = 4.0
"""Millimetres on each side of a place that a finding names."""
MOST_PLACES = 20
PLACE = re.compile(r"\bat (\d+), (\d+) mm\b")
LINE = re.compile(r"(fault|warning|note): ([\w-]+): (.+)")
LEVELS = ("fault", "warning", "note")
ABOUT_INKS = ("ink-density", "ink-kind", "ink-library", "ink-twice", "knock-out", "process-name", "untrapped-inks")
"""Findings that name inks, and no place."""
Box = list[int]


def findings_of(page: PageFolder, zones: Sequence[dict[str, Any]],
                ink_boxes: Sequence[Box | None]) -> list[dict[str, Any]]:
    """The findings of a page, the gravest first: level, kind, text, and places as left, top, width and height in
    pixels. `zones` are the job's zones as browsers get them, `ink_boxes` where each plate has ink."""
    found = []
    for line in read_text(page.path, WARNINGS).splitlines():
        # A browser need not know where the folders lie.
        text = line.strip().replace(f"{os.path.dirname(page.path)}{os.sep}", "").replace(f"{tools.TOP}{os.sep}", "")
        parts = LINE.fullmatch(text)
        if parts:
            level, kind, text = parts.groups()
            places = places_of_inks(page, text, ink_boxes) if kind in ABOUT_INKS else []
            found.append({"level": level, "kind": kind, "text": text,
                          "places": places or places_of(page, kind, text, zones)})
    return sorted(found, key=lambda one: LEVELS.index(one["level"]))


def places_of_inks(page: PageFolder, text: str, ink_boxes: Sequence[Box | None]) -> list[Box]:
    """Where the inks are that a finding names."""
    names = [re.compile(rf"(?<!\w){re.escape(readable(ink.colorant))}(?!\w)") for ink in page.inks]
    return [box for name, box in zip(names, ink_boxes) if box and name.search(text)]


def places_of(page: PageFolder, kind: str, text: str, zones: Sequence[dict[str, Any]]) -> list[Box]:
    """Where a finding is: the places that its text names, else those of what it is about."""
    named = [Rect(*(float(part) * 72 / 25.4 for part in (x - AROUND, y - AROUND, x + AROUND, y + AROUND)))
             for x, y in ((int(x), int(y)) for x, y in PLACE.findall(text))]
    if not named and kind == "thin-strokes":
        places = read_layout(page).get("thin", {}).get("places", [])
        named = [Rect(*one[1:5]) for one in sorted(places)[:MOST_PLACES]]
    if named:
        return [box_of(page, one) for one in named]
    if kind in ("images", "not-trapped"):
        return around(ring for zone in zones if zone["name"] == "images" for ring in zone["rings"])
    return []


def box_of(page: PageFolder, rect: Rect) -> Box:
    """A rectangle in points as left, top, width and height in pixels."""
    scale, height = page.source.resolution / 72, page.head.height
    width, rows = (max(1, round(side * scale)) for side in (rect.right - rect.left, rect.upper - rect.lower))
    return [round(rect.left * scale), round(height - rect.upper * scale), width, rows]


def around(rings: Iterable[Sequence[Sequence[float]]]) -> list[Box]:
    """The box around all rings, in pixels; none if there is no ring."""
    points = [point for ring in rings for point in ring]
    if not points:
        return []
    (left, top), (right, bottom) = (tuple(choose(point[axis] for point in points) for axis in (0, 1))
                                    for choose in (min, max))
    return [[round(left), round(top), max(1, round(right - left)), max(1, round(bottom - top))]]

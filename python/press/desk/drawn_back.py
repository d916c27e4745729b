# SPDX-License-Identifier: Apache-2.0
"""Keepaway on a page that is open: which plates its traps begin from, and whether a change of the job draws inks back
otherwise than the last run of the whole page did."""
from __future__ import annotations

import json
from collections.abc import Mapping, Sequence
from dataclasses import dataclass
from typing import Any

from press import keepaway
from press.folder import JSON, TRAPPED, PageFolder
from press.job_language import SCALE, Job, JobZone
from press.plates import Array, read_pgm
from press.rects import Rect
from press.settings import Settings

Asked = tuple[bool, int]
"""What a zone asks: whether it is trapped, and from which density on an ink is a black."""


@dataclass(frozen=True)
class DrawnBack:
    """What decides how inks are drawn back: the width in ten-thousandths of a point, the blacks, the inks that may be
    drawn back, and all that zones and inks say of it."""

    width: int
    blacks: tuple[str, ...]
    others: tuple[str, ...]
    details: str

    @classmethod
    def of(cls, page: PageFolder, text: bytes, job: Job) -> DrawnBack:
        """What a job of a page says."""
        blacks, others = keepaway.blacks_and_others(page, job)
        inks = [[name, ink.density, ink.kind] for name, ink in sorted(job.inks.items())]
        zones = [[*asked(zone), zone.subpaths] for zone in zones_that_matter(page, job)]
        return cls(keepaway.width_of(page, Settings(), job, text), tuple(ink.name for ink in blacks),
                   tuple(ink.name for ink in others), json.dumps([inks, zones]))

    def is_off(self, resolution: int) -> bool:
        """Whether nothing is drawn back, whatever the plates have."""
        return not self.blacks or not self.others or 2 * self.width * resolution < 72 * SCALE


@dataclass(frozen=True)
class LastRun:
    """What the last run of the whole page did: by which job, None if that is not known; and its entry in report.json.
    """

    rule: DrawnBack | None
    report: Mapping[str, Any]

    @classmethod
    def of(cls, page: PageFolder, rule: DrawnBack | None, trapped: str = TRAPPED) -> LastRun:
        """The run that made the trapped plates in a folder."""
        try:
            with open(page.file(trapped, JSON), encoding="utf-8") as file:
                found = json.load(file)[keepaway.KEY]
            return cls(rule, found if isinstance(found, dict) else {})
        except (OSError, ValueError, KeyError, TypeError):
            return cls(rule, {})

    def differs(self, rule: DrawnBack, resolution: int) -> bool:
        """Whether a job may draw inks back otherwise. If no pixel of the page was a rich black, none is as long as the
        blacks and the inks below them are the same."""
        if self.rule == rule or rule.is_off(resolution) and not self.report.get("rich_black"):
            return False
        if self.rule is None or self.rule.is_off(resolution) or self.report.get("rich_black"):
            return True
        return (self.rule.blacks, self.rule.others) != (rule.blacks, rule.others)

    def draws_whites(self) -> bool:
        """Whether whites were drawn back under colours, which any change of a trap may move."""
        return bool(self.report.get("underprint"))


def begun_planes(page: PageFolder, trapped: str = TRAPPED) -> list[Array]:
    """The plates that the traps in a folder began from: those of the page, as far as none was drawn back under black.
    """
    return [read_pgm(keepaway.begun_plate(page, ink, trapped)) for ink in page.inks]


def asked(zone: JobZone) -> Asked:
    """What a zone asks."""
    return zone.parameters.enabled, zone.parameters.black_density_limit


def zones_that_matter(page: PageFolder, job: Job) -> list[JobZone]:
    """The zones of a job without those that ask what the zone below them asks everywhere. The first one lies under all
    of the page."""
    side = 72 * SCALE / page.source.resolution
    centres = Rect(side / 2, side / 2, (page.head.width - 0.5) * side, (page.head.height - 0.5) * side)
    kept = [job.zones[0]]
    for zone in job.zones[1:]:
        if is_rectangle(zone) and holds(bounds(zone), centres):
            kept = [JobZone(zone.parameters)]
        elif not is_idle(zone, kept, centres):
            kept.append(zone)
    return kept


def is_idle(zone: JobZone, below: Sequence[JobZone], centres: Rect) -> bool:
    """Whether a zone lies within a rectangular one that asks the same, with no other between them. `centres` has the
    outermost pixels' centres."""
    place = bounds(zone)
    inside = Rect(max(place.left, centres.left), max(place.lower, centres.lower), min(place.right, centres.right),
                  min(place.upper, centres.upper))
    for other in reversed(below):
        if asked(other) != asked(zone):
            return False
        if other is below[0] or is_rectangle(other) and holds(bounds(other), inside):
            return True
    return False


def holds(outer: Rect, inner: Rect) -> bool:
    """Whether a rectangle lies within another one."""
    return (outer.left <= inner.left and outer.lower <= inner.lower and outer.right >= inner.right
            and outer.upper >= inner.upper)


def bounds(zone: JobZone) -> Rect:
    """The rectangle around a zone, in ten-thousandths of a point."""
    points = [point for ring in zone.subpaths for point in ring] or [(0, 0)]
    across, up = [x for x, _ in points], [y for _, y in points]
    return Rect(min(across), min(up), max(across), max(up))


def is_rectangle(zone: JobZone) -> bool:
    """Whether a zone is all of the rectangle around it."""
    if len(zone.subpaths) != 1 or not 4 <= len(zone.subpaths[0]) <= 5:
        return False
    ring, place = zone.subpaths[0], bounds(zone)
    turns = all(x0 == x1 or y0 == y1 for (x0, y0), (x1, y1) in zip(ring, (*ring[1:], ring[0])))
    corners = {(x, y) for x in (place.left, place.right) for y in (place.lower, place.upper)}
    return turns and set(ring) == corners

# SPDX-License-Identifier: Apache-2.0
"""The zones of a page folder made anew: the press room's own zones depend on the trap widths of page.job, which its
owner may change. What they are made of is kept in zones.json.

`make_anew` does it for press/zones. The trap editor composes the zones of images and of thin strokes whenever the job
changes, and has the places of thin strokes found anew on the plates if the change moves them.
"""
from __future__ import annotations

import dataclasses
import json
from collections.abc import Iterator, Mapping, Sequence
from functools import lru_cache
from typing import Any

from .desk.job_edits import (BEGIN, BLOCKS, NEW_IMAGES, WHOLE_PAGE, Edits, apply_edits, below_images, below_thin,
                             place_of, thin_place)
from .desk.job_sections import HEAD, IMAGES, OPTIONS, OWNER, PAGE, THIN, TRIM, section_of, sections
from .desk.reading import MOST_TEXTS, read_job, zones_before
from .desk.record import options_for
from .errors import PressError, Status
from .files import named, write_text
from .findings import Finding
from .folder import JOB, ZONES, PageFolder, read_layout
from .inks import Ink
from .job import Statement, read_all
from .job_language import KEYS, SCALE, Job, JobSyntaxError, Parameters, Subpath
from .keepaway import page_parameters
from .layout import (MADE_OF, Layout, image_places, lay_out, pictures_alone, pixels_of, points_of, stroke_rule,
                     strokes_of, trap_box)
from .origins import Origins, changed_values
from .rects import Rect, around
from .thin import boxes_by_width
from .zones import Composer, Wanted, Writer, base_rule, first_with_zones, owner_piece, reach, room_beside, state_after

WIDTHS = {field: key for key, field in KEYS.items()}
Places = Mapping[float, Sequence[Rect]]


@dataclasses.dataclass(frozen=True)
class WrittenJob:
    """A page's job: its text, what it says, its statements without the press room's zones, and whether it has zones of
    images."""

    text: bytes
    job: Job
    own: tuple[Statement, ...]
    end: int
    has_images: bool


def read_written(page: PageFolder) -> WrittenJob:
    """The job of a page. Refuses one that the program would refuse."""
    path = page.file(JOB)
    with named(path), open(path, "rb") as file:
        text = file.read()
    try:
        job, parts = read_job(text), sections(text)
    except (JobSyntaxError, RecursionError, IndexError) as fault:
        raise PressError(Status.PROGRAM, f"no valid job: {fault}", path) from fault
    return WrittenJob(text, job, tuple(own_statements(text)), parts[-1].start,
                      any(one.kind == IMAGES for one in parts))


def own_statements(text: bytes) -> list[Statement]:
    """What the owner wrote of a valid job."""
    job, parts = read_job(text), sections(text)
    own = [Statement(None, text[one.start:one.end]) for one in parts if one.kind in (HEAD, OPTIONS, OWNER)]
    if any(one.kind in (PAGE, TRIM) for one in parts) and len(job.zones) > 1:
        own = with_parameters(own, job.zones[1].parameters)
    return own


def with_parameters(own: Sequence[Statement], now: Parameters) -> list[Statement]:
    """The owner's statements, with these parameters in force before the first zone: they may have been changed at the
    page's own zone."""
    if base_rule(own) == now:
        return list(own)
    first = first_with_zones(own)
    lines = Writer(state_after(own[:first])).set(now, state_after(own[:first]).step_limits)
    return [*own[:first], Statement(None, ("\n".join(lines) + "\n\n").encode()), *own[first:]]


def origins_of(page: PageFolder) -> Origins:
    """What the zones of a page were made of. Refuses a page that does not say it."""
    found = read_layout(page).get(MADE_OF)
    if not isinstance(found, dict):
        raise PressError(Status.INPUT, "does not say what the zones were made of: press/plates makes the page anew",
                         page.file(ZONES))
    try:
        return Origins.of_data(found)
    except (KeyError, TypeError, ValueError) as fault:
        raise PressError(Status.INPUT, "no layout of a page", page.file(ZONES)) from fault


def stale_lines(page: PageFolder) -> Iterator[str]:
    """Why the zones of images and thin strokes do not fit the widths in the page's job, if they do not."""
    try:
        origins, written = origins_of(page), read_written(page)
    except PressError:
        return
    # The trap editor has made those in its own blocks for the widths that it set.
    images, thin = (BEGIN.format(name).encode() not in written.text for name in (NEW_IMAGES, BLOCKS[THIN]))
    images, thin, now = images and written.has_images, thin and origins.thin_zones, base_rule(written.own)
    changed = list(changed_values(origins.rule, now))
    reaches = abs(reach(read_all(written.own), page.source.resolution) - origins.reach) > 0.0001
    if not (thin and changed or images and reaches):
        return
    values = ", ".join(f"{WIDTHS[name]} {shown(origins.rule, name)}, now {shown(now, name)}" for name in changed)
    what = " and ".join(["images"] * images + ["thin strokes"] * thin)
    yield (f"{page.file(JOB)}: the zones of {what} were made for {values or 'other widths of your zones'}: "
           f"press/zones {page.path} makes them anew")


def shown(parameters: Parameters, name: str) -> str:
    """A parameter as people read it."""
    value = getattr(parameters, name)
    return str(value).lower() if isinstance(value, bool) else f"{value / SCALE:g}"


def inks_now(page: PageFolder, job: Job) -> list[Ink]:
    """The inks of a page with the densities and kinds that its job has."""
    return [dataclasses.replace(ink, density=f"{job.inks[ink.name].density / SCALE:g}", kind=job.inks[ink.name].kind)
            if ink.name in job.inks else ink for ink in page.inks]


def make_anew(page: PageFolder) -> list[Finding]:
    """Makes the press room's zones of a page anew, for the widths in its job. Nothing else of the job changes. Answers
    what the owner should know."""
    origins, written = origins_of(page), read_written(page)
    inks, plates = inks_now(page, written.job), page.plates()
    settings = origins.settings(page.source.resolution)
    layout = lay_out(written.own, origins.info, origins.trace(), plates, inks, settings)
    layout = kept_figures(layout, read_layout(page))
    text = b"".join(one.text for one in layout.statements) + written.text[written.end:]
    layout.write(page.file(ZONES))
    write_text(page.file(JOB), text.decode("utf-8", "surrogateescape"), "surrogateescape")
    return list(layout.findings(page.source.page, page.source.resolution))


def kept_figures(layout: Layout, before: Mapping[str, Any]) -> Layout:
    """A layout with the ink coverage that was measured on the plates, which does not change."""
    coverage = tuple((name, share / 100) for name, share in before.get("coverage", {}).items())
    return dataclasses.replace(layout, coverage=coverage, total_ink=before.get("total_ink", 0.0) / 100)


# Images of a page that the trap editor changes

@lru_cache(MOST_TEXTS)
def margin_of(text: bytes, resolution: int) -> float:
    """How far the zones of images lie within the images by a job, in points."""
    return round(reach(read_all(own_statements(text)), resolution), 4)


def composed_images(original: bytes, edits: Edits, origins: Origins, resolution: int) -> str | None:
    """The statements of the zones of images by the widths of edits; None if those of the job fit."""
    settings = origins.settings(resolution)
    box, text = trap_box(origins.info, settings)[0], apply_edits(original, dataclasses.replace(edits, images=None))
    is_cut = box is not None and TRIM not in edits.off
    is_moved = margin_of(text, resolution) != margin_of(original, resolution) or box is not None and not is_cut
    if origins.info is None or not origins.images or IMAGES in edits.off or not is_moved:
        return None
    own = own_statements(text)
    places, over = image_places(own, origins.info, origins.trace(), settings)
    composer = Composer(own, Wanted(origins.info.size(settings.box), box if is_cut else None,
                                    images=tuple(places), above=tuple(over)))
    below = below_images(original, edits)
    start, _ = place_of(below, IMAGES)
    zones, last = zones_before(below, start)
    composer.zones_left, composer.rects_left = room_beside(zones)
    pieces = composer.image_zones()
    return ("" if zones or not pieces else WHOLE_PAGE) + b"".join(
        one.text for one in Writer(last).statements(pieces, None)).decode()


# Thin strokes of a page that the trap editor changes

@dataclasses.dataclass(frozen=True)
class Strokes:
    """Where thin strokes are, by their trap's width in points, and the rule that they were found with."""

    rule: str
    places: Places

    def as_json(self) -> str:
        """For a file."""
        return json.dumps({"rule": self.rule, "places": [[width, *rect] for width, rects in self.places.items()
                                                         for rect in rects]}) + "\n"

    @classmethod
    def of_json(cls, text: str) -> Strokes:
        """Strokes of a file. Raises ValueError if it is none."""
        try:
            found = json.loads(text)
            return cls(str(found["rule"]), by_width(found["places"]))
        except (KeyError, TypeError, IndexError) as fault:
            raise ValueError("no places of thin strokes") from fault


def by_width(places: Sequence[Sequence[float]]) -> dict[float, list[Rect]]:
    """Places as a list of width, left, lower, right and upper side in points."""
    found: dict[float, list[Rect]] = {}
    for width, *sides in places:
        left, lower, right, upper = (float(side) for side in sides)
        found.setdefault(float(width), []).append(Rect(left, lower, right, upper))
    return found


def first_strokes(page: PageFolder, rule: str) -> Strokes | None:
    """What `press/plates` found by the rule of its job; None if the job is not its own, or it was not to look for thin
    strokes."""
    layout = read_layout(page)
    if not layout or options_for(page).get("no-thin-zones"):
        return None
    return Strokes(rule, by_width(layout.get("thin", {}).get("places", [])))


def rule_of(job: Job, edits: Edits, margin: float | None) -> str:
    """What the places of thin strokes depend on: the page's parameters, its inks, and the zones of images, in which
    none are looked for. `margin` is how far these lie within the images; None if the page has no images."""
    inks = [[name, ink.density, ink.kind] for name, ink in sorted(job.inks.items())]
    is_off = IMAGES in edits.off
    return json.dumps([list(vars(page_parameters(job)).values()), inks, is_off, None if is_off else margin])


def composed(original: bytes, edits: Edits, places: Places, size: tuple[float, float]) -> str:
    """The statements of the zones of thin strokes, never wider than the zone below, and none in zones that are off.
    `size` is that of the page in points."""
    text = below_thin(original, edits)
    below, last = zones_before(text, thin_place(text))
    right, upper = (round(side * SCALE) for side in size)
    whole = (0, 0), (right, 0), (right, upper), (0, upper)
    composer = Composer([], Wanted(size, thin=places))
    composer.owner = below
    page = dataclasses.replace(last, subpaths=(whole,))
    pieces = composer.thin_zones([owner_piece(zone) for zone in below or (page,)])
    statements = Writer(last).statements(pieces, None)
    return ("" if below or not pieces else WHOLE_PAGE) + b"".join(one.text for one in statements).decode()


def find_places(page: PageFolder) -> Iterator[list[float]]:
    """Where thin strokes are on the plates of a page by its job: the trap's width in points, and the rectangle."""
    with open(page.file(JOB), "rb") as file:
        text = file.read()
    job, plates = read_job(text), page.plates()
    rule, inks = page_parameters(job), inks_now(page, job)
    size = plates.width * 72 / plates.resolution, plates.height * 72 / plates.resolution
    skip = [pixels_of(place, size, plates) for place in picture_places(text)]
    lines, _ = strokes_of(plates, inks, rule, skip)
    for width, boxes in boxes_by_width(lines, stroke_rule(rule), plates.resolution).items():
        yield from ([width, *points_of(box, plates)] for box in boxes)


def picture_places(text: bytes) -> list[Rect]:
    """The places of images by a job, without what is drawn above them: its zones for images, whose holes are wound
    the other way."""
    part = section_of(text, IMAGES)
    if part is None:
        return []
    inside = read_job(text[part.start:part.end]).zones[1:]
    rings = [ring for zone in inside for ring in zone.subpaths]
    return pictures_alone([rect_of(ring) for ring in rings if not is_hole(ring)],
                          [rect_of(ring) for ring in rings if is_hole(ring)])


def rect_of(ring: Subpath) -> Rect:
    """The rectangle around a path, in points."""
    return around([(x / SCALE, y / SCALE) for x, y in ring])


def is_hole(ring: Subpath) -> bool:
    """Whether a path is wound clockwise."""
    return sum(x0 * y1 - x1 * y0 for (x0, y0), (x1, y1) in zip(ring, ring[1:] + ring[:1])) < 0

# SPDX-License-Identifier: Apache-2.0
"""The zones of a job: the one place that orders, cuts and joins them, and counts the limits of a job.

A later zone takes precedence over an earlier one. The order is: the page, cut to where traps may be; layers; the
owner's zones; thin strokes, never wider than the zone below them and never if that is not enabled; pairs of inks;
images, without what is drawn above them.
"""
from __future__ import annotations

import math
from collections.abc import Iterator, Mapping, Sequence
from dataclasses import dataclass, field, fields, replace
from typing import NamedTuple

from .rects import NOTHING, Rect
from .job import Reading, Statement, ZoneParameters, decimal, read
from .job_language import KEYS, SCALE, JobSyntaxError, JobZone, Parameters, read_job
from .regions import Shape, disjoint, fewer, shape_of, split_by

# The limits of a job (docs/JOBS.md), and how many corners a rectangle takes.
MOST_ZONES, MOST_VERTICES = 250, 16_384
CORNERS = 4
RECTS_OF_ZONE = 1000
# What a page's own zone is drawn beyond the page, so that no sample of its border is left out.
BEYOND = 1.0
# A grid of so many points on a side measures how much of the page is not trapped.
GRID = 200
LIMITS = "since the limits of a job are reached (docs/JOBS.md)"
OWNER, LAYERS, TRIM, IMAGES = "owner", "layers", "trim", "images"


@dataclass(frozen=True)
class Layer:
    """A layer with parameters of its own: its name, where it paints, and entries of settrapparams."""

    name: str
    places: tuple[Rect, ...]
    entries: Mapping[str, float | bool]


@dataclass(frozen=True)
class Pair:
    """Where two inks meet, the factor of the trap width there (0 is no trap), and the reason."""

    places: tuple[Rect, ...]
    factor: float
    reason: str


@dataclass(frozen=True)
class Wanted:
    """What the press room's zones are made of, beside what the owner wrote. Rectangles are in points.

    `within` is where traps may be, None being the whole page; `box` is the name of that box. `thin` has the places of
    thin strokes by the width of their traps in points, 0 for no trap. `images` are the places in which nothing is
    trapped, `above` what is drawn over them. With `only_zones` the owner's zones alone are trapped.
    """

    size: tuple[float, float]
    within: Rect | None = None
    box: str = "media"
    layers: tuple[Layer, ...] = ()
    thin: Mapping[float, Sequence[Rect]] = field(default_factory=dict)
    pairs: tuple[Pair, ...] = ()
    images: tuple[Rect, ...] = ()
    above: tuple[Rect, ...] = ()
    only_zones: bool = False


class Piece(NamedTuple):
    """A zone of the press room as data: its shape, what holds in it, and why it is there."""

    shape: Shape
    parameters: Parameters
    limits: Mapping[str, int]
    reason: str


@dataclass(frozen=True)
class Composed:
    """All statements of a page, the owner's among them; what had to be given up; how many zones are of thin strokes;
    and the share of the page that is not trapped, by reason."""

    statements: list[Statement]
    warnings: list[str]
    thin_zones: int
    untrapped: dict[str, float]


def reach(reading: Reading, dpi: int) -> float:
    """How far traps reach on a page, in points, and a sample more."""
    zones = [zone for zone in reading.zones if zone.enabled] or [ZoneParameters()]
    return max(zone.width * max(zone.black, 1) for zone in zones) + 72 / dpi


def compose(own: Sequence[Statement], wanted: Wanted) -> Composed:
    """The statements of a page. Those of the owner that are no valid job stay as they are: the program refuses them."""
    try:
        return Composer(own, wanted).composed()
    except (JobSyntaxError, RecursionError):
        return Composed(list(own), [], 0, {})


def base_rule(own: Sequence[Statement]) -> Parameters:
    """What holds on the page before the owner's first zone."""
    try:
        return state_after(own[:first_with_zones(own)]).parameters
    except (JobSyntaxError, RecursionError):
        return Parameters()


def first_with_zones(own: Sequence[Statement]) -> int:
    """Which of the owner's statements are the first that make a zone, or their number."""
    return next((at for at, one in enumerate(own) if read(one.text).made), len(own))


def state_after(own: Sequence[Statement]) -> JobZone:
    """What holds after statements that make no zone."""
    return read_job(b"\n".join(one.text for one in own)).zones[0]


def room_beside(zones: Sequence[JobZone]) -> tuple[int, int]:
    """For how many zones and rectangles a job has room beside these zones."""
    used = sum(len(points) for zone in zones for points in zone.subpaths)
    return MOST_ZONES - len(zones), max(0, (MOST_VERTICES - used) // CORNERS - 8)


class Composer:
    """Composes the zones of one page."""

    def __init__(self, own: Sequence[Statement], wanted: Wanted) -> None:
        self.own, self.wanted = list(own), wanted
        self.first = first_with_zones(own)
        self.before = state_after(own[:self.first])
        self.owner = read_job(b"\n".join(one.text for one in own)).zones[1:] if self.first < len(own) else ()
        last = read_job(b"\n".join(one.text for one in own))
        # What holds once zones are made is hidden by the job: the last statements that set parameters say it.
        self.after = last.zones[0] if not self.owner else self.owner_end()
        self.warnings: list[str] = []
        # The zones and the rectangles for which the job has room beside the owner's zones and the page. Each step joins
        # its rectangles to half of those that are left, and takes its zones before the steps after it: so images are
        # given up first, then pairs, thin strokes and layers.
        self.zones_left, self.rects_left = room_beside(self.owner)
        self.zones_left -= 1

    def take(self, pieces: Sequence[Piece]) -> list[Piece]:
        """Zones that are written, which take room."""
        self.zones_left -= len(pieces)
        self.rects_left -= sum(len(piece.shape) for piece in pieces)
        return list(pieces)

    def owner_end(self) -> JobZone:
        """What holds at the end of the owner's statements."""
        closed = [*self.own, Statement(None, b"\n0 0 moveto settrapzone")]
        return read_job(b"\n".join(one.text for one in closed)).zones[-1]

    def composed(self) -> Composed:
        """The statements in their order."""
        page, layers = self.page_zone(), self.layer_zones()
        below = [*page, *layers, *(owner_piece(zone) for zone in self.owner)]
        thin = self.thin_zones(below)
        pairs = self.pair_zones([*below, *thin])
        images = self.image_zones()
        if not (self.owner or page or layers):
            # Without a zone of its own the page is what holds at its end.
            return Composed(list(self.own), self.warnings, 0, {})
        writer = Writer(self.before)
        head = writer.statements([*page, *layers], restore=self.before if self.owner else None)
        writer.at = self.after if self.owner else writer.at
        tail = writer.statements([*thin, *pairs, *images], restore=None)
        statements = [*self.own[:self.first], *head, *self.own[self.first:], *tail]
        return Composed(statements, self.warnings, len(thin), self.untrapped(page, layers, images))

    def page_zone(self) -> list[Piece]:
        """The zone of the page, if it needs one: where the owner makes zones, where traps are kept within a box, and
        below the press room's other zones."""
        wanted = self.wanted
        if self.owner and wanted.only_zones:
            return []
        if not (self.owner or wanted.within or wanted.layers or wanted.thin or wanted.pairs or wanted.images):
            return []
        width, height = wanted.size
        rect = wanted.within or Rect(0, 0, width + BEYOND, height + BEYOND)
        reason = f"The page within its {wanted.box} box (--trap-within):" if wanted.within else "The whole page:"
        return [Piece(shape_of(rect), self.before.parameters, self.before.step_limits, reason)]

    def layer_zones(self) -> list[Piece]:
        """A zone for each layer that the owner named."""
        found: list[Piece] = []
        for layer in self.wanted.layers:
            if not layer.places:
                continue
            most = min(RECTS_OF_ZONE, self.rects_left // 2)
            if min(most, self.zones_left) < 1:
                self.warnings.append(f"the layer {layer.name} gets no zone of its own, {LIMITS}: it is trapped as the "
                                     f"page is")
                continue
            places = fewer(disjoint([self.cut(place) for place in layer.places]), most)
            parameters = self.before.parameters
            for key, value in layer.entries.items():
                number = value if isinstance(value, bool) else round(value * SCALE)
                parameters = replace(parameters, **{KEYS[key]: number})
            found += self.take([Piece(tuple(ring for place in places for ring in shape_of(place)), parameters,
                                      self.before.step_limits, f"The layer {layer.name} (--layer):")])
        return found

    def cut(self, rect: Rect) -> Rect:
        """A rectangle, as far as traps may be there."""
        return rect.common(self.wanted.within or Rect(0, 0, *self.wanted.size))

    def thin_zones(self, below: Sequence[Piece]) -> list[Piece]:
        """A zone for each width and each zone below, the widest first. Places are split along the zones below; those
        in a zone that is not enabled, or whose own trap is as narrow, are left out."""
        places: dict[tuple[int, int], list[Rect]] = {}
        for width, rects in self.wanted.thin.items():
            for rect in rects:
                for at, piece in self.split(self.cut(rect), below):
                    parameters = below[at].parameters
                    if parameters.enabled and width * SCALE < parameters.trap_width:
                        places.setdefault((int(width * SCALE), at), []).append(piece)
        places = self.fitting(places)
        reason = "Thin strokes (--no-thin-zones leaves them the page's width):"
        return self.take([piece for (width, at), rects in sorted(places.items(), key=lambda one: -one[0][0])
                          for piece in narrowed(rects, width, below[at], reason)])

    def pair_zones(self, below: Sequence[Piece]) -> list[Piece]:
        """A zone for each pair of inks and each zone below that is enabled, with the factor of that zone's width."""
        found: list[Piece] = []
        lost = 0
        for pair in self.wanted.pairs:
            places: dict[int, list[Rect]] = {}
            for rect in fewer(pair.places, RECTS_OF_ZONE):
                for at, piece in self.split(self.cut(rect), below):
                    if below[at].parameters.enabled:
                        places.setdefault(at, []).append(piece)
            for at, rects in sorted(places.items()):
                kept = fewer(rects, max(1, min(len(rects), self.rects_left // 2)))
                if len(kept) > self.rects_left // 2 or len(list(chunks(kept))) > self.zones_left:
                    lost += len(rects)
                else:
                    width = min(100 * SCALE, int(below[at].parameters.trap_width * pair.factor))
                    found += self.take(list(narrowed(kept, width, below[at], pair.reason)))
        if lost:
            self.warnings.append(f"{lost} places of pairs of inks get no zone of their own, {LIMITS}: they have the "
                                 f"width of the zone around them")
        return found

    def split(self, rect: Rect, below: Sequence[Piece]) -> Iterator[tuple[int, Rect]]:
        """A rectangle in pieces, each with the number of the topmost zone that it lies in."""
        left = [rect] if rect != NOTHING else []
        for at in range(len(below) - 1, -1, -1):
            outside = []
            for piece in left:
                inside, rest = split_by(piece, below[at].shape)
                yield from ((at, one) for one in inside)
                outside += rest
            left = outside

    def fitting(self, places: dict[tuple[int, int], list[Rect]]) -> dict[tuple[int, int], list[Rect]]:
        """The places of thin strokes, joined until they take at most half of the room, and given up if that does not
        help: first those of the widest traps."""
        most = self.rects_left // 2
        total = sum(len(rects) for rects in places.values())
        if total > most:
            places = {key: fewer(rects, max(1, len(rects) * most // total)) for key, rects in places.items()}
        kept: dict[tuple[int, int], list[Rect]] = {}
        zones = self.zones_left
        for key, rects in sorted(places.items(), key=lambda one: one[0][0]):
            count = len(list(chunks(rects)))
            if len(rects) <= most and count <= zones:
                kept[key] = rects
                most -= len(rects)
                zones -= count
            else:
                self.warnings.append(f"{len(rects)} places of thin strokes get no zone of their own, {LIMITS}: they "
                                     f"have the page's trap width")
        return kept

    def image_zones(self) -> list[Piece]:
        """The zones that keep traps out of images: their places, and wound the other way what is drawn above them."""
        places = disjoint([place for place in map(self.cut, self.wanted.images) if place != NOTHING])
        if not places:
            return []
        # A zone of many holes may leave half of the one before it empty.
        room = min(self.rects_left, self.zones_left * RECTS_OF_ZONE // 2)
        over = [hole for hole in self.wanted.above if any(hole.meets(place) for place in places)]
        holes = disjoint(fewer(over, room // 2))
        pairs = [(place, [hole.common(place) for hole in holes if hole.meets(place)]) for place in places]
        pairs.sort(key=lambda one: -one[0].area)
        return list(self.image_pieces(pairs, room))

    def image_pieces(self, pairs: Sequence[tuple[Rect, list[Rect]]], room: int) -> Iterator[Piece]:
        """Zones of at most a thousand rectangles; holes that are too many are given up first, then the smallest
        images."""
        reason = "Within images nothing is trapped, but at what is drawn above them (--trap-images traps there too):"
        off = replace(self.before.parameters, enabled=False)
        rings: list[tuple[tuple[float, float], ...]] = []
        given_up = lost = 0
        for place, holes in pairs:
            if len(holes) >= min(room, RECTS_OF_ZONE):
                given_up += len(holes)
                holes = []
            if room < 1:
                lost += 1
                continue
            if len(rings) + 1 + len(holes) > RECTS_OF_ZONE:
                yield Piece(tuple(rings), off, self.before.step_limits, reason)
                rings = []
            room -= 1 + len(holes)
            rings += shape_of(place)
            rings += [tuple(reversed(shape_of(hole)[0])) for hole in holes]
        if rings:
            yield Piece(tuple(rings), off, self.before.step_limits, reason)
        if given_up:
            self.warnings.append(f"{given_up} places of type or line work above images are not trapped, {LIMITS}")
        if lost:
            self.warnings.append(f"{lost} of the smallest images are trapped inside, {LIMITS}")

    def untrapped(self, page: Sequence[Piece], layers: Sequence[Piece], images: Sequence[Piece]) -> dict[str, float]:
        """The share of the page in no zone, or in one that is not enabled, by the reason; measured on a grid."""
        rest = TRIM if self.wanted.within and page else OWNER
        zones = [(piece, LAYERS if piece in layers else OWNER) for piece in
                 [*page, *layers, *(owner_piece(zone) for zone in self.owner)]]
        zones += [(piece, IMAGES) for piece in images]
        rows = [[rest] * GRID for _ in range(GRID)]
        for piece, reason in zones:
            mark = "" if piece.parameters.enabled else reason
            for row, first, last in grid_spans(piece.shape, self.wanted.size):
                rows[row][first:last] = [mark] * (last - first)
        found = [mark for row in rows for mark in row if mark]
        return {reason: found.count(reason) / GRID ** 2 for reason in sorted(set(found))}


def narrowed(rects: Sequence[Rect], width: int, below: Piece, reason: str) -> Iterator[Piece]:
    """Zones with another trap width than the zone below, in ten-thousandths of a point; 0 is no trap."""
    parameters = replace(below.parameters, trap_width=width) if width else replace(below.parameters, enabled=False)
    for part in chunks(rects):
        yield Piece(tuple(ring for rect in part for ring in shape_of(rect)), parameters, below.limits, reason)


def grid_spans(shape: Shape, size: tuple[float, float]) -> Iterator[tuple[int, int, int]]:
    """The points of a grid over the page that lie within a shape: row, first column, and the column beyond."""
    width, height = size
    crossings: dict[int, list[tuple[float, int]]] = {}
    for points in shape:
        for (x0, y0), (x1, y1) in zip(points, points[1:] + points[:1]):
            first, end = (max(0, min(GRID, math.ceil(y * GRID / height - 0.5))) for y in sorted((y0, y1)))
            for row in range(first, end):
                y = (row + 0.5) * height / GRID
                x = x0 + (x1 - x0) * (y - y0) / (y1 - y0)
                crossings.setdefault(row, []).append((x, 1 if y1 > y0 else -1))
    for row, found in crossings.items():
        for start, last in wound(sorted(found)):
            columns = [max(0, min(GRID, round(x * GRID / width))) for x in (start, last)]
            yield row, columns[0], columns[1]


def wound(crossings: Sequence[tuple[float, int]]) -> Iterator[tuple[float, float]]:
    """The stretches of a line that lie within a shape, by the nonzero rule."""
    winding, start = 0, 0.0
    for x, way in crossings:
        if winding == 0:
            start = x
        winding += way
        if winding == 0:
            yield start, x


def owner_piece(zone: JobZone) -> Piece:
    """A zone of the owner's."""
    shape = tuple(tuple((x / SCALE, y / SCALE) for x, y in points) for points in zone.subpaths)
    return Piece(shape, zone.parameters, zone.step_limits, "")


def chunks(rects: Sequence[Rect]) -> Iterator[Sequence[Rect]]:
    """Rectangles in parts that one path can hold."""
    for start in range(0, len(rects), RECTS_OF_ZONE):
        yield rects[start:start + RECTS_OF_ZONE]


# Writing

class Writer:
    """Writes zones as statements, and sets of the parameters what changes."""

    def __init__(self, at: JobZone) -> None:
        self.at = at

    def statements(self, pieces: Sequence[Piece], restore: JobZone | None) -> list[Statement]:
        """The statements of zones; and those that set again what held before."""
        lines: list[str] = []
        reason = ""
        for piece in pieces:
            if piece.reason != reason:
                lines.append(f"% {piece.reason}")
                reason = piece.reason
            lines += self.set(piece.parameters, piece.limits)
            lines += ["newpath", *map(drawn, piece.shape), "settrapzone"]
        if pieces and restore:
            lines += self.set(restore.parameters, restore.step_limits)
        return [Statement(None, ("\n".join(lines) + "\n\n").encode())] if lines else []

    def set(self, parameters: Parameters, limits: Mapping[str, int]) -> list[str]:
        """What has to be set so that these parameters hold."""
        names = {field_name: key for key, field_name in KEYS.items()}
        entries = []
        for one in fields(Parameters):
            value = getattr(parameters, one.name)
            if value != getattr(self.at.parameters, one.name):
                shown = str(value).lower() if isinstance(value, bool) else decimal(value / SCALE)
                entries.append(f"/{names[one.name]} {shown}")
        if dict(limits) != dict(self.at.step_limits):
            inner = " ".join(f"/{name} << /StepLimit {decimal(limit / SCALE)} >>" for name, limit in limits.items())
            entries.append(f"/ColorantZoneDetails << {inner} >>")
        self.at = JobZone(parameters, (), dict(limits))
        return [f"<< {' '.join(entries)} >> settrapparams"] if entries else []


def drawn(points: Sequence[tuple[float, float]]) -> str:
    """A closed line as a path of the job."""
    words = [f"{points[0][0]:.3f} {points[0][1]:.3f} moveto"]
    for (x0, y0), (x1, y1) in zip(points, points[1:]):
        words.append(f"{step(x1 - x0)} {step(y1 - y0)} rlineto")
    return " ".join(words)


def step(number: float) -> str:
    """A step of a path."""
    return f"{number:.3f}" if number else "0"

# SPDX-License-Identifier: Apache-2.0
"""What the editor changes in a job: marked blocks of its own, and nothing else.

`page.job` is the state. Parameters and inks of the page are in one block before the first path, zones in one
block before the press room's own zones of thin strokes, pairs and images, and zones that go over images in one before
`showpage`. A rule of the press room that is off, and its zones that are replaced, stay as comments in a block. All
other bytes stay, so a job that was written by hand opens, and its comments survive. A block that somebody changed by
hand is no block of the editor any more: it stays as it is.
"""
from __future__ import annotations

import json
import re
from collections.abc import Iterable, Mapping, Sequence
from dataclasses import dataclass, field, fields, replace

from press.job_language import KEYS, SCALE, Parameters, Point, Subpath, ten_thousandths
from press.keepaway import said_in

from .job_sections import IMAGES, OFF, THIN, TRIM, line_start, section_of, sections, set_aside, tail_start, taken_back
from .reading import in_force, read_job, statements

BEGIN, ENDED = "% press desk: {}\n", "% press desk: end of {}\n"
PAGE, BELOW, ABOVE = "the page", "zones", "zones over images"
BLOCKS = {TRIM: "the whole page in place of its box", THIN: "thin strokes", IMAGES: "images are trapped"}
NEW_IMAGES = "images"
WHOLE_PAGE = "newpath -1 -1 moveto 20000 0 rlineto 0 20000 rlineto -20000 0 rlineto settrapzone  % the whole page\n"
RESTORE = "% What follows has the parameters that it had:\n"
PATH_OPERATORS = ("newpath", "moveto", "settrapzone", "showpage")

Settings = Mapping[str, int | bool]
"""Entries of `settrapparams` in ten-thousandths; Enabled is true or false."""


@dataclass(frozen=True)
class EditedInk:
    """Density (ten-thousandths) and ColorantType that the editor gives an ink."""

    density: int
    kind: str


@dataclass(frozen=True)
class EditedZone:
    """A zone of the editor: a name, a polygon in ten-thousandths of a point, and what it sets."""

    name: str
    polygon: Subpath
    settings: Settings
    over_images: bool = False


@dataclass(frozen=True)
class Edits:
    """All that the editor changes in one job. `off` has the rules that are switched off; `thin` has the zones of thin
    strokes that replace the job's own, as statements, or None if those stay; `images` has those of images in the same
    way. `keepaway` is how far inks are drawn back, in ten-thousandths of a point: 0 is off, and None leaves it to the
    page."""

    settings: Settings = field(default_factory=dict)
    inks: Mapping[str, EditedInk] = field(default_factory=dict)
    zones: Sequence[EditedZone] = ()
    off: frozenset[str] = frozenset()
    thin: str | None = None
    keepaway: int | None = None
    images: str | None = None

    def changes_zones(self) -> bool:
        """Whether anything but zones that follow from it and keepaway changes."""
        return replace(self, thin=None, images=None, keepaway=None) != Edits()


def apply_edits(original: bytes, edits: Edits) -> bytes:
    """The job with the editor's blocks."""
    text = below_images(original, edits)
    above = [zone for zone in edits.zones if zone.over_images]
    if IMAGES in edits.off:
        text = _replaced(text, IMAGES, BLOCKS[IMAGES], "")
    elif edits.images is not None:
        text = _replaced(text, IMAGES, NEW_IMAGES, edits.images)
    end = line_start(text, [one for one in statements(text) if one.operator == "showpage"][-1].start)
    return _insert(text, end, _block(ABOVE, _zones_block(above, text, end)))


def below_images(original: bytes, edits: Edits) -> bytes:
    """The job with all that lies below its zones of images."""
    text = below_thin(original, edits)
    if THIN in edits.off or edits.thin is not None:
        text = _replaced(text, THIN, BLOCKS[THIN], "" if THIN in edits.off else edits.thin or "")
    return text


def below_thin(original: bytes, edits: Edits) -> bytes:
    """The job with all that lies below the zones of thin strokes."""
    text = _insert(original, _first_path(original), _block(PAGE, _page_block(edits)))
    if TRIM in edits.off:
        text = _replaced(text, TRIM, BLOCKS[TRIM], WHOLE_PAGE)
    below, at = [zone for zone in edits.zones if not zone.over_images], tail_start(text)
    return _insert(text, at, _block(BELOW, _zones_block(below, text, at)))


def take_apart(text: bytes) -> tuple[bytes, Edits]:
    """The job without the editor's blocks, and what they say."""
    original, found = text, {}
    for name in (ABOVE, BLOCKS[IMAGES], NEW_IMAGES, BLOCKS[THIN], BELOW, BLOCKS[TRIM], PAGE):
        pattern = re.escape(BEGIN.format(name)) + "(.*?)" + re.escape(ENDED.format(name))
        block = re.search(pattern.encode(), original, re.S)
        if block:
            found[name] = block[1].decode("utf-8", "replace")
            original = original[:block.start()] + taken_back(block[1]) + original[block.end():]
    settings, inks, keepaway = _read_page(found.get(PAGE, ""))
    zones = [*_read_zones(found.get(BELOW, ""), False), *_read_zones(found.get(ABOVE, ""), True)]
    thin = _live_lines(found.get(BLOCKS[THIN]))
    off = {kind for kind in (TRIM, IMAGES) if BLOCKS[kind] in found} | ({THIN} if thin == "" else set())
    edits = Edits(settings, inks, tuple(zones), frozenset(off), thin or None, keepaway,
                  _live_lines(found.get(NEW_IMAGES)))
    try:
        return (original, edits) if apply_edits(original, edits) == text else (text, Edits())
    except ValueError:
        return text, Edits()


def rules_of(original: bytes, edits: Edits, known: Iterable[str]) -> dict[str, bool]:
    """The rules of the press room that a job has, and whether each is on. `known` has those of which the places are
    known, so that they can have zones though the job has none."""
    there = {kind for kind in BLOCKS if section_of(original, kind)} | set(known)
    return {kind: kind not in edits.off for kind in BLOCKS if kind in there}


def polygon_of_pixels(points: Sequence[tuple[float, float]], resolution: int, height: int) -> Subpath:
    """Corners in pixels from the page's top left corner as a path of the job."""
    scale = 72 * SCALE / resolution
    return tuple((round(x * scale), round((height - y) * scale)) for x, y in points)


def pixels_of_polygon(polygon: Subpath, resolution: int, height: int) -> list[tuple[float, float]]:
    """A path of the job as corners in pixels from the page's top left corner."""
    scale = resolution / 72 / SCALE
    return [(x * scale, height - y * scale) for x, y in polygon]


def number(value: int) -> str:
    """A number of ten-thousandths as a job spells it."""
    sign, whole, part = "-" if value < 0 else "", abs(value) // SCALE, abs(value) % SCALE
    return f"{sign}{whole}.{part:04d}".rstrip("0").rstrip(".")


def dictionary(settings: Settings) -> str:
    """A statement that sets parameters."""
    known = [(key, settings[key]) for key in KEYS if key in settings]
    said = [f"/{key} {str(value).lower() if isinstance(value, bool) else number(value)}" for key, value in known]
    return f"<< {' '.join(said)} >> settrapparams\n"


def all_of(parameters: Parameters) -> Settings:
    """All parameters as entries of a statement."""
    by_field = {name: key for key, name in KEYS.items()}
    return {by_field[one.name]: getattr(parameters, one.name) for one in fields(parameters)}


def zone_statements(zone: EditedZone, base: Parameters) -> str:
    """A zone of the editor: its name, the page's parameters, its own, and its path."""
    points = [f"{number(x)} {number(y)}" for x, y in zone.polygon]
    path = f"newpath {points[0]} moveto {' '.join(one + ' lineto' for one in points[1:])} closepath settrapzone\n"
    own = dictionary(zone.settings) if zone.settings else ""
    return f"% Zone {json.dumps(zone.name)}:\n{dictionary(all_of(base))}{own}{path}"


def _replaced(text: bytes, kind: str, name: str, new: str) -> bytes:
    """The job with other statements in place of a part's, which stays as a comment in a block of this name. What
    follows finds the parameters that it had after the part."""
    start, end = place_of(text, kind)
    restore = RESTORE + dictionary(all_of(in_force(text, end)))
    block = BEGIN.format(name).encode() + set_aside(text[start:end])
    if text[start:end] and not text[start:end].endswith(b"\n"):
        raise ValueError("the part does not end with its line")
    return text[:start] + block + (new + restore + ENDED.format(name)).encode() + text[end:]


def place_of(text: bytes, kind: str) -> tuple[int, int]:
    """Where the zones of a kind begin and end; or, if there are none, where they go."""
    found = section_of(text, kind)
    if found:
        return found.start, found.end
    return (sections(text)[-1].start if kind == IMAGES else thin_place(text),) * 2


def thin_place(text: bytes) -> int:
    """Where zones of thin strokes go: after the owner's zones, the editor's included."""
    ended = ENDED.format(BELOW).encode()
    return text.find(ended) + len(ended) if ended in text else tail_start(text)


def _live_lines(block: str | None) -> str | None:
    """What a block says in place of the part that it sets aside; None without a block."""
    if block is None:
        return None
    lines = "".join(line for line in block.splitlines(keepends=True) if not line.startswith(OFF.decode()))
    return lines.rpartition(RESTORE)[0]


def _page_block(edits: Edits) -> str:
    lines = dictionary(edits.settings) if edits.settings else ""
    if edits.inks:
        inks = "\n".join(f"  /{name} << /NeutralDensity {number(ink.density)} /ColorantType /{ink.kind} >>"
                         for name, ink in edits.inks.items())
        lines += f"<< /TrappingDetails << /Type 1001 /ColorantDetails <<\n{inks}\n>> >> >> setpagedevice\n"
    if edits.keepaway is not None:
        lines += f"%%Keepaway: {number(edits.keepaway)}\n"
    return lines


def _zones_block(zones: Sequence[EditedZone], text: bytes, at: int) -> str:
    """Zones for a place of a job, with the page's own parameters below theirs; then what follows finds the parameters
    that it had."""
    if not zones:
        return ""
    job = read_job(text)
    whole = "" if len(job.zones) > 1 else WHOLE_PAGE
    base = job.zones[min(1, len(job.zones) - 1)].parameters
    statements_of_zones = "".join(zone_statements(zone, base) for zone in zones)
    return whole + statements_of_zones + RESTORE + dictionary(all_of(in_force(text, at)))


def _block(name: str, lines: str) -> bytes:
    return (BEGIN.format(name) + lines + ENDED.format(name)).encode() if lines else b""


def _insert(text: bytes, at: int, block: bytes) -> bytes:
    return text[:at] + block + text[at:]


def _first_path(text: bytes) -> int:
    """The start of the line of the first statement that draws a path or ends the job, or of the comment of the part
    that it begins."""
    at = line_start(text, next(one.start for one in statements(text) if one.operator in PATH_OPERATORS))
    part = next(one for one in reversed(sections(text)) if one.start <= at)
    between = text[part.start:at].partition(b"\n")[2]
    return part.start if part.kind in (TRIM, "page") and not between.strip() else at


SETTING = re.compile(r"/(\w+) (\S+)")
INK = re.compile(r"^  /(\S+) << /NeutralDensity (\S+) /ColorantType /(\S+) >>$", re.M)
ZONE = re.compile(r"^% Zone (\".*\"):\n<<.*>> settrapparams\n(?:<<(.*)>> settrapparams\n)?"
                  r"newpath (.*) settrapzone\n", re.M)
CORNER = re.compile(r"(\S+) (\S+) (?:moveto|lineto)")


def _settings(text: str) -> dict[str, int | bool]:
    return {key: value == "true" if key == "Enabled" else ten_thousandths(value.encode())
            for key, value in SETTING.findall(text) if key in KEYS}


def _read_page(lines: str) -> tuple[Settings, Mapping[str, EditedInk], int | None]:
    first = lines.partition("\n")[0]
    inks = {name: EditedInk(ten_thousandths(density.encode()), kind) for name, density, kind in INK.findall(lines)}
    said = said_in(lines.encode())
    keepaway = None if said is None else round(said * SCALE)
    return (_settings(first) if first.endswith("settrapparams") else {}), inks, keepaway


def _read_zones(lines: str, over_images: bool) -> list[EditedZone]:
    return [EditedZone(json.loads(name), _corners(path), _settings(own), over_images)
            for name, own, path in ZONE.findall(lines)]


def _corners(path: str) -> tuple[Point, ...]:
    return tuple((ten_thousandths(x.encode()), ten_thousandths(y.encode())) for x, y in CORNER.findall(path))

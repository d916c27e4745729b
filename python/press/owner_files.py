# SPDX-License-Identifier: Apache-2.0
"""What is found in the owner's files: zones that cover nothing, statements that change the page's own job, paths that
make no zone, and files beside the PDF that look like its own and are not used."""
import os
import re
from collections.abc import Iterator, Mapping, Sequence

from . import job
from .files import beside
from .findings import NOTE, WARNING, Finding
from .job_language import SCALE, JobSyntaxError, JobZone, read_job
from .rects import Rect, around
from .settings import Settings, house_file
from .source import PageInfo

ENDS = (".zones", ".inks", ".pairs")
PAGES = (".pdf", ".ps", ".eps", ".ai")
PATH, PATH_ENDS = ("moveto", "lineto", "rmoveto", "rlineto", "closepath"), ("settrapzone", "newpath")


def device_keys(text: bytes) -> Iterator[tuple[int, list[str]]]:
    """The dictionaries before setpagedevice: of each its offset, and its keys that change what the page's job says."""
    for at, operand in job.operands_of(text, "setpagedevice"):
        yield at, [key for key, _, body in job.pairs_of(operand) if key in job.DEVICE and not is_usual(key, body)]


def is_usual(key: str, body: job.Node) -> bool:
    """Whether an entry says what holds anyway."""
    return key == "Trapping" and isinstance(body, job.Token) and body.text == "true"


def open_path(text: bytes) -> int | None:
    """Where the path begins that no settrapzone ends, or None."""
    first: int | None = None
    for word in job.words_of(text):
        if word.text in PATH and first is None:
            first = word.at
        elif word.text in PATH_ENDS:
            first = None
    return first


def statement_findings(path: str, text: bytes, page: int | None) -> Iterator[Finding]:
    """Statements of a zones file that change the job of the page, and a path that makes no zone."""
    for at, keys in device_keys(text):
        if keys:
            yield Finding("page-device", WARNING, page, f"{path}: line {job.line_at(text, at)}: setpagedevice in a "
                          f"zones file replaces what the page's job says of /{', /'.join(keys)}")
    at_path = open_path(text)
    if at_path is not None:
        yield Finding("open-path", WARNING, page, f"{path}: line {job.line_at(text, at_path)}: the path ends without "
                      f"settrapzone, and makes no zone")


# Zones that cover nothing

def zone_findings(statements: Sequence[job.Statement], info: PageInfo | None, settings: Settings,
                  page: int) -> Iterator[Finding]:
    """Zones of the owner that cover no pixel of the page."""
    if info is None:
        return
    size = info.size(settings.box)
    for path, text in statements:
        for number, zone in enumerate(zones_of(text) if path else (), 1):
            if not covers(zone, size, settings.dpi):
                yield Finding("zone-place", WARNING, page, f"{path}: zone {number} {place_of(zone)}, and covers no "
                              f"pixel of the page, which is {size[0]:g} by {size[1]:g} pt as it is displayed")


def zones_of(text: bytes) -> tuple[JobZone, ...]:
    """The zones of a file; none of a file that is no valid job, which the program refuses."""
    try:
        return read_job(text).zones[1:]
    except (JobSyntaxError, RecursionError):
        return ()


def bounds(zone: JobZone) -> Rect | None:
    """The left, lower, right and upper sides of a zone in points, or None if its path is empty."""
    points = [(x / SCALE, y / SCALE) for subpath in zone.subpaths for x, y in subpath]
    return around(points) if points else None


def covers(zone: JobZone, size: tuple[float, float], dpi: int) -> bool:
    """Whether the middle of some pixel lies between a zone's sides."""
    found = bounds(zone)
    if found is None:
        return False
    left, lower, right, upper = found
    return middle_between(left, right, size[0], dpi) and middle_between(lower, upper, size[1], dpi)


def middle_between(low: float, high: float, side: float, dpi: int) -> bool:
    """Whether the middle of one of a side's pixels lies between two places in points. A pixel more is allowed for,
    since a page's size is rounded to whole pixels."""
    last = int(side * dpi / 72 + 0.5)
    first = max(0, int(low * dpi / 72 - 1))
    return any(low - 72 / dpi <= (at + 0.5) * 72 / dpi <= high + 72 / dpi for at in range(first, min(last, first + 4)))


def place_of(zone: JobZone) -> str:
    """Where a zone lies, in words."""
    found = bounds(zone)
    if found is None:
        return "has an empty path"
    left, lower, right, upper = found
    return f"lies from {left:g} to {right:g} pt across and from {lower:g} to {upper:g} pt up"


# Files beside the PDF

def beside_findings(path: str, pages: int, settings: Settings) -> Iterator[Finding]:
    """Files beside the PDF that look like its own and are not used, and those that fit two PDFs. A kind of file that
    an option gives is not looked for."""
    folder, name = os.path.split(path)
    stem = os.path.splitext(name)[0]
    given = dict(zip(ENDS, (settings.zones, settings.inks, settings.pairs)))
    yield from unread_findings(path, pages, given)
    there = sorted(os.listdir(folder or "."))
    others = {os.path.splitext(one)[0] for one in there if one.lower().endswith(PAGES)} - {stem}
    for one in there:
        begin, end = os.path.splitext(one)
        is_like = begin.lower() == stem.lower() or begin.lower().startswith(stem.lower() + ".")
        if not is_like or end.lower() not in ENDS or given[end.lower()]:
            continue
        shown, middle = os.path.join(folder, one), begin[len(stem) + 1:]
        if is_of_page(one, stem, middle, pages):
            if begin in others:
                yield Finding("beside", WARNING, int(middle), f"{shown} is taken for page {middle} of {name}, and for "
                              f"all pages of {begin}.pdf, which is there too")
        elif one != stem + end.lower() and begin not in others:
            yield Finding("beside", WARNING, None, f"{shown} looks like a file of {name} and is not used: "
                          f"{stem}{end.lower()} would be, and {stem}.K.zones for a page K from 1 to {pages}")
    outer = re.fullmatch(r"(.+)\.([1-9]\d*)", stem)
    if outer and outer.group(1) in others and stem + ".zones" in there and not settings.zones:
        yield Finding("beside", WARNING, None, f"{os.path.join(folder, stem)}.zones is taken for all pages of {name}, "
                      f"and for page {outer.group(2)} of {outer.group(1)}.pdf, which is there too")


def unread_findings(path: str, pages: int, given: Mapping[str, str | None]) -> Iterator[Finding]:
    """Files beside the PDF, and the house's table of pairs, that would be read if no other file was given."""
    for end, option in given.items():
        names = [end[1:], *(f"{page}.zones" for page in range(1, pages + 1) if end == ".zones")]
        found = beside(path, *names) if option else []
        yield from (Finding("overridden", NOTE, None, f"{one} gives way to {end.replace('.', '--')} {option}")
                    for one in found if os.path.realpath(one) != os.path.realpath(option or ""))
    house, own = house_file("pairs.inks"), given[".pairs"] or next(iter(beside(path, "pairs")), None)
    if house and own:
        yield Finding("overridden", NOTE, None, f"{house} gives way to {own}")


def is_of_page(name: str, stem: str, middle: str, pages: int) -> bool:
    """Whether a file is the one of a page: label.2.zones."""
    return name == f"{stem}.{middle}.zones" and bool(re.fullmatch(r"[1-9]\d{0,5}", middle)) and int(middle) <= pages

# SPDX-License-Identifier: Apache-2.0
"""What goes in: a PDF as it is; PostScript, EPS and older Illustrator files by Ghostscript's own conversion.
And what a PDF says of its pages before anything is drawn, by pikepdf. Whether a file can be read is for
Ghostscript to decide.
"""
import contextlib
import os
import re
import subprocess
from collections.abc import Iterator, Mapping
from dataclasses import dataclass, field
from typing import Any, BinaryIO

import pikepdf

from . import tools
from .errors import PressError, Status
from .files import HEAD_BYTES, head_of, need_room
from .names import PROCESS

Box = tuple[float, float, float, float]
ROUNDING = 0.01
BOX_NAMES = {"media": "MediaBox", "crop": "CropBox", "bleed": "BleedBox", "trim": "TrimBox", "art": "ArtBox"}
AT_END = re.compile(rb"%%BoundingBox:[ \t]*\(atend\)")
BOX_AT_END = re.compile(rb"(?<![^\r\n])%%BoundingBox:[ \t]*-?\d[^\r\n]*")
PRINTER_WORDS, WITH_PREVIEW = b"\x1b%-12345X", b"\xc5\xd0\xd3\xc6"
# Ghostscript counts the pages of a file.
COUNT_PAGES = "(in.pdf) (r) file runpdfbegin (pages ) print pdfpagecount = flush quit"
TO_PDF = ("-q", "-dBATCH", "-sDEVICE=pdfwrite", "-dEPSCrop", "-dAutoRotatePages=/None",
          "-sColorConversionStrategy=LeaveColorUnchanged", "-dAutoFilterColorImages=false",
          "-dColorImageFilter=/FlateEncode", "-dAutoFilterGrayImages=false", "-dGrayImageFilter=/FlateEncode",
          "-dDownsampleColorImages=false", "-dDownsampleGrayImages=false", "-dDownsampleMonoImages=false",
          "-sOutputFile=in.pdf", "in.ps")
# Colorants of a PDF that are no spots.
NO_SPOTS = {name.encode() for name in PROCESS} | {b"All", b"None"}
MOST_DEPTH = 12
UNREAD = (pikepdf.PdfError, pikepdf.PasswordError, RuntimeError)


@dataclass(frozen=True)
class PageInfo:
    """What a PDF says of a page: the boxes that it has, by the names of --box, as left, lower, right and upper
    in its own units; the rotation, a multiple of 90; how many points a unit is; and the names of its spots.
    """

    boxes: Mapping[str, Box]
    rotate: int
    unit: float
    spots: tuple[bytes, ...]

    def box(self, box: str) -> tuple[Box, bool]:
        """The box that is drawn, within the media box; and whether the page has one of that name."""
        media, one = self.boxes["media"], self.boxes.get(box)
        there = one is not None or box == "crop"
        if one is None and box in ("bleed", "trim", "art"):
            one = self.boxes.get("crop")
        left, lower, right, upper = one or media
        within = max(left, media[0]), max(lower, media[1]), min(right, media[2]), min(upper, media[3])
        return (media if is_empty(within) else within), there

    def size(self, box: str) -> tuple[float, float]:
        """The width and height of the page as it is drawn, in points."""
        left, lower, right, upper = self.box(box)[0]
        width, height = (right - left) * self.unit, (upper - lower) * self.unit
        return (height, width) if self.rotate % 180 == 90 else (width, height)

    def samples(self, box: str, dpi: int) -> tuple[int, int]:
        """Columns and rows of samples of the page as it is drawn: Ghostscript rounds to the next whole number."""
        width, height = (max(1, int(side * dpi / 72 + 0.5)) for side in self.size(box))
        return width, height

    def cut_off(self) -> tuple[bool, str | None]:
        """Whether Ghostscript leaves a strip of the media box blank, since it lies outside the crop box; and
        which box of a sheet that is cut lies partly there: bleed, trim, or None."""
        media, crop = self.boxes["media"], self.boxes.get("crop")
        if crop is None or holds(crop, media):
            return False, None
        named = [(box, self.boxes.get(box)) for box in ("bleed", "trim")]
        return True, next((box for box, one in named if one and not holds(crop, one)), None)


def holds(one: Box, other: Box) -> bool:
    """Whether a box holds another, but for rounding."""
    return (one[0] <= other[0] + ROUNDING and one[1] <= other[1] + ROUNDING and one[2] >= other[2] - ROUNDING and
            one[3] >= other[3] - ROUNDING)


def is_empty(box: Box) -> bool:
    """Whether a box has no area."""
    return box[0] >= box[2] or box[1] >= box[3]


@dataclass(frozen=True)
class Source:
    """A file that pages are made of.

    `path` is its name as it was given, `folder` a scratch folder in which it is named in.pdf, `count` the
    number of its pages. A page whose PDF gives no size has no PageInfo.
    """

    path: str
    folder: str
    converted: bool
    count: int
    known: dict[int, PageInfo | None] = field(default_factory=dict, compare=False)
    without_size: set[int] = field(default_factory=set, compare=False)
    # The jobs that the trapping program has taken already, each with the names of its plates.
    judged: set[tuple[bytes, tuple[str, ...]]] = field(default_factory=set, compare=False)

    @property
    def pdf(self) -> str:
        """The path of the PDF, the converted one where the file is PostScript."""
        return os.path.join(self.folder, "in.pdf")

    def page(self, number: int) -> PageInfo | None:
        """What the PDF says of a page, counted from 1; None if it cannot be read, or gives no size."""
        if number not in self.known:
            self.read([number])
        return self.known[number]

    def read(self, numbers: list[int]) -> None:
        """Looks up several pages at once."""
        try:
            found = page_infos(self.pdf, numbers)
        except UNREAD:
            found = mended_infos(self.folder, numbers)
        for number in numbers:
            info = found.get(number)
            has_size = info and not is_empty(info.boxes.get("media", (0, 0, 0, 0)))
            self.known[number] = info if has_size else None
            if info and not has_size:
                self.without_size.add(number)

    def place(self, page: int | None = None) -> str:
        """The file, or a page of it, as a line names it."""
        return f"{self.path}: page {page}" if page else self.path


# Ghostscript

def ghostscript(folder: str, words: list[str], seconds: float | None, place: str,
                errors: BinaryIO | None = None) -> "subprocess.CompletedProcess[bytes]":
    """Runs Ghostscript in a folder, for so many seconds at most. Its options from the environment, trapping of
    its own among them, are kept out; its temporary files are in the folder too. What it prints on standard error goes
    into the file `errors` at once, if there is one."""
    outside = {name: value for name, value in os.environ.items() if name not in ("GS_OPTIONS", "GS_DEVICE")}
    outside["TMPDIR"] = os.path.abspath(folder)
    try:
        done = tools.run([tools.tool("gs"), "-dSAFER", "-dNOPAUSE", *words], seconds=seconds, cwd=folder, env=outside,
                         stderr=errors or subprocess.PIPE)
    except subprocess.TimeoutExpired as fault:
        raise PressError(Status.PDF, f"Ghostscript is at it for more than {seconds} s (--time)", place) from fault
    if done.returncode != 0:
        need_room(folder, "Ghostscript drew")
    if errors:
        errors.seek(0)
        done.stderr = errors.read()
    return done


def complaint(done: "subprocess.CompletedProcess[bytes]") -> str:
    """What Ghostscript says is wrong, in one line: the clearest of its lines."""
    text = (done.stdout + b"\n" + done.stderr).decode("utf-8", "replace")
    for pattern in (r"\*{4} (This file requires a password)", r"GPL Ghostscript [\d.]+: ((?!Unrecoverable)\S.*)",
                    r"(Error: /.*)", r"\*{4} (.*)"):
        if found := re.search(pattern, text):
            return found.group(1).strip()
    return f"Ghostscript ended with {done.returncode}"


# Opening

def kind_of(head: bytes) -> str | None:
    """What a file is by its first bytes: pdf, ps, or None. A driver's words for the printer may be before
    PostScript."""
    if head.lstrip(b"\x04\r\n\t ").startswith(b"%!") or head.startswith(WITH_PREVIEW):
        return "ps"
    if b"%PDF-" in head[:1024]:
        return "pdf"
    return "ps" if head.startswith(PRINTER_WORDS) and b"%!" in head else None


def open_source(path: str, folder: str, seconds: float | None = None) -> Source:
    """Opens a file in a scratch folder, where it is under a plain name, so that no character of its own
    name means anything to Ghostscript. PostScript is converted."""
    kind = kind_of(head_of(path))
    if kind == "ps":
        convert(path, folder, seconds)
    else:
        os.symlink(os.path.abspath(path), os.path.join(folder, "in.pdf"))
    return Source(path, folder, kind == "ps", page_count(path, folder, kind is not None, seconds))


def page_count(path: str, folder: str, is_known: bool, seconds: float | None) -> int:
    """How many pages in.pdf has: by pikepdf if the file is whole and is not encrypted, by Ghostscript otherwise."""
    with contextlib.suppress(*UNREAD), pikepdf.open(os.path.join(folder, "in.pdf")) as pdf:
        count = len(pdf.pages)
        if count and is_known and not pdf.is_encrypted and not pdf.get_warnings():
            return count
    words = ["-q", "-dNODISPLAY", "--permit-file-read=in.pdf", "-c", COUNT_PAGES]
    done = ghostscript(folder, words, seconds, path)
    found = re.search(rb"^pages (\d+)$", done.stdout, re.MULTILINE)
    if done.returncode != 0 or found is None or int(found.group(1)) == 0:
        what = "" if is_known or found else "it begins neither as a PDF nor as PostScript, and "
        raise PressError(Status.PDF, f"{what}Ghostscript cannot read it: {complaint(done)}", path)
    return int(found.group(1))


def convert(path: str, folder: str, seconds: float | None) -> None:
    """Makes in.pdf of PostScript."""
    given = os.path.join(folder, "in.ps")
    give_postscript(path, given)
    done = ghostscript(folder, list(TO_PDF), seconds, path)
    if done.returncode != 0 or not os.path.exists(os.path.join(folder, "in.pdf")):
        raise PressError(Status.PDF, f"Ghostscript cannot convert the PostScript: {complaint(done)}", path)
    os.remove(given)


def give_postscript(path: str, given: str) -> None:
    """The PostScript under a plain name: the file itself, or, where it gives its box at its end, a copy that
    gives it in front, since Ghostscript looks for it there alone."""
    with open(path, "rb") as file:
        head = file.read(HEAD_BYTES)
        later = AT_END.search(head)
        text = head + file.read() if later and head[:2] == b"%!" else b""
    boxes = BOX_AT_END.findall(text)
    if not later or not boxes:
        os.symlink(os.path.abspath(path), given)
        return
    with open(given, "wb") as out:
        out.write(text[:later.start()] + boxes[-1] + text[later.end():])


def lacks_box(path: str) -> bool:
    """Whether a file is an EPS that gives no box, neither in front nor at its end: Ghostscript draws it on a
    page of its own size."""
    with open(path, "rb") as file:
        head = file.read(HEAD_BYTES)
        if head.startswith(WITH_PREVIEW):
            file.seek(int.from_bytes(head[4:8], "little"))
            head = file.read(HEAD_BYTES)
        is_eps = head.startswith(b"%!PS") and b"EPSF" in re.split(rb"[\r\n]", head)[0]
        return is_eps and not BOX_AT_END.search(head) and not BOX_AT_END.search(head + file.read())


# Pages

def page_infos(path: str, numbers: list[int]) -> dict[int, PageInfo | None]:
    """What a PDF says of pages."""
    with pikepdf.open(path) as pdf:
        return {number: page_info(pdf, number) for number in numbers}


def mended_infos(folder: str, numbers: list[int]) -> dict[int, PageInfo | None]:
    """What a damaged PDF says of pages, once MuPDF has mended a copy of it."""
    try:
        tools.run([tools.tool("mutool"), "clean", "in.pdf", "mended.pdf"], cwd=folder)
        return page_infos(os.path.join(folder, "mended.pdf"), numbers)
    except (*UNREAD, PressError, OSError):
        return {}


def page_info(pdf: pikepdf.Pdf, number: int) -> PageInfo | None:
    """What a PDF says of a page; None if it cannot be read."""
    try:
        page = pdf.pages[number - 1].obj
        if not isinstance(page, pikepdf.Dictionary):
            return None
        boxes = {box: numbers for box, name in BOX_NAMES.items()
                 if (numbers := box_numbers(inherited(page, "/" + name)))}
        rotate, unit = inherited(page, "/Rotate"), page.get("/UserUnit")
        spots = dict.fromkeys(spots_of(inherited(page, "/Resources"), set(), 0))
        return PageInfo(boxes, int(float(rotate)) % 360 if rotate is not None else 0,
                        float(unit) if unit is not None else 1.0, tuple(spots))
    except (*UNREAD, IndexError, TypeError, ValueError):
        return None


def inherited(page: Any, key: str) -> Any:
    """An entry of a page, or of what it is in."""
    for _ in range(MOST_DEPTH * MOST_DEPTH):
        if not isinstance(page, pikepdf.Dictionary):
            return None
        if key in page:
            return page[key]
        page = page.get("/Parent")
    return None


def box_numbers(values: Any) -> Box | None:
    """A box in order, if it has four numbers."""
    if not isinstance(values, pikepdf.Array) or len(values) != 4:
        return None
    left, lower, right, upper = (float(value) for value in values)
    return min(left, right), min(lower, upper), max(left, right), max(lower, upper)


def spots_of(resources: Any, seen: set[tuple[int, int]], depth: int) -> Iterator[bytes]:
    """The spots that resources name, those of forms, patterns, images and soft masks in them too."""
    if not isinstance(resources, pikepdf.Dictionary) or depth > MOST_DEPTH:
        return
    for kind in ("/ColorSpace", "/Shading", "/XObject", "/Pattern", "/ExtGState", "/Font"):
        entries = resources.get(kind)
        for _, one in entries.items() if isinstance(entries, pikepdf.Dictionary) else ():
            if not isinstance(one, pikepdf.Object) or one.objgen in seen:
                continue
            if one.is_indirect:
                seen.add(one.objgen)
            if kind == "/ColorSpace":
                yield from spots_of_space(one, depth)
            elif isinstance(one, (pikepdf.Dictionary, pikepdf.Stream)):
                yield from spots_of_entry(one, seen, depth)


def spots_of_entry(one: Any, seen: set[tuple[int, int]], depth: int) -> Iterator[bytes]:
    """The spots that a form, an image, a pattern, a shading, a font or a graphics state names."""
    yield from spots_of_space(one.get("/ColorSpace"), depth)
    shading, mask = one.get("/Shading"), one.get("/SMask")
    if isinstance(shading, (pikepdf.Dictionary, pikepdf.Stream)):
        yield from spots_of_space(shading.get("/ColorSpace"), depth)
    if isinstance(mask, pikepdf.Dictionary) and isinstance(mask.get("/G"), pikepdf.Stream):
        yield from spots_of(mask["/G"].get("/Resources"), seen, depth + 1)
    yield from spots_of(one.get("/Resources"), seen, depth + 1)


def spots_of_space(space: Any, depth: int) -> Iterator[bytes]:
    """The spots of a colour space."""
    if not isinstance(space, pikepdf.Array) or len(space) < 2 or depth > MOST_DEPTH:
        return
    family = str(space[0])
    if family in ("/Indexed", "/I", "/Pattern"):
        yield from spots_of_space(space[1], depth + 1)
    elif family in ("/Separation", "/DeviceN"):
        names = space[1] if family == "/DeviceN" else [space[1]]
        yield from (name for name in map(name_bytes, names) if name not in NO_SPOTS)


def name_bytes(name: pikepdf.Object) -> bytes:
    """The bytes of a name of a PDF."""
    written = name.unparse()[1:]
    return re.sub(rb"#([0-9A-Fa-f]{2})", lambda found: bytes([int(found.group(1), 16)]), written)

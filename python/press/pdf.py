# SPDX-License-Identifier: Apache-2.0
"""A trapped PDF: the pages of a PDF as they are, with the traps that were made of their plates on top, as one layer."""
import io
import os
from collections.abc import Iterator, Sequence
from dataclasses import dataclass, field
from typing import Any, BinaryIO, NamedTuple

import pikepdf

from .content import fonts_outside, intent_profile
from .errors import PressError, Status
from .files import scratch_folder
from .icc import need_press_profile
from .job_record import SHORT, digest_of
from .output_report import full_disk_refused
from .pdf_grid import box_of_plates, grid_matrix
from .pdf_layer import Paint, add_trap_network, layer_of, put_on_page, traps_form
from .pdf_state import flatten, is_signed, mark_trapped, open_pdf, printed_annotations, remove_traps, signs_of_trapping
from .pdf_tiles import TrapCount, tile_images
from .pdf_verify import Expected, Grid, verify
from .source import UNREAD, inherited
from .trapped_page import TrappedPage

MOST_MARGIN = 16
LAYER, NETWORK, PLAIN = "layer", "trapnet", "pdfx1a"


@dataclass(frozen=True)
class PdfSettings:
    """How a trapped PDF is made. `form` is what the traps come as: a layer, a trap network, or plain contents for
    PDF/X-1a."""

    form: str = LAYER
    margin: int = 1
    anchor: str = "top"
    box: str | None = None
    icc: str | None = None
    output_intent: bool = False
    verify: bool = True
    strict: bool = False
    force: bool = False
    decrypt: bool = False


class PageResult(NamedTuple):
    """What was done on a page."""

    page: TrappedPage
    box: str
    changed: int
    painted: int
    images: int


@dataclass
class PdfResult:
    """What was done to a file: a line for each warning, and its pages."""

    warnings: list[str] = field(default_factory=list)
    pages: list[PageResult] = field(default_factory=list)
    verified: bool = False


def warn(result: PdfResult, settings: PdfSettings, line: str, path: str) -> None:
    """Notes a warning, or refuses the file if every warning has to."""
    if settings.strict:
        raise PressError(Status.WARNED, f"{line} (--strict)", path)
    result.warnings.append(line)


def need_distinct(pages: Sequence[TrappedPage], count: int, path: str) -> None:
    """That each page folder is of another page, and the file has it."""
    seen: dict[int, str] = {}
    for page in pages:
        number = page.number
        if number > count:
            raise PressError(Status.PDF, f"there is no page {number}, which {page.folder.path} is of: it has {count}",
                             path)
        if number in seen:
            raise PressError(Status.USAGE, f"{page.folder.path}: page {number} is in {seen[number]} too")
        seen[number] = page.folder.path


def fonts_line(page: pikepdf.Page, number: int) -> str | None:
    """What there is to be said of fonts that the file does not embed."""
    try:
        names = sorted(set(fonts_outside(inherited(page.obj, "/Resources"), set(), 0)))
    except (*UNREAD, AttributeError, TypeError, ValueError, KeyError, IndexError):
        return None
    if not names:
        return None
    return (f"page {number}: the file does not embed {', '.join(names)}: a RIP that takes another face for it gets "
            f"traps that do not fit")


def other_bytes(pages: Sequence[TrappedPage], path: str) -> Iterator[str]:
    """A line for each page that was made of a file with other bytes, as its record says."""
    made_of = {page.number: page.drawn.digest for page in pages if page.drawn.digest}
    now = digest_of(path) if made_of else ""
    for number, digest in made_of.items():
        if digest != now:
            yield (f"page {number} was made of other bytes than this file has (SHA-256 {digest[:SHORT]}.. then, "
                   f"{now[:SHORT]}.. now)")


def judge(pdf: pikepdf.Pdf, pages: Sequence[TrappedPage], settings: PdfSettings, result: PdfResult, path: str) -> None:
    """Refuses or warns of what traps do not go with, and makes the pages ready for them."""
    signs = list(signs_of_trapping(pdf))
    if signs and not settings.force:
        raise PressError(Status.PDF, f"trapped already: {signs[0]} (--force traps it all the same, and replaces traps "
                         f"of press/pdf)", path)
    remove_traps(pdf)
    need_distinct(pages, len(pdf.pages), path)
    whole = len(pages) == len(pdf.pages)
    if settings.form == PLAIN and not whole:
        raise PressError(Status.USAGE, f"PDF/X-1a is trapped as a whole: {len(pages)} of {len(pdf.pages)} pages are "
                         f"given", path)
    if is_signed(pdf):
        warn(result, settings, "its digital signature breaks", path)
    chosen = [pdf.pages[page.number - 1] for page in pages]
    for page in pages:
        if line := fonts_line(pdf.pages[page.number - 1], page.number):
            warn(result, settings, line, path)
    if settings.form != NETWORK and any(printed_annotations(page) for page in chosen):
        warn(result, settings, "annotations that are printed become part of the page", path)
        flatten(pdf, chosen)


def trap_page(pdf: pikepdf.Pdf, page: TrappedPage, settings: PdfSettings) -> PageResult:
    """Puts the traps of a page folder on its page."""
    target = pdf.pages[page.number - 1]
    box = settings.box or page.drawn.box or box_of_plates(target, page.number, page.dpi, page.size)
    matrix = grid_matrix(target, box, page.dpi, page.size[1], settings.anchor)
    count = TrapCount()
    images = list(tile_images(page.before, page.after, settings.margin, count))
    if images:
        inks = page.folder.inks
        paint = Paint(page.size, matrix, settings.form != PLAIN)
        form = traps_form(pdf, images, inks, paint)
        if settings.form == NETWORK:
            add_trap_network(pdf, target, form, inks, paint)
        else:
            put_on_page(pdf, target, form, layer_of(pdf) if settings.form == LAYER else None)
    return PageResult(page, box, count.changed, count.painted, len(images))


class Output(io.RawIOBase):
    """A file that keeps the first fault of writing instead of raising it: qpdf would end the whole process."""

    def __init__(self, file: BinaryIO) -> None:
        super().__init__()
        self.file = file
        self.fault: OSError | None = None

    def writable(self) -> bool:
        """Yes."""
        return True

    def write(self, data: Any) -> int:
        """Writes, unless something failed before."""
        try:
            if self.fault is None:
                self.file.write(data)
        except OSError as fault:
            self.fault = fault
        return len(data)

    def finish(self) -> None:
        """Raises the fault, or what comes of the last bytes."""
        if self.fault is not None:
            raise self.fault
        self.file.flush()


def save(pdf: pikepdf.Pdf, path: str, form: str) -> None:
    """Writes the file. What it had before is not compressed anew."""
    with full_disk_refused(os.path.dirname(path) or ".", "the trapped PDF was written"), open(path, "wb") as file:
        output = Output(file)
        pdf.save(output, min_version="1.5" if form == LAYER else "1.3", compress_streams=False, preserve_pdfa=False,
                 object_stream_mode=pikepdf.ObjectStreamMode.preserve,
                 stream_decode_level=pikepdf.StreamDecodeLevel.none)
        output.finish()


def expected_of(done: PageResult, icc: str | None) -> Expected:
    """What a page has to render to."""
    page = done.page
    plates = {ink.colorant: plate for ink, plate in zip(page.folder.inks, page.after.arrays)}
    return Expected(page.number, Grid(page.dpi, done.box, icc or page.drawn.icc), plates)


def prove(path: str, result: PdfResult, settings: PdfSettings, shown: str) -> None:
    """Renders the file again, and refuses it if a byte of a trapped plate differs."""
    with scratch_folder() as scratch:
        profile = settings.icc
        for done in result.pages:
            if not profile and done.page.drawn.icc and not os.path.isfile(done.page.drawn.icc):
                raise PressError(Status.INPUT, f"page {done.page.number} was drawn by this profile, which is not there "
                                 f"(--icc names another)", done.page.drawn.icc)
        by_intent = settings.output_intent or any(done.page.drawn.output_intent for done in result.pages)
        if by_intent and not profile and intent_profile(path, os.path.join(scratch, "intent.icc")):
            profile = os.path.join(scratch, "intent.icc")
            need_press_profile(profile, f"{shown}: the profile of its output intent")
        different = verify(path, [expected_of(done, profile) for done in result.pages], os.path.dirname(path) or ".")
    if different is not None:
        raise PressError(Status.PDF, different.line(), f"{shown}: page {different.page}")
    result.verified = True


def write_trapped_pdf(source: str, made: str, pages: Sequence[TrappedPage], settings: PdfSettings,
                      shown: str) -> PdfResult:
    """Writes the trapped PDF of a file to the path `made`, and proves it. `shown` is the file's name for messages."""
    result = PdfResult()
    with open_pdf(source, settings.decrypt, shown) as pdf:
        judge(pdf, pages, settings, result, shown)
        for page in sorted(pages, key=lambda one: one.number):
            try:
                result.pages.append(trap_page(pdf, page, settings))
            except PressError as refusal:
                raise PressError(refusal.status, refusal.message, f"{shown}: page {page.number}") from refusal
        mark_trapped(pdf, len(pages) == len(pdf.pages), [done.page.number for done in result.pages])
        save(pdf, made, settings.form)
    if settings.verify:
        prove(made, result, settings, shown)
    return result


def write_without_traps(source: str, made: str, shown: str) -> list[int]:
    """Writes a trapped PDF without the traps that press/pdf put on it. Returns the pages that had some."""
    with open_pdf(source, False, shown) as pdf:
        cleared = remove_traps(pdf)
        if not cleared:
            raise PressError(Status.PDF, "no page has traps of press/pdf", shown)
        save(pdf, made, PLAIN)
    return cleared

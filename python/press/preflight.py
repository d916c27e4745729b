# SPDX-License-Identifier: Apache-2.0
"""Preflight: what is found in a file before it is rendered, and in each page once it is: one function for each
subject."""
import json
import math
import os
import tempfile
from collections.abc import Iterator, Sequence
from dataclasses import asdict, dataclass, replace
from typing import NamedTuple

import numpy

from . import content, engine, files, images, job, owner_files, precedence, programs
from .errors import PressError, Status
from .fields import OF_FIELDS, fields_without_appearance
from .files import BYTE_ORDER_MARK, bytes_of, free_room, scratch_folder, size_text
from .findings import FAULT, NOTE, WARNING, Finding, percent
from .folder import PageSource
from .inkedits import twins
from .inks import Ink, InkBook, Separation, folded, open_book, unsure_lines
from .layout import Layout, box_line, layer_lines, trap_box
from .names import MOST_PLATES, PROCESS, job_names, readable
from .page import Page, layout_of, lost_edits, option_edits, pdf_line, prepare, room_line
from .pairs import pairs_file, read_pairs
from .plates import LONGEST_SHEET_SIDE, LONGEST_SIDE, MOST_SAMPLES, Plates, thickened
from .settings import Settings, house_file
from .source import BOX_NAMES, PageInfo, Source, is_empty, lacks_box, open_source
from .tables import counts

# A page that nothing but preflight needs is rendered in about so many samples, and at no more than so many dpi;
# one without a size at so few.
SMALL_SAMPLES, SMALL_DPI, LEAST_DPI = 500_000, 72, 10
# What a page takes, as measured on pages of a label and of A4 (docs/FARM.md): CPU seconds from PDF to proof, for a
# page and for a sample; bytes a sample in the table of `trap page`; and of trapsheet bytes for each sample of a strip.
SECONDS_A_PAGE, SECONDS_A_SAMPLE, TABLE_BYTES, STRIP_BYTES = 2.5, 1e-7, 12, 15
STRIP_ROWS, LEAST_STRIP_ROWS, STRIP_SAMPLES = 128, 32, 67_108_864
# A strip has twice the rows if the samples of a row in all plates are no more than this.
NARROW = 32_768
# From which tint on a sample has ink, and below which it has none, if one ink knocks out others: full ink is 0.
MUCH, LITTLE = 127, 250
KNOCK_OUT_SAMPLES, BAND_ROWS = 3, 256
USUAL_STEP = 0.25
CONVERTED = Finding("converted", NOTE, None, "PostScript: Ghostscript made a PDF of it")
NO_SIZE = ("the page tells no size that can be read, and Ghostscript takes one of its own: its inks and images are not "
           "looked at")


@dataclass(frozen=True)
class Needs:
    """What a page takes: columns and rows of samples, its plates and those with ink, the samples of these; and
    about how many CPU seconds, and bytes of memory and of disk."""

    page: int
    width: int
    height: int
    inks: int
    inked: int
    samples: int
    seconds: float
    memory: int
    disk: int


class PageReport(NamedTuple):
    """What was found in a page that is rendered, and what it takes; None if that is not known."""

    findings: tuple[Finding, ...]
    needs: Needs | None = None


class FileReport(NamedTuple):
    """What was found in a file, as press/preflight prints it."""

    source: Source
    dpi: int
    findings: tuple[Finding, ...]
    needs: tuple[Needs, ...]

    def as_json(self) -> str:
        """The report for machines."""
        found = [one.as_data() for one in self.findings]
        return json.dumps({"file": self.source.path, "converted": self.source.converted, "pages": self.source.count,
                           "resolution": self.dpi, "findings": found, "takes": [asdict(one) for one in self.needs]},
                          indent=1, ensure_ascii=True)

    def needs_lines(self) -> list[str]:
        """A line for each page: what it takes."""
        return [f"{self.source.place(one.page)}: {one.width} by {one.height} samples, {one.inked} of {one.inks} plates "
                f"with ink; about {one.seconds:g} s of a processor, {one.memory / 1e9:.2f} GB of memory, "
                f"{one.disk / 1e9:.2f} GB of disk" for one in self.needs]


def check(path: str, settings: Settings, pages: Sequence[int] = ()) -> FileReport:
    """Checks a file and these pages of it, or all, each rendered small. Nothing is written."""
    with scratch_folder() as scratch:
        source = open_source(path, scratch, settings.time)
        book = open_book(settings, path)
        found = [CONVERTED] if source.converted else []
        chosen = pages or range(1, source.count + 1)
        found += check_file(source, settings, book, chosen)
        needs = []
        for page in chosen:
            with tempfile.TemporaryDirectory(dir=scratch) as folder:
                report = check_small(source, page, settings, book, folder)
            found = merged(found, source, page, report, settings)
            needs += [report.needs] if report.needs else []
    return FileReport(source, settings.dpi, tuple(found), tuple(needs))


# The file

def check_file(source: Source, settings: Settings, book: InkBook, pages: Sequence[int]) -> list[Finding]:
    """The findings of a file that need no rendering, for these pages."""
    for page in pages:
        if page > source.count:
            raise PressError(Status.PDF, f"there is no page {page}: it has {source.count}", source.path)
    source.read([page for page in pages if page not in source.known])
    found = [*table_findings(source, settings, book), *content.file_findings(source.pdf, settings),
             *(Finding("overridden", NOTE, None, line) for line in lost_edits(settings, book))]
    if lacks_box(source.path):
        found.append(Finding("box", WARNING, None, "the EPS tells no box (%%BoundingBox): Ghostscript takes a page of "
                             "the usual size"))
    for page in pages:
        found += size_findings(source, settings, page)
    line = pdf_line(settings, book, [spot for info in map(source.page, pages) if info for spot in info.spots])
    found += [Finding("trapped-pdf", FAULT, None, line, Status.USAGE)] if line else []
    found += owner_files.beside_findings(source.path, source.count, settings)
    found += statement_findings(source, settings, book, pages)
    found += stranger_findings(source, book, pages)
    return list(dict.fromkeys(found))


def table_findings(source: Source, settings: Settings, book: InkBook) -> Iterator[Finding]:
    """Tables and zones that begin with a byte order mark."""
    for path in [book.table, *precedence.zones_files(settings, source.path, 0)]:
        if path and bytes_of(path).startswith(BYTE_ORDER_MARK):
            yield Finding("byte-order-mark", WARNING, None, f"{path}: line 1: begins with a byte order mark, which is "
                          f"left aside")


def size_findings(source: Source, settings: Settings, page: int) -> Iterator[Finding]:
    """What is wrong with a page's boxes and size, before it is known which plates have ink: one at least."""
    info = source.page(page)
    if info is None:
        if page in source.without_size:
            yield Finding("box", WARNING, page, NO_SIZE)
        return
    yield from box_findings(info, settings.box, page)
    colorants = len(info.spots) + len(PROCESS)
    if colorants > MOST_PLATES:
        yield Finding("size", FAULT, page, f"{colorants} colorants, and a job has at most {MOST_PLATES}", Status.PLATES)
    if size := size_finding(info, settings, page, 1):
        yield size


def box_findings(info: PageInfo, box: str, page: int) -> Iterator[Finding]:
    """A box that the page lacks, and boxes of which a part is not drawn."""
    if not info.box(box)[1]:
        yield Finding("box", WARNING, page, f"the page has no {BOX_NAMES[box]}: the crop or media box is taken")
    lost, beyond = info.cut_off() if box == "media" else (False, None)
    if lost and is_empty(info.boxes["crop"]):
        yield Finding("box", WARNING, page, "the CropBox is empty: nothing of the page is drawn")
    elif lost:
        more = f", and the {BOX_NAMES[beyond]} does: --box {beyond} draws that" if beyond else ""
        yield Finding("box", WARNING if beyond else NOTE, page, f"what lies outside the CropBox is not drawn{more}")


def size_finding(info: PageInfo, settings: Settings, page: int, inked: int) -> Finding | None:
    """That a page of so many plates with ink is more than can be trapped, and the resolution that fits."""
    width, height = info.samples(settings.box, settings.dpi)
    longest, most = (LONGEST_SIDE, MOST_SAMPLES) if settings.by_page_program else (LONGEST_SHEET_SIDE, None)
    most_dpi = programs.most_dpi(info.size(settings.box), inked, longest, most)
    fits = f"at most {most_dpi} pixels per inch fit here"
    if max(width, height) > longest:
        return Finding("size", FAULT, page, f"{width} by {height} samples, and a side has at most {longest} ({fits})",
                       Status.PLATES)
    samples = width * height * inked
    if most is None or samples <= most:
        return None
    least = "at least " if inked == 1 else ""
    return Finding("size", FAULT, page, f"{width} by {height} samples in {least}{inked} plates with ink are {samples}, "
                   f"and a page has at most {most} ({fits})", Status.PLATES)


# Zones and jobs

def statement_findings(source: Source, settings: Settings, book: InkBook, pages: Sequence[int]) -> Iterator[Finding]:
    """What is found in the zones of pages. A fault in the file of all pages is one of the whole file."""
    judged: set[tuple[bytes, int | None]] = set()
    for page in pages:
        own = [] if settings.zones else files.beside(source.path, f"{page}.zones")
        statements = precedence.own_statements(settings, source.path, page)
        for path, text in statements:
            if path:
                yield from zones_findings(path, text, page if path in own else None)
        yield from owner_files.zone_findings(statements, source.page(page), settings, page)
        last = page if own else None
        yield from (Finding("overridden", NOTE, last, line) for line in precedence.lost_lines(settings, statements))
        for zone in job.read_all(statements).zones:
            line = job.width_line(zone, settings.dpi)
            if line:
                yield Finding("trap-width", WARNING, last, line)
        inks = page_inks(source, book, page)
        written = job.write_job(PageSource(b"in.pdf", 0, settings.dpi), inks, statements)
        # Pages of the same inks and zones have the same job here, which is checked once.
        if (written.text, last) not in judged:
            judged.add((written.text, last))
            yield from job_findings(source, written, inks, last)


def zones_findings(path: str, text: bytes, page: int | None) -> Iterator[Finding]:
    """Keys of a zones file that the engine passes over, and statements in it that change the page's own job."""
    for stranger in job.read(text).strangers:
        yield Finding("unknown-key", WARNING, page, f"{path}: line {job.line_at(text, stranger.at)}: "
                      f"{job.stranger_line(stranger)}")
    yield from owner_files.statement_findings(path, text, page)


def pdf_separations(source: Source, page: int) -> list[Separation]:
    """The separations that a page has by what the PDF says of it."""
    info = source.page(page)
    colorants = [name.encode() for name in PROCESS] + list(info.spots if info else ())
    return [Separation(colorant, b"", None, name) for colorant, name in zip(colorants, job_names(colorants))]


def page_inks(source: Source, book: InkBook, page: int) -> tuple[Ink, ...]:
    """The inks of these, as many as a job may have."""
    separations = pdf_separations(source, page)[:MOST_PLATES]
    return book.page_inks(separations, [True] * len(separations))


def job_findings(source: Source, written: job.Job, inks: Sequence[Ink], page: int | None) -> Iterator[Finding]:
    """Whether the program takes a job. It is asked once for each job of a file."""
    names = tuple(ink.name for ink in inks)
    if (written.text, names) in source.judged:
        return
    try:
        engine.judge(written, names)
        source.judged.add((written.text, names))
    except PressError as refusal:
        if refusal.status == Status.NO_TOOL:
            yield Finding("program", WARNING, None, f"{refusal}: the job is not judged")
        else:
            yield Finding("zones", FAULT, page, str(refusal), refusal.status)


def stranger_findings(source: Source, book: InkBook, pages: Sequence[int]) -> Iterator[Finding]:
    """Lines of tables, and options, that fit no ink of any page. The pages that are not made are looked at only if
    something fits none of the others."""
    chosen = [pages, [page for page in range(1, source.count + 1) if page not in pages]]
    lines: list[str] = []
    for several in chosen:
        source.read([page for page in several if page not in source.known])
        if not all(source.page(page) for page in several):
            return
        for page in several:
            book.meet(pdf_separations(source, page))
        lines = [*stranger_lines(book), *pair_lines(book, source.path)]
        if not lines:
            return
    yield from (Finding("inks-line", WARNING, None, line) for line in lines)


def stranger_lines(book: InkBook) -> list[str]:
    """The lines of what was given for inks that no page has; an ink may have the name that an edit gives it."""
    own = option_edits(book.settings)
    lines = [f"no colorant of the file is called {readable(name)}{book.meant(name)}" for name in sorted(own.inks)
             if not book.has_met(name)]
    news = (*own.merge.values(), *own.rename.values(), *(new for _, _, new in book.edits() if new))
    book.met.update((new,) for new in news)
    return [*book.strangers(), *lines]


def pair_lines(book: InkBook, path: str) -> Iterator[str]:
    """The lines of a table of pairs with an ink that no page has; of a house's, those that seem to be meant for one."""
    table = pairs_file(book.settings, path)
    for rule in read_pairs(table) if table else ():
        for name in (rule.one, rule.other):
            if not book.has_met(name) and (table != house_file("pairs.inks") or book.meant(name)):
                yield f"{rule.place}: no colorant is called {readable(name)}{book.meant(name)}"


# A page

def small_dpi(info: PageInfo | None, box: str) -> int:
    """The resolution at which a page is rendered that nothing but preflight needs."""
    if info is None:
        return LEAST_DPI
    width, height = info.size(box)
    return max(1, min(SMALL_DPI, int(72 * math.sqrt(SMALL_SAMPLES / width / height))))


def check_small(source: Source, number: int, settings: Settings, book: InkBook, scratch: str) -> PageReport:
    """Renders a page small in a scratch folder, and checks it. A page that Ghostscript cannot read is a finding."""
    dpi = small_dpi(source.page(number), settings.box)
    try:
        page = prepare(source, number, settings.but(dpi=dpi), book, scratch)
    except PressError as refusal:
        return PageReport((Finding("pdf", FAULT, number, refusal.message, refusal.status),))
    return check_page(page, settings, book)


def check_page(page: Page, settings: Settings, book: InkBook, place: str | None = None,
               layout: Layout | None = None) -> PageReport:
    """The findings of a page that is rendered, at whatever resolution, and what it takes at the settings' one.
    `place` is where it will be, or None, and `layout` its layout, if that is known. Faults and warnings do not stop
    the checks that follow."""
    found = list(ghostscript_findings(page))
    if page.info is None:
        return PageReport(tuple(found))
    found += ink_findings(page, book)
    inked = sum(ink.has_ink for ink in page.inks)
    needs = needs_of(page.info, settings, page, inked)
    size = size_finding(page.info, settings, page.number, max(1, inked))
    found += [size] if size else []
    found += room_findings(needs, place)
    found += image_findings(page, page.info, settings)
    found += layout_findings(page, page.info, settings, layout)
    found += content_findings(page, page.info, settings)
    return PageReport(tuple(dict.fromkeys(found)), needs)


def merged(findings: Sequence[Finding], source: Source, page: int, report: PageReport,
           settings: Settings) -> list[Finding]:
    """The findings of a file with those of a page, whose size is checked anew once its plates with ink are known."""
    info = source.page(page)
    early = size_finding(info, settings, page, 1) if info and report.needs else None
    return list(dict.fromkeys([one for one in findings if one != early] + list(report.findings)))


def ghostscript_findings(page: Page) -> Iterator[Finding]:
    """What Ghostscript repaired, the form fields that it gives an appearance, and the fonts that the PDF lacks."""
    repairs = page.rendering.repairs
    names = fields_without_appearance(page.source, page.number) if OF_FIELDS in repairs else []
    if names:
        yield Finding("form-field", NOTE, page.number, f"the PDF gives no appearance for the form "
                      f"{'field' if len(names) == 1 else 'fields'} {', '.join(names)}: Ghostscript draws it")
        repairs = tuple(one for one in repairs if one != OF_FIELDS)
    if repairs:
        yield Finding("repaired", WARNING, page.number, "Ghostscript finds faults in the PDF, and goes on as well as "
                      "it can: " + "; ".join(repairs))
    for font, taken in page.rendering.fonts:
        yield Finding("font", WARNING, page.number, f"the PDF lacks the font {font}; {taken} stands in its place")


def ink_findings(page: Page, book: InkBook) -> Iterator[Finding]:
    """A blank page, spellings, inks that are not known for sure, and technical inks that knock out."""
    inked = [ink for ink in page.inks if ink.has_ink]
    if not inked:
        yield Finding("blank", NOTE, page.number, "the page is blank: no plate has ink")
    yield from spelling_findings(page)
    yield from twin_findings(page)
    for ink in page.inks:
        yield from figure_findings(ink, page.inks, book, page.number)
        if ink in inked and book.is_technical(ink):
            others = [other.name for other in inked if other is not ink]
            count, (column, row) = knocked_out(page.rendering.plates, ink.name, others)
            if count >= KNOCK_OUT_SAMPLES:
                yield replace(knock_out_finding(ink, page.number),
                              place=content.pixel_place(page.rendering.plates, column, row))


def figure_findings(ink: Ink, inks: Sequence[Ink], book: InkBook, page: int | None) -> Iterator[Finding]:
    """Figures of an ink that give way to others, and those that are not known for sure."""
    yield from (Finding("overridden", NOTE, page, line) for line in book.lost_lines(ink, inks))
    yield from (Finding(kind, level, page, line) for kind, level, line in unsure_lines(ink))


def spelling_findings(page: Page) -> Iterator[Finding]:
    """Spots whose names are one but for capitals, blanks or accents: mostly one ink in two spellings."""
    spots = [ink.colorant for ink in page.inks if not ink.is_process]
    for at, one in enumerate(spots):
        for other in spots[:at]:
            if folded(one) and folded(one) == folded(other):
                yield Finding("ink-twice", WARNING, page.number, f"{readable(other)} and {readable(one)} are two "
                              f"plates, and may be one ink in two spellings")


def twin_findings(page: Page) -> Iterator[Finding]:
    """Swatches of one number with other letters for the paper, which are one ink."""
    for kept, other in twins(page.rendering.separations):
        if folded(kept) != folded(other):
            yield Finding("ink-twice", WARNING, page.number, f"{readable(kept)} and {readable(other)} are two plates, "
                          f"and are one ink (--merge-suffixes, or --merge)")


def knock_out_finding(ink: Ink, page: int) -> Finding:
    """That a technical ink knocks out what lies under it."""
    # An owner who gave the kind knows the ink, a foil on unprinted paper say.
    level = NOTE if ink.kind_from.rank in ("told", "house") else WARNING
    edge = "is trapped like that of any ink" if counts(ink.kind) else "gets no trap"
    return Finding("knock-out", level, page, f"{readable(ink.colorant)} knocks out the colours below it: set it to "
                   f"overprint if it is a die line; if it is foil or another ink on the sheet, this edge {edge}")


def knocked_out(plates: Plates, technical: str, others: Sequence[str]) -> tuple[int, tuple[int, int]]:
    """How many samples have a technical ink and none of the others, beside one that has others and not the
    technical one; and the column and row of the first one. The plates are looked at in bands of rows."""
    count, place = 0, (0, 0)
    for first, end, top, bottom in plates.bands(BAND_ROWS, 1):
        ink = plates[technical][top:bottom]
        if not (ink <= MUCH).any():
            continue
        much, some = (numpy.zeros(ink.shape, dtype=bool) for _ in range(2))
        for name in others:
            other = plates[name][top:bottom]
            much |= other <= MUCH
            some |= other < LITTLE
        hole = ((ink <= MUCH) & ~some & thickened(much & (ink >= LITTLE)))[first - top:end - top]
        if hole.any() and not count:
            row, column = numpy.unravel_index(int(hole.argmax()), hole.shape)
            place = int(column), first + int(row)
        count += int(hole.sum())
    return count, place


# What a page takes

def sheet_memory(width: int, plates: int) -> int:
    """The bytes that trapsheet takes: they grow with the width and the plates, and not with the height. Strips
    of wide sheets have fewer rows, and those of narrow ones more."""
    row = width * max(plates, 1)
    if row <= NARROW:
        return STRIP_BYTES * row * 2 * STRIP_ROWS
    return STRIP_BYTES * row * min(STRIP_ROWS, max(LEAST_STRIP_ROWS, STRIP_SAMPLES // row))


def trapping_memory(settings: Settings, width: int, height: int, plates: int) -> int:
    """The bytes that the trapping program takes for a page of so many plates with ink."""
    return width * height * plates * TABLE_BYTES if settings.by_page_program else sheet_memory(width, plates)


def needs_of(info: PageInfo, settings: Settings, page: Page, inked: int) -> Needs:
    """What a page takes: CPU time, memory, and disk for plates before and after and TIFF files."""
    width, height = info.samples(settings.box, settings.dpi)
    samples = width * height * max(1, inked)
    memory = trapping_memory(settings, width, height, max(1, inked))
    seconds, disk = samples * SECONDS_A_SAMPLE + SECONDS_A_PAGE, width * height * (len(page.inks) + inked)
    return Needs(page.number, width, height, len(page.inks), inked, samples, round(seconds, 1), memory, disk)


def room_findings(needs: Needs, place: str | None) -> Iterator[Finding]:
    """Whether the machine has what a page takes. A full disk is a fault if it is known that the plates go there."""
    free = free_room(place or ".")
    if needs.disk > free:
        yield Finding("disk", FAULT if place else WARNING, needs.page, room_line(needs.disk, free),
                      Status.OUTPUT if place else Status.WARNED)
    memory = os.sysconf("SC_PAGE_SIZE") * os.sysconf("SC_PHYS_PAGES")
    if needs.memory > memory:
        yield Finding("memory", WARNING, needs.page, f"the page takes about {size_text(needs.memory)} of memory, and "
                      f"the machine has {size_text(memory)}")


def image_findings(page: Page, info: PageInfo, settings: Settings) -> Iterator[Finding]:
    """How many images a page has, and how much of it the largest covers."""
    if page.untraced:
        yield Finding("images", WARNING, page.number, page.untraced)
    bounds = images.image_bounds(page.trace.images, info, settings.box) if page.trace else []
    if bounds:
        width, height = info.size(settings.box)
        largest = max(one.area for one in bounds) / width / height
        count = "an image" if len(bounds) == 1 else f"{len(bounds)} images, the largest"
        above = "line work that lies over them neither"
        above = "but at type and line work above them" if settings.over_images else above
        yield Finding("images", NOTE, page.number, f"{count} over {percent(largest)} of the page: within images "
                      f"nothing is trapped, {above} (--trap-images traps there)")


def content_findings(page: Page, info: PageInfo, settings: Settings) -> Iterator[Finding]:
    """What is found in the content of a page: ink, colours, type, lines and images."""
    plates, inks, number = page.rendering.plates, page.inks, page.number
    step = settings.parameters["step"].number if "step" in settings.parameters else USUAL_STEP
    yield from content.coverage_findings(page.coverage(settings), number, settings.total_ink)
    yield from content.untrapped_edges(plates, inks, number, step)
    yield from content.font_findings(page.source.pdf, number, [font for font, _ in page.rendering.fonts])
    if page.trace:
        yield from content.colour_findings(page.trace, info, settings, number)
        yield from content.line_findings(page.trace, info, settings, number)
        if plates.resolution < settings.dpi:
            # Rendered small, a page is measured by its type, and not by its strokes.
            yield from content.type_findings(page.trace, info, settings, number)
        yield from content.reversed_findings(page.trace, plates, inks, info, settings, number)
        yield from content.white_type_findings(page.trace, plates, inks, info, settings, number)


def layout_findings(page: Page, info: PageInfo, settings: Settings, layout: Layout | None) -> Iterator[Finding]:
    """How much of a page is not trapped, and why; boxes and layers of the options that it does not have."""
    lines = [box_line(info, settings), *(layer_lines(page.trace, settings) if page.trace else ())]
    yield from (Finding("trap-within", WARNING, page.number, line) for line in lines if line)
    line = (layout or layout_of(page, settings.but(thin_zones=False))).untrapped_line(trap_box(info, settings)[1])
    if line:
        yield Finding("not-trapped", NOTE, page.number, line)

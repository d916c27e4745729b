# SPDX-License-Identifier: Apache-2.0
"""One page from a source: what is known of it once it is rendered, and the folder that is made of that."""
import functools
import os
from collections.abc import Iterator, Sequence
from dataclasses import dataclass, field, replace
from typing import Any

from . import job, keepaway, precedence
from .ahead import Ahead, KnownParts, look_ahead, traced
from .content import Coverage, coverage_of, intent_profile
from .crew import ALONE, Crew
from .errors import UsageError
from .files import named, size_text
from .folder import JOB, TABLE, ZONES, PageFolder, PageSource, write_table
from .icc import need_press_profile
from .inkedits import InkEdits, edit_plates, pairs_of, same_swatches
from .inks import Ink, InkBook, folded
from .job_record import DONE, digest_of
from .layout import FindStrokes, Layout, lay_out, trap_box
from .names import readable
from .pairs import directed, pairs_file, read_pairs
from .plates import write_pgm
from .rects import Rect
from .render import Rendering, render
from .settings import Settings
from .source import PageInfo, Source
from .strokes import find_strokes
from .trace import Trace


@dataclass(frozen=True)
class Page:
    """A page that is rendered: what the PDF says of it, its plates and inks, and what it paints. Without
    `trace`, `untraced` says why images are not looked for; neither is there if that was not asked for."""

    source: Source
    number: int
    info: PageInfo | None
    rendering: Rendering
    inks: tuple[Ink, ...]
    trace: Trace | None
    untraced: str | None
    parts: KnownParts | None = None
    known_coverage: dict[Rect | None, Coverage] = field(default_factory=dict, compare=False)

    @property
    def place(self) -> str:
        """The page as a line names it."""
        return self.source.place(self.number)

    def coverage(self, settings: Settings) -> Coverage:
        """How much ink the page takes: by plate, and the highest sum within the box in which traps may be."""
        within = trap_box(self.info, settings)[0]
        if within not in self.known_coverage:
            self.known_coverage[within] = coverage_of(self.rendering.plates, self.inks, within)
        return self.known_coverage[within]


def prepare(source: Source, number: int, settings: Settings, book: InkBook, scratch: str, crew: Crew = ALONE) -> Page:
    """Renders a page in a scratch folder, and looks at what it paints, meanwhile if the crew can."""
    info = source.page(number)
    profile = os.path.join(scratch, "intent.icc")
    if settings.output_intent and not settings.icc and intent_profile(source.pdf, profile):
        need_press_profile(profile, f"{source.path}: the profile of its output intent")
        settings = settings.but(icc=profile)
    later = crew.beside(functools.partial(look_ahead, source, number, settings, book, scratch))
    edits = edits_of(settings, book)
    rendering = edit_plates(render(source, number, settings, scratch), edits, scratch, source.place(number))
    inks = book.page_inks(rendering.separations, rendering.plates.has_ink())
    if pairs := pairs_file(settings, source.path):
        inks = tuple(directed(inks, read_pairs(pairs)))
    within = trap_box(info, settings)[0]
    coverage = coverage_of(rendering.plates, inks, within, crew)
    seen = later.result() if later.is_started else Ahead(*traced(source, number, info, settings))
    return Page(source, number, info, rendering, inks, seen.trace, seen.untraced, None if edits else seen.parts,
                {within: coverage})


def option_edits(settings: Settings) -> InkEdits:
    """What options say of plates."""
    return InkEdits(pairs_of(settings.merge, "--merge", UsageError), pairs_of(settings.rename, "--rename", UsageError),
                    frozenset(map(os.fsencode, settings.to_process)), frozenset(map(os.fsencode, settings.drop)),
                    settings.merge_suffixes)


def edits_of(settings: Settings, book: InkBook) -> InkEdits:
    """What options and tables say of plates. What an option says of an ink overrides the tables."""
    own = option_edits(settings)
    told = [edit for edit in book.edits() if folded(edit[1]) not in map(folded, own.inks)]

    def of(action: str) -> list[tuple[bytes, bytes]]:
        return [(name, value) for one, name, value in told if one == action]
    return InkEdits({**dict(of("merge")), **own.merge}, {**dict(of("rename")), **own.rename},
                    own.to_process | dict(of("to-process")).keys(), own.drop | dict(of("drop")).keys(),
                    own.merge_suffixes)


def lost_edits(settings: Settings, book: InkBook) -> Iterator[str]:
    """A line for each plate of which tables and options say different things."""
    own = {folded(name): name for name in option_edits(settings).inks}
    for action, name, value in book.edits():
        if folded(name) in own:
            given = "=".join(filter(None, (action, readable(value))))
            shown = readable(own[folded(name)])
            yield f"{given} of {readable(name)} in the tables gives way to the options for {shown}"
    yield from book.lost_edits()


def pdf_line(settings: Settings, book: InkBook, spots: Sequence[bytes]) -> str | None:
    """Why a file with these spots gets no trapped PDF, if one is asked for: options or tables edit some of them."""
    edits = edits_of(settings, book)
    edited = {folded(name) for name in edits.inks}
    twins = same_swatches(spots) if edits.merge_suffixes else {}
    names = sorted({readable(name) for name in spots if folded(name) in edited or name in twins})
    return f"a trapped PDF keeps all inks of the PDF, and {', '.join(names)} would be merged, renamed, dropped or " \
           "turned into process inks: leave out --pdf, or change the PDF" if settings.pdf and names else None


def layout_of(page: Page, settings: Settings) -> Layout:
    """What is in the page's job before showpage: what the owner sets, and the press room's own zones."""
    own = precedence.own_statements(settings, page.source.path, page.number)
    settings = settings.but(pairs=pairs_file(settings, page.source.path))
    find: FindStrokes = find_strokes
    if page.parts:
        find = page.parts.of(page.rendering.plates, page.inks)
    return lay_out(own, page.info, page.trace, page.rendering.plates, page.inks, settings, find)


def write_page(page: Page, settings: Settings, folder: str, layout: Layout | None = None) -> PageFolder:
    """Writes the plates, the job, the layout and the table of a page into a folder that is there."""
    for name, array in zip(page.rendering.plates.names, page.rendering.plates.arrays):
        write_pgm(os.path.join(folder, name + ".pgm"), array, page.rendering.plates.maxval)
    source = PageSource(os.fsencode(os.path.basename(page.source.path)), page.number, settings.dpi)
    found = page.coverage(settings)
    coverage = tuple(zip((ink.name for ink in page.inks), found.plates))
    layout = replace(layout or layout_of(page, settings), coverage=coverage, total_ink=found.total)
    return write_folder(folder, source, page.inks, layout)


def write_folder(folder: str, source: PageSource, inks: tuple[Ink, ...], layout: Layout) -> PageFolder:
    """Writes the job, the layout and the table of a page whose plates are in the folder."""
    with named(os.path.join(folder, JOB)), open(os.path.join(folder, JOB), "wb") as file:
        file.write(job.write_job(source, inks, layout.statements).text)
    layout.write(os.path.join(folder, ZONES))
    write_table(folder, source, inks)
    return PageFolder.read(folder)


def record_of(page: Page, settings: Settings, made: PageFolder) -> dict[str, Any]:
    """What the record of a job says of a page: its box in points of the PDF, its pixels, its inks, and the digests of
    its job and its table as they were made."""
    points = [round(side, 4) for side in page.info.box(settings.box)[0]] if page.info else None
    inks = [{"name": readable(ink.colorant), "job_name": ink.name, "density": ink.density, "kind": ink.kind,
             "role": ink.role, "blank": not ink.has_ink} for ink in made.inks]
    return {"state": DONE, "box": {"name": settings.box, "points": points}, "resolution": settings.dpi,
            "width": made.head.width, "height": made.head.height, "inks": inks,
            "digests": {"job": digest_of(made.file(JOB)), "table": digest_of(made.file(TABLE))},
            **keepaway.asked(settings)}


def room_line(size: int, free: int) -> str:
    """That a page takes more of the disk than there is."""
    return f"the page takes about {size_text(size)} of disk, and there are {size_text(free)}"

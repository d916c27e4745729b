# SPDX-License-Identifier: Apache-2.0
"""A page written to a folder of its own: from a PDF, or from the separations of another RIP."""
import os
import shutil
from collections.abc import Iterable, Sequence
from dataclasses import dataclass

from . import precedence, preflight, tiff, tools
from .errors import PressError, Status, UsageError
from .events import FindingMade, Observer, RunStarted, silent
from .files import folder_beside, put_folder
from .findings import NOTE, WARNING, Finding, refuse
from .folder import TABLE, PageFolder, PageSource
from .inks import InkBook, Separation, open_book
from .job_record import input_file, part_of, write_record
from .layout import lay_out
from .names import MOST_PLATES, PROCESS, job_names
from .page import layout_of, prepare, record_of, write_folder, write_page
from .plates import is_blank, read_plates, write_pgm
from .recorded import options_from, without_run_only
from .settings import Settings
from .source import open_source


def judge_place(folder: str, force: bool) -> None:
    """Refuses a folder that is not new or empty; by `force` one of plates may be replaced."""
    if not os.path.lexists(folder):
        return
    if not os.path.isdir(folder):
        raise PressError(Status.OUTPUT, "exists and is no folder", folder)
    if os.listdir(folder) and not (force and os.path.isfile(os.path.join(folder, TABLE))):
        message = "exists and is not empty (--force replaces a folder that press/plates made)"
        raise PressError(Status.OUTPUT, message, folder)


def report(path: str, findings: Iterable[Finding], observer: Observer) -> None:
    """Refuses the first fault, or reports what was found."""
    found = list(findings)
    refuse(path, found, False)
    for one in found:
        observer(FindingMade(one))


def make_page(path: str, folder: str, number: int = 1, settings: Settings = Settings(), force: bool = False,
              observer: Observer = silent) -> PageFolder:
    """Makes a page of a file, counted from 1, into a folder that is new or empty: its plates, its job and its
    table of colorants."""
    file = input_file(path)
    judge_place(folder, force)
    book = open_book(settings, path)
    precedence.own_statements(settings, path, number)
    tools.tool("gs")
    with folder_beside(folder) as made:
        scratch = os.path.join(made, "scratch")
        os.mkdir(scratch)
        source = open_source(path, scratch, settings.time)
        observer(RunStarted(path, (number,), source.count, source.converted))
        report(path, preflight.check_file(source, settings, book, [number]), observer)
        page = prepare(source, number, settings, book, scratch)
        report(path, preflight.ghostscript_findings(page), observer)
        layout = layout_of(page, settings)
        done = record_of(page, settings, write_page(page, settings, made, layout))
        options = without_run_only(options_from(settings, os.path.dirname(folder)))
        write_record(made, part_of(file, number, options, done))
        if page.untraced:
            report(path, [Finding("images", WARNING, number, page.untraced)], observer)
        for ink in page.inks:
            report(path, preflight.figure_findings(ink, page.inks, book, number), observer)
        report(path, layout.findings(number, settings.dpi), observer)
        shutil.rmtree(scratch)
        put_folder(made, folder)
    return PageFolder.read(folder)


# Plates of another RIP

@dataclass(frozen=True)
class TiffPlates:
    """Plates of another RIP: of each the colorant's name and a TIFF file; the resolution, if it is not to be
    read from the files; and whether white is full ink."""

    files: tuple[tuple[str, str], ...]
    dpi: int | None = None
    inverted: bool = False

    @classmethod
    def of(cls, words: Sequence[str], dpi: int | None, inverted: bool) -> "TiffPlates":
        """The plates that --tiff NAME=FILE names."""
        found: list[tuple[str, str]] = []
        for word in words:
            name, equals, path = word.partition("=")
            if not equals or not name or not path:
                raise UsageError(f"--tiff is NAME=FILE, and not '{word}'")
            if any(name == other for other, _ in found):
                raise UsageError(f"--tiff: {name} stands there twice")
            found.append((name, path))
        if len(found) > MOST_PLATES:
            raise UsageError(f"--tiff: {len(found)} plates, and a job has at most {MOST_PLATES}")
        return cls(tuple(found), dpi, inverted)

    @property
    def title(self) -> bytes:
        """The name of the file that these are the separations of."""
        first = os.path.basename(self.files[0][1])
        return os.fsencode(first.partition("(")[0].removesuffix(".tif") + ".tif")

    def separations(self) -> list[Separation]:
        """The colorants."""
        colorants = [os.fsencode(name) for name, _ in self.files]
        return [Separation(colorant, tiff.suffix_of(colorant), PROCESS[name][1] if name in PROCESS else None, spelled)
                for colorant, (name, _), spelled in zip(colorants, self.files, job_names(colorants))]


def make_of_tiffs(given: TiffPlates, folder: str, settings: Settings = Settings(), force: bool = False,
                  observer: Observer = silent) -> PageFolder:
    """Makes a page of separations that another RIP made."""
    files = [tiff.open_separation(path) for _, path in given.files]
    settings = settings.but(dpi=tiff.resolution_of(given.dpi, files))
    judge_place(folder, force)
    book = InkBook(settings, settings.inks)
    own = precedence.in_order(settings, precedence.read_statements([settings.zones] if settings.zones else []))
    separations, has_ink = given.separations(), []
    with folder_beside(folder) as made:
        for one, file in zip(separations, files):
            array, maxval = tiff.read_separation(file, given.inverted), (1 << file.bits) - 1
            write_pgm(os.path.join(made, one.name + ".pgm"), array, maxval)
            has_ink.append(not is_blank(array, maxval))
        inks = book.page_inks(separations, has_ink)
        plates = read_plates({ink.name: os.path.join(made, ink.name + ".pgm") for ink in inks}, settings.dpi)
        layout = lay_out(own, None, None, plates, inks, settings)
        write_folder(made, PageSource(given.title, 1, settings.dpi), inks, layout)
        found = [*(one for ink in inks for one in preflight.figure_findings(ink, inks, book, None)),
                 *(Finding("inks-line", WARNING, None, line) for line in book.strangers()),
                 *(Finding("overridden", NOTE, None, line) for line in precedence.lost_lines(settings, own))]
        found += layout.findings(None, settings.dpi)
        line = tiff.overruled(given.dpi, files)
        found += [Finding("resolution", WARNING, None, line)] if line else []
        report(folder, found, observer)
        put_folder(made, folder)
    return PageFolder.read(folder)

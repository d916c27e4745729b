# SPDX-License-Identifier: Apache-2.0
"""The work on one page of a run: its steps, in order, and what is kept of it if one fails."""
import contextlib
import os
import shutil
import time
from collections.abc import Iterable, Iterator, Sequence
from dataclasses import dataclass, field

from . import engine, identity, job_record, look, page as pages_of_source, preflight, proof, tiff, unchanged
from .crew import Budget, Crew
from .errors import PressError, Status, refusal_of
from .events import FindingMade, Observer, PageDone, PageFailed, StepDone, StepStarted, Warned
from .files import disk_use, folder_beside, free_room, is_full
from .findings import Finding, refuse
from .folder import TIFF, TRAPPED, WARNINGS, JobFolder, PageFolder, layout_in, read_table
from .inks import InkBook
from .keepaway import BEGUN
from .layout import Layout
from .names import PROCESS, clean
from .recorded import options_from, without_run_only
from .settings import Settings
from .source import Source

OF_STROKES = ("parts", "lines", "zones", "own_before", "own_after")


class StepFailed(Exception):
    """A step of a page failed: its command, and the refusal."""

    def __init__(self, command: str, refusal: PressError) -> None:
        super().__init__(command, refusal)
        self.command, self.refusal = command, refusal


@dataclass
class PageWork:
    """The work on one page of a run."""

    given: identity.Input
    source: Source
    settings: Settings
    book: InkBook
    job: JobFolder
    found: list[Finding]
    number: int
    observer: Observer
    budget: Budget | None = None
    crew: Crew = field(init=False)

    def __post_init__(self) -> None:
        self.crew = Crew(self.budget)

    @contextlib.contextmanager
    def step(self, what: str, command: str) -> Iterator[None]:
        """A step of the page: its beginning and its end are events, and a failure names its command."""
        self.observer(StepStarted(self.number, what))
        start = time.monotonic()
        try:
            yield
        except (PressError, OSError) as fault:
            raise StepFailed(command, refusal_of(fault, self.job.page(self.number))) from fault
        self.observer(StepDone(self.number, what, time.monotonic() - start))

    def refuse(self) -> None:
        """Refuses the page where its findings call for that."""
        refuse(self.source.path, [one for one in self.found if one.page == self.number], self.settings.strict)

    def need_room(self) -> None:
        """Refuses a page whose plates alone take more of the disk than there is, before they are made."""
        if info := self.source.page(self.number):
            width, height = info.samples(self.settings.box, self.settings.dpi)
            need, free = width * height * (len(PROCESS) + len(info.spots)), free_room(self.job.path)
            if need > free:
                raise PressError(Status.OUTPUT, pages_of_source.room_line(need, free), self.source.place(self.number))

    def look(self, scratch: str) -> tuple[pages_of_source.Page, Layout]:
        """Renders the page, lays it out, and checks it."""
        self.refuse()
        self.need_room()
        page = pages_of_source.prepare(self.source, self.number, self.settings, self.book, scratch, self.crew)
        layout = pages_of_source.layout_of(page, self.settings)
        self.find(preflight.check_page(page, self.settings, self.book, self.job.path, layout).findings)
        self.refuse()
        return page, layout

    def find(self, findings: Iterable[Finding]) -> None:
        """Keeps findings, and hands them to the observer."""
        for one in findings:
            self.found.append(one)
            self.observer(FindingMade(one))

    def make(self, folder: str) -> engine.Report | None:
        """Goes the whole way into a folder: plates, traps, TIFF files, pictures and proof; None if the page has not
        changed, and keeps what it has."""
        scratch = os.path.join(os.path.dirname(folder), "scratch")
        with self.step("a look", "press-preflight"):
            os.mkdir(scratch)
            page, layout = self.look(scratch)
        with self.step("plates", "press-plates"):
            os.mkdir(folder)
            made = pages_of_source.write_page(page, self.settings, folder, layout)
            part = self.part(pages_of_source.record_of(page, self.settings, made))
            job_record.write_record(folder, part)
            self.find(layout.findings(self.number, self.settings.dpi))
            self.write_warnings(made)
            # Ghostscript's planes are not needed any more.
            del page
            shutil.rmtree(scratch)
        if self.settings.only_changed:
            if unchanged.is_unchanged(self.job.page(self.number), made, part):
                unchanged.keep(self.job.page(self.number), made, part)
                return None
            self.remove_old()
        with self.step("traps", "press-trap"):
            trapped = self.trap(made)
            self.warn("press-trap", trapped.warnings)
        if self.settings.tiff:
            with self.step("TIFF files", "press-tiff"):
                tiff.write_tiffs(made, made.file(TIFF), tiff.TiffOptions(self.settings), self.crew)
        if self.settings.look:
            with self.step("pictures", "press-look"):
                look.draw_pictures(made)
        if self.settings.proof:
            self.make_part(made)
        return trapped.report

    def trap(self, made: PageFolder) -> engine.Trapped:
        """Traps the page with the threads that --workers gives, else with the processors that are free."""
        if self.settings.workers or self.settings.by_page_program:
            return engine.trap(made, self.settings)
        with self.crew.threads(engine.USUAL_THREADS) as threads:
            return engine.trap(made, self.settings.but(workers=threads))

    def remove_old(self) -> None:
        """Removes what an earlier run made of the page."""
        try:
            self.job.remove_old(self.number)
        except PressError as refusal:
            raise StepFailed("press-all", refusal) from refusal

    def part(self, page: job_record.Record) -> job_record.Record:
        """The record of the page, of which so much is known."""
        options = without_run_only(options_from(self.settings, self.job.path))
        return job_record.part_of(self.given.file, self.number, options, page)

    def need_same(self) -> None:
        """Refuses the page if its file was replaced since the start of the run."""
        if line := self.given.changed_line():
            raise StepFailed("press-all", PressError(Status.INPUT, line))

    def make_part(self, made: PageFolder) -> None:
        """What the page gives to the proof sheet. If it cannot be drawn, of a page that is too large for this
        machine say, the plates are kept."""
        try:
            with self.step("proof", "press-proof"):
                proof.write_part(made.path, self.crew)
        except StepFailed as failed:
            why = f"{failed.command}: {failed.refusal}"
            self.warn("press-all", [f"{self.source.place(self.number)}: no proof is drawn: {why}"])

    def warn(self, command: str, texts: Sequence[str]) -> None:
        """Warnings of a step."""
        for text in texts:
            self.observer(Warned(self.number, command, text))

    def write_warnings(self, made: PageFolder) -> None:
        """Keeps the findings that concern the page in its folder."""
        lines = [clean(f"{one.level}: {one.kind}: {one.text}") + "\n" for one in self.found
                 if one.page in (self.number, None)]
        with open(made.file(WARNINGS), "w", encoding="utf-8", errors="surrogateescape") as file:
            file.writelines(lines)

    def do(self) -> PageDone | PageFailed:
        """Does the page: its folder is in OUT whole, or what was made of it under another name, with the
        line that says why."""
        start, final = time.monotonic(), self.job.page(self.number)
        with folder_beside(self.job.path, inside=True) as made:
            folder = os.path.join(made, "page")
            try:
                if not self.settings.only_changed:
                    self.remove_old()
                report = self.make(folder)
                self.need_same()
            except StepFailed as failed:
                changed = self.given.changed_line()
                why = f"press-all: {changed}" if changed else f"{failed.command}: {failed.refusal}"
                for temporary in (folder, os.path.join(made, "scratch"), made):
                    why = why.replace(temporary, self.job.failed(self.number))
                if is_full(failed.refusal.__cause__):
                    # The other pages get the room.
                    shutil.rmtree(made, ignore_errors=True)
                with contextlib.suppress(PressError):
                    self.job.remove_old(self.number)
                self.job.keep_failed(self.number, folder, why, self.part({}))
                return PageFailed(self.number, failed.refusal.status, why)
            if report:
                if self.settings.tiff_only:
                    unchanged.record_plates(folder, self.number)
                    drop_plates(folder)
                os.rename(folder, final)
        told = report or engine.read_report(final)
        return PageDone(self.number, len(read_table(final)[1]), told.changed, time.monotonic() - start, disk_use(final),
                        report is None, thin_strokes(final))


def thin_strokes(folder: str) -> dict[str, float] | None:
    """What the layout of a page says of its thin strokes, without their places; None if it has none."""
    thin = layout_in(folder).get("thin")
    return {name: thin[name] for name in OF_STROKES} if thin else None


def drop_plates(folder: str) -> None:
    """Leaves of a page what is no plate."""
    for place in (folder, os.path.join(folder, TRAPPED)):
        for file in os.listdir(place):
            if file.endswith(".pgm"):
                os.remove(os.path.join(place, file))
    shutil.rmtree(os.path.join(folder, TRAPPED, BEGUN), ignore_errors=True)

# SPDX-License-Identifier: Apache-2.0
"""One run: the pages of a file from PDF to proof, each in a process of its own, so that a page that crashes
ends alone."""
import contextlib
import multiprocessing
import multiprocessing.connection
import os
import traceback
from collections.abc import Iterator, Sequence
from dataclasses import dataclass
from multiprocessing.connection import Connection

from . import crew, engine, identity, job_record, pdf_beside, preflight, proof, tools
from .errors import PressError, Status, refusal_of
from .events import (Event, FindingMade, Observer, PageDone, PageFailed, RunDone, RunStarted, StepStarted, Warned,
                     silent)
from .files import LOCK, folder_beside, locked, scratch_folder, sweep
from .findings import Finding, refuse
from .folder import JobFolder
from .inks import InkBook, open_book
from .page_work import PageWork
from .settings import Settings
from .source import Source, open_source

HELD = "PRESS_HELD"


@dataclass(frozen=True)
class RunResult:
    """What came of a run: of each page whether it is done or failed, and what preflight found in the file and its
    pages."""

    pages: dict[int, PageDone | PageFailed]
    findings: tuple[Finding, ...]
    # Why there is no trapped PDF, if one was asked for.
    no_pdf: str | None = None

    @property
    def failed(self) -> tuple[int, ...]:
        """The pages that failed."""
        return tuple(page for page, end in self.pages.items() if isinstance(end, PageFailed))

    @property
    def status(self) -> Status:
        """The status of a command that made this run."""
        return Status.PAGES_FAILED if self.failed or self.no_pdf else Status.DONE


@dataclass(frozen=True)
class Opened:
    """A file that is open for its pages: as it was when it was opened, and what is known of inks by some settings."""

    given: identity.Input
    source: Source
    settings: Settings | None = None
    book: InkBook | None = None

    def inks(self, settings: Settings) -> InkBook:
        """What is known of inks by these settings."""
        return self.book if self.book and self.settings == settings else open_book(settings, self.source.path)


# What this process has open already: the file of a farm, of which each page is a run.
OPEN_HERE: list[Opened] = []


@contextlib.contextmanager
def opened_file(path: str, settings: Settings, given: identity.Input) -> Iterator[Opened]:
    """A file while it is open. PostScript is converted."""
    if known := next((one for one in OPEN_HERE if one.given is given), None):
        yield known
        return
    with scratch_folder() as scratch:
        yield Opened(given, open_source(path, scratch, settings.time))


def taken(path: str) -> identity.Input:
    """The file as it is now; one that is open here already is not read again unless it was written to."""
    known = [one.given for one in OPEN_HERE if one.given.path == path and one.given.is_untouched()]
    return known[0] if known else identity.take(path)


@contextlib.contextmanager
def page_locks(job: JobFolder, pages: Sequence[int]) -> Iterator[None]:
    """Holds the folder for this run alone. Runs of single pages, as those of a cluster, may work in it beside
    each other, each page belonging to one run; press/farm holds the folder for the runs that it starts."""
    with contextlib.ExitStack() as stack:
        if not is_held(job.path):
            stack.enter_context(locked(os.path.join(job.path, LOCK), job.path, "press-all", shared=bool(pages)))
        for page in pages:
            place = os.path.join(job.path, f"{LOCK}-{page:03d}")
            stack.enter_context(locked(place, f"{job.path}: page {page}", "press-all"))
        sweep(job.path)
        yield


def is_held(out: str) -> bool:
    """Whether this run is a page of a farm, which holds the folder."""
    return os.environ.get(HELD) == os.path.realpath(out)


def is_one_of_many() -> bool:
    """Whether this run is one page's of a farm or of a cluster's array: the proof sheet is made after them."""
    return "SLURM_ARRAY_TASK_ID" in os.environ or bool(os.environ.get(HELD))


# Workers

def work(todo: PageWork, end: Connection, parent: int) -> None:
    """Does a page in a process of its own, and sends the events to the run."""
    tools.begin_process(parent)
    todo.observer = end.send
    try:
        with todo.crew:
            done = todo.do()
        end.send(done)
    except (PressError, OSError) as fault:
        refusal = refusal_of(fault, todo.job.page(todo.number))
        end.send(PageFailed(todo.number, refusal.status, f"press-all: {refusal}"))
    except MemoryError:
        end.send(PageFailed(todo.number, Status.OUTPUT, "press-all: there is not enough memory"))
    except Exception as fault:  # pylint: disable=broad-exception-caught
        traceback.print_exc()
        end.send(PageFailed(todo.number, Status.PROGRAM, f"press-all: {type(fault).__name__}: {fault}"))


class Workers:
    """The processes of pages that are at work, so many at once."""

    def __init__(self, observer: Observer) -> None:
        self.observer = observer
        self.active: dict[Connection, tuple[int, multiprocessing.process.BaseProcess]] = {}
        self.ends: dict[int, PageDone | PageFailed] = {}

    def start(self, todo: PageWork) -> None:
        """Starts a page."""
        with tools.signals_wait():
            ours, process = tools.forked(work, todo)
            self.active[ours] = todo.number, process

    def hear(self) -> None:
        """Waits for an event of a page, and hands it on."""
        for ready in multiprocessing.connection.wait(list(self.active)):
            assert isinstance(ready, Connection)
            number, process = self.active[ready]
            try:
                event: Event = ready.recv()
            except EOFError:
                del self.active[ready]
                process.join()
                if number in self.ends:
                    continue
                event = PageFailed(number, Status.OUTPUT, f"press-all: {crew.lost_line(process.exitcode)}")
            if isinstance(event, (PageDone, PageFailed)):
                self.ends[number] = event
            self.observer(event)

    def stop(self) -> None:
        """Stops what is still at work, and waits until it has cleared away what it made."""
        for _, process in self.active.values():
            process.terminate()
        for _, process in self.active.values():
            process.join()


def do_pages(todo: Sequence[PageWork], jobs: int, budget: crew.Budget,
             observer: Observer) -> dict[int, PageDone | PageFailed]:
    """Does pages, so many at once. What pages hold no more of the processors the others may take. Answers how each
    ended, in their order."""
    workers, waiting = Workers(observer), list(todo)
    try:
        while waiting or workers.active:
            while waiting and len(workers.active) < jobs:
                workers.start(waiting.pop(0))
            before = len(workers.active)
            workers.hear()
            if not waiting:
                budget.give(max(0, min(before, crew.processors()) - len(workers.active)))
    finally:
        workers.stop()
    for one in todo:
        keep_lost(one, workers.ends[one.number])
    return {one.number: workers.ends[one.number] for one in todo}


def keep_lost(todo: PageWork, end: PageDone | PageFailed) -> None:
    """Leaves the line that says why for a page whose process could not."""
    if isinstance(end, PageFailed) and not os.path.lexists(todo.job.failed(todo.number)):
        sweep(todo.job.path)
        with contextlib.suppress(PressError), folder_beside(todo.job.path, inside=True) as made:
            todo.job.keep_failed(todo.number, os.path.join(made, "page"), end.why, todo.part({}))


# The run

def check_file(source: Source, settings: Settings, book: InkBook, pages: Sequence[int],
               observer: Observer) -> list[Finding]:
    """Checks a file before any page is rendered. Refuses a fault of the whole file."""
    found = preflight.check_file(source, settings, book, pages)
    for one in found:
        observer(FindingMade(one))
    refuse(source.path, [one for one in found if one.page is None], settings.strict)
    return found


def run(path: str, out: str, settings: Settings = Settings(), pages: Sequence[int] = (),
        observer: Observer = silent) -> RunResult:
    """Goes the whole way for the pages of a file, all or those that are asked for, counted from 1. Each page
    that is done is in OUT/page-001 and so on. Refuses a file that cannot be read; a page that fails is in
    the result."""
    given, job = taken(path), JobFolder(out)
    if is_held(out):
        identity.need_same(job, given.file)
    else:
        identity.judge(job, job_record.read_record(out), given.file, settings.force, bool(pages))
    engine.trapping_program(settings)
    with opened_file(path, settings, given) as opened:
        source = opened.source
        numbers = list(pages) or list(range(1, source.count + 1))
        findings: list[Finding] = []

        def tell(event: Event) -> None:
            if isinstance(event, FindingMade):
                findings.append(event.finding)
            observer(event)

        tell(RunStarted(path, tuple(numbers), source.count, source.converted))
        book = opened.inks(settings)
        found = check_file(source, settings, book, numbers, tell)
        job.make()
        with page_locks(job, pages):
            if not is_held(out):
                identity.claim(job, given.file, source.count, settings, pages)
            with contextlib.closing(budget_of(settings, len(numbers))) as budget:
                todo = [PageWork(given, source, settings, book, job, list(found), number, silent, budget)
                        for number in numbers]
                ends = do_pages(todo, settings.jobs, budget, tell)
            finish(given, job, ends, tell)
            no_pdf = make_pdf(source, out, settings, observer) if settings.pdf and not is_one_of_many() else None
            if settings.proof and not is_one_of_many():
                make_sheet(out, observer)
    result = RunResult(ends, tuple(findings), no_pdf)
    observer(RunDone(result.failed))
    return result


def budget_of(settings: Settings, pages: int) -> crew.Budget:
    """The processors that the pages of a run may use beside one for each that is at work."""
    share = crew.share_of(os.environ[crew.AT_ONCE]) if crew.AT_ONCE in os.environ else crew.processors()
    return crew.Budget(share - min(settings.jobs, pages))


def finish(given: identity.Input, job: JobFolder, ends: dict[int, PageDone | PageFailed], observer: Observer,
           pages: Sequence[int] = ()) -> None:
    """Records the pages of a run, all that are in its folder or these alone. Those of a file that was replaced
    meanwhile become failures in `ends`."""
    if line := given.changed_line():
        done = [number for number, end in ends.items() if isinstance(end, PageDone)]
        for failed in identity.fail_mixed(job, done, line):
            ends[failed.page] = failed
            observer(failed)
    if not is_held(job.path):
        try:
            identity.gather(job, pages)
        except (PressError, OSError) as fault:
            observer(Warned(None, "press-all", f"the pages are not in the record: {refusal_of(fault, job.path)}"))


def make_pdf(source: Source, out: str, settings: Settings, observer: Observer) -> str | None:
    """The trapped PDF of all pages that are done. Answers why there is none."""
    observer(StepStarted(None, "trapped PDF"))
    try:
        for line in pdf_beside.write_beside(source, out, settings):
            observer(Warned(None, "press-pdf", f"{source.path}: {line}"))
        return None
    except (PressError, OSError) as fault:
        why = str(refusal_of(fault, out))
        observer(Warned(None, "press-pdf", f"no trapped PDF: {why}"))
        return why


def make_sheet(out: str, observer: Observer) -> None:
    """The proof sheet of all pages. If it fails the pages are kept."""
    observer(StepStarted(None, "proof sheet"))
    try:
        proof.write_sheet_of_all(out)
    except (PressError, OSError) as fault:
        observer(Warned(None, "press-all", f"{out}: no proof sheet: press-proof: {refusal_of(fault, out)}"))

# SPDX-License-Identifier: Apache-2.0
"""Pages of a cluster's array job that are made on a node's own disk and moved into OUT when they are done, so that the
files in between never go over the network."""
import contextlib
import os
import shutil
from collections.abc import Sequence

from . import identity, job_record
from .errors import PressError, Status, refusal_of
from .events import Event, Observer, PageDone, PageFailed, RunDone, RunStarted, silent
from .files import folder_beside, named
from .folder import JobFolder
from .recorded import options_from, without_run_only
from .runs import RunResult, finish, page_locks, run
from .settings import Settings

LOCAL, TASK = "PRESS_LOCAL", "SLURM_ARRAY_TASK_ID"


def local_disk() -> str | None:
    """The folder on the own disk of this node that PRESS_LOCAL names; None if this is no task of an array job."""
    return os.environ.get(LOCAL) or None if TASK in os.environ else None


def run_on(local: str, path: str, out: str, settings: Settings, pages: Sequence[int],
           observer: Observer = silent) -> RunResult:
    """Makes pages as `run` does, in a folder on the node's own disk, and moves each into OUT, whose record has it then.
    Tasks of other pages may do so at the same time. What an earlier run made of a page stays until then."""
    given, job = identity.take(path), JobFolder(out)
    identity.judge(job, job_record.read_record(out), given.file, settings.force, True)
    counts = []

    def tell(event: Event) -> None:
        if isinstance(event, RunStarted):
            counts.append(event.count)
        if not isinstance(event, (PageDone, PageFailed, RunDone)):
            observer(event)

    with folder_beside(local, inside=True) as scratch:
        made = JobFolder(os.path.join(scratch, "out"))
        result = run(path, made.path, settings, pages, tell)
        job.make()
        with page_locks(job, pages):
            identity.claim(job, given.file, counts[0], settings, pages)
            ends = {number: put(made, job, settings, end) for number, end in result.pages.items()}
            finish(given, job, ends, tell, pages)
    moved = RunResult(ends, result.findings)
    for event in (*ends.values(), RunDone(moved.failed)):
        observer(event)
    return moved


def put(made: JobFolder, job: JobFolder, settings: Settings, end: PageDone | PageFailed) -> PageDone | PageFailed:
    """Moves what was made of a page into OUT, in the place of what an earlier run made of it. Answers how the page
    ended there: on a full disk one that was done has failed."""
    number = end.page
    source = made.page(number) if isinstance(end, PageDone) else made.failed(number)
    record = record_from(source, number, settings, job.path)
    with folder_beside(job.path, inside=True) as beside:
        copy = os.path.join(beside, "page")
        try:
            copy_folder(source, copy)
            job_record.write_record(copy, record)
            job.remove_old(number)
            if isinstance(end, PageDone):
                os.rename(copy, job.page(number))
                return end
        except (PressError, OSError) as fault:
            shutil.rmtree(copy, ignore_errors=True)
            if isinstance(end, PageDone):
                end = PageFailed(number, Status.OUTPUT, f"press-all: {refusal_of(fault, job.page(number))}")
        with contextlib.suppress(PressError):
            job.remove_old(number)
        why = end.why.replace(made.path, job.path).replace(copy, job.failed(number))
        job.keep_failed(number, copy, why, record)
    return PageFailed(number, end.status, why)


def record_from(folder: str, number: int, settings: Settings, out: str) -> job_record.Record:
    """The record of a page, with paths of its options that start at OUT and not at the node's own disk."""
    record = job_record.read_record(folder)
    if page := job_record.page_of(record, number):
        options = without_run_only(options_from(settings, out))
        pages = {str(number): {**page, job_record.OPTIONS: options}}
        record.update({job_record.OPTIONS: options, job_record.PAGES: pages})
    return record


def copy_folder(source: str, end: str) -> None:
    """Copies a folder. A fault of the system names the file that could not be written."""
    for place, _, files in os.walk(source):
        there = os.path.normpath(os.path.join(end, os.path.relpath(place, source)))
        os.mkdir(there)
        for name in files:
            with named(os.path.join(there, name)):
                try:
                    shutil.copyfile(os.path.join(place, name), os.path.join(there, name))
                except OSError as fault:
                    fault.filename = fault.filename2 or fault.filename
                    raise

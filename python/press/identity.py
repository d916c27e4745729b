# SPDX-License-Identifier: Apache-2.0
"""Which file the folder OUT of a run belongs to: no page of another file, or of other bytes of the same name, is taken
for one of this job, and no page of a file that was replaced while it was processed is called done."""
import contextlib
import os
import time
from collections.abc import Sequence
from typing import NamedTuple

from .errors import PressError, Status
from .events import PageFailed
from .folder import SHEET, JobFolder, read_table
from .job_record import (DESK, FILE, OPTIONS, PAGES, InputFile, Record, changing_record, file_of, input_file, page_of,
                         read_record, sorted_pages)
from .recorded import options_from
from .settings import Settings

# A file that was changed so shortly before its digest was taken may have been changed again within the same tick.
RACY_NS = 2_000_000_000


class Input(NamedTuple):
    """The file of a run as it was at the start: its path, what a record keeps of it, and what the system said of it."""

    path: str
    file: InputFile
    stamp: tuple[int, ...]
    taken: int

    def is_untouched(self) -> bool:
        """Whether the system shows that nobody wrote to the file since."""
        return bool(self.stamp) and self.stamp == stamp_of(self.path) and self.stamp[-1] + RACY_NS < self.taken

    def changed_line(self) -> str | None:
        """The line for a file that has other bytes now; None if it has not."""
        if self.is_untouched():
            return None
        try:
            now = input_file(self.path)
        except PressError as refusal:
            return f"{self.path}: the file was taken away while it was processed: {refusal.message}"
        if now.sha256 == self.file.sha256:
            return None
        return (f"{self.path}: the file was replaced while it was processed (SHA-256 {self.file.short}.. at the start, "
                f"{now.short}.. now): no page is done")


def take(path: str) -> Input:
    """The file of a run as it is now. Refuses one that cannot be read."""
    taken, stamp = time.time_ns(), stamp_of(path)
    return Input(path, input_file(path), stamp, taken)


def stamp_of(path: str) -> tuple[int, ...]:
    """What changes if a file is replaced or written to; empty if there is none."""
    try:
        found = os.stat(path)
    except OSError:
        return ()
    return found.st_dev, found.st_ino, found.st_size, found.st_mtime_ns, found.st_ctime_ns


# The folder at the start of a run

def claim(job: JobFolder, file: InputFile, count: int, settings: Settings, pages: Sequence[int] = ()) -> None:
    """Makes OUT the folder of this file, which has `count` pages, before any page is made. Another name is refused
    without --force. If the same name has other bytes now, pages that it has no more are removed, as is what was made
    of all pages together, and approvals lapse."""
    with changing_record(job.path) as record:
        names = judge(job, record, file, settings.force, bool(pages))
        if names - {file.name}:
            record.pop(DESK, None)
        is_same = file_of(record) == file
        if names and not is_same:
            take_over(job, names, count)
            if not settings.only_changed:
                lapse(record)
        record[FILE] = vars(file).copy()
        if not (pages and is_same and OPTIONS in record):
            record[OPTIONS] = options_from(settings, job.path)
        record.setdefault(PAGES, {})


def judge(job: JobFolder, record: Record, file: InputFile, force: bool, is_part: bool) -> set[str]:
    """The names of the files whose pages are in OUT. Refuses another file's pages, and a part of the pages of other
    bytes, without `force`."""
    if not os.path.isdir(job.path):
        return set()
    old, names = file_of(record), names_in(job)
    names = {old.name} if old and any(job.pages(stale=True)) else names
    for name in sorted(names - {file.name}):
        if not force:
            raise PressError(Status.OUTPUT, f"has the pages of {name}, and not of {file.name}: take another folder "
                             f"(--force replaces them)", job.path)
    if names and old and old.sha256 != file.sha256 and is_part and not force:
        raise PressError(Status.OUTPUT, f"its pages are of other bytes of {file.name} (SHA-256 {old.short}.. then, "
                         f"{file.short}.. now): make all pages, or those that differ by --only-changed (--force makes "
                         f"these alone)", job.path)
    return names


def names_in(job: JobFolder) -> set[str]:
    """The names of the files that the pages in a folder are of."""
    done, _ = job.pages(stale=True)
    names = set()
    for folder in done.values():
        with contextlib.suppress(PressError):
            names.add(os.fsdecode(read_table(folder)[0].pdf))
    return names


def take_over(job: JobFolder, names: set[str], count: int) -> None:
    """Removes from a folder what would be taken for the new file's, but for the pages that are made anew one by one."""
    for pages in job.pages(stale=True):
        for number in pages:
            if number > count:
                job.remove_old(number)
    stems = [os.path.splitext(name)[0] for name in names]
    for name in (SHEET, *(f"{stem}-trapped.{end}" for stem in stems for end in ("pdf", "json"))):
        with contextlib.suppress(FileNotFoundError):
            os.remove(os.path.join(job.path, name))


def lapse(record: Record) -> None:
    """Ends the approvals of all pages. Those of pages that differ end by themselves, since they have a digest."""
    for said in record.get(DESK, {}).values():
        if isinstance(said, dict) and isinstance(said.get("approval"), dict):
            said["approval"].setdefault("lapsed", time.strftime("%Y-%m-%d %H:%M:%S%z"))


def need_same(job: JobFolder, file: InputFile) -> None:
    """Refuses a page of a farm whose file is not the one that the farm began with."""
    found = file_of(read_record(job.path))
    if found and found.sha256 != file.sha256:
        raise PressError(Status.INPUT, f"{file.name} has other bytes than at the start (SHA-256 {found.short}.. then, "
                         f"{file.short}.. now)", job.path)


# And at its end

def fail_mixed(job: JobFolder, pages: Sequence[int], line: str) -> list[PageFailed]:
    """Makes failures of the pages that a run has made of a file that was replaced meanwhile."""
    failed = []
    for number in pages:
        why = f"press-all: {line}"
        failed.append(PageFailed(number, Status.INPUT, why))
        if os.path.isdir(job.page(number)):
            job.keep_failed(number, job.page(number), why)
    return failed


def gather(job: JobFolder, pages: Sequence[int] = ()) -> None:
    """Takes the records of the page folders into that of the job: of all pages, or of these alone. Runs of single pages
    do so one after another."""
    with changing_record(job.path) as record:
        found: Record = dict(record.get(PAGES, {})) if pages else {}
        for number, folder in folders_of(job, pages).items():
            found.pop(str(number), None)
            with contextlib.suppress(PressError):
                if part := page_of(read_record(folder), number):
                    found[str(number)] = part
        record[PAGES] = sorted_pages(found)


def folders_of(job: JobFolder, pages: Sequence[int]) -> dict[int, str]:
    """The folders of these pages, or of all that are of this job's file. The others are not even looked at: an array
    job has thousands, over a network."""
    if pages:
        return {number: job.page(number) if os.path.isdir(job.page(number)) else job.failed(number) for number in pages}
    done, failed = job.pages()
    return {**{number: job.failed(number) for number in failed}, **done}

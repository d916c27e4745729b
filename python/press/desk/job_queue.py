# SPDX-License-Identifier: Apache-2.0
"""The jobs that wait and the one that runs: each page is made by the press commands as a child of its own, with limits
of memory and time, which dies with the server.

A job's folder has the file as it came and the pages that are made of it. Its record keeps its name and how far it got,
so that the next server takes it up.
"""
from __future__ import annotations

import contextlib
import os
import re
import subprocess
import sys
import threading
from collections.abc import Callable, Iterator, Mapping, Sequence
from dataclasses import dataclass, field
from pathlib import Path
from typing import Any

from press import tools
from press.errors import PressError, Status
from press.folder import JobFolder
from press.names import clean

from .record import UPLOAD, changing, part_of

SECONDS_OF_PAGE = 600
MEMORY = 12 << 30
"""Bytes of address space for a child and each of its own: plates are mapped, so a sheet takes a few gigabytes."""
FILE, SEPARATIONS = "file", "separations"
WAITING, RUNNING, DONE, FAILED, CANCELLED = "waiting", "running", "done", "failed", "cancelled"
MOST_FINDINGS = 200
PAGE_LINE = re.compile(r"page (\d+) of (\d+): (.+)")
FINDING = re.compile(r"(warning|note): (.+)")


class TooMuch(ValueError):
    """An upload that goes beyond a limit."""


@dataclass
class Job:
    """A file that is being turned into pages, or failed to be. `steps` says of pages that are not done what is going
    on; `options` are those of separations."""

    folder: Path
    source: str
    name: str
    kind: str = FILE
    options: Mapping[str, Any] = field(default_factory=dict)
    state: str = WAITING
    message: str = "waiting"
    count: int = 1
    cancelled: set[int] = field(default_factory=set)
    steps: dict[int, str] = field(default_factory=dict)
    findings: list[dict[str, Any]] = field(default_factory=list)
    child: subprocess.Popen[bytes] | None = None
    page: int = 0

    @classmethod
    def of_file(cls, folder: Path, source: str, kind: str = FILE, name: str = "",
                options: Mapping[str, Any] | None = None) -> Job:
        """A job of a file that arrived."""
        return cls(folder, source, name or source, kind, options or {})

    @property
    def key(self) -> str:
        """The job's id."""
        return self.folder.name

    @property
    def is_over(self) -> bool:
        """Whether nothing of it waits or runs."""
        return self.state not in (WAITING, RUNNING)

    def keep(self) -> None:
        """Writes into the record what the next server has to know."""
        with changing(self.folder) as part:
            part[UPLOAD] = {"source": self.source, "name": self.name, "kind": self.kind, "options": dict(self.options),
                            "state": self.state, "message": self.message, "count": self.count,
                            "cancelled": sorted(self.cancelled), "findings": self.findings}

    @classmethod
    def kept(cls, folder: Path) -> Job | None:
        """The job in a folder, as a record has it; None if it was not sent to the editor."""
        said: Any = part_of(folder).get(UPLOAD)
        try:
            return cls(folder, os.path.basename(said["source"]), str(said["name"]), str(said["kind"]),
                       dict(said["options"]), str(said["state"]), str(said["message"]), int(said["count"]),
                       {int(page) for page in said["cancelled"]}, {}, list(said["findings"]))
        except (TypeError, KeyError, ValueError):
            return None


class Queue:
    """The jobs that wait and the one that runs. `notify` is called whenever something changes."""

    def __init__(self, folder: Path, notify: Callable[[], Any]) -> None:
        self.folder, self.notify = folder, notify
        self.wake = threading.Condition(threading.RLock())
        self.jobs = {job.key: job for job in map(Job.kept, sorted(folder.glob("job-*"))) if job}
        # What the last server did not finish is taken up.
        self.waiting = [job for job in self.jobs.values() if not job.is_over]
        self.is_open = True
        self.thread = threading.Thread(target=self._work, daemon=True, name="uploads")
        self.thread.start()

    def count_waiting(self) -> int:
        """How many jobs wait."""
        return len(self.waiting)

    def add(self, job: Job) -> str:
        """Puts a job behind those that wait."""
        job.keep()
        with self.wake:
            self.jobs[job.key] = job
            self.waiting.append(job)
            self.wake.notify_all()
        self.notify()
        return job.key

    def cancel(self, key: str, page: int | None = None) -> bool:
        """Stops a job that waits or runs, or one page of it; finished pages stay. False if there is none."""
        with self.wake:
            job = self.jobs.get(key)
            if job is None or job.is_over or page is not None and not 1 <= page <= job.count:
                return False
            pages = {page} if page is not None else set(range(1, job.count + 1))
            job.cancelled |= pages
            if page is None and job in self.waiting:
                self.waiting.remove(job)
                job.state, job.message = CANCELLED, "cancelled"
            if job.child and job.page in pages:
                job.child.terminate()
        job.keep()
        self.notify()
        return True

    def close(self) -> None:
        """Stops the job that runs, and takes no more. The next server takes up what is not finished."""
        with self.wake:
            self.is_open = False
            for job in self.jobs.values():
                if job.child:
                    job.child.terminate()
            self.wake.notify_all()
        self.thread.join(5)

    def _work(self) -> None:
        while True:
            with self.wake:
                while self.is_open and not self.waiting:
                    self.wake.wait()
                if not self.is_open:
                    return
                job = self.waiting.pop(0)
                job.state, job.message = RUNNING, "begins"
            self.notify()
            try:
                self._run(job)
            except (OSError, PressError) as failed:
                job.state, job.message = FAILED, str(failed)
            if self.is_open:
                with contextlib.suppress(OSError, PressError):
                    job.keep()
            self.notify()

    def _run(self, job: Job) -> None:
        """Makes the pages of a job, one after the other."""
        page, complaint = 1, ""
        while page <= job.count and self.is_open:
            if page not in job.cancelled and page not in JobFolder(str(job.folder)).pages()[0]:
                complaint = self._make(job, page) or complaint
            page += 1
        with self.wake:
            done = JobFolder(str(job.folder)).pages()[0]
            job.steps.clear()
            if not self.is_open:
                return
            if len(job.cancelled) >= job.count:
                job.state, job.message = CANCELLED, "cancelled"
            else:
                job.state, job.message = (DONE, "") if done else (FAILED, complaint or "no page could be made")

    def _make(self, job: Job, page: int) -> str:
        """Makes one page; what went wrong."""
        complaints: list[str] = []
        for words in commands_of(job, page):
            with self._child(job, page, words) as child:
                assert child.stderr is not None
                for line in child.stderr:
                    self._heard(job, line, complaints)
                child.wait()
            if page in job.cancelled or not self.is_open:
                return ""
            if child.returncode not in (Status.DONE, Status.PAGES_FAILED):
                return complaints[-1] if complaints else f"{os.path.basename(words[1])} ended with {child.returncode}"
        self.notify()
        return ""

    @contextlib.contextmanager
    def _child(self, job: Job, page: int, words: Sequence[str]) -> Iterator[subprocess.Popen[bytes]]:
        """A command that runs for a page, unless that is cancelled."""
        with tools.running(words, memory=MEMORY, stdout=subprocess.DEVNULL, start_new_session=True) as child:
            with self.wake:
                job.child, job.page = child, page
                if page in job.cancelled or not self.is_open:
                    child.terminate()
            try:
                yield child
            finally:
                with self.wake:
                    job.child = None

    def _heard(self, job: Job, line: bytes, complaints: list[str]) -> None:
        """A line of progress, a finding, or a complaint."""
        text = clean(line.decode("utf-8", "replace").strip())
        text = re.sub(r"^press-[a-z]+: ", "", text).replace(f"{job.folder}{os.sep}", "").replace(
            f"{tools.TOP}{os.sep}", "").removeprefix(f"{job.source}: ")
        step, finding = PAGE_LINE.fullmatch(text), FINDING.fullmatch(text)
        with self.wake:
            if step:
                job.count, job.steps[int(step[1])] = max(1, int(step[2])), step[3]
                job.message = text
            elif finding:
                found = {"level": finding[1], "text": finding[2].removeprefix(f"{job.source}: ")}
                if found not in job.findings and len(job.findings) < MOST_FINDINGS:
                    job.findings.append(found)
            elif text:
                complaints.append(text)
                job.message = text
        self.notify()


def commands_of(job: Job, page: int) -> list[list[str]]:
    """The commands that make a page."""
    def press(name: str, *words: str) -> list[str]:
        return [sys.executable, os.path.join(tools.PRESS, name), *words]
    source = str(job.folder / job.source)
    if job.kind == FILE:
        return [press("all", "--no-proof", "--no-tiff", f"--page={page}", f"--time={SECONDS_OF_PAGE}", "--", source,
                      str(job.folder))]
    words = [f"--tiff={colorant}={job.folder / name}" for name, colorant in job.options["colorants"].items()]
    words += [f"--dpi={job.options['dpi']}"] if job.options.get("dpi") else []
    words += ["--inverted"] if job.options.get("inverted") else []
    folder = JobFolder(str(job.folder)).page(page)
    return [press("plates", *words, "--force", "--", folder), press("trap", "--", folder)]

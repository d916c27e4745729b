# SPDX-License-Identifier: Apache-2.0
"""The jobs in a folder, the pages of them that are open, and what is said of them.

A job is a folder that `press/all` made, with a folder for each page; one page folder alone is a job too. Ids are
made from the folders' names, so that they stay the same when the server starts again.
"""
from __future__ import annotations

import hashlib
import math
import os
import threading
from collections import OrderedDict
from collections.abc import Callable, Mapping
from dataclasses import dataclass
from functools import lru_cache
from pathlib import Path
from typing import Any

from press.errors import PressError
from press.folder import JOB, TABLE, TRAPPED, JobFolder, read_table
from press.job_language import SCALE
from press.names import readable
from press.settings import KEEPAWAY, PARAMETERS, PRESETS, Value, house_folder, preset_values

from . import said
from .batch import Batch
from .events import Events
from .findings import findings_of
from .job_queue import CANCELLED, RUNNING, WAITING, Queue
from .job_queue import Job as QueuedJob
from .outputs import Output, Outputs, Place, titles
from .page import DeskPage
from .page_views import PageViews
from .record import file_in
from .runs import PageRun
from .uploads import SetOf, Upload, Uploads

MOST_OPEN = 12
"""Pages that are open at once; the one that was used longest ago is closed first."""


class NoSuchThing(Exception):
    """No job, page, tile or file of that id."""


@dataclass
class OpenPage:
    """A page that is open, its pictures, and what traps it in the background."""

    page: DeskPage
    views: PageViews
    run: PageRun


def id_of(path: Path) -> str:
    """An id for a folder."""
    return hashlib.sha256(os.fsencode(path)).hexdigest()[:16]


class Store:
    """All jobs below a folder. Every method may be called from any thread."""

    def __init__(self, folder: str, profile: str | None = None) -> None:
        self.folder, self.profile = Path(folder).resolve(), profile
        self.events = Events()
        self.lock, self.saying = threading.RLock(), threading.Lock()
        self.queue = Queue(self.folder, lambda: self.events.tell(kind="jobs"))
        self.uploads = Uploads(self.folder, self.queue)
        self.outputs = Outputs()
        self.batch = Batch(self.page_changed, self.page, self.events.tell)
        self.opened: OrderedDict[str, OpenPage] = OrderedDict()
        self.places: dict[str, Place] = {}
        self.until = math.inf

    # What is there

    def listing(self) -> list[dict[str, Any]]:
        """All jobs with their pages, as browsers get them."""
        with self.lock:
            self.places.clear()
            return [self._job(folder) for folder in self._job_folders()]

    def _job(self, folder: Path) -> dict[str, Any]:
        sent = self.queue.jobs.get(folder.name)
        pages = [self._listed(folder, number, path, why) for number, path, why in pages_of(folder)]
        if sent is None:
            title = next((page["title"] for page in pages if page["title"]), folder.name)
            return {"id": id_of(folder), "name": title, "state": "done", "message": "", "pages": pages, "findings": []}
        return {"id": sent.key, "name": sent.name, "state": sent.state, "message": sent.message,
                "pages": with_waiting(sent, pages), "findings": list(sent.findings)}

    def _job_folders(self) -> list[Path]:
        """The jobs: the folder itself if it is one, and those below it, without its own pages."""
        own = {path for _, path, _ in pages_of(self.folder)}
        below = sorted(one for one in self.folder.iterdir()
                       if one.is_dir() and not one.name.startswith(".") and one not in own)
        return [folder for folder in (self.folder, *below) if folder.name in self.queue.jobs or pages_of(folder)]

    def begin_upload(self, name: str, of: SetOf | None) -> Upload:
        """Begins to take a file that a browser sends."""
        return self.uploads.begin(name, of)

    def cancel(self, key: str, page: int | None) -> None:
        """Stops a job that waits or runs, or one page of it."""
        if not self.queue.cancel(key, page):
            raise NoSuchThing("no such job or page runs")

    def _listed(self, job: Path, number: int, path: Path, why: str) -> dict[str, Any]:
        """A page of the list; one that failed has no id."""
        if not why:
            try:
                source, _ = read_table(str(path))
                place = Place(job, path, source.page, readable(source.pdf), source_of(job, source.pdf))
                self.places[id_of(path)] = place
                return listed(id_of(path), source.page, place.title, "done", "")
            except PressError as refused:
                why = str(refused)
        # A browser need not know where the folder lies.
        return listed("", number, "", "failed", why.replace(f"{job}{os.sep}", ""))

    def place(self, key: str) -> Place:
        """Where a page lies."""
        with self.lock:
            if key not in self.places:
                self.listing()
            if key not in self.places:
                raise NoSuchThing("no such page")
            return self.places[key]

    # Open pages

    def page(self, key: str) -> DeskPage:
        """A page, opened if it is not."""
        return self._open(key).page

    def _open(self, key: str) -> OpenPage:
        with self.lock:
            place = self.place(key)
            found = self.opened.get(key)
            if found is None:
                page = DeskPage(str(place.folder), self.profile)
                found = self.opened[key] = OpenPage(page, PageViews(page), PageRun(page, self._notify(key)))
            self.opened.move_to_end(key)
            while len(self.opened) > MOST_OPEN:
                self.opened.popitem(last=False)[1].run.close()
            return found

    def views(self, key: str) -> PageViews:
        """The pictures of a page."""
        return self._open(key).views

    def _notify(self, key: str) -> Callable[..., None]:
        return lambda **event: self.events.tell(page=key, **event)

    def page_changed(self, key: str, is_seen: bool = False) -> None:
        """Has a page trapped anew, and informs all browsers. `is_seen` says that the answer to the change shows it."""
        opened = self._open(key)
        opened.run.changed(is_seen)
        self.events.tell(kind="changed", page=key, version=opened.page.version)

    def page_state(self, key: str) -> dict[str, Any]:
        """A page as browsers get it."""
        place, page = self.place(key), self.page(key)
        state = page.state()
        return {"id": key, "title": f"{place.title}, page {place.number}", **state,
                **said.said_json(place.job, place.number, page), "downloads": titles(place), "presets": presets(),
                "findings": findings_of(page.folder, state["jobZones"], page.before.ink_boxes),
                "siblings": len(self._siblings(key))}

    def _siblings(self, key: str) -> list[str]:
        """The other pages of a page's job."""
        place = self.place(key)
        with self.lock:
            return [other for other, one in self.places.items() if one.job == place.job and other != key]

    def apply_to_all(self, key: str, body: Mapping[str, Any]) -> None:
        """Applies a page's settings to the other pages of its job."""
        edits = self.page(key).state()["edits"]
        self.batch.begin(self._siblings(key), edits, bool(body.get("zones")))

    def close(self) -> None:
        """Stops all runs, and brings the traps of all pages to their folders as long as there is time."""
        self.queue.close()
        self.batch.close()
        self.outputs.close()
        with self.lock:
            for one in self.opened.values():
                one.run.close(self.until)
            self.opened.clear()

    # What people say of a page, and what they fetch

    def approve(self, key: str, body: Mapping[str, Any]) -> None:
        """Approves or rejects the page as it is now."""
        place = self.place(key)
        with self.saying:
            said.approve(place.job, place.number, self.page(key), body)
        self.events.tell(kind="said", page=key)

    def add_note(self, key: str, body: Mapping[str, Any]) -> None:
        """Adds a note on a place of the page."""
        place = self.place(key)
        with self.saying:
            said.add_note(place.job, place.number, self.page(key), body)
        self.events.tell(kind="said", page=key)

    def make_output(self, key: str, kind: str, body: Mapping[str, Any]) -> tuple[str, str]:
        """Makes a file of a page; the key to fetch it by, and its name."""
        options = {name: value for name, value in body.items() if name in ("dpi", "lpi") and isinstance(value, int)}
        return self.outputs.make(self.page(key), self.place(key), kind, options)

    def take_output(self, key: str) -> Output:
        """A file that was made."""
        return self.outputs.take(key)


def listed(key: str, number: int, title: str, state: str, message: str) -> dict[str, Any]:
    """A page of the list."""
    return {"id": key, "number": number, "title": title, "state": state, "message": message}


def with_waiting(sent: QueuedJob, pages: list[dict[str, Any]]) -> list[dict[str, Any]]:
    """The pages of a job that was sent here, those that are not made yet among them."""
    found = {page["number"]: page for page in pages}
    for number in range(1, sent.count + 1):
        if number in found and found[number]["state"] == "done" or not sent.is_over and number in sent.steps \
                and number in found:
            continue
        if number in sent.cancelled:
            found[number] = listed("", number, "", CANCELLED, "cancelled")
        elif not sent.is_over and number not in found:
            state = RUNNING if number == sent.page and number in sent.steps else WAITING
            found[number] = listed("", number, "", state, sent.steps.get(number, "waiting"))
    return [found[number] for number in sorted(found)]


def source_of(job: Path, name: bytes) -> Path | None:
    """The original of a job's pages, if it is in the job's folder or next to that, and unchanged."""
    wanted = file_in(job)
    for folder in (job, job.parent):
        path = folder / os.fsdecode(name)
        if path.is_file() and (wanted is None or wanted.bytes == path.stat().st_size):
            return path
    return None


def presets() -> list[dict[str, Any]]:
    """The presets of the house and of the press room, in the units of the job: `keepaway` is None if it has none."""
    folders = [folder for folder in (house_folder(), PRESETS) if folder]
    files = sorted(one for folder in folders for one in Path(folder).glob("*.preset"))
    return presets_of(tuple((one.stem, str(one), one.stat().st_mtime_ns) for one in files))


@lru_cache(2)
def presets_of(files: tuple[tuple[str, str, int], ...]) -> list[dict[str, Any]]:
    """The presets of files, which are read again only if one of them changes: each answer to a change has them."""
    return [preset_json(name, preset_values(name)) for name in sorted({name for name, *_ in files})]


def preset_json(name: str, values: Mapping[str, Value]) -> dict[str, Any]:
    """A preset as browsers get it."""
    found = {key: round(value.number * SCALE) for key, value in values.items()}
    return {"name": name, "settings": {PARAMETERS[key].key: value for key, value in found.items()
                                       if PARAMETERS[key].key}, "keepaway": found.get(KEEPAWAY)}


def pages_of(folder: Path) -> list[tuple[int, Path, str]]:
    """The pages in a job's folder, or a page's folder itself: number, path, and why it failed."""
    if (folder / TABLE).is_file():
        return [(1, folder, "")] if (folder / TRAPPED).is_dir() and (folder / JOB).is_file() else []
    try:
        done, failed = JobFolder(str(folder)).pages()
    except OSError:
        return []
    pages = [(number, Path(path), "") for number, path in done.items()]
    pages += [(number, folder, why or "failed") for number, why in failed.items() if number not in done]
    return sorted(pages)

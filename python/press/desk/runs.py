# SPDX-License-Identifier: Apache-2.0
"""Traps whole pages in the background, after a change, by the engine of `press/trap`.

A page starts at once if nobody saw its change yet. If the change was drawn at 1:1 with the answer, or is one of several
that follow each other, the page starts a quarter of a second after the last one. The next change stops it, so that what
is visible never waits for a page.
"""
from __future__ import annotations

import contextlib
import json
import logging
import math
import os
import subprocess
import sys
import threading
import time
from collections.abc import Callable, Iterator
from concurrent.futures import ThreadPoolExecutor
from pathlib import Path

from press import tools
from press.errors import PressError, Status
from press.programs import Started
from press.zones_anew import Strokes, by_width

from .keeper import Keeper
from .memory import give_back
from .page import DeskPage
from .trapped_set import TrappedSet, make, memory_folder

LOG = logging.getLogger("press.desk")
QUIET_SECONDS = 0.25
STROKES_SECONDS, STROKES_MEMORY = 600, 12 << 30
SLOTS, SLOT_SECONDS = threading.Semaphore(2), 0.1
"""Two pages are trapped at once; the others wait, so that memory stays bounded."""
PROGRESS_SECONDS, LARGE = 1.0, 100_000_000
"""A page of so many samples shows progress while it is trapped."""
LARGE_SHEET, NICE = 500_000_000, 10
"""A sheet of so many samples takes long enough to be in the way of the next change: it gets what the others leave."""
Notify = Callable[..., None]


class PageRun:
    """Keeps a page's trapped plates those of its job."""

    def __init__(self, page: DeskPage, notify: Notify) -> None:
        self.page, self.notify = page, notify
        self.wake = threading.Condition()
        self.wanted, self.is_open = 0, True
        self.changed_at, self.waits = -QUIET_SECONDS, 0.0
        self.keeper = Keeper(page, notify)
        self.children: set[subprocess.Popen[bytes]] = set()
        self.thread = threading.Thread(target=self._work, daemon=True, name="page-run")
        self.thread.start()
        # The last server may have ended before it had trapped the page by its newest job.
        if page.is_behind():
            self.changed()

    def changed(self, is_seen: bool = False) -> None:
        """Stops the run of an older version and asks for one of the newest. `is_seen` says that the answer to the
        change shows it."""
        now = time.monotonic()
        self.keeper.wait_again()
        with self.wake:
            self.waits = QUIET_SECONDS if is_seen or now - self.changed_at < QUIET_SECONDS else 0.0
            self.wanted, self.changed_at = self.wanted + 1, now
            self._stop_children()
            self.wake.notify()

    def close(self, until: float = math.inf) -> None:
        """Stops what runs, and brings the traps to the page's folder if that is done until then."""
        with self.wake:
            self.is_open = False
            self._stop_children()
            self.wake.notify()
        self.thread.join(5)
        self.keeper.close(until)

    def _stop_children(self) -> None:
        """Stops what runs for a page. Whoever calls it holds `wake`."""
        for child in self.children:
            child.terminate()

    def _work(self) -> None:
        done = 0
        while True:
            with self.wake:
                while self.is_open and self.wanted == done:
                    self.wake.wait()
                if not self.is_open:
                    return
                asked = self.wanted
                # A later change restarts the wait.
                if self.waits and self.wake.wait(self.waits) and self.wanted != asked:
                    continue
                done = asked
            self._run(asked)

    def _started(self, asked: int) -> Started:
        def started(child: subprocess.Popen[bytes]) -> None:
            if self.page.width * self.page.height * len(self.page.inked) > LARGE_SHEET:
                with contextlib.suppress(OSError):
                    os.setpriority(os.PRIO_PROCESS, child.pid, NICE)
            with self.wake:
                self.children.add(child)
                if asked != self.wanted or not self.is_open:
                    child.terminate()
        return started

    def _run(self, asked: int) -> None:
        while not SLOTS.acquire(timeout=SLOT_SECONDS):  # pylint: disable=consider-using-with
            if not self._is_wanted(asked):
                return
        try:
            while self._is_wanted(asked) and self._trap(asked):
                pass
        except PressError as refused:
            if self._is_wanted(asked):
                self.notify(kind="fault", text=str(refused))
        except OSError as failed:
            LOG.warning("%s: %s", self.page.folder.path, failed)
            self.notify(kind="fault", text=f"{failed.filename or 'write'}: {failed.strerror}")
        finally:
            SLOTS.release()
            with self.wake:
                self.children.clear()
            give_back()

    def _is_wanted(self, asked: int) -> bool:
        return self.is_open and asked == self.wanted

    def _trap(self, asked: int) -> bool:
        """Traps the page, shows it, and meanwhile looks for thin strokes if the change moves them: True if it has to be
        trapped once more."""
        page = self.page
        with page.lock:
            version, text, lacks_strokes = page.version, page.text, page.lacks_strokes()
        with ThreadPoolExecutor(1, "thin-strokes") as beside:
            found = beside.submit(self._find_strokes, asked) if lacks_strokes else None
            try:
                if not self._trap_and_show(asked, version, text, found is not None):
                    return False
            except BaseException:
                with self.wake:
                    self._stop_children()
                raise
            strokes = found.result() if found else None
        if strokes is None or not self._is_wanted(asked):
            return False
        moved = page.take_strokes(version, strokes)
        if moved:
            self.notify(kind="moved", version=page.version)
        elif self._is_wanted(asked):
            self.notify(kind="shown", version=version, text="page done")
        return moved

    def _trap_and_show(self, asked: int, version: int, text: bytes, is_preview: bool) -> bool:
        """Traps the page by its job, the text of a version, and shows it; False if there is a later version."""
        page, start = self.page, time.monotonic()
        made = self._made(asked, text)
        seconds = time.monotonic() - start
        # The system takes a while to release the old plates: browsers are informed first.
        old = page.after, page.live.planes
        if not page.take_trapped(version, made):
            return False
        said = [f"page trapped in {seconds:.1f} s", *made.warnings, *["thin strokes are measured anew"] * is_preview]
        self.notify(kind="shown", version=version, text="; ".join(said))
        self.keeper.wait_again()
        del old
        return True

    def _made(self, asked: int, text: bytes) -> TrappedSet:
        """The page trapped by its job: in memory if there is room, else in its folder."""
        page = self.page.folder
        folder = memory_folder(page)
        if folder:
            try:
                with self._progress(asked, folder, "*.pgm"):
                    return make(page, text, folder, self._started(asked))
            except (PressError, OSError):
                # Memory may have run out on the way.
                if not self._is_wanted(asked):
                    raise
        with self.page.bringing, self._progress(asked, page.path, ".press-*/*.pgm"):
            made = make(page, text, None, self._started(asked))
        self.page.kept.record_trapped(text)
        return made

    def _find_strokes(self, asked: int) -> Strokes | None:
        """The places of thin strokes for the newest job; None if it has changed since."""
        page = self.page
        rule = page.rule()
        words = [sys.executable, "-B", "-m", "press.desk.find_places", page.folder.path]
        env = {**os.environ, "PYTHONPATH": os.path.join(tools.TOP, "python")}
        with tools.running(words, memory=STROKES_MEMORY, env=env) as child:
            self._started(asked)(child)
            try:
                printed, complained = child.communicate(timeout=STROKES_SECONDS)
            except subprocess.TimeoutExpired as slow:
                raise PressError(Status.PROGRAM, "looking for thin strokes takes too long") from slow
        if not self._is_wanted(asked):
            return None
        if child.returncode != 0:
            LOG.warning("%s: %s", page.folder.path, complained.decode("utf-8", "replace")[-2000:])
            raise PressError(Status.PROGRAM, "thin strokes could not be looked for")
        return Strokes(rule, by_width(json.loads(printed)))

    @contextlib.contextmanager
    def _progress(self, asked: int, folder: str, plates: str) -> Iterator[None]:
        """Reports, while a large page is trapped, how much of its plates is written, by their pattern in a folder."""
        page = self.page
        total = page.width * page.height * len(page.inked)
        if total < LARGE:
            yield
            return
        ended = threading.Event()

        def report() -> None:
            while not ended.wait(PROGRESS_SECONDS) and self._is_wanted(asked):
                share = min(0.99, written(folder, plates) / total / (1 if page.maxval < 256 else 2))
                self.notify(kind="progress", share=share, text=f"the whole page: {share:.0%}")
        thread = threading.Thread(target=report, daemon=True, name="progress")
        thread.start()
        try:
            yield
        finally:
            ended.set()
            thread.join()


def written(folder: str, plates: str) -> int:
    """The bytes of the plates below a folder, by a pattern."""
    made = 0
    for path in Path(folder).glob(plates):
        with contextlib.suppress(OSError):
            made += path.stat().st_size
    return made

# SPDX-License-Identifier: Apache-2.0
"""The trapped plates of a page while it is edited. They are made in memory, since syncing them to the disk takes longer
than trapping, and come into the page's folder once nobody has changed the page for a while.

What lies in the page's folder is always a whole set: plates, report and report.json of one job.
"""
from __future__ import annotations

import os
import shutil
import tempfile
from collections.abc import Callable
from dataclasses import dataclass
from pathlib import Path

from press import engine, keepaway
from press.files import folder_beside, free_room, sweep, temporary_name
from press.folder import TRAPPED, PageFolder
from press.inks import Ink
from press.plates import Plates, read_plates
from press.programs import Started
from press.settings import Settings

from .kept import Kept

MEMORY = "/dev/shm"
MOST_IN_MEMORY = 512 << 20
"""Bytes of a page's plates that are made in memory: those of a sheet are written to the disk at once."""
TIMES = 4
"""Room that has to be free, in times of the plates: those that are shown, those that are made, and what keepaway makes
on the way."""


@dataclass(frozen=True)
class TrappedSet:
    """A whole set of trapped plates: the folder that it lies in, as PageFolder.file takes it; and if that is in memory,
    the job's text that the plates were made by, and what keepaway did."""

    folder: str = TRAPPED
    text: bytes = b""
    done: keepaway.Done | None = None
    warnings: tuple[str, ...] = ()

    @property
    def is_in_memory(self) -> bool:
        """Whether the page's folder does not have it yet."""
        return self.folder != TRAPPED

    def plate(self, page: PageFolder, ink: Ink) -> str:
        """The path of a trapped plate."""
        return page.file(self.folder, ink.name + ".pgm")

    def plates(self, page: PageFolder) -> Plates:
        """The trapped plates, mapped and not read."""
        return read_plates({ink.name: self.plate(page, ink) for ink in page.inks}, page.source.resolution)

    def levels(self, kept: Kept) -> Path:
        """The file of reduced copies."""
        return Path(self.folder).parent / "after.levels" if self.is_in_memory else kept.levels(trapped=True)

    def remove(self) -> None:
        """Removes it from memory. Whoever has mapped a plate keeps it."""
        if self.is_in_memory:
            shutil.rmtree(Path(self.folder).parent, ignore_errors=True)


def memory_folder(page: PageFolder) -> str | None:
    """A new folder in memory for a page's plates; None if the system has none, or too little room."""
    size = page.head.width * page.head.height * (1 if page.head.maxval < 256 else 2)
    wanted = size * len(page.inks)
    try:
        if wanted > MOST_IN_MEMORY or TIMES * wanted > min(free_room(MEMORY), free_memory() // 2):
            return None
        sweep(MEMORY)
        folder = os.path.join(tempfile.mkdtemp(prefix=temporary_name(), dir=MEMORY), TRAPPED)
        os.mkdir(folder)
        return folder
    except OSError:
        return None


def free_memory() -> int:
    """The bytes of memory that programs can still take without swapping."""
    with open("/proc/meminfo", encoding="ascii") as file:
        found = dict(line.split(":", 1) for line in file)
    return int(found["MemAvailable"].split()[0]) << 10


def make(page: PageFolder, text: bytes, folder: str | None, started: Started) -> TrappedSet:
    """Traps a page by its job into a folder in memory, which is removed if that fails; without one into the page's
    folder."""
    if folder is None:
        return TrappedSet(warnings=engine.trap(page, Settings(), started).warnings)
    made = TrappedSet(folder)
    try:
        found = engine.trap_into(page, Settings(), folder, started)
        for ink in page.inks:
            if ink not in page.inked:
                os.symlink(os.path.abspath(page.plate(ink)), made.plate(page, ink))
    except BaseException:
        made.remove()
        raise
    return TrappedSet(folder, text, found.kept, found.trapped.warnings)


def bring(page: PageFolder, kept: Kept, made: TrappedSet, is_wanted: Callable[[], bool]) -> bool:
    """Brings a set from memory into the page's folder, and notes by which job it was made. False, and nothing changed,
    if it is not wanted any more before all of it is on the disk."""
    assert made.done is not None
    with folder_beside(page.path, inside=True) as folder:
        for place, _, names in os.walk(made.folder):
            to = Path(folder, os.path.relpath(place, made.folder))
            to.mkdir(exist_ok=True)
            for name in names:
                if not is_wanted():
                    return False
                if not os.path.islink(os.path.join(place, name)):
                    shutil.copyfile(os.path.join(place, name), to / name)
                    sync(to / name)
            sync(to)
        engine.add_blank(page, folder)
        sync(Path(folder))
        if not is_wanted():
            return False
        engine.put(page, folder, made.done)
    sync(Path(page.path))
    kept.record_trapped(made.text)
    return True


def sync(path: Path) -> None:
    """Waits until the disk has a file, or the names in a folder."""
    handle = os.open(path, os.O_RDONLY | os.O_CLOEXEC)
    try:
        os.fsync(handle)
    finally:
        os.close(handle)

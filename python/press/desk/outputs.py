# SPDX-License-Identifier: Apache-2.0
"""Files that browsers fetch: what is in a page's folder, and what the press commands write on demand, each in a child
process with limits of memory and time."""
from __future__ import annotations

import contextlib
import os
import secrets
import shutil
import subprocess
import sys
import tempfile
import threading
import zipfile
from collections import OrderedDict
from collections.abc import Callable, Mapping, Sequence
from dataclasses import dataclass
from pathlib import Path

from press import tools
from press.errors import PressError, Status
from press.folder import JOB, JSON, REPORT, SHEET, TRAPPED

from .export import inks_table, settings_file, zones_file
from .page import DeskPage

MOST_KEPT = 8
SECONDS, MEMORY = 1800, 12 << 30
MOST_LPI = 400


class NoSuchOutput(Exception):
    """No file of that kind or key."""


@dataclass(frozen=True)
class Place:
    """Where a page lies: the job's folder, the page's, its number, and its name for people; and the file that it was
    made of, if that is there."""

    job: Path
    folder: Path
    number: int
    title: str
    source: Path | None = None

    @property
    def stem(self) -> str:
        """How the names of its files begin."""
        return f"{Path(self.title).stem or 'page'}-{self.number}"


@dataclass(frozen=True)
class Output:
    """A file that was made for a browser: its folder, which is removed in the end, its path, and its name."""

    folder: Path
    path: Path
    name: str


@dataclass(frozen=True)
class Wanted:
    """What an output is made of: the page, where it lies, the options of a browser, and the folder for it."""

    page: DeskPage
    place: Place
    options: Mapping[str, int]
    folder: Path


def plates(wanted: Wanted) -> Path:
    """The trapped plates with their job and report."""
    names = [REPORT, JSON, *(f"{ink.name}.pgm" for ink in wanted.page.folder.inks)]
    files = [(wanted.place.folder / JOB, JOB), *((wanted.place.folder / TRAPPED / name, name) for name in names)]
    return packed(wanted.folder / "plates.zip", files)


def tiffs(wanted: Wanted) -> Path:
    """What press/tiff writes."""
    return of_command(wanted, "tiff.zip", [press("tiff"), "--", str(wanted.place.folder)])


def screened(wanted: Wanted) -> Path:
    """What press/screen writes: one bit a pixel."""
    words = [f"--dpi={wanted.options.get('dpi', 2400)}", f"--lpi={wanted.options.get('lpi', 150)}", "--jobs=2"]
    return of_command(wanted, "screened.zip", [press("screen"), *words, "--", str(wanted.place.folder)])


def trapped_pdf(wanted: Wanted) -> Path:
    """What press/pdf writes for this page."""
    if wanted.place.source is None:
        raise PressError(Status.INPUT, f"{wanted.place.title} is not beside the pages: press/pdf makes the trapped PDF")
    out = wanted.folder / "trapped.pdf"
    run([press("pdf"), "--", str(wanted.place.source), str(out), str(wanted.place.folder)])
    return out


def proof(wanted: Wanted) -> Path:
    """What press/proof writes."""
    run([press("proof"), "--", str(wanted.place.folder)])
    shutil.copyfile(wanted.place.folder / SHEET, wanted.folder / SHEET)
    return wanted.folder / SHEET


def report(name: str) -> Callable[[Wanted], Path]:
    """A report as it lies in the folder."""
    def copied(wanted: Wanted) -> Path:
        return Path(shutil.copyfile(wanted.place.folder / TRAPPED / name, wanted.folder / name))
    return copied


def tables(wanted: Wanted) -> Path:
    """The inks, settings and zones as press/all reads them beside the file."""
    name, number = Path(wanted.place.title).stem or "page", wanted.place.number
    texts = {f"{name}.inks": inks_table(wanted.page), f"{name}.zones": settings_file(wanted.page),
             f"{name}.{number}.zones": zones_file(wanted.page)}
    path = wanted.folder / "tables.zip"
    with zipfile.ZipFile(path, "w", zipfile.ZIP_DEFLATED) as archive:
        for file, text in texts.items():
            archive.writestr(file, text.encode("utf-8", "surrogateescape"))
    return path


KINDS: Mapping[str, tuple[str, str, Callable[[Wanted], Path]]] = {
    "pdf": ("Trapped PDF", "trapped.pdf", trapped_pdf), "tiff": ("Trapped plates as TIFF (ZIP)", "tiff.zip", tiffs),
    "screened": ("Screened plates, 1-bit TIFF (ZIP)", "screened.zip", screened),
    "plates": ("Trapped plates and their job (ZIP)", "plates.zip", plates),
    "report": ("Report", "report.txt", report(REPORT)), "report.json": ("Report as JSON", "report.json", report(JSON)),
    "proof": ("Proof", "proof.html", proof),
    "tables": ("Inks, settings and zones for press/all (ZIP)", "tables.zip", tables)}


def titles(place: Place) -> list[dict[str, str]]:
    """What can be fetched of a page."""
    return [{"kind": kind, "title": title} for kind, (title, _, _) in KINDS.items()
            if kind != "pdf" or place.source is not None]


class Outputs:
    """The files that were made and not fetched yet."""

    def __init__(self) -> None:
        self.lock = threading.Lock()
        self.made: OrderedDict[str, Output] = OrderedDict()

    def make(self, page: DeskPage, place: Place, kind: str, options: Mapping[str, int]) -> tuple[str, str]:
        """Makes a file of a page; the key to fetch it by, and its name. Refuses a page that is not trapped yet, and one
        that changes meanwhile."""
        if kind not in KINDS:
            raise NoSuchOutput("no such file")
        version = page.version
        need_done(page, version)
        page.bring()
        folder = Path(tempfile.mkdtemp(prefix="press-desk-"))
        try:
            path = KINDS[kind][2](Wanted(page, place, options, folder))
            need_done(page, version)
        except BaseException:
            shutil.rmtree(folder, ignore_errors=True)
            raise
        key, name = secrets.token_hex(16), f"{place.stem}-{KINDS[kind][1]}"
        with self.lock:
            self.made[key] = Output(folder, path, name)
            while len(self.made) > MOST_KEPT:
                shutil.rmtree(self.made.popitem(last=False)[1].folder, ignore_errors=True)
        return key, name

    def take(self, key: str) -> Output:
        """A file that was made; whoever takes it removes its folder."""
        with self.lock:
            if key not in self.made:
                raise NoSuchOutput("no such file")
            return self.made.pop(key)

    def close(self) -> None:
        """Clears away what nobody fetched."""
        with self.lock:
            for one in self.made.values():
                shutil.rmtree(one.folder, ignore_errors=True)
            self.made.clear()


def need_done(page: DeskPage, version: int) -> None:
    """Refuses a page whose plates are not those of its job."""
    if not page.version == page.shown == version or page.is_preview():
        raise PressError(Status.INPUT, "the page is being trapped: try again when it is done")


def press(name: str) -> str:
    """A press command."""
    return os.path.join(tools.PRESS, name)


def run(words: Sequence[str]) -> None:
    """Runs a press command; its last line is the refusal if it fails."""
    try:
        done = tools.run([sys.executable, *words], seconds=SECONDS, memory=MEMORY)
    except subprocess.TimeoutExpired as slow:
        raise PressError(Status.PROGRAM, f"press/{os.path.basename(words[0])} takes too long") from slow
    if done.returncode != 0:
        raise PressError(Status.PROGRAM, tools.last_line(done))


def of_command(wanted: Wanted, name: str, words: Sequence[str]) -> Path:
    """The files that a command writes into a folder, packed."""
    made = wanted.folder / "made"
    run([*words, str(made)])
    out = packed(wanted.folder / name, [(path, path.name) for path in sorted(made.iterdir())])
    shutil.rmtree(made)
    return out


def packed(path: Path, files: Sequence[tuple[Path, str]]) -> Path:
    """A ZIP of files."""
    with zipfile.ZipFile(path, "w", zipfile.ZIP_DEFLATED, compresslevel=1) as archive:
        for file, name in files:
            with contextlib.suppress(FileNotFoundError):
                archive.write(file, os.fsencode(name).decode("utf-8", "replace"))
    return path

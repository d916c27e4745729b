# SPDX-License-Identifier: Apache-2.0
"""The folder of a page, and the folder OUT of a run: the names of their files, and what is in them."""
import contextlib
import dataclasses
import json
import os
import re
import shutil
from dataclasses import dataclass
from typing import Any, NamedTuple

from . import plates
from .errors import PressError, Status, reason
from .files import need_folder, write_text
from .inks import Ink
from .job_record import FAILED, PAGES, Record, file_of, page_of, read_record, write_record
from .names import from_table, table_name
from .plates import Head, Plates

TABLE, JOB, TRAPPED, REPORT, CHECK, JSON = "colorants.txt", "page.job", "trapped", "report", "check", "report.json"
ZONES = "zones.json"
TIFF, WARNINGS, WHY, PART, SHEET = "tiff", "warnings.txt", "why", "proof.part", "proof.html"
NO_PLATES = "no plates here (press/plates makes such a folder)"
NOT_KEPT = "no plates here: they were not kept (--tiff-only), and press/plates makes them anew"
TABLE_HEAD = """\
# The colorants that were found on a page. Of each: its name in the job, its neutral density, its kind, the process
# inks that look like it in hundredths, whether its plate has ink, its name in tiffsep's file names, and in the PDF, and
# its role.
"""


# The table of colorants

class PageSource(NamedTuple):
    """What a page was made of: the file's name, the page's number from 1, and the resolution in pixels per inch."""

    pdf: bytes
    page: int
    resolution: int


def write_table(path: str, source: PageSource, inks: tuple[Ink, ...]) -> None:
    """Writes the table of colorants of a page's folder."""
    lines = [f"pdf\t{table_name(source.pdf)}", f"page\t{source.page}", f"resolution\t{source.resolution}"]
    for ink in inks:
        lines.append("\t".join(("colorant", ink.name, ink.density, ink.kind, " ".join(f"{part:g}" for part in ink.look),
                                "ink" if ink.has_ink else "blank", table_name(ink.suffix), table_name(ink.colorant),
                                ink.role)))
    write_text(os.path.join(path, TABLE), TABLE_HEAD + "\n".join(lines) + "\n")


def read_table(folder: str) -> tuple[PageSource, tuple[Ink, ...]]:
    """The table of colorants of a page's folder."""
    need_folder(folder)
    path = os.path.join(folder, TABLE)
    try:
        with open(path, encoding="utf-8") as file:
            lines = [line.rstrip("\n").split("\t") for line in file if not line.startswith("#")]
        heads = {line[0]: line[1] for line in lines if line[0] != "colorant"}
        inks = tuple(ink_of(line) for line in lines if line[0] == "colorant")
        source = PageSource(from_table(heads["pdf"]), int(heads["page"]), int(heads["resolution"]))
    except FileNotFoundError as fault:
        raise PressError(Status.NO_PLATES, NO_PLATES, folder) from fault
    except OSError as fault:
        raise PressError(Status.INPUT, reason(fault), path) from fault
    except (IndexError, KeyError, ValueError) as fault:
        raise PressError(Status.INPUT, "not a table of colorants", path) from fault
    if not inks:
        raise PressError(Status.NO_PLATES, NO_PLATES, folder)
    return source, inks


def ink_of(line: list[str]) -> Ink:
    """The ink of a line of the table."""
    _, name, density, kind, look_text, has_ink, suffix, colorant = line[:8]
    cyan, magenta, yellow, black = (float(part) for part in look_text.split())
    look = cyan, magenta, yellow, black
    role = line[8] if len(line) > 8 else "spot"
    return Ink(name, from_table(colorant), from_table(suffix), density, kind, look, has_ink == "ink", role=role)


# The folder of a page

@dataclass(frozen=True)
class PageFolder:
    """A folder with the plates of a page, all of one size."""

    path: str
    source: PageSource
    inks: tuple[Ink, ...]
    head: Head

    @classmethod
    def read(cls, path: str) -> "PageFolder":
        """The page in a folder. Refuses a folder without plates, and plates that make no page."""
        source, inks = read_table(path)
        if not any(os.path.lexists(os.path.join(path, ink.name + ".pgm")) for ink in inks):
            raise PressError(Status.NO_PLATES, NOT_KEPT, path)
        found = plates.read_plates({ink.name: os.path.join(path, ink.name + ".pgm") for ink in inks}, source.resolution)
        return cls(path, source, inks, Head(found.width, found.height, found.maxval))

    def file(self, *names: str) -> str:
        """The path of a file of the page."""
        return os.path.join(self.path, *names)

    def plate(self, ink: Ink, trapped: bool = False) -> str:
        """The path of a plate, as it came from the PDF or trapped."""
        return self.file(TRAPPED, ink.name + ".pgm") if trapped else self.file(ink.name + ".pgm")

    def plates(self, trapped: bool = False) -> Plates:
        """The plates, mapped and not read."""
        return plates.read_plates({ink.name: self.plate(ink, trapped) for ink in self.inks}, self.source.resolution)

    @property
    def inked(self) -> tuple[Ink, ...]:
        """The inks whose plates have ink; the first one if none has."""
        return tuple(ink for ink in self.inks if ink.has_ink) or self.inks[:1]

    @property
    def is_trapped(self) -> bool:
        """Whether the page was trapped."""
        return os.path.isdir(self.file(TRAPPED))

    def need_trapped(self) -> None:
        """Refuses a page that is not trapped, or whose trapped plates have another size."""
        if not self.is_trapped:
            raise PressError(Status.INPUT, "not trapped yet (press/trap does it; --untrapped takes the plates as they "
                             "are)", self.path)
        for ink in self.inks:
            head = plates.head_of(self.plate(ink, True))
            if dataclasses.replace(head, start=0) != self.head:
                message = (f"{head.width} by {head.height} samples of maxval {head.maxval}, and the page has "
                           f"{self.head.width} by {self.head.height} of {self.head.maxval}")
                raise PressError(Status.PLATES, message, self.plate(ink, True))


def read_layout(page: PageFolder) -> dict[str, Any]:
    """What the zones of a page's job are made of; nothing for a page of an earlier version."""
    return layout_in(page.path)


def layout_in(folder: str) -> dict[str, Any]:
    """The same of the page in a folder, which need not have its plates any more."""
    path = os.path.join(folder, ZONES)
    try:
        found = json.loads(read_text(path) or "{}")
    except ValueError as fault:
        raise PressError(Status.INPUT, "no layout of a page", path) from fault
    return found if isinstance(found, dict) else {}


# The folder of a run

@dataclass(frozen=True)
class JobFolder:
    """The folder OUT of a run: a folder for each page, and what failed beside them."""

    path: str

    def page(self, number: int) -> str:
        """The folder of a page that is done."""
        return os.path.join(self.path, f"page-{number:03d}")

    def failed(self, number: int) -> str:
        """The folder of a page that failed."""
        return self.page(number) + ".failed"

    def make(self) -> None:
        """Makes the folder if it is not there."""
        if os.path.lexists(self.path) and not os.path.isdir(self.path):
            raise PressError(Status.OUTPUT, "File exists", self.path)
        os.makedirs(self.path, exist_ok=True)

    def pages(self, stale: bool = False) -> tuple[dict[int, str], dict[int, str]]:
        """The folders of the pages that are done and trapped, and of each page that failed the line that says why.
        Pages that another file made, or other bytes of the same name, are left out unless `stale` asks for them."""
        done, failed, file = {}, {}, file_of(record_or_none(self.path))
        for name in sorted(os.listdir(self.path)):
            found, folder = re.fullmatch(r"page-(\d{3,})(\.failed)?", name), os.path.join(self.path, name)
            if found is None:
                continue
            number, made_of = int(found.group(1)), None if stale or not file else digest_in(folder)
            if file and made_of and made_of != file.sha256:
                continue
            if found.group(2):
                failed[number] = read_text(folder, WHY).strip()
            elif os.path.isdir(os.path.join(folder, TRAPPED)):
                done[number] = folder
        return done, failed

    def remove_old(self, number: int) -> None:
        """Removes what an earlier run made of a page, so that nothing old is taken for new."""
        for path in (self.page(number), self.failed(number)):
            if os.path.islink(path):
                raise PressError(Status.OUTPUT, "is a link, and press/all did not make it: it is left as it is", path)
            if os.path.isdir(path) and any(os.path.exists(os.path.join(path, name)) for name in (TABLE, WHY)):
                shutil.rmtree(path)
            elif os.path.lexists(path):
                raise PressError(Status.OUTPUT, "stands in the way, and press/all did not make it", path)

    def keep_failed(self, number: int, made: str, why: str, part: Record | None = None) -> None:
        """Keeps what was made of a page that failed, with the line that says why, and what the record says of it if
        the page has no record yet. On a full disk that much is kept as goes on it."""
        with contextlib.suppress(OSError):
            os.makedirs(made, exist_ok=True)
            with open(os.path.join(made, WHY), "w", encoding="utf-8", errors="surrogateescape") as file:
                file.write(why + "\n")
        with contextlib.suppress(OSError, PressError):
            if found := record_or_none(made) or part:
                pages = {key: {**one, "state": FAILED, "why": why} for key, one in found[PAGES].items()}
                write_record(made, {**found, PAGES: pages})
        with contextlib.suppress(OSError):
            if not os.path.lexists(self.failed(number)):
                os.rename(made, self.failed(number))


def record_or_none(folder: str) -> Record:
    """The record in a folder; empty if it has none, or a damaged one."""
    try:
        return read_record(folder)
    except PressError:
        return {}


def digest_in(folder: str) -> str | None:
    """The SHA-256 of the file that a page was made of, if its folder has a record."""
    record = record_or_none(folder)
    found = next((page_of(record, int(key)).get("sha256") for key in record.get(PAGES, {}) if key.isdigit()), None)
    return found if isinstance(found, str) else None


def read_text(*path: str) -> str:
    """A text file, or nothing if there is none."""
    try:
        with open(os.path.join(*path), encoding="utf-8", errors="replace") as file:
            return file.read()
    except OSError:
        return ""

# SPDX-License-Identifier: Apache-2.0
"""Keepaway on the folder of a page (docs/KEEPAWAY.md): before the page is trapped its inks are drawn back under rich
black, and after that its whites under the colours. The program trapkeep does both; what is here finds out whether a
page needs it, and on which plates."""
import functools
import os
import re
import shutil
from collections.abc import Iterable, Iterator, Sequence
from dataclasses import dataclass, field
from typing import Any

import numpy

from . import tools
from .errors import PressError
from .folder import JOB, PageFolder
from .inks import Ink
from .job_language import SCALE, Job, JobInk, JobSyntaxError, Parameters, read_job
from .job_record import PAGES, RECORD, changing_record, page_of, read_record
from .names import readable
from .plates import LONGEST_SIDE, MOST_SAMPLES, Array, Plates
from .programs import Started, most_dpi, run_on
from .settings import KEEPAWAY, MOST_KEEPAWAY, Settings, Value, need_keepaway_reach

PROGRAM = "trapkeep"
# In the folder of trapped plates: the plates that trapping began from, as far as they are not those of the page.
BEGUN = "keepaway"
REPORT = "report"
# In the record of a page and in report.json.
KEY, ASKED = KEEPAWAY, "asked"
# The line of a page's job in which the trap editor says how far inks are drawn back, in points; 0 is off.
SAID = re.compile(rb"^%%Keepaway: (\d{1,3}(?:\.\d{1,4})?)$", re.M)
# The share of full ink, in ten-thousandths, from which trapkeep takes a pixel for black.
BLACK_LIMIT = 8_500
BAND_ROWS = 256
MOST_KNOWN = 32
WHITE = "white"
# Kinds of which trapkeep draws an ink back, of which a colour covers a white, and that shut a pixel.
NORMAL, COLOURS, SHUTS = "Normal", ("Normal", "Opaque"), "OpaqueIgnore"


@dataclass(frozen=True)
class Counted:
    """What trapkeep counted: the covered pixels, and for each ink by its name how many pixels of its plate changed."""

    covered: int
    changed: dict[str, int]

    @classmethod
    def of(cls, text: str) -> "Counted":
        """A report as the program writes it."""
        covered, changed = 0, {}
        for line in text.splitlines():
            words = line.split()
            if words[:1] == ["covered"]:
                covered = int(words[1])
            elif words[:1] == ["plate"]:
                changed[words[1]] = int(words[3]) + int(words[5])
        return cls(covered, changed)


@dataclass
class Done:
    """What keepaway did on a page: the width in points, what was counted under black and under colours, the plates that
    trapping begins from by their inks' names, as paths in the page's folder, and what the owner should know."""

    width: float
    black: Counted | None = None
    white: Counted | None = None
    begun: dict[str, str] = field(default_factory=dict)
    warnings: list[str] = field(default_factory=list)

    def as_data(self) -> dict[str, Any]:
        """The same for report.json and the record."""
        both = {"rich_black": self.black, "underprint": self.white}
        return {"width": self.width, **{name: vars(one) for name, one in both.items() if one}}


# The width

def page_parameters(job: Job) -> Parameters:
    """The parameters of the page: those of its first zone."""
    return job.zones[min(1, len(job.zones) - 1)].parameters


def asked(settings: Settings) -> dict[str, Any]:
    """What the record of a page keeps of the option or the preset: the width in points. Nothing if neither has one."""
    value = settings.parameters.get(KEEPAWAY)
    return {} if value is None else {KEY: {ASKED: round(value.number, 4)}}


def said_in(text: bytes) -> float | None:
    """The width in points that the trap editor wrote into a job; None if it wrote none."""
    found = SAID.findall(text)
    return float(found[-1]) if found else None


def width_of(page: PageFolder, settings: Settings, job: Job, text: bytes = b"") -> int:
    """How far inks are drawn back on a page, in ten-thousandths of a point: what an option or a preset says; else what
    the trap editor wrote into the text of the job; else what the page's record says; else the trap width of the page.
    Refuses a width that trapkeep does not take."""
    said, recorded = said_in(text), page_of(read_record(page.path), page.source.page).get(KEY, {}).get(ASKED)
    kept = Value(said, "", JOB) if said is not None else Value(recorded, "", RECORD) if recorded is not None else None
    value = settings.parameters.get(KEEPAWAY) or kept
    need_keepaway_reach(value, page.source.resolution)
    if value:
        return round(value.number * SCALE)
    return min(page_parameters(job).trap_width, MOST_KEEPAWAY * 72 * SCALE // page.source.resolution)


# Which plates

def details(job: Job, ink: Ink) -> JobInk:
    """The density and the kind that an ink has in the page's job, which its owner may have changed."""
    return job.inks.get(ink.name, JobInk())


def blacks_and_others(page: PageFolder, job: Job) -> tuple[list[Ink], list[Ink]]:
    """The inks that are a black in some zone, and those that are drawn back in one that is trapped. A white is left
    alone."""
    limits = [zone.parameters.black_density_limit for zone in job.zones]
    open_limits = [zone.parameters.black_density_limit for zone in job.zones if zone.parameters.enabled]
    normal = [(ink, details(job, ink).density) for ink in page.inked if details(job, ink).kind == NORMAL]
    blacks = [ink for ink, density in normal if density >= min(limits)]
    others = [ink for ink, density in normal if density < max(open_limits, default=0) and ink.role != WHITE]
    return blacks, others


def inks_under_black(page: PageFolder, blacks: Sequence[Ink], others: Sequence[Ink]) -> list[Ink]:
    """The inks with some ink on pixels that black covers; none unless some pixel is a rich black."""
    states = [os.stat(page.plate(ink)) for ink in (*blacks, *others)]
    return list(found_under_black(page, tuple(blacks), tuple(others),
                                  tuple((one.st_ino, one.st_size, one.st_mtime_ns) for one in states)))


@functools.lru_cache(MOST_KNOWN)
def found_under_black(page: PageFolder, blacks: tuple[Ink, ...], others: tuple[Ink, ...],
                      _states: tuple[tuple[int, int, int], ...]) -> tuple[Ink, ...]:
    """The same, looked for once as long as the plates' files have the same state: the trap editor traps a page again
    and again."""
    plates, maxval = page.plates(), page.head.maxval
    if not has_rich_black(plates, blacks, others):
        return ()
    found: set[str] = set()
    for first, end, top, bottom in plates.bands(BAND_ROWS, 1):
        parts = [plates[ink.name][top:bottom] for ink in blacks]
        black = any_of(part <= least_black(maxval) for part in parts)
        if not black.any():
            continue
        own = slice(first - top, end - top)
        cover = black | grown(black) & any_of(part < maxval for part in parts)
        found |= {ink.name for ink in others if ink.name not in found
                  and ((plates[ink.name][top:bottom] < maxval) & cover)[own].any()}
    return tuple(ink for ink in others if ink.name in found)


def has_rich_black(plates: Plates, blacks: Sequence[Ink], others: Sequence[Ink]) -> bool:
    """Whether some pixel is black and has another ink. Most pages have none, so that all of each is looked at."""
    for first, end, _, _ in plates.bands(BAND_ROWS):
        black = any_of(plates[ink.name][first:end] <= least_black(plates.maxval) for ink in blacks)
        if black.any():
            most = functools.reduce(numpy.minimum, (plates[ink.name][first:end] for ink in others))
            if ((most < plates.maxval) & black).any():
                return True
    return False


def least_black(maxval: int) -> int:
    """The sample of the least tint that is black; 0 is full ink."""
    return maxval - max(1, -(-BLACK_LIMIT * maxval // SCALE))


def any_of(marks: Iterable[Array]) -> Array:
    """Where at least one of some marks is set."""
    return functools.reduce(numpy.logical_or, marks)


def grown(marks: Array) -> Array:
    """Marks, and the pixels that touch them, diagonally too."""
    across = marks.copy()
    across[:, 1:] |= marks[:, :-1]
    across[:, :-1] |= marks[:, 1:]
    out = across.copy()
    out[1:] |= across[:-1]
    out[:-1] |= across[1:]
    return out


def in_calls(page: PageFolder, fixed: int, inks: Sequence[Ink]) -> list[list[Ink]]:
    """The inks by the calls of trapkeep that draw them back, each with so many other plates. None if the page does not
    fit."""
    size = page.head.width * page.head.height
    room = MOST_SAMPLES // max(1, size) - fixed
    if room < 1 or max(page.head.width, page.head.height) > LONGEST_SIDE:
        return []
    return [list(inks[start:start + room]) for start in range(0, len(inks), room)]


# The program

class Keepaway:
    """The two uses of keepaway on a page, whose plates are made into the folder `out` in the page's folder."""

    def __init__(self, page: PageFolder, settings: Settings, out: str, started: Started | None) -> None:
        self.page, self.out, self.started = page, out, started
        value = settings.parameters.get(KEEPAWAY)
        self.is_option = value is not None and value.is_option
        self.job, self.width = None, 0
        try:
            with open(page.file(JOB), "rb") as file:
                text = file.read()
            self.job = read_job(text)
            self.width = width_of(page, settings, self.job, text)
        except (JobSyntaxError, RecursionError, IndexError):
            # The trapping program names the job's fault.
            pass
        self.done = Done(self.width / SCALE)

    @property
    def is_off(self) -> bool:
        """Whether nothing can change: below half a pixel no width does."""
        return self.job is None or 2 * self.width * self.page.source.resolution < 72 * SCALE

    def under_black(self) -> None:
        """Draws inks back under rich black, if the page has one, on plates that the page is then trapped from."""
        if self.job is None or self.is_off:
            return
        blacks, others = blacks_and_others(self.page, self.job)
        inks = inks_under_black(self.page, blacks, others) if blacks and others else []
        if not inks or not self.can_run("inks are not drawn back under rich black"):
            return
        shutting = [ink for ink in self.page.inked if details(self.job, ink).kind == SHUTS]
        calls = in_calls(self.page, len(blacks) + len(shutting), inks)
        if not calls:
            self.warn_of_size(len(blacks) + len(shutting) + 1, "inks are not drawn back under rich black")
        for some in calls:
            counted = self.call(["--rich-black", self.points], [*blacks, *shutting, *some], {ink.name for ink in some})
            changed = {ink.name: counted.changed[ink.name] for ink in some}
            before = self.done.black.changed if self.done.black else {}
            self.done.black = Counted(counted.covered, {**before, **changed})
            self.done.begun |= {name: f"{self.out}/{BEGUN}/{name}.pgm" for name, count in changed.items() if count}

    def under_colours(self) -> None:
        """Draws whites back under the colours, on the trapped plates."""
        if self.job is None or self.is_off:
            return
        whites = [ink for ink in self.page.inked if ink.role == WHITE]
        colours = [ink for ink in self.page.inked if ink.role != WHITE and details(self.job, ink).kind in COLOURS]
        what = "the white is not drawn back under the colours"
        if not whites or not colours or not self.can_run(what):
            return
        if not in_calls(self.page, len(whites) + len(colours) - 1, whites[:1]):
            self.warn_of_size(len(whites) + len(colours), what)
            return
        options = [word for ink in whites for word in ("--underprint", f"{ink.name}={self.points}")]
        names = {ink.name for ink in whites}
        counted = self.call(options, [*whites, *colours], names, trapped=True)
        self.done.white = Counted(counted.covered, {name: counted.changed[name] for name in sorted(names)})

    @property
    def points(self) -> str:
        """The width as the program takes it."""
        return f"{self.width // SCALE}.{self.width % SCALE:04d}"

    def call(self, options: Sequence[str], inks: Sequence[Ink], wanted: set[str], trapped: bool = False) -> Counted:
        """Runs trapkeep on the plates of inks, those of the page or those that were trapped. Of the plates that it
        writes, the wanted ones that changed are kept: in the folder of plates that trapping begins from, or in the
        place of the trapped ones."""
        source, place = (f"{self.out}/" if trapped else ""), f"{self.out}/{BEGUN}-made"
        made = self.page.file(place)
        os.makedirs(made)
        words = [*options, JOB, f"{place}/{REPORT}",
                 *(f"{ink.name}:{source}{ink.name}.pgm:{place}/{ink.name}.pgm" for ink in inks)]
        run_on(self.page, PROGRAM, words, inks, self.started)
        with open(os.path.join(made, REPORT), encoding="utf-8") as file:
            counted = Counted.of(file.read())
        kept = self.page.file(self.out) if trapped else self.page.file(self.out, BEGUN)
        for name in wanted:
            if counted.changed[name]:
                os.makedirs(kept, exist_ok=True)
                os.replace(os.path.join(made, name + ".pgm"), os.path.join(kept, name + ".pgm"))
        shutil.rmtree(made)
        return counted

    def can_run(self, what: str) -> bool:
        """Whether the program is there. If not it is a warning, or a refusal if the owner asked for keepaway."""
        try:
            return bool(tools.program(PROGRAM))
        except PressError as refusal:
            if self.is_option:
                raise
            self.warn(f"{refusal.message}: {what}")
            return False

    def warn(self, line: str) -> None:
        """Keeps a line for the owner."""
        source = self.page.source
        self.done.warnings.append(f"{readable(source.pdf)}: page {source.page}: {line}")

    def warn_of_size(self, plates: int, what: str) -> None:
        """That the page is too large for so many plates."""
        (width, height), dpi = (self.page.head.width, self.page.head.height), self.page.source.resolution
        fits = most_dpi((width / dpi * 72, height / dpi * 72), plates, LONGEST_SIDE, MOST_SAMPLES)
        self.warn(f"{PROGRAM} takes no page of this size: {what}: {width} by {height} samples in {plates} plates, and "
                  f"it takes {MOST_SAMPLES} samples and {LONGEST_SIDE} a side (at most {min(fits, dpi)} pixels per "
                  f"inch would fit)")


# Afterwards

def write_down(page: PageFolder, done: Done) -> None:
    """Adds what was done to the record in the page's folder, if it has one."""
    number = page.source.page
    if not page_of(read_record(page.path), number):
        return
    with changing_record(page.path) as record:
        before = page_of(record, number)
        kept = {key: value for key, value in before.get(KEY, {}).items() if key == ASKED}
        record[PAGES][str(number)] = {**before, KEY: {**kept, **done.as_data()}}


def begun_plate(page: PageFolder, ink: Ink, trapped: str) -> str:
    """The path of the plate that trapping began from: one that was drawn back under black, or that of the page.
    `trapped` is the name of the folder of trapped plates."""
    path = page.file(trapped, BEGUN, ink.name + ".pgm")
    return path if os.path.isfile(path) else page.plate(ink)


def lines_of(data: dict[str, Any], titles: dict[str, str]) -> Iterator[str]:
    """What was drawn back, in words, from what report.json has."""
    for key, where in (("rich_black", "under rich black"), ("underprint", "under the colours")):
        changed = {name: count for name, count in data.get(key, {}).get("changed", {}).items() if count}
        if changed:
            inks = ", ".join(f"{titles.get(name, name)} on {count:,} pixels" for name, count in changed.items())
            yield f"Drawn back by {data['width']:.2f} pt {where}: {inks}."

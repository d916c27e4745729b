# SPDX-License-Identifier: Apache-2.0
"""The trapping programs on the folder of a page; what they refuse, with the place that they speak of; and their
report."""
import contextlib
import json
import os
from collections.abc import Sequence
from dataclasses import dataclass
from pathlib import Path
from typing import Any

from . import keepaway, programs, tools
from .errors import PressError, Status
from .files import folder_beside, link_or_copy, named, put_folder, scratch_folder
from .folder import CHECK, JOB, JSON, REPORT, TRAPPED, PageFolder, read_layout
from .job import Job, file_place
from .names import readable
from .plates import LONGEST_SHEET_SIDE, LONGEST_SIDE, MOST_SAMPLES, fits_page
from .programs import AT, most_dpi, run_on
from .settings import Settings

USUAL_THREADS = 4
# The program that traps pages; and the one that --trap-page asks for.
PROGRAM, PAGE_PROGRAM = "trapsheet", "trap"
Started = programs.Started


@dataclass(frozen=True)
class Report:
    """What the program counted on a page: of each zone and each plate how many samples changed, and the edges."""

    zones: tuple[dict[str, int], ...]
    plates: dict[str, int]
    edges: int

    @classmethod
    def of(cls, text: str) -> "Report":
        """A report as the program writes it."""
        zones, plates, edges = [], {}, 0
        for line in text.splitlines():
            words = line.split()
            if words[:1] == ["zone"]:
                zones.append({"zone": int(words[1]), "samples": int(words[3]), "changed": int(words[5])})
            elif words[:1] == ["plate"]:
                plates[words[1]] = int(words[3])
            elif words[:1] == ["edges"]:
                edges = int(words[1])
        return cls(tuple(zones), plates, edges)

    @property
    def changed(self) -> int:
        """How many samples changed, over all zones."""
        return sum(zone["changed"] for zone in self.zones)


@dataclass(frozen=True)
class Trapped:
    """What came of trapping a page: its report, and what the owner should know."""

    report: Report
    warnings: tuple[str, ...]


def read_report(folder: str) -> Report:
    """The report of a page that was trapped."""
    return Report.of(Path(folder, TRAPPED, REPORT).read_text("utf-8"))


# A job before any plate

def judge(job: Job, names: Sequence[str]) -> None:
    """Refuses a job that the program does not take, by the file and the line that have the fault. The program
    is run over plates of one sample."""
    path = tools.program(PROGRAM)
    with scratch_folder() as folder:
        Path(folder, "job").write_bytes(job.text)
        Path(folder, "plate").write_bytes(b"P5\n1 1\n255\n\xff")
        plates = [f"{name}:plate:out{at}" for at, name in enumerate(names)]
        done = tools.run([path, "1", "job", "report", *plates], cwd=folder)
    if done.returncode == 0:
        return
    line = tools.last_line(done)
    at = AT.fullmatch(line)
    if at is None or not job.parts:
        place = job.parts[-1].path if job.parts else "the job"
        raise PressError(Status.PROGRAM, f'the program refuses it: "{line}"', place)
    path, number = file_place(int(at.group(1)), job.parts)
    raise PressError(Status.PROGRAM, f'the program refuses it: "{line.partition(" at ")[0]}"', f"{path}: line {number}")


# A page

def trapping_program(settings: Settings) -> str:
    """The name of the program that traps pages. Refuses if it is not there."""
    name = PAGE_PROGRAM if settings.by_page_program else PROGRAM
    tools.program(name)
    return name


def trapper_of(page: PageFolder, settings: Settings) -> str:
    """The program that traps a page: trapsheet, or by --trap-page or --band `trap page`. Refuses a page that is too
    large for it."""
    (width, height), inked, dpi = (page.head.width, page.head.height), len(page.inked), page.source.resolution
    by_page = settings.by_page_program
    if fits_page(width, height, inked) if by_page else max(width, height) <= LONGEST_SHEET_SIDE:
        return trapping_program(settings)
    longest, most = (LONGEST_SIDE, MOST_SAMPLES) if by_page else (LONGEST_SHEET_SIDE, None)
    fits = most_dpi((width / dpi * 72, height / dpi * 72), inked, longest, most)
    limit = f"are {width * height * inked}, and a page has at most {most}, and {longest} a side" if by_page else \
        f"are too many: a side has at most {longest}"
    raise PressError(Status.PLATES, f"{width} by {height} samples in {inked} plates with ink {limit} (at most "
                     f"{min(fits, dpi)} pixels per inch fit here)", page.path)


def ready_program(page: PageFolder, settings: Settings) -> str:
    """The program that traps a page. Refuses a page without a job, and programs that are not there."""
    if not os.path.isfile(page.file(JOB)):
        raise PressError(Status.INPUT, "No such file", page.file(JOB))
    name = trapper_of(page, settings)
    if settings.check is not None:
        tools.program("presscheck")
    return name


def words_of(name: str, page: PageFolder, out: str, settings: Settings) -> list[str]:
    """The arguments of a trapping program."""
    words = ["page"] if name == PAGE_PROGRAM else [str(settings.workers or USUAL_THREADS)]
    if name == PAGE_PROGRAM:
        for option, value in (("--workers", settings.workers), ("--band", settings.band)):
            words += [option, str(value)] if value is not None else []
    return [*words, JOB, os.path.join(out, REPORT), *(f"{word}:{out}/{ink.name}.pgm" for ink, word in
                                                      zip(page.inked, plate_words(page, out)))]


def plate_words(page: PageFolder, out: str) -> list[str]:
    """For each plate with ink its ink's name and the plate that trapping begins from, as arguments have them."""
    paths = [keepaway.begun_plate(page, ink, out) for ink in page.inked]
    inside = os.path.join(page.path, "")
    return [f"{ink.name}:{os.path.relpath(path, page.path) if path.startswith(inside) else path}"
            for ink, path in zip(page.inked, paths)]


@dataclass(frozen=True)
class Made:
    """Trapped plates, report and report.json that are not in the page's folder "trapped" yet: what came of trapping,
    and what keepaway did."""

    trapped: Trapped
    kept: keepaway.Done


def trap(page: PageFolder, settings: Settings, started: Started | None = None) -> Trapped:
    """Traps a page: trapped plates, report, report.json and, by settings.check, the numbers of presscheck come
    into its folder "trapped", in place of what was there. `started` gets the trapping program's process."""
    ready_program(page, settings)
    with folder_beside(page.path, inside=True) as folder:
        made = trap_into(page, settings, os.path.basename(folder), started)
        add_blank(page, folder)
        put(page, folder, made.kept)
    return made.trapped


def trap_into(page: PageFolder, settings: Settings, out: str, started: Started | None = None) -> Made:
    """Traps a page into an empty folder: the name of one in the page's folder, or an absolute path. Plates without ink
    are not there."""
    name = ready_program(page, settings)
    keeping = keepaway.Keepaway(page, settings, out, started)
    keeping.under_black()
    run_on(page, name, words_of(name, page, out, settings), page.inked, started)
    keeping.under_colours()
    warnings = check(page, out, settings.check) if settings.check is not None else ()
    report = Report.of(Path(page.file(out, REPORT)).read_text("utf-8"))
    write_json(page, report, page.file(out), keeping.done)
    return Made(Trapped(report, (*keeping.done.warnings, *warnings)), keeping.done)


def add_blank(page: PageFolder, folder: str) -> None:
    """Adds to a folder of trapped plates those without ink: no trap can come of one, and it stays as it is."""
    for ink in page.inks:
        if ink not in page.inked:
            link_or_copy(page.plate(ink), os.path.join(folder, ink.name + ".pgm"))


def put(page: PageFolder, folder: str, kept: keepaway.Done) -> None:
    """Has a folder of trapped plates, which lies in the page's folder, take the place of "trapped"."""
    put_folder(folder, page.file(TRAPPED))
    keepaway.write_down(page, kept)


def check(page: PageFolder, out: str, radius: int) -> tuple[str, ...]:
    """Has presscheck count the samples at risk. It takes no page that is too large for trap, which is a warning."""
    (width, height), inked, dpi = (page.head.width, page.head.height), len(page.inked), page.source.resolution
    if not fits_page(width, height, inked):
        fits = most_dpi((width / dpi * 72, height / dpi * 72), inked, LONGEST_SIDE, MOST_SAMPLES)
        return (f"{readable(page.source.pdf)}: page {page.source.page}: presscheck takes no page of this size: not "
                f"checked: {width} by {height} samples in {inked} plates with ink, and it takes {MOST_SAMPLES} samples "
                f"and {LONGEST_SIDE} a side (at most {min(fits, dpi)} pixels per inch would fit)",)
    printed = run_on(page, "presscheck", [str(radius), JOB, *plate_words(page, out)], page.inked)
    with named(page.file(TRAPPED, CHECK)), open(page.file(out, CHECK), "wb") as file:
        file.write(printed)
    return ()


def write_json(page: PageFolder, report: Report, made: str, kept: keepaway.Done) -> None:
    """The report as JSON, with what is known of the inks, what was drawn back, and what presscheck counted."""
    head, source = page.head, page.source
    inks = [{"ink": readable(ink.colorant), "name": ink.name, "density": float(ink.density), "kind": ink.kind,
             "role": ink.role, "has_ink": ink.has_ink, "changed": report.plates.get(ink.name, 0)} for ink in page.inks]
    text: dict[str, Any] = {
        "source": readable(source.pdf), "page": source.page, "resolution": source.resolution, "width": head.width,
        "height": head.height, "maxval": head.maxval, "edges": report.edges, "zones": list(report.zones),
        "inks": inks, "samples_changed": report.changed,
        keepaway.KEY: kept.as_data()}
    with contextlib.suppress(FileNotFoundError), open(os.path.join(made, CHECK), encoding="utf-8") as file:
        counted = dict(line.split() for line in file if len(line.split()) == 2)
        text["check"] = {key: int(counted[key]) for key in ("radius", "before", "after") if key in counted}
    if layout := read_layout(page):
        text["layout"] = {key: value for key, value in layout.items() if key != "made_of"}
    with named(page.file(TRAPPED, JSON)), open(os.path.join(made, JSON), "w", encoding="utf-8") as file:
        file.write(json.dumps(text, indent=1) + "\n")

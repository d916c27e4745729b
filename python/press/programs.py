# SPDX-License-Identifier: Apache-2.0
"""A trapping program on the folder of a page: how it is run, and what its refusals mean in the files of the page."""
import math
import re
import subprocess
from collections.abc import Sequence

from . import tools
from .errors import PressError, Status
from .files import need_room
from .folder import JOB, PageFolder
from .inks import Ink
from .job import job_place

AT = re.compile(r"job: .* at (\d+)")
Started = tools.Started


def most_dpi(size: tuple[float, float], inked: int, longest: int, most: int | None) -> int:
    """The greatest resolution at which a page of this size in points and so many inks fits."""
    width, height = size
    by_side = longest * 72 / max(width, height)
    by_samples = math.sqrt(most / inked / width / height) * 72 if most else by_side
    return max(1, int(min(by_side, by_samples)))


def refusal(page: PageFolder, name: str, inks: Sequence[Ink], done: "subprocess.CompletedProcess[bytes]") -> PressError:
    """Why a program refused the page: its own line, and the place that its numbers stand for. `inks` are those whose
    plates it was given, in their order."""
    line = tools.last_line(done)
    what = f'{name} ended with {done.returncode}: "{line}"'
    place, at, plate = page.path, AT.fullmatch(line), re.search(r"plate (\d+)", line)
    if at:
        with open(page.file(JOB), "rb") as file:
            place = f"{page.file(JOB)}: {job_place(file.read(), int(at.group(1)))}"
    elif plate and int(plate.group(1)) < len(inks):
        # The plate that could not be written is the trapped one.
        place = page.plate(inks[int(plate.group(1))], line.startswith("write"))
    return PressError(Status.PROGRAM, what, place)


def run_on(page: PageFolder, name: str, words: Sequence[str], inks: Sequence[Ink],
           started: Started | None = None) -> bytes:
    """Runs a program in a page's folder on the plates of some inks, and answers what it printed. `started` gets the
    child, to stop it."""
    path = tools.program(name)
    done = tools.run([path, *words], cwd=page.path, env=tools.environment(path), started=started)
    if done.returncode != 0:
        need_room(page.path, f"{name} wrote")
        raise refusal(page, name, inks, done)
    return done.stdout

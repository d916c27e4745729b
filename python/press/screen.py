# SPDX-License-Identifier: Apache-2.0
"""Screened plates: TIFF files of one bit a pixel for a platesetter, each ink with its own screen."""
import os
from collections.abc import Mapping, Sequence
from dataclasses import dataclass
from typing import Any

from .bilevel_tiff import Bilevel, write_bilevel
from .command import PROJECT, version
from .errors import UsageError
from .files import folder_beside
from .folder import TRAPPED
from .inks import Ink
from .job_record import digest_of
from .names import readable
from .output_report import changed, coverage, file_figures, full_disk_refused, write_report
from .plates import Array
from .screen_cell import STRONG, Cell, beat, cells, cells_together
from .screen_dots import ink_counts, mirrored, negative, order_of, thresholds
from .screen_strips import Imaging, check_halftone, rows_of_strip, strips_of
from .screen_table import InkScreen
from .trapped_page import TrappedPage

STRONG_INKS = ("Cyan", "Magenta", "Black")


@dataclass(frozen=True)
class Screened:
    """An ink with the screen that was asked for, and the supercell that makes it."""

    ink: Ink
    asked: InkScreen
    cell: Cell


def plan(inks: Sequence[Ink], screens: Mapping[str, InkScreen], dpi: int) -> tuple[list[Screened], float | None]:
    """The supercell of each ink; and the beat of the three strong inks in lines per inch, if the page has them."""
    strong = [ink.name for ink in inks if ink.name in STRONG_INKS]
    chosen = dict(zip(strong, cells_together([screens[name].screen for name in strong], dpi)))
    for ink in inks:
        if ink.name not in chosen:
            chosen[ink.name] = cells(screens[ink.name].screen, dpi)[0]
    screened = [Screened(ink, screens[ink.name], chosen[ink.name]) for ink in inks]
    if len(strong) < STRONG:
        return screened, None
    slowest = beat([chosen[name].vector(dpi) for name in strong], [screens[name].screen.shape for name in strong])
    return screened, round(slowest, 4)


def screen_plate(plate: Array, one: Screened, imaging: Imaging, path: str, scratch: str) -> None:
    """Writes the screened plate of an ink."""
    counts = ink_counts(one.cell.side ** 2, one.asked.curve, one.asked.least)
    array = thresholds(order_of(one.cell, one.asked.screen.shape), counts)
    width, height = imaging.side(plate.shape[1]), imaging.side(plate.shape[0])
    if imaging.negative:
        array = negative(array)
    if imaging.mirror:
        array = mirrored(array, width)
    name = readable(one.ink.colorant)
    image = Bilevel(width, height, min(height, rows_of_strip(width)), imaging.dpi, name, os.path.basename(path),
                    f"{PROJECT} {version()}, press-screen")
    with open(path, "wb") as file:
        write_bilevel(file, image, strips_of(plate, array, imaging, scratch))


def figures_of(one: Screened, plate: Array, path: str, imaging: Imaging) -> dict[str, Any]:
    """What the report says of a plate."""
    asked = one.asked
    return {"name": readable(one.ink.colorant), "job_name": one.ink.name, **file_figures(path, os.path.basename(path)),
            "angle": round(one.cell.angle, 4), "lpi": round(one.cell.lpi(imaging.dpi), 3), "shape": asked.screen.shape,
            "least_dot": asked.least, "curve": asked.curve_name, "coverage": coverage(plate),
            "cell": {"across": one.cell.across, "upward": one.cell.upward, "side": one.cell.side}}


def screen_page(page: TrappedPage, screens: Mapping[str, InkScreen], imaging: Imaging, out: str,
                name: bytes) -> dict[str, Any]:
    """Screens all plates of a page into the folder OUT, as NAME(Cyan).tif and so on, with a report NAME.json. The files
    get their names when all of them are whole. Returns the report's figures."""
    if imaging.dpi < imaging.plate_dpi:
        raise UsageError(f"--dpi {imaging.dpi} is less than the plates have, {imaging.plate_dpi}")
    screened, slowest = plan(page.folder.inks, screens, imaging.dpi)
    os.makedirs(out, exist_ok=True)
    with folder_beside(out, inside=True) as made, full_disk_refused(out, "plates were screened"):
        scratch, ready = os.path.join(made, "scratch"), os.path.join(made, "ready")
        os.mkdir(scratch)
        os.mkdir(ready)
        check_halftone(scratch)
        plates = []
        for one, before, plate in zip(screened, page.before.arrays, page.after.arrays):
            path = os.fsdecode(os.path.join(os.fsencode(ready), name + b"(" + one.ink.suffix + b").tif"))
            screen_plate(plate, one, imaging, path, scratch)
            made_of = digest_of(page.folder.file(TRAPPED, f"{one.ink.name}.pgm"))
            plates.append({**figures_of(one, plate, path, imaging), "changed": changed(before, plate),
                           "plate_sha256": made_of})
        figures = {"page": page.number, "resolution": imaging.dpi, "plates_resolution": imaging.plate_dpi,
                   "negative": imaging.negative, "mirror": imaging.mirror, "beat_of_strong_inks": slowest,
                   "plates": plates}
        write_report(os.path.join(ready, os.fsdecode(name) + ".json"), "press-screen", figures)
        for file in sorted(os.listdir(ready)):
            os.replace(os.path.join(ready, file), os.path.join(out, file))
    return figures

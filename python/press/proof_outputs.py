# SPDX-License-Identifier: Apache-2.0
"""What a proof sheet shows beside the pages' plates: a link to the trapped PDF of a run, and the screened plates of a
page, read from the files that press/screen wrote."""
from __future__ import annotations

import glob
import io
import json
import os
import urllib.parse
from collections.abc import Mapping
from typing import Any

import numpy
import tifffile
from PIL import Image

from .bilevel_tiff import Bilevel, write_bilevel
from .errors import PressError, Status
from .folder import TRAPPED, PageFolder
from .job_record import digest_of
from .picture import Painter, Part
from .plates import Array
from .proof_html import data_uri, escaped, table

# So many samples of the plates a side are shown screened.
PART_SIDE = 48
Report = Mapping[str, Any]


def read_report(path: str, command: str) -> Report | None:
    """A report in JSON that a press command wrote; None if it is another file."""
    try:
        with open(path, encoding="utf-8", errors="surrogateescape") as file:
            found = json.load(file)
    except (OSError, ValueError):
        return None
    return found if isinstance(found, dict) and found.get("command") == command else None


# The trapped PDF

def trapped_pdf_text(out: str) -> str:
    """A link to the trapped PDF in the folder of a run, if it has one."""
    for path in sorted(glob.glob(os.path.join(glob.escape(out), "*-trapped.json"))):
        report = read_report(path, "press-pdf")
        if report and os.path.isfile(os.path.join(out, str(report["file"]))):
            name = str(report["file"])
            proved = "Ghostscript renders the trapped plates from it, byte for byte" if report["verified"] else \
                "it was not verified"
            address, pages = urllib.parse.quote(os.fsencode(name)), len(report["pages"])
            return (f'<p>The trapped PDF: <a href="{address}">{escaped(name)}</a>, {int(report["bytes"]):,} bytes, '
                    f"with the traps of {pages} page{'s' if pages != 1 else ''}; {proved}.</p>")
    return ""


# Screened plates

def screened_reports(folder: str) -> dict[int, Report]:
    """The reports of press/screen in a folder, by pages."""
    found = {}
    for path in sorted(glob.glob(os.path.join(glob.escape(folder), "*.json"))):
        if report := read_report(path, "press-screen"):
            found[int(report["page"])] = report
    if not found:
        raise PressError(Status.NO_PLATES, "no screened plates here: press/screen writes them", folder)
    return found


def need_same(report: Report, painter: Painter, bits: str) -> None:
    """That plates were screened of these trapped plates."""
    page = painter.page
    made_of = {one["job_name"]: one.get("plate_sha256") for one in report["plates"]}
    if any(made_of.get(ink.name) != digest_of(page.file(TRAPPED, f"{ink.name}.pgm")) for ink in page.inks):
        raise PressError(Status.NO_PLATES, f"page {report['page']} was screened of other plates than {page.path} has: "
                         f"screen it again", bits)


def rows_of(path: str, top: int, bottom: int) -> tuple[Image.Image, int]:
    """The strips of a screened plate that have the rows from `top` to before `bottom`, as a picture in which ink is 0;
    and its first row. No more of a large plate is unpacked."""
    with tifffile.TiffFile(path) as file, open(path, "rb") as data:
        page = file.pages[0].keyframe
        first, last = top // page.rowsperstrip, (bottom - 1) // page.rowsperstrip
        strips = []
        for at in range(first, min(last + 1, len(page.dataoffsets))):
            data.seek(page.dataoffsets[at])
            strips.append(data.read(page.databytecounts[at]))
        start = first * page.rowsperstrip
        height = min(page.imagelength - start, page.rowsperstrip * len(strips))
        out = io.BytesIO()
        write_bilevel(out, Bilevel(page.imagewidth, height, page.rowsperstrip, 1, "", "", ""), strips)
    return Image.open(out), start


def bits_of(path: str, report: Report, part: Part) -> Array:
    """A part of a screened plate, given in samples of the plates: a pixel with ink is 0, one without is 255."""
    scale = int(report["resolution"]) / int(report["plates_resolution"])
    left, top, width, height = (int(side * scale) for side in part)
    rows, start = rows_of(path, top, top + height)
    if report["mirror"]:
        left = rows.width - left - width
    found: Array = numpy.asarray(rows.convert("L").crop((left, top - start, left + width, top - start + height)))
    if report["mirror"]:
        found = found[:, ::-1]
    return 255 - found if report["negative"] else found


def screened_text(folder: str, report: Report, bits: str) -> str:
    """The screened plates of a page's folder: a table of their screens, and the dots of the part with most traps, all
    inks laid over each other, a point for each pixel. `bits` is the folder that has them."""
    painter = Painter(PageFolder.read(folder), True)
    need_same(report, painter, bits)
    left, top, width, height = part = painter.most(PART_SIDE, PART_SIDE)
    files = {one["job_name"]: os.path.join(bits, str(one["file"])) for one in report["plates"]}
    dots = painter.laid_over([bits_of(files[ink.name], report, part) for ink in painter.page.inks])
    rows = [[escaped(str(one["name"])), f"{one['angle']:.2f}°", f"{one['lpi']:.2f}", str(one["shape"]),
             f"{one['coverage']:.1f}%"] for one in report["plates"]]
    screens = table(["ink", "angle", "lines per inch", "shape", "mean tint"], rows)
    return (f'<section class="page"><h3>Screened plates of page {report["page"]}</h3>{screens}<p>{width} by {height} '
            f'samples at {left},{top}, at {report["resolution"]} pixels per inch.</p><img class="dots" '
            f'src="{data_uri(dots)}" alt="dots" style="width:36em;image-rendering:pixelated"></section>')

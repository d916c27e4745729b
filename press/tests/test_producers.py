# SPDX-License-Identifier: Apache-2.0
"""Pages as LibreOffice, Inkscape, LaTeX, WeasyPrint, Chromium, cairo, ReportLab, Scribus and a text editor write them: what
preflight finds in each, what is trapped and what is not, and that each one's trapped PDF renders to its plates.
inputs/producers/make.sh makes six of the files."""
import json
from dataclasses import dataclass
from pathlib import Path

import numpy as np
import pytest
from room import Room

from press.folder import PageFolder

pytestmark = pytest.mark.slow
INPUTS = Path(__file__).resolve().parent / "inputs"


@dataclass(frozen=True)
class Page:
    """A file: what preflight finds of colours, type, images and boxes; the place of a picture in which nothing is trapped,
    and that of the type above it, which is, in points from the upper left corner; and how far from the border marks
    reach."""

    found: tuple[str, ...]
    picture: tuple[float, float, float, float] | None = None
    type_above: tuple[float, float, float, float] | None = None
    marks: float = 0


# What is found at a place, and says so in the report for machines.
PLACED = ("colour-space", "rich-type", "small-reverse", "hairline", "image-resolution", "thin-strokes", "total-ink", "untrapped-inks")
RGB = ("colour-space", "thin-strokes")
PAGES = {
    "producers/libreoffice": Page((*RGB, "images", "rich-type", "small-reverse", "hairline", "image-resolution"),
                                  (92, 84, 178, 108), (94, 114, 178, 126)),
    "producers/inkscape": Page((*RGB, "images", "rich-type", "small-reverse"), (92, 22, 178, 66), (94, 69, 178, 83)),
    "producers/latex": Page(("images", "rich-type", "small-reverse", "image-resolution", "thin-strokes", "not-trapped"),
                            (112, 35, 198, 77), (113, 84, 190, 97), 13.5),
    "producers/weasyprint": Page((*RGB, "images", "rich-type", "small-reverse", "not-trapped"), (98, 28, 184, 72),
                                 (100, 77, 184, 90), 5.5),
    "producers/chromium": Page((*RGB, "images", "rich-type", "small-reverse"), (92, 22, 178, 66), (94, 71, 178, 84)),
    "producers/cairo": Page(RGB),
    "rl-card-mm": Page(("ink-kind", "ink-library")),
    "scribus-x4": Page(("output-intent", "not-trapped"), marks=20),
    "label-white-varnish": Page(("ink-kind",)),
}


def small(page: PageFolder, box: tuple[float, float, float, float]) -> tuple[slice, slice]:
    """A box in points from the upper left corner, in pixels."""
    left, upper, right, lower = (int(side * page.source.resolution / 72) for side in box)
    return slice(upper, lower), slice(left, right)


@pytest.mark.parametrize("name", PAGES)
def test_pages_of_producers(room: Room, built: None, name: str) -> None:
    told, path = PAGES[name], INPUTS / f"{name}.pdf"
    found = json.loads(room.goes("preflight", "--json", "--dpi", "300", path).out)["findings"]
    kinds = {one["kind"] for one in found}
    assert kinds >= set(told.found) and not any(one["level"] == "fault" for one in found), kinds
    assert all(len(one["place"]) == 2 and one["page"] == 1 for one in found if one["kind"] in PLACED), found
    room.goes("all", path, "out", "--quiet", "--dpi", "300", "--preset", "offset", "--no-proof")
    page = PageFolder.read(str(room / "out" / "page-001"))
    before, after = (np.stack(page.plates(done).arrays) for done in (False, True))
    changed = (before != after).any(axis=0)
    assert changed.sum() > 500
    if told.picture:
        assert not changed[small(page, told.picture)].any() and told.type_above
        assert changed[small(page, told.type_above)].sum() > 50
    if told.marks:
        margin = int(told.marks * 300 / 72)
        changed[margin:-margin, margin:-margin] = False
        assert not changed.any()
    room.goes("pdf", path, "trapped.pdf", "out")
    assert json.loads((room / "trapped.json").read_text(encoding="utf-8"))["verified"]

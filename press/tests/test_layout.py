# SPDX-License-Identifier: Apache-2.0
"""Where a page is trapped: boxes, layers, what is drawn above images, and thin strokes on plates."""
import json
from pathlib import Path

import numpy as np
import pytest

from press import zones
from press.errors import UsageError
from press.inks import InkBook, Separation
from press.job_language import read_job
from press.layout import Layout, lay_out, layer_entries, layer_lines, pictures_alone, trap_box, usual_box
from press.marks import Mark, above, outline_of
from press.plates import Plates
from press.rects import Rect
from press.regions import box_on_page
from press.settings import Settings, parameters
from press.source import PageInfo
from press.trace import Trace
from traces import trace_of

pytestmark = [pytest.mark.quick, pytest.mark.plain]
MEDIA, BLEED, TRIM = (0.0, 0.0, 220.0, 160.0), (10.0, 10.0, 210.0, 150.0), (20.0, 20.0, 200.0, 140.0)


def info_of(rotate: int = 0, unit: float = 1.0, **boxes: tuple[float, float, float, float]) -> PageInfo:
    """What a PDF says of a page with these boxes."""
    return PageInfo({"media": MEDIA, **boxes}, rotate, unit, ())


# Boxes

def test_the_usual_box() -> None:
    """The bleed box if it lies inside the media box, else the trim box, else the page."""
    assert usual_box(info_of(bleed=BLEED, trim=TRIM)) == "bleed"
    assert usual_box(info_of(bleed=MEDIA, trim=TRIM)) == usual_box(info_of(trim=TRIM)) == "trim"
    assert usual_box(info_of()) == usual_box(info_of(bleed=MEDIA)) == usual_box(None) == "media"


@pytest.mark.parametrize("rotate, rect", [(0, (20, 20, 150, 120)), (90, (20, 70, 120, 200)), (180, (70, 40, 200, 140)),
                                          (270, (40, 20, 140, 150))])
def test_a_box_on_a_turned_page(rotate: int, rect: tuple[float, ...]) -> None:
    """A page is turned clockwise; lower left of what is drawn is the origin."""
    info = info_of(rotate, trim=(20, 20, 150, 120))
    assert box_on_page(info, "trim", "media") == rect
    twice = box_on_page(info_of(rotate, 2.0, trim=(20, 20, 150, 120)), "trim", "media")
    assert twice == tuple(2 * side for side in rect)


def test_where_traps_may_be() -> None:
    info = info_of(bleed=BLEED, trim=TRIM)
    assert trap_box(info, Settings()) == (Rect(*BLEED), "bleed")
    assert trap_box(info, Settings(trap_within="trim")) == (Rect(*TRIM), "trim")
    assert trap_box(info, Settings(trap_within="media")) == (None, "media")
    assert trap_box(info, Settings(box="bleed")) == (None, "bleed")
    assert trap_box(info_of(), Settings(trap_within="trim")) == (None, "trim")


# What is above images

IMAGE, LATER = (5, Rect(0, 0, 100, 100)), (9, Rect(50, 0, 150, 100))


def mark(order: int, *outline: Rect) -> Mark:
    """Something painted."""
    return Mark(order, Rect(min(one.left for one in outline), min(one.lower for one in outline),
                            max(one.right for one in outline), max(one.upper for one in outline)), outline)


def test_what_is_painted_later_is_above() -> None:
    assert above([mark(3, Rect(10, 10, 20, 20))], [IMAGE], 1) == []
    assert above([mark(7, Rect(10, 10, 20, 20))], [IMAGE], 1) == [Rect(9, 9, 21, 21)]
    assert above([mark(7, Rect(110, 10, 120, 20))], [IMAGE], 1) == []


def test_what_a_later_image_hides_is_not() -> None:
    assert above([mark(7, Rect(60, 10, 70, 20))], [IMAGE, LATER], 1) == []
    assert above([mark(7, Rect(40, 10, 60, 20))], [IMAGE, LATER], 0) == [Rect(40, 10, 50, 20)]


def test_a_frame_is_its_outline() -> None:
    """The inside of a frame around a photograph stays photograph."""
    boxes = outline_of([[(0, 0), (80, 0), (80, 60), (0, 60)]], True, 0.5)
    assert len(boxes) == 4 and not any(box.common(Rect(10, 10, 70, 50)).area for box in boxes)
    assert len(outline_of([[(0, 0), (8, 0), (4, 6)]], True, 0)) == 1
    assert len(outline_of([[(0, 0), (80, 60)]], False, 0.5)) == 15


def test_no_strokes_are_looked_for_in_pictures_alone() -> None:
    """What is drawn above an image is looked at."""
    left = pictures_alone([Rect(0, 0, 100, 100), Rect(200, 0, 300, 100)], [Rect(40, 40, 60, 60)])
    assert sum(rect.area for rect in left) == 20_000 - 400
    assert not any(rect.meets(Rect(40, 40, 60, 60)) for rect in left)


def test_a_trace_has_marks_in_their_order() -> None:
    """Type by its glyphs, a path by its points, an image between them; layers have the boxes of what they paint."""
    flip = {"transform": "1 0 0 -1 0 100"}
    trace = trace_of(
        ("fill_path", flip), ("moveto", {"x": "10", "y": "10"}), ("lineto", {"x": "20", "y": "10"}),
        ("lineto", {"x": "20", "y": "20"}), ("/fill_path", {}),
        ("fill_image", {"width": "40", "height": "30", "transform": "80 0 0 60 5 5"}),
        ("layer", {"name": "Words"}), ("fill_text", flip), ("span", {"trm": "10 0 0 10"}),
        ("g", {"x": "30", "y": "40", "adv": ".5"}), ("/fill_text", {}), ("end_layer", {}))
    assert [one.order for one in trace.marks] == [1, 3] and trace.images[0].order == 2
    assert trace.marks[0].box == Rect(10, 80, 20, 90)
    assert trace.marks[1].box == pytest.approx(Rect(30, 50.5, 35, 62.5))
    assert trace.painted == {"Words": [trace.marks[1].box]}


def test_clips_cut_marks() -> None:
    trace = trace_of(("clip_path", {}), ("moveto", {"x": "0", "y": "0"}), ("lineto", {"x": "15", "y": "0"}),
                     ("lineto", {"x": "15", "y": "15"}), ("lineto", {"x": "0", "y": "15"}), ("/clip_path", {}),
                     ("fill_path", {}), ("moveto", {"x": "10", "y": "10"}), ("lineto", {"x": "20", "y": "10"}),
                     ("lineto", {"x": "20", "y": "20"}), ("/fill_path", {}), ("pop_clip", {}))
    assert trace.marks[0].box == Rect(10, 10, 15, 15)


# Layers

def test_entries_of_layers() -> None:
    assert layer_entries(["Guides=off", "Back=TrapWidth=0.5,Enabled=true"]) == {
        "Guides": {"Enabled": False}, "Back": {"TrapWidth": 0.5, "Enabled": True}}
    for word in ("Guides", "=off", "Back=Width=1", "Back=TrapWidth=wide", "Back=Enabled=1"):
        with pytest.raises(UsageError, match="--layer"):
            layer_entries([word])


def test_a_layer_that_is_not_there_is_named() -> None:
    trace = Trace(painted={"Print": [Rect(0, 0, 1, 1)]})
    assert list(layer_lines(trace, Settings(layer=("Print=off", "Pint=off")))) == [
        "--layer: no layer Pint paints on the page; layers that do: Print"]


# Thin strokes

def plates_of(maxval: int = 255) -> tuple[Plates, list[object]]:
    """A red page of 300 by 200 pixels at 600 dpi, with a blue line of four pixels and a blue block."""
    names = ("Cyan", "Magenta", "Yellow", "Black")
    tints = np.zeros((4, 200, 300), np.uint8)
    tints[1:3] = 240
    for where in (np.s_[:, 40:44, 20:280], np.s_[:, 100:180, 50:150]):
        tints[where] = 0
    for plate, tint in ((0, 255), (1, 153), (3, 51)):
        tints[plate, 40:44, 20:280] = tints[plate, 100:180, 50:150] = tint
    dtype = "u1" if maxval == 255 else ">u2"
    arrays = tuple((maxval - tint.astype("u4") * (maxval // 255)).astype(dtype) for tint in tints)
    book = InkBook(Settings(), None)
    inks = [book.ink(Separation(name.encode(), b"", None, name)) for name in names]
    return Plates(names, arrays, maxval, 600), inks


@pytest.mark.parametrize("maxval", (255, 65_535))
def test_a_page_with_a_thin_line(maxval: int, tmp_path: Path) -> None:
    """A zone of the page, and one of the line with a narrower trap; the report says what is left of its colour."""
    plates, inks = plates_of(maxval)
    settings = Settings(parameters=parameters("offset"))
    layout = lay_out([], None, None, plates, inks, settings)
    job = read_job(b"\n".join(one.text for one in layout.statements))
    assert [zone.parameters.trap_width for zone in job.zones[1:]] == [2500, 1347]
    assert layout.strokes and (layout.strokes.parts, layout.strokes.lines, layout.strokes.zones) == (1, 1, 1)
    assert layout.strokes.own_before == 0 and 0.45 < layout.strokes.own_after < 0.55
    layout.write(str(tmp_path / "zones.json"))
    told = json.loads((tmp_path / "zones.json").read_text())["thin"]
    assert told["lines"] == 1 and len(told["places"]) == 1
    assert not lay_out([], None, None, plates, inks, settings.but(thin_zones=False)).statements
    assert not list(layout.findings(1, 600))


def test_what_is_not_trapped_is_named() -> None:
    """The box that holds traps by its name, and no share below half a per cent."""
    shares = ((zones.TRIM, 0.221), (zones.IMAGES, 0.03), (zones.LAYERS, 0.001))
    assert Layout((), untrapped=shares).untrapped_line("bleed") == \
        "25% of the page is not trapped: 22% outside the bleed box, 3% images (--trap-images)"


def test_specks_have_zones_and_are_not_reported() -> None:
    """A pixel that a stroke has at a corner gets a zone, and is no line that a higher resolution would help."""
    plates, inks = plates_of()
    for array in plates.arrays:
        array[array.shape[0] // 2, 290] = array[42, 100]
    layout = lay_out([], None, None, plates, inks, Settings(parameters=parameters("offset")))
    assert layout.strokes and (layout.strokes.parts, layout.strokes.lines, layout.strokes.too_thin) == (1, 1, 0)
    assert len({width for width, _ in layout.strokes.places}) == 2 and not list(layout.findings(1, 600))


def test_strokes_that_are_too_thin_are_named() -> None:
    """With the resolution that would do."""
    plates, inks = plates_of()
    for array in plates.arrays:
        array[42:44, 20:280] = array[0, 0]
    (found,) = lay_out([], None, None, plates, inks, Settings()).findings(1, 600)
    assert found.kind == "thin-strokes" and "1 of 1 lines" in found.text and "800 dpi would do" in found.text

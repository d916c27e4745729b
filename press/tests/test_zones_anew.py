# SPDX-License-Identifier: Apache-2.0
"""press/zones: the press room's zones of a page made anew, and the warning of press/trap that they should be."""
import json
import re
import shutil
from pathlib import Path

import pytest
from press import zones_anew
from press.folder import PageFolder
from press.job_language import read_job
from room import LABEL, Room


@pytest.fixture(name="label")
def fixture_label(room: Room) -> Path:
    """The front of the label, with its tables and zones beside it: an image under type, thin strokes, a zone of the owner's."""
    for end in ("pdf", "inks", "zones"):
        shutil.copy(LABEL.with_suffix(f".{end}"), room / f"label.{end}")
    room.write("label.2.zones", (LABEL.parent / "label.2.zones").read_bytes())
    return room.folder


def job_of(folder: Path) -> str:
    """The job of a page."""
    return (folder / "page.job").read_text()


def without_comments(text: str) -> str:
    """A job without its comments and blank lines."""
    return re.sub(r"\n\s*\n+", "\n", re.sub(r"%.*", "", text))


@pytest.mark.slow
def test_zones_follow_the_widths_of_the_job(room: Room, label: Path, built: None) -> None:
    """Once the width in page.job is changed, press/trap warns, and press/zones makes the zones that press/plates makes for that width; a
    zone that was added by hand stays."""
    room.write("label.zones", "")
    room.goes("plates", "label.pdf", "page", "--dpi", "300", "--width", "0.5pt")
    room.goes("plates", "label.pdf", "wide", "--dpi", "300", "--width", "1.5pt")
    before = job_of(label / "page")
    assert without_comments(before) != without_comments(job_of(label / "wide"))
    room.goes("zones", "page")
    assert job_of(label / "page") == before
    assert "page.job" not in room.goes("trap", "page").err
    (label / "page" / "page.job").write_text(before.replace("/TrapWidth 0.5 ", "/TrapWidth 1.5 ", 1))
    line = "page/page.job: the zones of images and thin strokes were made for TrapWidth 0.5, now 1.5: press/zones page makes them anew"
    assert room.goes("trap", "page").err.count(line) == 1
    assert line in room.goes("zones", "--dry-run", "page").out
    room.goes("zones", "page")
    assert without_comments(job_of(label / "page")) == without_comments(job_of(label / "wide"))
    assert "made for" not in room.goes("trap", "page").err
    assert room.goes("zones", "-n", "page").out == "page: the zones fit the job\n"
    room.goes("trap", "wide")
    for file in (label / "wide" / "trapped").glob("*.pgm"):
        assert file.read_bytes() == (label / "page" / "trapped" / file.name).read_bytes()
    assert json.loads((label / "page" / "zones.json").read_text())["thin"] == json.loads((label / "wide" / "zones.json").read_text())["thin"]
    assert "made_of" not in json.loads((label / "page" / "trapped" / "report.json").read_text())["layout"]


@pytest.mark.slow
def test_zones_of_the_owner_stay(room: Room, label: Path) -> None:
    """Statements and zones of the owner's files keep their place and their bytes, and a width that is set at the page's own zone holds."""
    room.goes("plates", "label.pdf", "page", "--page", "2", "--dpi", "300")
    text = job_of(label / "page")
    owner = text[text.index("% From label.2.zones:"):text.index("settrapzone", text.index("% From label.2.zones:"))]
    (label / "page" / "page.job").write_text(text.replace("\nnewpath", "\n<< /TrapWidth 0.9 >> settrapparams newpath", 1))
    room.goes("zones", "page")
    made = job_of(label / "page")
    assert owner in made
    zones = read_job(made.encode()).zones
    assert zones[1].parameters.trap_width == 9000
    panel, = (zone for zone in zones if zone.parameters.trap_width == 1500 and len(zone.subpaths) == 1)
    assert panel.parameters.trap_color_scaling == 5000


def test_pages_that_do_not_say_it(room: Room, two: Path) -> None:
    """A page of an earlier version is refused, and not warned of; so is a job that is none, at its file."""
    (two / "zones.json").write_text('{"untrapped": {}}\n')
    assert not list(zones_anew.stale_lines(PageFolder.read(str(two))))
    room.refused(4, r"press-zones: two/zones\.json: does not say what the zones were made of: press/plates makes the page anew", "zones", "two")
    room.refused(2, r"press-zones: DIR is missing \(see press-zones --help\)", "zones")


def test_damaged_job_and_layout(room: Room, two: Path) -> None:
    """A job without showpage, and a layout without its entries."""
    text = (two / "page.job").read_text()
    (two / "page.job").write_text(text.replace("showpage", ""))
    room.refused(9, r"press-zones: two/page\.job: no valid job: .*", "zones", "two")
    (two / "page.job").write_text(text)
    (two / "zones.json").write_text('{"made_of": {"rule": {}}}\n')
    room.refused(4, r"press-zones: two/zones\.json: no layout of a page", "zones", "two")

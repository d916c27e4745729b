# SPDX-License-Identifier: Apache-2.0
"""Keepaway in the trap editor: what is shown begins from plates that were drawn back, and a page that is done is that
of press/trap."""
import shutil
import subprocess
from pathlib import Path

import pytest

np = pytest.importorskip("numpy")
pytest.importorskip("PIL.Image")
pytest.importorskip("starlette.testclient")

from press import engine, keepaway, tools  # noqa: E402
from press.desk.drawn_back import DrawnBack, LastRun, zones_that_matter  # noqa: E402
from press.desk.job_edits import Edits, apply_edits, take_apart  # noqa: E402
from press.folder import PageFolder, PageSource, write_table  # noqa: E402
from press.inks import Ink  # noqa: E402
from press.job import Statement, write_job  # noqa: E402
from press.job_language import read_job  # noqa: E402
from press.plates import read_pgm, write_pgm  # noqa: E402
from press.settings import Settings  # noqa: E402
from test_desk_server import (LIBRARY, edit, files_of, open_client, page_of, trapped_by_command,  # noqa: E402
                              view, wait_until_shown)

pytestmark = [pytest.mark.plain, pytest.mark.skipif(
    LIBRARY is None or not tools.has_program("trap") or not tools.has_program("trapkeep"),
    reason="libtrap, trap or trapkeep is not built")]
WIDTH, HEIGHT, DPI = 160, 120, 600
WHOLE = {"left": 0, "top": 0, "width": WIDTH, "height": HEIGHT}


def make_rich_page(folder: Path, statements: bytes = b"") -> Path:
    """A page with a rich black on paper, a magenta square beside a cyan one, and 0.5 pt of traps."""
    folder.mkdir(parents=True)
    rows, columns = np.mgrid[:HEIGHT, :WIDTH]
    black = (rows > 20) & (rows < 60) & (columns > 20) & (columns < 90)
    cyan = (rows > 70) & (columns < 60)
    marks = {"Cyan": (black * 0.6) + cyan, "Magenta": ((rows > 70) & ~cyan) * 1.0, "Black": black * 1.0}
    inks = tuple(Ink(name, name.encode(), name.encode(), density)
                 for name, density in (("Cyan", "0.61"), ("Magenta", "0.76"), ("Black", "1.70")))
    for name, mark in marks.items():
        write_pgm(str(folder / f"{name}.pgm"), np.round(255 - 255 * mark).astype("u1"), 255)
    source = PageSource(b"made.pdf", 1, DPI)
    text = write_job(source, inks, [Statement(None, statements)] if statements else []).text
    (folder / "page.job").write_bytes(text.replace(b"showpage", b"<< /TrapWidth 0.5 >> settrapparams\nshowpage"))
    write_table(str(folder), source, inks)
    engine.trap(PageFolder.read(str(folder)), Settings())
    return folder


@pytest.fixture(name="page")
def fixture_page(tmp_path):
    """The folder of a page with a rich black."""
    return make_rich_page(tmp_path / "jobs" / "made" / "page-001")


@pytest.fixture(name="client")
def fixture_client(page):
    """A browser without a window."""
    with open_client(page.parent.parent) as client:
        yield client


def zone(*corners, **settings):
    """A rectangular zone over the black's left end, or with corners of its own."""
    left, top, right, bottom = corners or (10, 10, 50, 70)
    points = [[left, top], [right, top], [right, bottom], [left, bottom]]
    return {"name": "panel", "points": points, "settings": settings, "overImages": False}


def cyan_of(page, folder="trapped"):
    """The plate of the ink under the black."""
    return np.asarray(read_pgm(str(page / folder / "Cyan.pgm")))


def test_traps_that_are_shown_at_once_begin_from_plates_after_keepaway(client, page, tmp_path):
    """Widths of a zone move no keepaway: no preview, and the view is that of the page when it is done."""
    key = page_of(client)
    assert "Cyan on" in client.get(f"/api/pages/{key}").json()["keepaway"]["done"][0]
    assert not np.array_equal(cyan_of(page, "trapped/keepaway"), cyan_of(page, "."))
    before = view(client, key, **WHOLE)
    answer = edit(client, key, zones=[zone(30, 80, 90, 118, TrapWidth=12_000)]).json()
    live = view(client, key, **WHOLE)
    assert not answer["preview"] and answer["lacks"] == []
    wait_until_shown(client, key)
    assert np.array_equal(live, view(client, key, **WHOLE)) and not np.array_equal(live, before)
    assert files_of(page) == trapped_by_command(page, tmp_path / "again")


@pytest.mark.parametrize("edits", [
    {"settings": {"TrapWidth": 12_000}}, {"keepaway": 0}, {"keepaway": 15_000},
    {"zones": [zone(Enabled=False)]}, {"inks": {"Black": {"density": 15_000, "kind": "Normal"}}},
    {"inks": {"Cyan": {"density": 6_100, "kind": "Opaque"}}}])
def test_what_moves_keepaway_is_a_preview_until_the_page_is_done(client, page, tmp_path, edits):
    """Its page is then that of the command, byte for byte, and ends the preview."""
    key, first = page_of(client), cyan_of(page)
    answer = edit(client, key, **edits).json()
    assert answer["preview"] and answer["lacks"] == ["keepaway"]
    shown = wait_until_shown(client, key)
    assert shown["lacks"] == [] and not np.array_equal(cyan_of(page), first)
    assert files_of(page) == trapped_by_command(page, tmp_path / "again")
    assert client.post(f"/api/pages/{key}/undo", json={"version": shown["version"]}).json()["preview"]
    wait_until_shown(client, key)
    assert np.array_equal(cyan_of(page), first)


@pytest.mark.parametrize("width, option", [(0, ["--no-keepaway"]), (15_000, ["--keepaway", "1.5pt"])])
def test_the_editors_width_is_that_of_the_option(client, page, tmp_path, width, option):
    """The plates are those of press/trap with the option, on the page as it was before."""
    shutil.copytree(page, tmp_path / "by-option")
    key = page_of(client)
    assert edit(client, key, keepaway=width).json()["keepaway"]["width"] == width
    wait_until_shown(client, key)
    subprocess.run([str(Path(tools.PRESS) / "trap"), *option, str(tmp_path / "by-option")], check=True)
    assert files_of(page) == files_of(tmp_path / "by-option")
    with open_client(page.parent.parent) as again:
        found = wait_until_shown(again, key)
    assert found["edits"]["keepaway"] == width and found["keepaway"]["width"] == width


@pytest.mark.parametrize("bad", [-1, 2_000_000, True, "1", 1.5])
def test_a_width_that_is_none_is_refused(client, page, bad):
    """The job stays."""
    before = (page / "page.job").read_bytes()
    answer = edit(client, page_of(client), keepaway=bad)
    assert answer.status_code == 400 and "15.36 points" in answer.json()["error"]
    assert (page / "page.job").read_bytes() == before


def test_the_reason_of_a_pixel_begins_from_its_plates_after_keepaway(client, page):
    """The tints are those of both files, and the answer names the ink that was drawn back."""
    key = page_of(client)
    changed = cyan_of(page, "trapped/keepaway") != cyan_of(page, ".")
    rows, columns = np.nonzero(changed)
    answer = client.get(f"/api/pages/{key}/why/{columns[0]}/{rows[0]}").json()
    assert answer["drawnBack"] == ["Cyan"] and answer["before"][0] == round(255 * 0.6)
    assert answer["after"][0] == 255 - int(cyan_of(page)[rows[0], columns[0]])
    assert client.get(f"/api/pages/{key}/why/100/100").json()["drawnBack"] == []


def test_a_page_without_rich_black_has_no_preview(tmp_path):
    """No width can draw anything back; switching traps off in a zone is exact at once too."""
    page = make_rich_page(tmp_path / "jobs" / "made" / "page-001")
    write_pgm(str(page / "Black.pgm"), np.full((HEIGHT, WIDTH), 255, "u1"), 255)
    engine.trap(PageFolder.read(str(page)), Settings())
    with open_client(tmp_path / "jobs") as client:
        key = page_of(client)
        for more in ({"keepaway": 15_000}, {"settings": {"TrapWidth": 9_000}}, {"zones": [zone(Enabled=False)]}):
            assert not edit(client, key, **more).json()["preview"]


def test_presets_may_have_a_width(page, tmp_path, monkeypatch):
    """A preset of the house; those of the press room have none."""
    (tmp_path / "house").mkdir()
    (tmp_path / "house" / "film.preset").write_text("width 0.2mm\nkeepaway 0.4mm\n")
    monkeypatch.setenv("PRESS_HOUSE", str(tmp_path / "house"))
    with open_client(page.parent.parent) as client:
        found = {one["name"]: one for one in client.get(f"/api/pages/{page_of(client)}").json()["presets"]}
    assert found["film"]["keepaway"] == 11_339 and "" not in found["film"]["settings"]
    assert found["offset"]["keepaway"] is None


@pytest.mark.parametrize("width", [0, 1, 2_268, 100_000])
def test_the_width_stands_in_the_editors_block(width):
    """It goes in and comes out, alone and beside settings; press/trap reads it."""
    job = b"%!PS\n<< /HWResolution [600 600] >> setpagedevice\nshowpage\n"
    for edits in (Edits(keepaway=width), Edits({"TrapWidth": 3_000}, keepaway=width)):
        text = apply_edits(job, edits)
        assert take_apart(text) == (job, edits) and keepaway.said_in(text) == width / 10_000


# Which zones matter

def job_of(zones: bytes):
    """A job with zones after one of the whole page."""
    return read_job(b"<< /HWResolution [600 600] >> setpagedevice\n"
                    b"newpath -1 -1 moveto 999 0 rlineto 0 999 rlineto -999 0 rlineto settrapzone\n" + zones + b"showpage")


@pytest.mark.parametrize("zones, count", [
    (b"<< /TrapWidth 1 >> settrapparams newpath 2 2 moveto 5 0 rlineto 0 5 rlineto settrapzone\n", 0),
    (b"<< /Enabled false >> settrapparams newpath 2 2 moveto 5 0 rlineto 0 5 rlineto settrapzone\n", 1),
    (b"<< /BlackDensityLimit 1 >> settrapparams newpath 2 2 moveto 5 0 rlineto 0 5 rlineto settrapzone\n", 1),
    (b"<< /Enabled false >> settrapparams newpath 2 2 moveto 5 0 rlineto 0 5 rlineto settrapzone\n"
     b"<< /Enabled true >> settrapparams newpath 3 3 moveto 1 0 rlineto 0 1 rlineto settrapzone\n", 2),
    (b"<< /BlackDensityLimit 1 >> settrapparams newpath 2 2 moveto 5 0 rlineto 0 5 rlineto settrapzone\n"
     b"<< /TrapWidth 1 >> settrapparams newpath 3 3 moveto 2 0 rlineto 0 2 rlineto settrapzone\n", 2)])
def test_zones_that_ask_what_those_below_them_ask_do_not_matter(page, zones, count):
    """Within a triangle that asks something else, or beyond it, a zone may change what is drawn back."""
    folder = PageFolder.read(str(page))
    assert len(zones_that_matter(folder, job_of(zones))) == 1 + count


def test_what_is_not_known_differs(page):
    """A run by an unknown job; unless nothing can be drawn back."""
    folder, text = PageFolder.read(str(page)), (page / "page.job").read_bytes()
    rule = DrawnBack.of(folder, text, read_job(text))
    assert LastRun(None, {}).differs(rule, DPI) and not LastRun(rule, {}).differs(rule, DPI)
    off = DrawnBack.of(folder, b"%%Keepaway: 0\n" + text, read_job(text))
    assert off.is_off(DPI) and not LastRun(None, {}).differs(off, DPI)
    assert LastRun.of(folder, rule).differs(off, DPI) and LastRun(off, {}).differs(rule, DPI)

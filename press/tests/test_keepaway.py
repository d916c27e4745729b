# SPDX-License-Identifier: Apache-2.0
"""Keepaway in the press room: which pages need it, what becomes of their plates, and what is recorded of it."""
import json
from pathlib import Path
from typing import Any

import numpy as np
import pytest
from press import engine, keepaway, proof
from press.errors import PressError
from press.folder import PageFolder, PageSource, write_table
from press.inks import Ink
from press.job import Statement, write_job
from press.job_language import read_job
from press.job_record import part_of, read_record, write_record, InputFile
from press.plates import read_pgm, write_pgm
from press.recorded import options_from, settings_from
from press.settings import Settings, parameters
from room import Room

pytestmark = [pytest.mark.quick, pytest.mark.plain]
Plane = np.ndarray
DENSITIES = {"Cyan": "0.61", "Magenta": "0.76", "Black": "1.70", "White": "0.06", "Foil": "1.0"}
# 0.08 mm are 1.89 pixels at 600 dpi: a straight edge is drawn back by two.
WIDTH, EDGE = "0.08mm", 2
SIDE, INSIDE, PAPER = 48, slice(10, 38), 255


def ink_of(name: str, role: str = "spot", kind: str = "Normal", has_ink: bool = True) -> Ink:
    """An ink of a page."""
    return Ink(name, name.encode(), name.encode(), DENSITIES[name], kind, role=role, has_ink=has_ink)


def block(tint: float, part: slice = INSIDE) -> Plane:
    """A plate with a square of a tint."""
    plane = np.full((SIDE, SIDE), PAPER, "u1")
    plane[part, part] = round(PAPER * (1 - tint))
    return plane


def write_page(folder: Path, plates: dict[Ink, Plane], statements: bytes = b"", record: bool = True, maxval: int = 255) -> PageFolder:
    """A page's folder as press/plates makes it."""
    folder.mkdir(exist_ok=True)
    source, inks = PageSource(b"in.pdf", 1, 600), tuple(plates)
    for ink, plane in plates.items():
        write_pgm(str(folder / f"{ink.name}.pgm"), plane, maxval)
    (folder / "page.job").write_bytes(write_job(source, inks, [Statement(None, statements)] if statements else []).text)
    write_table(str(folder), source, inks)
    if record:
        write_record(str(folder), part_of(InputFile("in.pdf", 1, "0" * 64), 1, {}, {"state": "done"}))
    return PageFolder.read(str(folder))


def rich_page(folder: Path) -> PageFolder:
    """A page with a square of rich black, of cyan alone beside it, and of magenta under a part of it."""
    cyan = block(0.6)
    cyan[2:6, 2:6] = 0
    return write_page(folder, {ink_of("Cyan"): cyan, ink_of("Magenta"): block(0.4, slice(20, 24)), ink_of("Black"): block(1)})


def plate(page: PageFolder, name: str, folder: str = "trapped") -> Plane:
    """A plate of a page."""
    return np.asarray(read_pgm(page.file(folder, f"{name}.pgm")))


def settings_of(width: str | None = WIDTH) -> Settings:
    """Settings with this width."""
    return Settings(parameters=parameters(keepaway=width))


def report_of(page: PageFolder) -> dict[str, Any]:
    """What report.json says of keepaway."""
    found: dict[str, Any] = json.loads(Path(page.file("trapped", "report.json")).read_text())["keepaway"]
    return found


@pytest.fixture(name="programs_here", autouse=True)
def fixture_programs_here(programs: Path, monkeypatch: pytest.MonkeyPatch) -> Path:
    """The programs of the tests."""
    if not (programs / "trapkeep").exists() or not (programs / "trapsheet").exists():
        pytest.skip("the program trapkeep is not built")
    monkeypatch.setenv("TRAP_BIN", str(programs))
    return programs


# Rich black

def test_inks_are_drawn_back_under_black(tmp_path: Path) -> None:
    """Cyan ends two pixels before the edge of black; ink away from black, ink that ends within it, and black itself stay. The plates as
    separated stay too, and the one that trapping began from is kept."""
    page = rich_page(tmp_path / "page")
    before = {ink.name: Path(page.plate(ink)).read_bytes() for ink in page.inks}
    trapped = engine.trap(page, settings_of())
    assert trapped.warnings == ()
    wanted = block(0.6, slice(INSIDE.start + EDGE, INSIDE.stop - EDGE))
    wanted[2:6, 2:6] = 0
    assert (plate(page, "Cyan", "trapped/keepaway") == wanted).all()
    # Traps at the far edge of cyan would be no keepaway.
    assert (plate(page, "Cyan") == wanted).all() and (plate(page, "Black") == block(1)).all()
    assert sorted(path.name for path in Path(page.file("trapped", "keepaway")).iterdir()) == ["Cyan.pgm"]
    assert {ink.name: Path(page.plate(ink)).read_bytes() for ink in page.inks} == before
    changed = 28 * 28 - 24 * 24
    said = {"width": 0.2268, "rich_black": {"covered": 28 * 28, "changed": {"Cyan": changed, "Magenta": 0}}}
    assert report_of(page) == said and read_record(page.path)["pages"]["1"]["keepaway"] == said
    assert proof.keepaway_text(page) == f"<p>Drawn back by 0.23 pt under rich black: Cyan on {changed} pixels.</p>"


def test_the_proof_maps_coloured_fringes(tmp_path: Path) -> None:
    """Around the square of rich black cyan can show as separated, and nowhere once it is drawn back; a page without rich black
    has no map."""
    page = rich_page(tmp_path / "page")
    engine.trap(page, settings_of())
    text = proof.page_text(page)
    counts = json.loads(Path(page.file("trapped", "report.json")).read_text())["misregister"]
    # A ring of a sample within the edge and one beyond it but for its corners, each plate being off by one.
    assert (counts["radius"], counts["fringes_before"], counts["fringes_after"]) == (1, 30 * 30 - 26 * 26 - 4, 0)
    assert "Where colour can show next to black" in text and "0 samples on the plates as made, 220 as separated" in text
    plain = write_page(tmp_path / "plain", {ink_of("Cyan"): block(0.6), ink_of("Black"): block(1, slice(0, 4))})
    engine.trap(plain, settings_of())
    assert "next to black" not in proof.page_text(plain)


def test_the_proof_of_thin_strokes(tmp_path: Path) -> None:
    """The proof says that traps are narrower at thin strokes, if the page has any; nothing of keepaway before the page is trapped."""
    page = rich_page(tmp_path / "page")
    for zones, text in ((0, ""), (2, " Small type and thin lines have narrower ones.")):
        (tmp_path / "page/zones.json").write_text(json.dumps({"thin": {"zones": zones}}))
        assert proof.narrower_text(page) == text
    assert proof.keepaway_text(page) == ""


def test_pages_without_rich_black_are_not_touched(tmp_path: Path, programs: Path, monkeypatch: pytest.MonkeyPatch) -> None:
    """A page with black and colours, and none under the other, is trapped byte for byte as without keepaway, and trapkeep is not run."""
    folder = tmp_path / "programs"
    folder.mkdir()
    (folder / "trapsheet").symlink_to((programs / "trapsheet").resolve())
    (folder / "trapkeep").write_text("#!/bin/sh\nexit 1\n")
    (folder / "trapkeep").chmod(0o755)
    monkeypatch.setenv("TRAP_BIN", str(folder))
    cyan, black = block(0.6), block(1, slice(20, 30))
    cyan[20:30, 20:30] = PAPER
    page = write_page(tmp_path / "page", {ink_of("Cyan"): cyan, ink_of("Black"): black})
    made = []
    for settings in (Settings(), settings_of("off")):
        engine.trap(page, settings)
        made.append({path.name: path.read_bytes() for path in Path(page.file("trapped")).iterdir() if path.suffix != ".json"})
    assert made[0] == made[1] and set(made[0]) == {"Cyan.pgm", "Black.pgm", "report"}
    with pytest.raises(PressError, match="trapkeep ended with 1"):
        engine.trap(rich_page(tmp_path / "rich"), Settings())


@pytest.mark.parametrize("seed", range(20))
def test_which_inks_lie_under_black(tmp_path: Path, seed: int, monkeypatch: pytest.MonkeyPatch) -> None:
    """The bands of the plates say what each pixel by itself says: an ink counts where black is at the limit, or is some and touches that;
    and none does unless one lies below black at the limit."""
    monkeypatch.setattr(keepaway, "BAND_ROWS", 3)
    chance = np.random.default_rng(seed)
    maxval = int(chance.choice([255, 1000]))
    limit = maxval - -(-maxval * 85 // 100)
    kind = "u1" if maxval < 256 else ">u2"
    values = [0, limit, limit + 1, maxval - 1]

    def plane(share: float) -> Plane:
        return np.where(chance.random((7, 9)) < share, chance.choice(values, (7, 9)), maxval).astype(kind)
    inks = [ink_of("Cyan"), ink_of("Magenta"), ink_of("Black")]
    planes = [plane(0.03), plane(0.1), plane(0.1)]
    page = write_page(tmp_path / "page", dict(zip(inks, planes)), maxval=maxval)
    found = [ink.name for ink in keepaway.inks_under_black(page, inks[2:], inks[:2])]
    wanted, is_rich = set(), False
    for y, x in np.ndindex(7, 9):
        around = planes[2][max(0, y - 1):y + 2, max(0, x - 1):x + 2] <= limit
        for ink, one in zip(inks[:2], planes):
            if one[y, x] < maxval:
                is_rich = is_rich or planes[2][y, x] <= limit
                wanted |= {ink.name} if planes[2][y, x] < maxval and around.any() else set()
    assert set(found) == (wanted if is_rich else set())


def test_what_is_a_black(tmp_path: Path) -> None:
    """An ink is a black by the density and the kind of the page's job, and its limit; a white is never drawn back."""
    inks = {ink_of("Cyan"): block(1), ink_of("White", "white"): block(1), ink_of("Black"): block(1)}
    page = write_page(tmp_path / "page", inks)

    def names(*statements: bytes) -> list[list[str]]:
        job = read_job(write_job(page.source, page.inks, [Statement(None, one) for one in statements]).text)
        return [[ink.name for ink in found] for found in keepaway.blacks_and_others(page, job)]
    assert names() == [["Black"], ["Cyan"]]
    assert names(b"<< /BlackDensityLimit 0.5 >> settrapparams\n") == [["Cyan", "Black"], []]
    assert names(b"<< /BlackDensityLimit 2 >> settrapparams\n") == [[], ["Cyan", "Black"]]
    assert names(b"<< /Enabled false >> settrapparams\n") == [["Black"], []]


def test_plates_in_several_calls_are_those_of_one(tmp_path: Path, monkeypatch: pytest.MonkeyPatch) -> None:
    """A page whose plates do not fit together is drawn back some inks at a time."""
    page = rich_page(tmp_path / "page")
    Path(page.plate(page.inks[1])).write_bytes(Path(page.plate(page.inks[0])).read_bytes())
    made = []
    for most in (3, 2):
        monkeypatch.setattr(keepaway, "MOST_SAMPLES", most * SIDE * SIDE)
        assert engine.trap(page, settings_of()).warnings == ()
        made.append((plate(page, "Cyan").tobytes(), plate(page, "Magenta").tobytes(), report_of(page)))
    assert made[0] == made[1] and set(made[0][2]["rich_black"]["changed"]) == {"Cyan", "Magenta"}


def test_large_pages_are_trapped_without(tmp_path: Path, monkeypatch: pytest.MonkeyPatch) -> None:
    """A page that trapkeep does not take is trapped all the same, with a warning that says what fits."""
    page = rich_page(tmp_path / "page")
    monkeypatch.setattr(keepaway, "MOST_SAMPLES", 2 * SIDE * SIDE - 1)
    line, = engine.trap(page, settings_of()).warnings
    assert line == ("in.pdf: page 1: trapkeep takes no page of this size: inks are not drawn back under rich black: 48 by 48 samples in 2 "
                    "plates, and it takes 4607 samples and 16384 a side (at most 599 pixels per inch would fit)")
    assert (plate(page, "Cyan") == plate(page, "Cyan", ".")).all() and report_of(page) == {"width": 0.2268}


def test_pages_that_are_trapped_again(tmp_path: Path) -> None:
    """A second run replaces all that the first one made, and one without keepaway leaves no plate of it."""
    page = rich_page(tmp_path / "page")
    engine.trap(page, settings_of())
    first = plate(page, "Cyan").tobytes()
    engine.trap(page, settings_of("off"))
    assert plate(page, "Cyan").tobytes() != first and not Path(page.file("trapped", "keepaway")).exists()
    assert report_of(page) == read_record(page.path)["pages"]["1"]["keepaway"] == {"width": 0}
    engine.trap(page, settings_of())
    assert plate(page, "Cyan").tobytes() == first


# The width

def test_the_width(tmp_path: Path) -> None:
    """An option or a preset says it; else the page's record; else it is the trap width of the page's own zone."""
    statements = (b"<< /TrapWidth 0.3 >> settrapparams\nnewpath 0 0 moveto 9 0 rlineto 0 9 rlineto settrapzone\n"
                  b"<< /TrapWidth 0.1 >> settrapparams\nnewpath 0 0 moveto 2 0 rlineto 0 2 rlineto settrapzone\n")
    page = write_page(tmp_path / "page", {ink_of("Black"): block(1)}, statements)
    job = read_job(Path(page.file("page.job")).read_bytes())
    assert keepaway.width_of(page, Settings(), job) == 3000
    record = read_record(page.path)
    record["pages"]["1"]["keepaway"] = {"asked": 0.5, "width": 7}
    write_record(page.path, record)
    assert keepaway.width_of(page, Settings(), job) == 5000
    assert keepaway.width_of(page, settings_of("0.1mm"), job) == 2835
    assert keepaway.width_of(page, settings_of("off"), job) == 0
    with pytest.raises(PressError, match=r"--keepaway: inks cannot be drawn back by 15.37pt at 600 pixels per inch: at most 15.36pt \(5.42mm\) fits"):
        keepaway.width_of(page, settings_of("15.37pt"), job)


def test_presets_and_records(room: Room) -> None:
    """A preset of the house may have a width. The record keeps what was asked for, and makes the same settings again."""
    room.write("../house/film.preset", "width 0.2mm\nkeepaway 0.4mm\n")
    made = options_from(settings_of("0.1mm"), "out")
    assert made == {"keepaway": "0.1mm"} and options_from(settings_from(made, "out"), "out") == made
    assert options_from(settings_of("off"), "out") == {"keepaway": "off"}
    assert settings_from({"keepaway": "off"}, "out").parameters["keepaway"].number == 0
    rich_page(room / "here")
    room.refused(2, "press-trap: --keepaway is a width with its unit, .*, or \"off\", and not '1' .*", "trap", "here", "--keepaway", "1")
    with pytest.MonkeyPatch.context() as patch:
        patch.setenv("PRESS_HOUSE", str(room.beside / "house"))
        chosen = Settings(preset="film", parameters=parameters(preset="film"))
    assert keepaway.asked(chosen) == {"keepaway": {"asked": 1.1339}} and "keepaway" not in options_from(chosen, "out")
    assert keepaway.asked(Settings()) == {}


def test_widths_below_half_a_pixel(tmp_path: Path, monkeypatch: pytest.MonkeyPatch) -> None:
    """Such a width changes nothing, so the plates are not looked at."""
    page = rich_page(tmp_path / "page")
    monkeypatch.setattr(keepaway, "inks_under_black", lambda *_: pytest.fail("the plates were looked at"))
    engine.trap(page, settings_of("0.0599pt"))
    assert report_of(page) == {"width": 0.0599}


# Underprint

def test_whites_are_drawn_back_under_the_colours(tmp_path: Path) -> None:
    """A white of the colour's shape ends two pixels before the colour does, on the trapped plate alone; no trap and no other plate changes."""
    page = write_page(tmp_path / "page", {ink_of("Cyan"): block(1), ink_of("White", "white"): block(1)})
    assert engine.trap(page, settings_of()).warnings == ()
    wanted = block(1, slice(INSIDE.start + EDGE, INSIDE.stop - EDGE))
    assert (plate(page, "White") == wanted).all() and (plate(page, "White", ".") == block(1)).all()
    assert (plate(page, "Cyan") == block(1)).all() and not Path(page.file("trapped", "keepaway")).exists()
    said = {"width": 0.2268, "underprint": {"covered": 28 * 28, "changed": {"White": 28 * 28 - 24 * 24}}}
    assert report_of(page) == said and read_record(page.path)["pages"]["1"]["keepaway"] == said


def test_white_that_goes_on_beyond_the_colours(tmp_path: Path) -> None:
    """A white stays where it goes on beyond the colour, under varnish too, and with --no-keepaway."""
    inks = {ink_of("Cyan"): block(1, slice(16, 32)), ink_of("Foil", kind="Transparent"): block(1), ink_of("White", "white"): block(1)}
    page = write_page(tmp_path / "page", inks)
    for width, said in ((WIDTH, {"width": 0.2268, "underprint": {"covered": 16 * 16, "changed": {"White": 0}}}), ("off", {"width": 0.0})):
        engine.trap(page, settings_of(width))
        assert (plate(page, "White") == block(1)).all() and report_of(page) == said


# The program

def test_a_program_that_is_not_there(tmp_path: Path, programs: Path, monkeypatch: pytest.MonkeyPatch) -> None:
    """Without trapkeep a page is trapped with a warning, and is refused if --keepaway was given."""
    folder = tmp_path / "programs"
    folder.mkdir()
    (folder / "trapsheet").symlink_to((programs / "trapsheet").resolve())
    monkeypatch.setenv("TRAP_BIN", str(folder))
    page = rich_page(tmp_path / "page")
    line, = engine.trap(page, Settings()).warnings
    assert line.startswith("in.pdf: page 1: the program trapkeep is not there: ")
    assert line.endswith(": inks are not drawn back under rich black")
    with pytest.raises(PressError, match="the program trapkeep is not there"):
        engine.trap(page, settings_of())

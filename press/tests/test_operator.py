# SPDX-License-Identifier: Apache-2.0
"""What an operator would send back, on whole pages by the commands: small type, marks, metals, white, zones files."""
import json
import re
from pathlib import Path

import numpy as np
import pytest
from room import LABEL, TOP, Room, needs

from press.folder import PageFolder

pytestmark = pytest.mark.slow
INPUTS = Path(__file__).resolve().parent / "inputs"


def trapped(room: Room, name: str, *options: str) -> tuple[PageFolder, np.ndarray, np.ndarray]:
    """A page of a test's inputs, and its tints before and after trapping, by plate."""
    return trapped_file(room, INPUTS / f"{name}.pdf", *options)


def trapped_file(room: Room, path: Path, *options: str) -> tuple[PageFolder, np.ndarray, np.ndarray]:
    """The same of any file."""
    room.goes("plates", path, "page", *options)
    room.goes("trap", "page")
    page = PageFolder.read(str(room / "page"))
    return page, tints_of(page, False), tints_of(page, True)


def tints_of(page: PageFolder, done: bool) -> np.ndarray:
    """The tints of a page by plate, before trapping or after."""
    return np.stack([255 - array for array in page.plates(done).arrays])


def own_of_blue(before: np.ndarray, after: np.ndarray) -> float:
    """How much of the blue type keeps its colour: cyan and magenta, and none of black."""
    blue = (before[0] > 200) & (before[1] > 100) & (before[3] < 100)
    return 1 - float(((before != after).any(axis=0) & blue).sum() / blue.sum())


@pytest.mark.parametrize("preset, least", [("offset", 0.46), ("flexo", 0.54)])
def test_small_type_keeps_its_colour(room: Room, built: None, preset: str, least: float) -> None:
    """Blue 4.5 pt type on red, and the report's own figure of it."""
    page, before, after = trapped(room, "label-white-varnish", "--preset", preset)
    assert own_of_blue(before, after) >= least
    thin = json.loads(Path(page.file("trapped", "report.json")).read_text(encoding="utf-8"))["layout"]["thin"]
    assert thin["own_before"] < thin["own_after"] and thin["zones"] >= 2 and thin["parts"] > 80


def test_without_thin_zones_it_does_not(room: Room, built: None) -> None:
    _, before, after = trapped(room, "label-white-varnish", "--preset", "flexo", "--no-thin-zones", "--dpi", "300")
    assert own_of_blue(before, after) < 0.05


def test_marks_and_colour_bars_stay(room: Room, built: None) -> None:
    """No sample outside the trim box changes; with --trap-within media many do."""
    for options, is_kept in (((), True), (("--trap-within", "media"), False)):
        _, before, after = trapped(room, "scribus-x4", "--dpi", "150", "--force", *options)
        changed = (before != after).any(axis=0)
        height, width = changed.shape
        margin = int(20 * 150 / 72)
        changed[margin:height - margin, margin:width - margin] = False
        assert (not changed.any()) == is_kept


def test_neighbours_spread_under_silver(room: Room, built: None) -> None:
    """Dark blue is spread under it; silver itself is not."""
    page, before, after = trapped(room, "rl-card-mm", "--dpi", "300")
    changed = {ink.name: int((before[at] != after[at]).sum()) for at, ink in enumerate(page.inks)}
    assert changed["PANTONE_287_C"] > 1000 and changed["PANTONE_877_C"] == 0


def test_the_lid_of_the_label(room: Room, built: None) -> None:
    """With the preset of flexo and no more options its small type keeps half of its colour, blue is spread under silver and
    silver under nothing, and marks and patches stay."""
    page, before, after = trapped_file(room, LABEL.parent / "lid.pdf", "--preset", "flexo")
    assert own_of_blue(before, after) >= 0.5
    changed = {ink.name: int((before[at] != after[at]).sum()) for at, ink in enumerate(page.inks)}
    assert changed["PANTONE_287_C"] > 10_000 and changed["PANTONE_877_C"] == 0
    outside, margin = (before != after).any(axis=0), int(11.5 * 600 / 72)
    outside[margin:-margin, margin:-margin] = False
    assert not outside.any()


def test_inks_that_no_trap_closes_are_warned_of(room: Room) -> None:
    """As a silver that is taken for lighter than its neighbour."""
    told = room.goes("preflight", INPUTS / "rl-card-mm.pdf", "--density", "PANTONE 877 C=0.58").out
    assert re.search(r"warning: untrapped-inks: PANTONE 877 C and PANTONE 287 C meet along \d+ edges", told), told
    assert "untrapped-inks" not in room.goes("preflight", INPUTS / "rl-card-mm.pdf").out


def moved(plane: np.ndarray, right: int, down: int) -> np.ndarray:
    """A plane that is off by so many pixels; what comes in is 0."""
    out = np.zeros_like(plane)
    height, width = plane.shape
    out[max(0, down):height + min(0, down), max(0, right):width + min(0, right)] = \
        plane[max(0, -down):height - max(0, down), max(0, -right):width - max(0, right)]
    return out


def grown(mask: np.ndarray, by: int) -> np.ndarray:
    """A mask with so many pixels around it."""
    for axis in (0, 1):
        mask = np.logical_or.reduce([moved(mask, *((0, step) if axis else (step, 0))) for step in range(-by, by + 1)])
    return mask


def film_that_shows(page: PageFolder, before: np.ndarray, after: np.ndarray, by: int) -> int:
    """How many pixels of film lie bare that are covered in register, if the white is off by so many pixels in any of eight
    directions."""
    white = [ink.role for ink in page.inks].index("white")
    colours = [at for at, ink in enumerate(page.inks) if at != white and ink.kind in ("Normal", "Opaque")]
    film, bare = (tints[colours].astype(int).sum(axis=0) < 26 for tints in (before, after))
    film &= before[white] < 128
    covered = ~film & bare & ~grown(film, by)
    shows = [covered & (moved(after[white], x * by, y * by) < 128) for x in (-1, 0, 1) for y in (-1, 0, 1) if x or y]
    return int(np.logical_or.reduce(shows).sum())


def test_white_spreads_under_colours(room: Room, built: None) -> None:
    """White that is knocked out of a colour is trapped as the lightest ink: film that shows falls to a thirteenth. Keepaway opens
    a few pixels at corners where colour, white and film meet (docs/DECISIONS.md)."""
    page, before, after = trapped(room, "label-white-varnish", "--preset", "offset")
    white = [ink.name for ink in page.inks].index("White_Underprint")
    assert page.inks[white].role == "white" and int((before[white] < after[white]).sum()) > 1000
    assert film_that_shows(page, before, before, 2) == 18_837 and film_that_shows(page, before, after, 2) <= 1_457
    room.goes("trap", "page", "--no-keepaway")
    assert film_that_shows(page, before, tints_of(page, True), 2) <= 1_449


def white_that_peeks_out(page: PageFolder, before: np.ndarray, after: np.ndarray, by: int) -> int:
    """How many pixels of film show white, away from white without colour, if the white is off by so many pixels in any of eight
    directions."""
    white = [ink.role for ink in page.inks].index("white")
    colours = [at for at, ink in enumerate(page.inks) if at != white and ink.kind in ("Normal", "Opaque")]
    bare, is_bare = (tints[colours].astype(int).sum(axis=0) < 26 for tints in (before, after))
    film = bare & (before[white] < 128)
    open_film = film & is_bare & ~grown(bare & ~film, by)
    shows = [open_film & (moved(after[white], x * by, y * by) >= 128) for x in (-1, 0, 1) for y in (-1, 0, 1) if x or y]
    return int(np.logical_or.reduce(shows).sum())


def test_white_does_not_peek_out_from_under_the_colours(room: Room, built: None) -> None:
    """White is drawn back by the trap width of flexo, 5 pixels: off by as much it shows nowhere."""
    page, before, after = trapped(room, "label-white-varnish", "--preset", "flexo")
    assert white_that_peeks_out(page, before, before, 5) == 12_680 and white_that_peeks_out(page, before, after, 5) == 0


@needs("mutool")
def test_layers_by_name(room: Room, built: None) -> None:
    """A layer that is off by option is not trapped; one that is not there is warned of."""
    _, before, after = trapped(room, "layers", "--dpi", "200")
    assert (before != after).any()
    options = "--layer", "Print=off", "--layer", "Screen only=off"
    room.goes("plates", INPUTS / "layers.pdf", "off", "--dpi", "200", *options)
    assert "/Enabled false" in (room / "off" / "page.job").read_text()
    assert "no layer Pint paints" in room.goes("preflight", INPUTS / "layers.pdf", "--layer", "Pint=off").out


def test_inks_are_merged_and_dropped(room: Room) -> None:
    room.goes("plates", INPUTS / "rl-card-mm.pdf", "page", "--dpi", "72", "--merge", "PANTONE 877 C=PANTONE 287 C")
    assert not (room / "page" / "PANTONE_877_C.pgm").exists() and (room / "page" / "PANTONE_287_C.pgm").exists()
    room.goes("plates", INPUTS / "rl-card-mm.pdf", "less", "--dpi", "72", "--drop", "PANTONE 877 C", "--to-process",
              "PANTONE 287 C")
    assert sorted(path.stem for path in (room / "less").glob("*.pgm")) == ["Black", "Cyan", "Magenta", "Yellow"]


def test_the_documents_example_keeps_the_page(room: Room, built: None) -> None:
    """The panel's zone of docs/PRESS.md adds to the page: other traps stay."""
    label = TOP / "examples" / "label" / "label.pdf"
    room.write("own.zones", "<< /TrapWidth 0.15 /TrapColorScaling 0.5 >> settrapparams\n"
                            "12 96 moveto 132 0 rlineto 0 60 rlineto -132 0 rlineto settrapzone\n")
    counts = []
    for name, options in (("all", ("--no-thin-zones",)), ("only", ("--only-zones",))):
        room.goes("plates", label, name, "--dpi", "300", "--zones", "own.zones", *options)
        room.goes("trap", name)
        report = json.loads((room / name / "trapped" / "report.json").read_text())
        counts.append(report["samples_changed"])
    assert counts[0] > 3 * counts[1]

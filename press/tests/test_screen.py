# SPDX-License-Identifier: Apache-2.0
"""Screened plates: angles and frequencies by their spectrum, tints by the mean of bits, pixels by their thresholds."""
import hashlib
import json
import math
from pathlib import Path
from typing import Any

import numpy as np
import pytest
import tifffile
from PIL import Image
from pdf_cases import ART, files_in, folders_of, killed_at_rename, one_page, run_command, run_with_room, saved

from press.errors import PressError, UsageError
from press.folder import PageSource, write_table
from press.inks import Ink
from press.names import PROCESS
from press.plates import read_pgm, write_pgm
from press.screen import Screened, plan, screen_page, screen_plate
from press.screen_cell import ELLIPTIC, LINE, ROUND, SHAPES, Screen, beat, cells, cells_together
from press.screen_dots import LINEAR, ink_counts, mirrored, negative, order_of, printed, thresholds
from press.screen_strips import Imaging, bits_of, check_halftone, rows_of_strip
from press.screen_table import InkScreen, angles_of, read_curve, read_table, usual_screens
from press.trapped_page import read_trapped_page

DPI, LPI = 2400, 150
ANGLES = {"Cyan": 15.0, "Magenta": 75.0, "Yellow": 0.0, "Black": 45.0}
INKS = tuple(Ink(name, name.encode(), name.encode(), "1.0") for name in PROCESS)


@pytest.fixture(autouse=True)
def own_cache(tmp_path_factory: pytest.TempPathFactory, monkeypatch: pytest.MonkeyPatch) -> None:
    """Orders are kept in a folder of the tests."""
    monkeypatch.setenv("XDG_CACHE_HOME", str(tmp_path_factory.getbasetemp() / "cache"))


def one_ink(cell_of: Any, shape: str = ROUND, **more: Any) -> Screened:
    """An ink with this supercell."""
    return Screened(INKS[0], InkScreen(Screen(cell_of.angle, LPI, shape), **more), cell_of)


def bits(plate: Any, one: Screened, imaging: Imaging, folder: Path) -> Any:
    """Where the screened plate has ink."""
    scratch = folder / "scratch"
    scratch.mkdir(exist_ok=True)
    screen_plate(plate, one, imaging, str(folder / "plate.tif"), str(scratch))
    return bits_of(str(folder / "plate.tif"))


def expected(plate: Any, one: Screened, imaging: Imaging) -> Any:
    """Where the plate should have ink: at each pixel whose nearest sample is darker than its threshold."""
    counts = ink_counts(one.cell.side ** 2, one.asked.curve, one.asked.least)
    array = thresholds(order_of(one.cell, one.asked.screen.shape), counts)
    rows, columns = (np.minimum(imaging.sources(0, imaging.side(count), count), count - 1) for count in plate.shape)
    grays = plate[rows][:, columns]
    side = one.cell.side
    tiled = array[np.arange(len(rows))[:, None] % side, np.arange(len(columns))[None, :] % side]
    found = grays < tiled
    if imaging.mirror:
        found = found[:, ::-1]
    return ~found if imaging.negative else found


def ramp(height: int, width: int) -> Any:
    """A plate with all grays."""
    return (np.add.outer(np.arange(height) * 3, np.arange(width)) % 256).astype(np.uint8)


# Supercells

@pytest.mark.parametrize("dpi, lpi, angles", [
    (2400, 150, (15, 75, 45)), (2540, 150, (15, 75, 45)), (2400, 175, (15, 75, 45)), (2540, 200, (105, 75, 45)),
    (1200, 100, (15, 75, 45)), (2400, 150, (7.5, 67.5, 37.5)), (2400, 85, (22.5, 82.5, 52.5)),
    (4000, 120, (15, 75, 45))])
def test_supercells_of_three_inks(dpi: int, lpi: float, angles: tuple[float, ...]) -> None:
    """Angles within 0.01 degrees, and a beat of the three below 0.05 lines per inch."""
    screens = [Screen(angle, lpi) for angle in angles]
    found = cells_together(screens, dpi)
    for cell, screen in zip(found, screens):
        assert abs(cell.angle - screen.angle) <= 0.01
        assert abs(cell.lpi(dpi) / lpi - 1) <= 0.01
    assert beat([cell.vector(dpi) for cell in found], [ROUND] * 3) < 0.05


def test_screens_that_cannot_be() -> None:
    """A frequency that the pixels do not carry."""
    with pytest.raises(UsageError, match="at least 2 pixels"):
        cells(Screen(45, 150), 200)


def test_a_beat_is_found() -> None:
    """Screens whose angles do not close have a beat, and one of a line screen is another."""
    vectors = [(LPI * math.cos(math.radians(angle)), LPI * math.sin(math.radians(angle))) for angle in (15, 75, 50)]
    assert beat(vectors, [ROUND] * 3) == pytest.approx(LPI * 2 * math.sin(math.radians(2.5)), rel=1e-6)
    assert beat(vectors, [LINE] * 3) > 50


# Orders and thresholds

@pytest.mark.parametrize("shape", SHAPES)
def test_orders_have_each_pixel_once(shape: str) -> None:
    """An order is a permutation, and comes from the cache as it was made."""
    cell = cells(Screen(15, 300), 600)[0]
    order = order_of(cell, shape)
    assert np.array_equal(np.sort(order, axis=None), np.arange(cell.side ** 2))
    assert np.array_equal(order_of(cell, shape), order)


def test_a_broken_cache_is_passed_over(tmp_path: Path, monkeypatch: pytest.MonkeyPatch) -> None:
    """A cache that is cut short, or cannot be written."""
    monkeypatch.setenv("XDG_CACHE_HOME", str(tmp_path))
    cell = cells(Screen(0, 300), 600)[0]
    order = order_of(cell, ROUND)
    kept = list(tmp_path.rglob("*.order1"))
    kept[0].write_bytes(kept[0].read_bytes()[:-4])
    assert np.array_equal(order_of(cell, ROUND), order)
    monkeypatch.setenv("XDG_CACHE_HOME", "/dev/null/nothing")
    assert np.array_equal(order_of(cell, ROUND), order)


def test_thresholds_give_each_tint_its_pixels() -> None:
    """The number of pixels with ink is that of the tint for each of the 256 grays, without a curve, with one, with a
    least dot, and in a negative."""
    cell = cells(Screen(45, 150), 2400)[0]
    order, size = order_of(cell, ROUND), cell.side ** 2
    curve = ((0.0, 0.0), (50.0, 38.0), (100.0, 100.0))
    for used, least in ((LINEAR, 0.0), (curve, 0.0), (LINEAR, 3.0)):
        array = thresholds(order, ink_counts(size, used, least))
        for gray in (0, 1, 2, 63, 127, 128, 129, 250, 252, 253, 254, 255):
            tint = 100 * (255 - gray) / 255
            wanted = printed(tint, used, least)
            assert abs((gray < array).mean() * 100 - wanted) <= 50 / size
            assert np.array_equal((255 - gray) < negative(array), ~(gray < array))
    assert printed(0, curve, 3) == 0 and printed(1, LINEAR, 3) == 3 and printed(50, curve, 3) == 38


def test_mirrored_thresholds() -> None:
    """A mirrored plate has the mirrored threshold at every pixel."""
    array = np.arange(35, dtype=np.uint16).reshape(5, 7)
    for width in (7, 10, 23):
        tiled = np.tile(array, (1, 5))[:, :width]
        assert np.array_equal(np.tile(mirrored(array, width), (1, 5))[:, :width], tiled[:, ::-1])


# Plates

@pytest.mark.parametrize("plate_dpi, dpi", [(600, 2400), (1270, 2540), (600, 2540), (600, 600)])
@pytest.mark.parametrize("way", [{}, {"negative": True}, {"mirror": True}, {"negative": True, "mirror": True}])
def test_every_pixel_has_its_threshold(tmp_path: Path, plate_dpi: int, dpi: int, way: dict[str, bool]) -> None:
    """Ghostscript gives ink to exactly the pixels that the array says, by whole and by broken ratios of resolutions."""
    one, imaging = one_ink(cells(Screen(15, dpi / 8), dpi)[0]), Imaging(plate_dpi, dpi, **way)
    plate = ramp(61, 97)
    found = bits(plate, one, imaging, tmp_path)
    assert found.shape == (imaging.side(61), imaging.side(97))
    assert np.array_equal(found, expected(plate, one, imaging))


@pytest.mark.parametrize("pixels", [1 << 12, 1 << 15])
def test_strips_have_one_phase(tmp_path: Path, monkeypatch: pytest.MonkeyPatch, pixels: int) -> None:
    """A plate in many strips, of rows that are no multiple of the supercell, has the bits of a plate in one."""
    one, imaging = one_ink(cells(Screen(75, 150), 1200)[0]), Imaging(600, 1200, jobs=3)
    plate = ramp(90, 130)
    monkeypatch.setattr("press.screen_strips.STRIP_PIXELS", pixels)
    found = bits(plate, one, imaging, tmp_path)
    assert rows_of_strip(260) < 180
    with tifffile.TiffFile(tmp_path / "plate.tif") as file:
        assert len(file.pages[0].dataoffsets) == -(-180 // rows_of_strip(260))
    assert np.array_equal(found, expected(plate, one, imaging))


def test_ghostscript_halftones_as_is_known(tmp_path: Path, monkeypatch: pytest.MonkeyPatch) -> None:
    """The check of Ghostscript passes, and refuses one that would halftone otherwise."""
    check_halftone(str(tmp_path))
    monkeypatch.setattr("press.screen_strips.FULL_THRESHOLD", 256)
    with pytest.raises(PressError, match="cannot screen plates"):
        check_halftone(str(tmp_path))


def peak(found: Any, dpi: int, near: tuple[float, float]) -> tuple[float, float]:
    """The strongest frequency near another one as lines per inch to the right and up: the peak of the spectrum, by a
    parabola through the logarithms of its neighbours, which a Gaussian window makes exact."""
    size = min(found.shape)
    window = np.exp(-0.5 * ((np.arange(size) - size / 2) / (size / 8)) ** 2)
    spectrum = np.abs(np.fft.fft2((found[:size, :size] - found.mean()) * np.outer(window, window)))
    across, upward = (round(part * size / dpi) for part in near)
    near_bins = [(across + right, upward + up) for right in range(-4, 5) for up in range(-4, 5)]
    x, y = max(near_bins, key=lambda place: float(spectrum[-place[1] % size, place[0] % size]))

    def middle(before: float, here: float, after: float) -> float:
        low, most, high = math.log(before), math.log(here), math.log(after)
        return (low - high) / (2 * (low - 2 * most + high))

    def at(x: int, y: int) -> float:
        return float(spectrum[-y % size, x % size])

    return ((x + middle(at(x - 1, y), at(x, y), at(x + 1, y))) * dpi / size,
            (y + middle(at(x, y - 1), at(x, y), at(x, y + 1))) * dpi / size)


def test_angles_frequencies_and_beat_by_the_spectrum(tmp_path: Path) -> None:
    """A flat 40 % of each ink: the peak of its spectrum is within 0.01 degrees of the angle, and the beat of the three
    strong inks is below 0.05 lines per inch."""
    screens = usual_screens(INKS, {}, InkScreen(Screen(0, LPI)))
    screened, _ = plan(INKS, screens, DPI)
    plate = np.full((200, 200), 153, np.uint8)
    vectors = {}
    for one in screened:
        found = bits(plate, one, Imaging(300, DPI), tmp_path)
        x, y = vectors[one.ink.name] = peak(found.astype(float), DPI, one.cell.vector(DPI))
        angle, lpi = math.degrees(math.atan2(y, x)), math.hypot(x, y)
        print(f"{one.ink.name}: {angle:.4f} degrees, {lpi:.3f} lines per inch")
        assert abs(angle - ANGLES[one.ink.name]) <= 0.01
        assert abs(lpi / LPI - 1) <= 0.002
    strong = [vectors[name] for name in ("Cyan", "Magenta", "Black")]
    print(f"beat: {beat(strong, [ROUND] * 3):.4f} lines per inch")
    assert beat(strong, [ROUND] * 3) < 0.05


@pytest.mark.parametrize("shape", SHAPES)
def test_tints_by_the_mean_of_bits(tmp_path: Path, shape: str) -> None:
    """0, 1, 5, 10 .. 100 %, as near as 8 bits come: the mean of the bits is within 0.15 % of the tint."""
    one = one_ink(cells_together([Screen(angle, LPI) for angle in (15, 75, 45)], DPI)[0], shape)
    tints = [0, 1, 5, *range(10, 101, 10)]
    side = -(-one.cell.side // 4)
    grays = np.array([[round(255 * (100 - tint) / 100)] for tint in tints], np.uint8)
    plate = np.repeat(np.repeat(grays, side, 0), side, 1)
    found = bits(plate, one, Imaging(600, DPI), tmp_path)
    for at, tint in enumerate(tints):
        wanted = 100 * (255 - int(plate[at * side, 0])) / 255
        mean = found[at * side * 4:at * side * 4 + one.cell.side, :one.cell.side].mean() * 100
        print(f"{shape} {tint} %: {wanted:.3f} {mean:.3f}")
        assert abs(mean - wanted) <= 0.15


def test_shapes_differ(tmp_path: Path) -> None:
    """At 45 % elliptic dots have joined along the screen's direction, round ones have not; lines run all the way."""
    cell = cells(Screen(0, 100), 1600)[0]
    plate = np.full((100, 100), round(255 * 0.55), np.uint8)
    runs = {}
    for shape in SHAPES:
        found = bits(plate, one_ink(cell, shape), Imaging(400, 1600), tmp_path)
        runs[shape] = bool(found[:, :320].all(axis=1).any()), bool(found[:320].all(axis=0).any())
    assert runs == {ROUND: (False, False), ELLIPTIC: (True, False), LINE: (True, False)}


# Tables

def test_tables_of_screens(tmp_path: Path) -> None:
    """A table overrides the options; what it leaves open, it takes from them."""
    (tmp_path / "flexo.curve").write_text("# tint\tprinted\n50 38\n10\t6\n")
    table = tmp_path / "house.screens"
    table.write_text("# ink\tangle\nCyan\t7.5\t133\telliptic\t3\tflexo.curve\nBlack\t-\t-\tline\n\nGold\t45\n")
    usual = usual_screens(INKS, angles_of("K30"), InkScreen(Screen(0, LPI)))
    found, strangers = read_table(str(table), usual, INKS)
    assert found["Cyan"].screen == Screen(7.5, 133, ELLIPTIC) and found["Cyan"].least == 3
    assert found["Cyan"].curve == ((0, 0), (10, 6), (50, 38), (100, 100)) and found["Cyan"].curve_name == "flexo.curve"
    assert found["Black"].screen == Screen(30, LPI, LINE) and found["Black"].curve_name == "linear"
    assert strangers == [f"{table}: line 5: no ink of the page is called Gold"]


@pytest.mark.parametrize("text, why", [
    ("Cyan\tx", "the angle is a number"), ("Cyan\t15\t5", "lpi is a number from 10"),
    ("Cyan\t15\t150\tstar", "the shape is one of"), ("Cyan\t15\t150\tround\t99", "the least dot is a number"),
    ("Cyan\t1\t1\t1\t1\t1\t1", "a line has an ink")])
def test_lines_that_are_no_screens(tmp_path: Path, text: str, why: str) -> None:
    """A usage error with the table's name and line."""
    table = tmp_path / "wrong.screens"
    table.write_text("# a table\n" + text + "\n")
    with pytest.raises(UsageError, match="wrong.screens: line 2: .*" + why):
        read_table(str(table), usual_screens(INKS, {}, InkScreen(Screen(0, LPI))), INKS)


@pytest.mark.parametrize("text, why", [
    ("50", "two numbers"), ("50 x", "from 0 to 100"), ("10 20\n20 10", "never falls"), ("0 5", "leaves 0 and 100"),
    ("100 90", "leaves 0 and 100")])
def test_curves_that_are_none(tmp_path: Path, text: str, why: str) -> None:
    """Refused with what is wrong."""
    (tmp_path / "a.curve").write_text(text)
    with pytest.raises(PressError, match=why):
        read_curve(str(tmp_path / "a.curve"))


def test_angles_of_options() -> None:
    """Letters for process inks, names for spots, and nothing else."""
    assert angles_of("C15,M75,Warm Red=30") == {"Cyan": 15, "Magenta": 75, "Warm Red": 30}
    with pytest.raises(UsageError):
        angles_of("X15")
    with pytest.raises(UsageError, match="no ink of the page is called Warm Red"):
        usual_screens(INKS, {"Warm Red": 30.0}, InkScreen(Screen(0, LPI)))


# Pages

@pytest.fixture(name="page", scope="module")
def page_folder(tmp_path_factory: pytest.TempPathFactory) -> Path:
    """A page folder of a small page with two spots."""
    return folders_of(saved(one_page(ART), tmp_path_factory.mktemp("page") / "in.pdf"))[0]


def screened_page(page: Path, out: Path, **way: Any) -> dict[str, Any]:
    """The report of a page that is screened."""
    read = read_trapped_page(str(page))
    screens = usual_screens(read.folder.inks, {}, InkScreen(Screen(0, 75.0)))
    return screen_page(read, screens, Imaging(72, 600, **way), str(out), b"in-1")


def test_a_page_and_its_report(page: Path, tmp_path: Path) -> None:
    """A file for each ink, spots too, with its name and resolution, and a report with the digests."""
    figures = screened_page(page, tmp_path / "out")
    names = sorted(path.name for path in (tmp_path / "out").iterdir())
    assert names == ["in-1(Black).tif", "in-1(Cyan).tif", "in-1(Magenta).tif", "in-1(Test Red).tif",
                     "in-1(Warm Gray).tif", "in-1(Yellow).tif", "in-1.json"]
    told = json.loads((tmp_path / "out" / "in-1.json").read_text())
    assert [one["name"] for one in told["plates"]] == ["Cyan", "Magenta", "Yellow", "Black", "Test Red", "Warm Gray"]
    assert told["beat_of_strong_inks"] < 0.05 and told["plates"] == figures["plates"]
    cyan = 100 * (255 - read_pgm(str(page / "trapped" / "Cyan.pgm")).astype(int)).mean() / 255
    assert told["plates"][0]["coverage"] == pytest.approx(cyan, abs=0.001)
    for one in told["plates"]:
        before, after = (read_pgm(str(page / place / f"{one['job_name']}.pgm")) for place in ("", "trapped"))
        assert one["changed"] == (before != after).sum()
        plate = (page / "trapped" / f"{one['job_name']}.pgm").read_bytes()
        assert one["plate_sha256"] == hashlib.sha256(plate).hexdigest()
    assert any(one["changed"] for one in told["plates"])
    with tifffile.TiffFile(tmp_path / "out" / "in-1(Test Red).tif") as file:
        tags = {tag.name: tag.value for tag in file.pages[0].tags}
    assert tags["ImageDescription"] == tags["PageName"] == "Test Red" and tags["XResolution"] == (600, 1)
    assert tags["Compression"] == 4 and tags["BitsPerSample"] == 1 and tags["PhotometricInterpretation"] == 0
    before = {path.name: path.read_bytes() for path in (tmp_path / "out").iterdir()}
    screened_page(page, tmp_path / "out")
    assert {path.name: path.read_bytes() for path in (tmp_path / "out").iterdir()} == before


def test_refusals_of_pages(page: Path, tmp_path: Path) -> None:
    """A resolution below the plates', and plates of 16 bits."""
    read = read_trapped_page(str(page))
    screens = usual_screens(read.folder.inks, {}, InkScreen(Screen(0, 20.0)))
    with pytest.raises(UsageError, match="--dpi 60 is less than the plates have, 72"):
        screen_page(read, screens, Imaging(72, 60), str(tmp_path / "out"), b"in-1")
    for part in ("", "trapped"):
        (tmp_path / "deep" / part).mkdir(parents=True)
        for name in PROCESS:
            write_pgm(str(tmp_path / "deep" / part / f"{name}.pgm"), np.zeros((4, 4), ">u2"), 65_535)
    write_table(str(tmp_path / "deep"), PageSource(b"in.pdf", 1, 72), INKS)
    with pytest.raises(PressError, match="plates of 8 bits"):
        read_trapped_page(str(tmp_path / "deep"))


# The command

def test_the_command(page: Path, tmp_path: Path) -> None:
    """It prints each ink's screen and the beat, and warns of a line of a table that is of no ink."""
    (tmp_path / "house.screens").write_text("Cyan\t30\nSilver\t45\n")
    done = run_command("screen", page, tmp_path / "out", "--dpi", "600", "--lpi", "75", "--screens",
                       tmp_path / "house.screens", "--look", tmp_path / "dots.png", "--part", "30,20,60,40")
    assert done.returncode == 0, done
    lines = done.stdout.splitlines()
    assert abs(float(lines[0].split()[1]) - 30) < 0.011 and abs(float(lines[3].split()[1]) - 45) < 0.011
    assert lines[-1].startswith("beat of cyan, ")
    assert len(lines) == 7 and "no ink of the page is called Silver" in done.stderr
    with Image.open(tmp_path / "dots.png") as image:
        assert image.size == (500, 333) and len(image.getcolors()) > 4


@pytest.mark.parametrize("words, why", [
    (["--lpi", "5"], "--lpi is a number from 10 to 600"),
    (["--shape", "star"], "--shape is one of round, elliptic, line"),
    (["--angles", "Q1"], "--angles is C15,M75,Y0,K45"), (["--min-dot", "x"], "--min-dot is a number"),
    (["--name", "a/b"], "--name is a file's name"), (["more"], "a word too many"),
    (["--part", "most"], "--part is of --look"), (["--look", "x.jpg"], "a picture is a PNG file")])
def test_wrong_words(page: Path, tmp_path: Path, words: list[str], why: str) -> None:
    """A usage error in one line, and nothing is made."""
    done = run_command("screen", page, tmp_path / "out", *words)
    assert done.returncode == 2 and why in done.stderr and done.stderr.count("\n") == 1, done
    assert not (tmp_path / "out").exists()


def test_a_full_disk_and_a_killed_command(page: Path, tmp_path: Path) -> None:
    """Files stand whole, the old or the new ones; and the next run clears away what a killed one left."""
    words = [page, tmp_path, "--dpi", "600", "--lpi", "75"]
    for path in ("in-1(Cyan).tif", "in-1.json"):
        (tmp_path / path).write_bytes(b"old")
    before = files_in(tmp_path)
    done = run_with_room(20_000, "screen", *words)
    assert done.returncode == 8 and "File too large (while plates were screened)" in done.stderr, done
    assert files_in(tmp_path) == before and len(list(tmp_path.iterdir())) == 2
    # Renames are those of orders in the cache, which are there already, and then of the files.
    assert run_command("screen", *words).returncode == 0
    whole = files_in(tmp_path)
    (tmp_path / "in-1(Cyan).tif").write_bytes(b"old")
    # The first rename is that of the report in its own folder, the second one of a plate.
    killed_at_rename(4, "screen", *words)
    left = files_in(tmp_path)
    assert left["in-1(Black).tif"] == whole["in-1(Black).tif"]
    assert all(left[name] == whole[name] or left[name] == b"old" for name in whole)
    assert len(list(tmp_path.iterdir())) == len(whole) + 1
    assert run_command("screen", *words).returncode == 0
    assert files_in(tmp_path) == whole and len(list(tmp_path.iterdir())) == len(whole)

# SPDX-License-Identifier: Apache-2.0
"""Plates of a page: the names and samples of Ghostscript's tiffsep, spelled names, fonts that are missing, and options kept out."""
import filecmp
import os
import subprocess
from pathlib import Path

import pytest
from pdf_writer import Pdf, spaces
from readers import colorants, plate, tiff_plane, tiff_tags
from room import LABEL, Room, needs

SPELLED = ("PANTONE_185_C", "PANTONE_185_C_2", "100___matt_", "Gr__n", "_dash", "a_b", "tab_here", "#5")


def tiffsep(room: Room, pdf: Path, folder: Path, name: str, page: int = 1) -> None:
    """The separations of a page by Ghostscript itself. The PDF comes by standard input, so that its name means nothing."""
    folder.mkdir()
    with open(pdf, "rb") as file:
        subprocess.run(["gs", "-q", "-dSAFER", "-dBATCH", "-dNOPAUSE", "-sDEVICE=tiffsep", "-r600", "-dMaxSpots=60", f"-dFirstPage={page}",
                        f"-dLastPage={page}", f"-sOutputFile={name}.tif", "-"], cwd=folder, env=room.environment, stdin=file, check=True)


def check_separations(room: Room, page: Path, made: Path, name: str) -> int:
    """Compares the separations of a page's untrapped plates with tiffsep's own; answers how many there are."""
    out = room / f"{page.name}-tiffs"
    room.goes("tiff", "--untrapped", "--composite", "--name", name, page, out)
    assert sorted(file for file in os.listdir(os.fsencode(out)) if not file.endswith(b".png")) == sorted(os.listdir(os.fsencode(made)))
    separations = [file for file in os.listdir(os.fsencode(made)) if b"(" in file]
    for file in separations:
        one, two = (Path(os.path.join(os.fsdecode(place), os.fsdecode(file))) for place in (made, out))
        assert tiff_tags(one) == tiff_tags(two), file
        assert (tiff_plane(one) == tiff_plane(two)).all(), file
    return len(separations)


@needs("tifftopnm")
@pytest.mark.parametrize("name", ["two", "gray", "blank", "odd"])
def test_separations_are_those_of_tiffsep(room: Room, name: str) -> None:
    """The untrapped TIFF files have the names, tags and samples of tiffsep's."""
    room.sample(f"{name}.pdf")
    room.goes("plates", f"{name}.pdf", name)
    tiffsep(room, room / f"{name}.pdf", room.beside / "gs", "page")
    assert check_separations(room, room / name, room.beside / "gs", "page") == len(colorants(room / name))


@needs("tifftopnm")
@pytest.mark.slow
def test_separations_of_the_label(room: Room) -> None:
    """The same of the two pages of examples/label at 600 dpi: twelve separations."""
    count = 0
    for page in (1, 2):
        tiffsep(room, LABEL, room.beside / f"gs{page}", f"label-{page}", page)
        room.goes("plates", "--page", str(page), LABEL, f"plates{page}")
        count += check_separations(room, room / f"plates{page}", room.beside / f"gs{page}", f"label-{page}")
    assert count == 12


def test_spelling_of_names(room: Room) -> None:
    """Names that a job cannot have are spelled otherwise, each in its own way; the table keeps both."""
    room.sample("odd.pdf")
    room.goes("plates", "odd.pdf", "odd")
    job = (room / "odd" / "page.job").read_text()
    for name in SPELLED:
        assert (room / "odd" / f"{name}.pgm").is_file(), name
        assert any(f"     /{name} << /NeutralDensity {density} >>  % " in job for density in ("0.98", "0.78")), name
    row = next(row for row in colorants(room / "odd") if row[0] == "100___matt_")
    assert row[-3:] == ["100%25 (matt)", "100% (matt)", "spot"]
    assert [file.name for file in (room / "odd").glob("x*.pgm")] == ["x" * 64 + ".pgm"]


def test_options_of_ghostscript_are_kept_out(room: Room, two: Path) -> None:
    """GS_OPTIONS does not reach Ghostscript."""
    room.goes("plates", "two.pdf", "options", "--kind", "Gold Foil=Normal", env={"GS_OPTIONS": "-dTrapX=8 -dTrapY=8 -dDownScaleFactor=2"})
    names = sorted(os.listdir(two))
    assert names == sorted(os.listdir(room / "options"))
    assert filecmp.cmpfiles(two, room / "options", names, shallow=False) == (names, [], [])


def test_missing_font(room: Room) -> None:
    """A font that the PDF lacks is warned of once, with the one in its place."""
    room.write("font.pdf", LABEL.read_bytes().replace(b"Helvetica-Bold", b"FancyFont-Bold"))
    told = room.goes("plates", "font.pdf", "font", "--dpi", "72").err
    lines = [line for line in told.splitlines() if "page 1: the PDF lacks the font FancyFont-Bold; " in line]
    assert len(lines) == 1 and lines[0].endswith(" stands in its place"), told


def test_profile(room: Room) -> None:
    """Plates are made with a profile of the press."""
    room.sample("pair.pdf")
    room.goes("plates", "pair.pdf", "profiled", "--icc", "/usr/share/color/icc/ghostscript/default_cmyk.icc")
    assert plate(room / "profiled" / "Cyan.pgm").shape == (400, 1000)


@pytest.mark.parametrize("dpi, samples", [("72", 60 * 30), ("300", 250 * 125)])
def test_spots_of_a_small_page_with_transparency(room: Room, dpi: str, samples: int) -> None:
    """The plate of a spot has the square that the page has, in every size: without bands Ghostscript 10.00 leaves it blank."""
    file = Pdf()
    state = "/ExtGState << /Half << /ca .5 >> >> "
    file.page("/S0 cs 1 scn 10 10 60 30 re f", resources=state + spaces([b"Warm Red"]))
    room.write("small.pdf", file.bytes())
    room.goes("plates", "small.pdf", "small", "--dpi", dpi)
    assert (plate(room / "small" / "Warm_Red.pgm") == 0).sum() >= samples

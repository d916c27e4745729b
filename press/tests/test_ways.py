# SPDX-License-Identifier: Apache-2.0
"""Whole ways on examples/label: the plates, the TIFF files and the programs that two pages take."""
import resource
import subprocess
from pathlib import Path

import pytest
from readers import colorants, plate, tiff_plane, tiff_tags
from room import LABEL, Room, needs

MOST_SECONDS, MOST_PROGRAMS = 60, 25
PICTURES = (("page", ()), ("traps", ("--traps",)), ("register", ("--misregister", "--part", "most", "--enlarge", "4")))


@pytest.mark.parametrize("name, words", [("label", ()), ("lid", ("lid",))])
def test_label_is_made_again(room: Room, name: str, words: tuple[str, ...]) -> None:
    """make.py makes label.pdf and lid.pdf byte for byte."""
    room.goes(LABEL.parent / "make.py", "made.pdf", *words)
    assert (room / "made.pdf").read_bytes() == (LABEL.parent / f"{name}.pdf").read_bytes()


def check_composite(room: Room, folder: Path, page: int) -> None:
    """The file of all inks has the process inks as CMYK, full ink being 255, and each spot as a page, as libvips reads it."""
    composite = folder / "tiff" / f"label-{page}.tif"
    tags = tiff_tags(composite)
    assert (tags[0]["polarity"], tags[0]["channels"]) == ([5], [4])
    for band, (name, *_) in enumerate(colorants(folder)):
        ink, raw = room.beside / "ink.v", room.beside / "ink.raw"
        if band < 4:
            subprocess.run(["vips", "extract_band", composite, ink, str(band)], check=True)
        else:
            subprocess.run(["vips", "invert", f"{composite}[page={band - 3}]", ink], check=True)
        subprocess.run(["vips", "rawsave", ink, raw], check=True)
        assert raw.read_bytes() == (255 - plate(folder / "trapped" / f"{name}.pgm")).tobytes(), name
    assert len(tags) == 1 + len(colorants(folder)) - 4


@pytest.mark.slow
@needs("tifftopnm", "vips")
def test_label_goes_the_whole_way(room: Room, built: None, programs: Path) -> None:
    """The separations are the trapped plates, and the inks of the file of all are, too; pictures are drawn of them."""
    check = ("--check", "2") if (programs / "presscheck").exists() else ()
    before = resource.getrusage(resource.RUSAGE_CHILDREN)
    room.goes("all", "--quiet", "--composite", *check, LABEL, "label")
    after = resource.getrusage(resource.RUSAGE_CHILDREN)
    assert after.ru_utime + after.ru_stime - before.ru_utime - before.ru_stime < MOST_SECONDS
    for page in (1, 2):
        folder = room / f"label/page-00{page}"
        for name, *_, file, _ in colorants(folder):
            assert (tiff_plane(folder / f"tiff/label-{page}({file}).tif") == plate(folder / f"trapped/{name}.pgm")).all(), name
        check_composite(room, folder, page)
        assert "\nzone " in (folder / "trapped/report").read_text()
        assert not check or "\nafter " in (folder / "trapped/check").read_text()
    assert (room / "label/proof.html").stat().st_size > 0
    for name, options in PICTURES:
        room.goes("look", "label/page-001", f"{name}.png", *options)
        assert (room / f"{name}.png").read_bytes().startswith(b"\x89PNG")


@needs("strace")
def test_programs_of_two_pages(room: Room, built: None) -> None:
    """Two pages of the label start at most 25 programs, press/all and what stands for python3 among them."""
    trace = room.beside / "trace"
    words = ["strace", "-f", "-qq", "-e", "trace=execve", "-e", "status=successful", "-o", trace, *room.words("all", "--quiet", "--dpi", "72",
                                                                                                              LABEL, "out")]
    done = subprocess.run(words, cwd=room.folder, env=room.environment, capture_output=True, text=True, check=False)
    if done.returncode and not (room / "out").exists():
        pytest.skip(f"strace: {done.stderr}")
    assert done.returncode == 0, done
    count = trace.read_text(errors="replace").count("execve(")
    assert 1 < count <= MOST_PROGRAMS, trace.read_text(errors="replace")

# SPDX-License-Identifier: Apache-2.0
"""Two versions of a job compared."""
import re
import shutil
from pathlib import Path

import numpy
import pytest
from PIL import Image
from press.compare import parts_of
from room import Room
from small_pdf import page, pdf

ALL = ("all", "--quiet", "--no-proof", "--dpi", "144")
GRAY, TWO = "0.4 g 10 10 60 20 re f", "1 0 0 0 k 10 10 40 28 re f 0 1 0 0 k 50 10 40 28 re f"
MOVED = TWO + " 0 0 0 1 k 100 36 5 10 re f"


def test_parts() -> None:
    """Marks that are near each other are one part, each the least rectangle around its marks; the largest comes first."""
    where = numpy.zeros((200, 300), dtype=bool)
    assert not parts_of(where)
    where[3, 7] = where[20, 9] = where[150:160, 200:260] = where[199, 299] = True
    assert parts_of(where) == [(200, 150, 60, 10), (7, 3, 3, 18), (299, 199, 1, 1)]


@pytest.fixture(name="versions")
def fixture_versions(room: Room, built: None) -> tuple[Path, Path]:
    """Two versions of a job: page 2 has another black square, page 3 another size, page 4 is in the first alone."""
    pdf(str(room / "a.pdf"), [page([], GRAY), page([], TWO), page([], GRAY), page([], GRAY)])
    pdf(str(room / "b.pdf"), [page([], GRAY), page([], MOVED), page([], GRAY)])
    room.goes(*ALL, "a.pdf", "a")
    room.goes(*ALL, "b.pdf", "b")
    shutil.rmtree(room / "b/page-003")
    room.goes("all", "--quiet", "--no-proof", "--page", "3", "--force", "--dpi", "72", "b.pdf", "b")
    return room / "a", room / "b"


def test_versions(room: Room, versions: tuple[Path, Path]) -> None:
    """Pages, plates and parts that differ are listed, with their places; the picture shows them in red."""
    one, other = versions
    done = room.run("compare", one, other, "--picture")
    assert done.status == 1 and not done.err, done
    assert done.out == (
        "page 1: the same\n"
        "page 2: differs: Black (200 pixels)\n"
        "page 2: part: 1.8 by 3.5 mm at 35.3, 12.7 mm\n"
        f"page 2: picture: {other}/page-002/compare.png\n"
        "page 3: 240 by 96 pixels of 8 bits at 144 dpi in A, and 120 by 48 pixels of 8 bits at 72 dpi in B\n"
        f"page 4: only in {one}\n"), done
    with Image.open(other / "page-002/compare.png") as picture:
        assert picture.size == (240, 96) and picture.getpixel((205, 10)) == (215, 0, 30) and picture.getpixel((5, 90)) != (215, 0, 30)
    assert not (other / "page-001/compare.png").exists()


def test_pages(room: Room, versions: tuple[Path, Path]) -> None:
    """Two page folders are compared whatever their numbers; equal ones end with 0, and folders of nothing are refused."""
    one, other = versions
    assert room.goes("compare", one / "page-001", other / "page-001", "--untrapped").out == "page 1: the same\n"
    assert room.goes("compare", one / "page-004", one / "page-003").out == "page 3: the same\n"
    assert room.run("compare", one / "page-001", one / "page-002").status == 1
    room.refused(4, r"press-compare: none: No such file or directory", "compare", one, "none")
    (room / "empty").mkdir()
    room.refused(6, r"press-compare: empty: no pages of press/all, and no page that is trapped", "compare", "empty", one)


def test_tiff_files(room: Room, versions: tuple[Path, Path]) -> None:
    """Pages without plates are compared by their TIFF files; plates as they were separated are not there."""
    one, other = versions
    for name, pages in (("a.pdf", "1,2"), ("b.pdf", "1,2")):
        room.goes(*ALL, "--tiff-only", "--page", pages, name, f"tiff-{name[0]}")
    done = room.run("compare", "tiff-a", "tiff-b")
    assert done.status == 1 and done.out == ("page 1: the same\npage 2: differs: Black (200 pixels)\n"
                                             "page 2: part: 1.8 by 3.5 mm at 35.3, 12.7 mm\n"), done
    assert room.run("compare", "tiff-a/page-002", one / "page-002").status == 0
    room.refused(6, r"press-compare: tiff-a/page-001: no plates here: they were not kept .*", "compare", "--untrapped", "tiff-a", other)
    assert re.search("they were not kept", room.run("compare", "tiff-a", "tiff-b", "--picture").err)

# SPDX-License-Identifier: Apache-2.0
"""What goes in: files that are no PDF, tables in other encodings, PostScript, EPS and Illustrator files."""
import os

import pytest
from room import Room

CUT = 300
UTF16 = b"\xff\xfeW\0"
PREVIEW_HEAD = b"\xc5\xd0\xd3\xc6\x1e\0\0\0" + bytes(22)


@pytest.mark.quick
@pytest.mark.parametrize("command", ["plates", "all", "farm"])
def test_files_that_are_no_source(room: Room, command: str) -> None:
    """A file that is not there, a folder, and files that Ghostscript cannot read are refused by each command that takes one."""
    room.sample("text.pdf", "empty.pdf")
    (room / "two").mkdir()
    room.refused(4, r"press-.*: none\.pdf: No such file or directory", command, "none.pdf", "new")
    room.refused(4, r"press-.*: two: Is a directory", command, "two", "new")
    room.refused(5, r"press-.*: text\.pdf: .*Ghostscript cannot read it: .+", command, "text.pdf", "new")
    room.refused(5, r"press-.*: empty\.pdf: .*Ghostscript cannot read it: .+", command, "empty.pdf", "new")


@pytest.mark.quick
def test_cut_file_and_missing_pages(room: Room) -> None:
    """A file that is cut off is refused, and so is a page that the file does not have."""
    room.sample("two.pdf", "cut.pdf")
    room.refused(5, r"press-plates: cut\.pdf: .*Ghostscript cannot read it: .+", "plates", "cut.pdf", "new")
    room.refused(5, r"press-plates: two\.pdf: there is no page 2: it has 1", "plates", "two.pdf", "new", "--page", "2")
    room.refused(5, r"press-all: two\.pdf: there is no page 2: it has 1", "all", "two.pdf", "new", "--page", "2")


@pytest.mark.quick
def test_files_beside_that_are_missing(room: Room) -> None:
    """A table of inks, a zones file or a profile that is not there is refused, and `-` is no standard input."""
    room.sample("two.pdf")
    room.refused(4, r"press-plates: none\.inks: No such file or directory", "plates", "two.pdf", "new", "--inks", "none.inks")
    room.refused(4, r"press-plates: none\.zones: No such file or directory", "plates", "two.pdf", "new", "--zones", "none.zones")
    room.refused(4, r"press-plates: none\.icc: No such file or directory", "plates", "two.pdf", "new", "--icc", "none.icc")
    room.refused(4, r"press-plates: -: No such file or directory", "plates", "-", "new")


@pytest.mark.quick
def test_tables_in_other_encodings(room: Room) -> None:
    """Tables and zones as spreadsheets and old systems save them are refused with what to do."""
    room.sample("two.pdf")
    room.write("wide.inks", UTF16)
    room.write("wide.zones", UTF16)
    room.write("latin.inks", b"Warm Red\t0.9\nGr\xfcn\t0.5\n")
    room.refused(4, r"press-plates: wide\.inks: in UTF-16: save it as UTF-8", "plates", "two.pdf", "new", "--inks", "wide.inks")
    room.refused(4, r"press-plates: wide\.zones: in UTF-16: save it as UTF-8", "plates", "two.pdf", "new", "--zones", "wide.zones")
    room.refused(4, r"press-plates: latin\.inks: line 2: not UTF-8: save it as UTF-8", "plates", "two.pdf", "new", "--inks", "latin.inks")


@pytest.mark.quick
def test_pages_that_are_too_much(room: Room) -> None:
    """Too many colorants are refused."""
    room.sample("many.pdf")
    room.refused(7, r"press-plates: many\.pdf: page 1: 17 colorants, .*", "plates", "many.pdf", "new")


@pytest.mark.quick
@pytest.mark.plain
def test_pipes_are_not_waited_for(room: Room) -> None:
    """A pipe is no file, and nothing waits for what it may give."""
    os.mkfifo(room / "pipe.pdf")
    room.refused(4, r"press-plates: pipe\.pdf: no regular file", "plates", "pipe.pdf", "new")
    room.refused(4, r"press-all: pipe\.pdf: no regular file", "all", "pipe.pdf", "new")


def begins(room: Room, name: str, head: bytes) -> bool:
    """Whether a file begins with these bytes."""
    return (room / name).read_bytes().startswith(head)


def box_at_end(text: bytes) -> bytes:
    """The EPS with its bounding box at the end."""
    return text.replace(b"BoundingBox: 0 0 60 40", b"BoundingBox: (atend)") + b"%%Trailer\n%%BoundingBox: 0 0 60 40\n%%EOF\n"


def test_eps(room: Room) -> None:
    """An EPS becomes a page of its bounding box, which a note says."""
    room.sample("drawn.eps")
    told = room.goes("plates", "drawn.eps", "drawn")
    assert "note: drawn.eps: PostScript: Ghostscript made a PDF of it" in told.err
    assert (room / "drawn" / "Warm_Red.pgm").stat().st_size > 500 * 333
    assert begins(room, "drawn/Cyan.pgm", b"P5\n500 333\n255\n")


def test_eps_with_its_box_at_the_end(room: Room) -> None:
    """A bounding box at the end of an EPS counts."""
    room.sample("drawn.eps")
    room.write("later.eps", box_at_end((room / "drawn.eps").read_bytes()))
    room.goes("plates", "later.eps", "later")
    assert begins(room, "later/Cyan.pgm", b"P5\n500 333\n255\n")


def test_eps_without_a_box(room: Room) -> None:
    """An EPS without a bounding box is warned of; one with its box in front, at the end, or behind a preview is not."""
    room.sample("drawn.eps")
    text = (room / "drawn.eps").read_bytes()
    room.write("boxless.eps", b"".join(line for line in text.splitlines(keepends=True) if b"BoundingBox" not in line))
    room.write("later.eps", box_at_end(text))
    room.write("preview.eps", PREVIEW_HEAD + text)
    assert "boxless.eps: warning: box: the EPS tells no box" in room.goes("preflight", "boxless.eps").out
    for name in ("drawn", "later", "preview"):
        assert "tells no box" not in room.goes("preflight", f"{name}.eps").out


def test_old_illustrator_file(room: Room, built: None) -> None:
    """An Illustrator file of the old sort goes the whole way."""
    room.sample("drawn.eps")
    (room / "drawn.eps").rename(room / "drawn.ai")
    room.goes("all", "--quiet", "drawn.ai", "out")
    assert (room / "out" / "page-001" / "tiff").is_dir()


def test_count_pages(room: Room) -> None:
    """--count prints the number of pages, of PostScript in a driver's commands for the printer too."""
    room.sample("three.pdf", "drawn.eps")
    assert room.goes("plates", "--count", "three.pdf").out == "3\n"
    room.write("driver.ps", b"\x1b%-12345X@PJL ENTER LANGUAGE = POSTSCRIPT\r\n" + (room / "drawn.eps").read_bytes() + b"\x04\x1b%-12345X")
    assert room.goes("plates", "--count", "driver.ps").out == "1\n"


def test_wrong_postscript(room: Room) -> None:
    """PostScript that fails is refused with Ghostscript's reason."""
    room.write("wrong.ps", "%!PS\n/nothing { unknown } loop")
    room.refused(5, r"press-plates: wrong\.ps: Ghostscript cannot convert the PostScript: .+", "plates", "wrong.ps", "new")

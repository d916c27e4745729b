# SPDX-License-Identifier: Apache-2.0
"""Outputs: what stands in the way, links, full disks, temporary files, and names with anything in them."""
import os
import re
import subprocess
from pathlib import Path
from typing import Iterator

import numpy
import pytest
from press.files import is_full
from press.folder import JobFolder
from press.job_record import read_record
from press.plates import write_pgm
from room import Room
from small_pdf import page, pdf

# Fills the disk when page 2 is trapped.
FILLS = """#!/bin/sh
case "$*" in *page.job*) if grep -q "Page 2 of" page.job; then cat /dev/zero > {disk}/fill; fi ;; esac
exec {program} "$@"
"""
ODD_NAME, ODD_FOLDER = '-c "%s".pdf', "a %d: (b)'"


@pytest.mark.quick
def test_outputs_that_stand_in_the_way(room: Room, two: Path) -> None:
    """A command replaces nothing that it did not make, and names what stands in the way."""
    (room / "hot").mkdir()
    room.write("hot/note", "stays\n")
    assert two.is_dir()
    room.refused(8, r"press-plates: two: exists and is not empty .*", "plates", "two.pdf", "two")
    room.refused(8, r"press-plates: hot: exists and is not empty .*", "plates", "two.pdf", "hot", "--force")
    room.refused(8, r"press-plates: two\.pdf: exists and is no folder", "plates", "two.pdf", "two.pdf")
    room.refused(8, r"press-plates: none/new: No such file or directory", "plates", "two.pdf", "none/new")
    room.refused(8, r"press-tiff: two\.pdf: File exists", "tiff", "--untrapped", "two", "two.pdf")
    room.refused(8, r"press-all: two\.pdf: File exists", "all", "two.pdf", "two.pdf")
    (room / "folder.png").mkdir()
    room.refused(8, r"press-look: none/new\.png: No such file or directory", "look", "--untrapped", "two", "none/new.png")
    room.refused(8, r"press-look: folder\.png: Is a directory", "look", "--untrapped", "two", "folder.png")


def test_odd_names(room: Room, two: Path) -> None:
    """A file and a folder may have names with quotes, brackets, dashes in front and percent signs."""
    (room / ODD_FOLDER).mkdir()
    (room / "two.pdf").rename(room / ODD_FOLDER / ODD_NAME)
    room.goes("plates", "--", ODD_NAME, "-d %d", cwd=room / ODD_FOLDER)
    assert (room / ODD_FOLDER / "-d %d" / "Warm_Red.pgm").read_bytes() == (two / "Warm_Red.pgm").read_bytes()


def test_names_that_would_move_the_cursor(room: Room) -> None:
    """Characters of a name that would colour a terminal or break a line are printed as escapes."""
    room.sample("pair.pdf")
    name = "bad\x1b[31m\nred.pdf"
    (room / "pair.pdf").rename(room / name)
    told = room.goes("preflight", name).out
    assert "\x1b" not in told and told.count("\n") == 1, told
    assert r"bad\x1b[31m\x0ared.pdf: page 1: " in told


def test_names_with_line_breaks(room: Room, built: None) -> None:
    """A file with a line break in its name goes the whole way. Each line that is printed is one line, and the record has the name."""
    room.sample("pair.pdf")
    (room / "pair.pdf").rename(room / "two\nlines.pdf")
    done = room.run("all", "--dpi", "72", "--pdf", "two\nlines.pdf", "out")
    assert done.status == 0 and done.out.count("\n") == 1 and done.out.startswith("page 1: done: ")
    assert all(line.startswith("press-all: ") and r"two\x0alines.pdf" in line for line in done.err.splitlines()), done
    assert (room / "out/two\nlines-trapped.pdf").is_file() and (room / "out/page-001/tiff/two\nlines-1(Cyan).tif").is_file()
    assert read_record(str(room / "out"))["file"]["name"] == "two\nlines.pdf"
    room.goes("all", "--quiet", "--dpi", "72", "--page", "1", "two\nlines.pdf", "out")
    (room / "two\nlines.pdf").rename(room / "other.pdf")
    room.refused(8, r"press-all: out: has the pages of two\\x0alines\.pdf, and not of other\.pdf: .*", "all", "other.pdf", "out")


def test_names_that_are_no_utf8(room: Room, built: None) -> None:
    """A name in Latin-1 goes the whole way, and the TIFF files have it."""
    room.sample("pair.pdf")
    name = b"Gr\xfcn"
    os.rename(room / "pair.pdf", os.path.join(os.fsencode(room.folder), name + b".pdf"))
    room.goes("all", "--quiet", "--no-proof", os.fsdecode(name + b".pdf"), "latin")
    assert os.path.getsize(os.path.join(os.fsencode(room / "latin/page-001/tiff"), name + b"-1(Cyan).tif")) > 0


def test_temporary_folder_that_is_missing(room: Room, two: Path) -> None:
    """A TMPDIR that is none is passed over."""
    assert two.is_dir()
    assert room.run("plates", "--force", "two.pdf", "spare", env={"TMPDIR": str(room / "two.pdf" / "none")}).status == 0


@pytest.fixture(name="small_disk")
def fixture_small_disk(room: Room) -> Iterator[Path]:
    """A disk of one megabyte as the folder `small`, where the system lets one be mounted."""
    small = room / "small"
    small.mkdir()
    if subprocess.run(["mount", "-t", "tmpfs", "-o", "size=1m", "none", small], capture_output=True, check=False).returncode:
        pytest.skip("a full disk: no leave to mount a small one")
    yield small
    subprocess.run(["umount", "-l", small], check=True)


def test_full_disk(room: Room, small_disk: Path, built: None) -> None:
    """A disk without room for the plates refuses the page before it is drawn; one that fills up is named as the reason."""
    room.sample("two.pdf")
    room.refused_after(1, r"page 1: failed: press-preflight: two\.pdf: page 1: the page takes about .* of disk, and there are .*",
                       "all", "--quiet", "--no-proof", "two.pdf", small_disk / "out")
    done = room.run("plates", "two.pdf", small_disk / "page", "--dpi", "1200")
    assert done.status == 8 and "No space left on device" in done.err, done
    assert not (small_disk / "page").exists()


def test_disk_that_fills_while_pages_are_made(room: Room, small_disk: Path, built: None) -> None:
    """The page that finds no room names its file and the system's reason, and leaves its line alone. Finished pages stay and are
    listed, and the others are tried."""
    pdf(str(room / "job.pdf"), [page([], "1 0 0 0 k 10 10 40 28 re f 0 1 0 0 k 50 10 40 28 re f")] * 3)
    room.script("trapsheet", FILLS.format(disk=small_disk, program=os.path.realpath(room.programs / "trapsheet")))
    done = room.run("all", "--quiet", "--dpi", "72", "job.pdf", small_disk / "out", env={"TRAP_BIN": str(room.beside / "stand-ins")})
    assert done.status == 1 and [line.partition(": ")[2][:6] for line in done.out.splitlines()] == ["done: ", "failed", "failed"], done
    assert re.search(rf"^page 2: failed: press-\w+: {small_disk}/out/page-002\.failed\S*: No space left on device", done.out, re.MULTILINE), done
    assert sorted(os.listdir(small_disk / "out/page-002.failed")) == ["job.json", "why"]
    assert re.search(r"^page 3: failed: .*(No space left on device|the page takes about .* of disk)", done.out, re.MULTILINE), done
    assert ".press-" not in done.out
    assert (small_disk / "out/page-001/tiff").is_dir()


@pytest.mark.plain
def test_full_disk_takes_the_name_of_the_file(room: Room, small_disk: Path) -> None:
    """A fault that names no file gets the name; what is left of a page is kept as far as there is room."""
    (small_disk / "fill").write_bytes(b"")
    with pytest.raises(OSError) as caught:
        write_pgm(str(small_disk / "fill"), numpy.zeros((2000, 2000), "u1"), 255)
    assert caught.value.filename == str(small_disk / "fill") and is_full(caught.value)
    job = JobFolder(str(small_disk))
    job.keep_failed(1, str(small_disk / "made"), "no room")
    assert not (small_disk / "made").exists() or (small_disk / "page-001.failed").is_dir()

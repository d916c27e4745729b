# SPDX-License-Identifier: Apache-2.0
"""Folders that are no page, or a page that misses something: each command that reads one says so."""
import shutil
from pathlib import Path

import pytest
from room import Room

READERS = {"trap": [], "tiff": ["--untrapped"], "look": ["--untrapped"]}
LARGE_PLATE = 16_000, 4_000


def damaged(room: Room, two: Path) -> None:
    """Copies of a page, each with one thing wrong."""
    for name in ("sizes", "depths", "cut", "other", "lost", "words"):
        shutil.copytree(two, room / name)
    room.write("sizes/Yellow.pgm", b"P5\n2 1\n255\n\xff\xff")
    room.write("depths/Yellow.pgm", b"P5\n1000 400\n65535\n" + bytes(800_000))
    room.write("cut/Black.pgm", (two / "Black.pgm").read_bytes()[:1000])
    room.write("other/Black.pgm", "GIF89a")
    (room / "lost" / "Black.pgm").unlink()
    room.write("words/colorants.txt", "colorant\n")
    (room / "bare").mkdir()


@pytest.mark.parametrize("command", READERS)
def test_folders_that_are_no_page(room: Room, two: Path, command: str) -> None:
    """Missing folders, plates of two sizes or depths, cut plates and wrong tables have a line each."""
    damaged(room, two)
    options, out = READERS[command], [] if command == "trap" else ["new.png"]
    for status, line, folder in (
            (4, r"none: No such file or directory", "none"), (4, r"two\.pdf: Not a directory", "two.pdf"), (6, r"bare: no plates here .*", "bare"),
            (7, r"sizes/Yellow\.pgm: 2 by 1 samples, and Cyan has 1000 by 400", "sizes"),
            (7, r"depths/Yellow\.pgm: maxval 65535, and Cyan has 255", "depths"), (7, r"cut/Black\.pgm: no plate: .*", "cut"),
            (7, r"other/Black\.pgm: no plate: .*", "other"), (4, r"lost/Black\.pgm: No such file or directory", "lost"),
            (4, r"words/colorants\.txt: not a table of colorants", "words")):
        room.refused(status, f"press-{command}: {line}", command, *options, folder, *out)


def test_page_of_too_many_samples(room: Room, two: Path, built: None) -> None:
    """A page of more samples than `trap page` takes is refused with the resolution that fits. The plates here take no room on the disk."""
    width, height = LARGE_PLATE
    head = f"P5\n{width} {height}\n255\n".encode()
    for plate in two.glob("*.pgm"):
        with open(plate, "wb") as file:
            file.write(head)
            file.truncate(len(head) + width * height)
    room.refused(7, r"press-trap: two: 16000 by 4000 samples in 3 plates with ink are 192000000, .* 160000000, .* 547 pixels per inch fit .*",
                 "trap", "--trap-page", "two")


def test_folders_that_miss_a_step(room: Room, two: Path) -> None:
    """A page without a job cannot be trapped; one that was not trapped has no TIFF files and no traps to look at."""
    shutil.copytree(two, room / "jobless")
    (room / "jobless" / "page.job").unlink()
    room.refused(4, r"press-trap: jobless/page\.job: No such file.*", "trap", "jobless")
    room.refused(4, r"press-tiff: two: not trapped yet .*", "tiff", "two", "new")
    room.refused(4, r"press-look: two: not trapped yet .*", "look", "two", "new.png", "--traps")


def test_proof_of_what_is_no_page(room: Room) -> None:
    """A proof sheet needs a page, or pages of press/all."""
    (room / "hot").mkdir()
    room.write("hot/note", "stays\n")
    room.refused(6, r"press-proof: hot: no plates here, .*", "proof", "hot")
    room.refused(4, r"press-proof: none: No such file or directory", "proof", "none")


@pytest.mark.quick
def test_names_of_tiff_files(room: Room, two: Path) -> None:
    """--name is a file's name, and no path."""
    assert two.is_dir()
    room.refused(2, r"press-tiff: --name is a file's name, .*", "tiff", "--untrapped", "two", "new", "--name", "a/b")

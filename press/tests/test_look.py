# SPDX-License-Identifier: Apache-2.0
"""Pictures: of a page, of its traps, of a part, and out of register."""
import struct
from pathlib import Path

import pytest
from room import Room

WRONG_WORDS = ("--part=1,1,0,1", "--part=990,0,20,20", "--part=here", "--enlarge=0", "--shrink=401", "--traps", "--part=most")


def size_of(path: Path) -> tuple[int, int]:
    """The width and height of a PNG file."""
    data = path.read_bytes()
    assert data.startswith(b"\x89PNG")
    width, height = struct.unpack_from(">II", data, 16)
    return width, height


def test_picture_of_a_page_and_of_a_part(room: Room, two: Path) -> None:
    """A page is drawn as a whole, and a part of it enlarged."""
    assert two.is_dir()
    room.goes("look", "--untrapped", "two", "two.png")
    assert size_of(room / "two.png") == (1000, 400)
    room.goes("look", "--untrapped", "two", "part.png", "--part", "10,20,30,40", "--enlarge", "3")
    assert size_of(room / "part.png") == (90, 120)


@pytest.mark.parametrize("words", WRONG_WORDS)
def test_usage_errors(room: Room, two: Path, words: str) -> None:
    """Parts that are not on the page and factors that leave nothing are usage errors; an untrapped page has no traps."""
    assert two.is_dir()
    room.refused(2, "press-look: .*", "look", "--untrapped", "two", "new.png", words)


def test_pictures_of_traps(room: Room, trapped_two: Path) -> None:
    """--traps prints a line for each ink and where most traps are."""
    assert trapped_two.is_dir()
    told = room.goes("look", "two", "traps.png", "--traps").out
    assert told.count("\n") == 10 and "\nmost traps: --part " in told, told
    room.goes("look", "two", "small.png", "--traps", "--shrink", "5")
    assert size_of(room / "small.png") == (200, 80)
    room.goes("look", "two", "most.png", "--part", "most:300x200")
    assert size_of(room / "most.png") == (300, 200)


def test_pictures_out_of_register(room: Room, trapped_two: Path) -> None:
    """--misregister draws the page before and after, a space of 12 pixels between them."""
    assert trapped_two.is_dir()
    room.goes("look", "two", "register.png", "--misregister", "0,0", "-2,1", "Warm Red=3,-1", "--part", "most")
    assert size_of(room / "register.png") == (160 + 12 + 160, 120)
    room.goes("look", "two", "usual.png", "--misregister")
    assert size_of(room / "usual.png") == (1000 + 12 + 1000, 400)


def test_usage_errors_of_a_trapped_page(room: Room, trapped_two: Path) -> None:
    """Names of files, names of plates, too many shifts, and options that do not go together."""
    assert trapped_two.is_dir()
    room.refused(2, r"press-look: a picture is a PNG file, and 'new\.jpg' has another name .*", "look", "two", "new.jpg")
    room.refused(2, "press-look: --misregister: no plate .* Silver .*", "look", "two", "new.png", "--misregister", "Silver=1,1")
    room.refused(2, "press-look: --misregister has more shifts .*", "look", "two", "new.png", "--misregister", *["1,1"] * 7)
    room.refused(2, "press-look: --traps, .* do not go together .*", "look", "two", "new.png", "--misregister", "1,1", "--traps")

# SPDX-License-Identifier: Apache-2.0
"""A TIFF file with all separations as channels of one page: its tags, and the resources in which Photoshop keeps the
names and looks of channels beyond CMYK."""
import struct
from collections.abc import Sequence
from typing import Any

from .errors import PressError, Status
from .inks import Ink
from .names import PROCESS, readable

Tag = tuple[int, Any, int | None, Any, bool]
INK_SET, INK_NAMES, NUMBER_OF_INKS, PHOTOSHOP = 332, 333, 334, 34377
CMYK_INKS = 1
NAMES, UNICODE_NAMES, LOOKS = 1006, 1045, 1007
CMYK_SPACE, SOLID, SPOT = 2, 100, 2
LONGEST_PASCAL = 255
FULL = 65_535


def resource(number: int, data: bytes) -> bytes:
    """A resource block: its kind, an empty name, its size, and data of an even number of bytes."""
    return b"8BIM" + struct.pack(">HHI", number, 0, len(data)) + data + b"\0" * (len(data) % 2)


def look(ink: Ink) -> bytes:
    """What a spot looks like, in CMYK, where 0 is full ink; that it is solid; and that it is a spot channel."""
    parts = (round(FULL * (1 - part / 100)) for part in ink.look)
    return struct.pack(">H4HHBB", CMYK_SPACE, *parts, SOLID, SPOT, 0)


def photoshop_resources(spots: Sequence[Ink]) -> bytes:
    """The resources for channels beyond CMYK: their names, with the number of bytes before each; in UTF-16 with a last
    character of 0, with the number of characters before each; and their looks."""
    names = [readable(ink.colorant).encode("latin-1", "replace")[:LONGEST_PASCAL] for ink in spots]
    wide = [(readable(ink.colorant) + "\0").encode("utf-16-be", "replace") for ink in spots]
    return resource(NAMES, b"".join(bytes([len(name)]) + name for name in names)) + \
        resource(UNICODE_NAMES, b"".join(struct.pack(">I", len(name) // 2) + name for name in wide)) + \
        resource(LOOKS, b"".join(map(look, spots)))


def ink_tags(inks: Sequence[Ink]) -> list[Tag]:
    """The tags of a page whose channels are these inks."""
    return [(INK_SET, "H", 1, CMYK_INKS, True), (NUMBER_OF_INKS, "H", 1, len(inks), True),
            (INK_NAMES, "s", None, b"\0".join(ink.colorant for ink in inks), True)]


def multi_tags(inks: Sequence[Ink], place: str) -> list[Tag]:
    """The same with the looks of spots. The first four inks have to be the process inks."""
    if [ink.name for ink in inks[:4]] != list(PROCESS):
        raise PressError(Status.PLATES, "--multi needs plates of all process inks", place)
    data = photoshop_resources(inks[4:]) if len(inks) > 4 else b""
    return [*ink_tags(inks), *[(PHOTOSHOP, "B", len(data), data, True)] * bool(data)]

# SPDX-License-Identifier: Apache-2.0
"""TIFF files of one bit a pixel, in strips that are packed by CCITT G4 already."""
import struct
from collections.abc import Iterable
from dataclasses import dataclass
from typing import BinaryIO


SHORT, LONG, RATIONAL, ASCII, LONG8 = 3, 4, 5, 2, 16
FORMATS = {SHORT: "H", LONG: "I", LONG8: "Q"}
GROUP_4, MIN_IS_WHITE, INCHES = 4, 0, 2
# From so many bytes on a file is a BigTIFF.
MOST_BYTES = (1 << 32) - (1 << 20)
Entry = tuple[int, int, int, bytes]


@dataclass(frozen=True)
class Bilevel:
    """What the file says of its image: width, height and rows of a strip in pixels, pixels per inch, and the names of
    the ink and of the document."""

    width: int
    height: int
    rows: int
    dpi: int
    ink: str
    document: str
    software: str


def numbers(tag: int, kind: int, values: Iterable[int]) -> Entry:
    """An entry of whole numbers."""
    listed = list(values)
    return tag, kind, len(listed), struct.pack(f"<{len(listed)}{FORMATS[kind]}", *listed)


def text(tag: int, value: str) -> Entry:
    """An entry of text in UTF-8."""
    data = value.encode("utf-8", "surrogateescape") + b"\0"
    return tag, ASCII, len(data), data


def entries_of(image: Bilevel, places: list[int], sizes: list[int], big: bool) -> list[Entry]:
    """The entries of the file's one directory."""
    long = LONG8 if big else LONG
    resolution = struct.pack("<II", image.dpi, 1)
    return [numbers(254, LONG, [0]), numbers(256, LONG, [image.width]), numbers(257, LONG, [image.height]),
            numbers(258, SHORT, [1]), numbers(259, SHORT, [GROUP_4]), numbers(262, SHORT, [MIN_IS_WHITE]),
            numbers(266, SHORT, [1]), text(269, image.document), text(270, image.ink), numbers(273, long, places),
            numbers(274, SHORT, [1]), numbers(277, SHORT, [1]), numbers(278, LONG, [image.rows]),
            numbers(279, long, sizes), (282, RATIONAL, 1, resolution), (283, RATIONAL, 1, resolution),
            text(285, image.ink), numbers(293, LONG, [0]), numbers(296, SHORT, [INCHES]), text(305, image.software)]


def directory(entries: list[Entry], start: int, big: bool) -> bytes:
    """The directory that is at `start`, with its values after it."""
    room, head, pointer = (8, "<HHQ", "<Q") if big else (4, "<HHI", "<I")
    size = (8 if big else 2) + len(entries) * (struct.calcsize(head) + room) + struct.calcsize(pointer)
    lines, values = b"", b""
    for tag, kind, count, data in sorted(entries):
        if len(data) > room:
            place = start + size + len(values)
            values += data + b"\0" * (len(data) % 2)
            data = struct.pack(pointer, place)
        lines += struct.pack(head, tag, kind, count) + data.ljust(room, b"\0")
    return struct.pack("<Q" if big else "<H", len(entries)) + lines + struct.pack(pointer, 0) + values


def write_bilevel(file: BinaryIO, image: Bilevel, strips: Iterable[bytes], most: int = MOST_BYTES) -> None:
    """Writes the file strip by strip. The head, which says where the directory is, is written last."""
    file.write(bytes(16))
    places, sizes = [], []
    for strip in strips:
        places.append(file.tell())
        sizes.append(len(strip))
        file.write(strip + b"\0" * (len(strip) % 2))
    start = file.tell()
    big = start > most
    file.write(directory(entries_of(image, places, sizes, big), start, big))
    file.seek(0)
    file.write(struct.pack("<2sHHHQ", b"II", 43, 8, 0, start) if big else struct.pack("<2sHI", b"II", 42, start))

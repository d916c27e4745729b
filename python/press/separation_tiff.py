# SPDX-License-Identifier: Apache-2.0
"""A separation as a gray TIFF file, packed by libtiff; as BigTIFF if it has more samples than a TIFF file can."""
import io
import os
import struct
from collections.abc import Iterator
from typing import Any

from PIL import Image

from .bilevel_tiff import INCHES, LONG, LONG8, RATIONAL, SHORT, directory, numbers
from .files import named
from .plates import Array, release

# How samples may be packed: the names that Pillow has for it, and TIFF's numbers.
PACKED_BY = {"none": "raw", "packbits": "packbits", "lzw": "tiff_lzw", "deflate": "tiff_adobe_deflate"}
NUMBERS = {"none": 1, "packbits": 32_773, "lzw": 5, "deflate": 8}
# More bytes need BigTIFF.
MOST_BYTES, STRIP_BYTES = (1 << 32) - (1 << 24), 1 << 20
CHANNELS, STRIP_OFFSETS, STRIP_COUNTS, BLACK_IS_ZERO = 277, 273, 279, 1
BIG_HEAD = "<2sHHHQ"
# Plates are large, and come from the shop's own RIPs.
Image.MAX_IMAGE_PIXELS = None


def needs_big(size: int) -> bool:
    """Whether a file of so many bytes, not packed, has to be BigTIFF."""
    return size > MOST_BYTES


def write_separation(path: bytes, array: Array, resolution: int, compression: str = "lzw") -> None:
    """Writes a plate (rows × columns, 0 is full ink) as a gray TIFF file; the resolution is in dpi."""
    if needs_big(array.size * array.itemsize):
        write_big(path, array, resolution, compression)
        return
    # By its handle: the encoder takes no name that is not UTF-8.
    with named(os.fsdecode(path)), open(os.open(path, os.O_RDWR | os.O_CREAT | os.O_TRUNC, 0o666), "w+b") as file:
        image_of(array).save(file, format="TIFF", compression=PACKED_BY[compression], dpi=(resolution, resolution),
                             tiffinfo={CHANNELS: 1})
    release(array)


def image_of(array: Array) -> Image.Image:
    """A plate as Pillow has it, without a copy."""
    height, width = array.shape
    mode = "L" if array.dtype.itemsize == 1 else "I;16B" if array.dtype.str == ">u2" else "I;16"
    return Image.frombuffer(mode, (width, height), array, "raw", mode, 0, 1)


def write_big(path: bytes, array: Array, resolution: int, compression: str) -> None:
    """The same as BigTIFF, strip by strip, each packed by libtiff, which Pillow 9 does not write and tifffile packs by
    Deflate alone. It is little-endian: Pillow 9 reads no other."""
    rows = max(1, STRIP_BYTES // (array.shape[1] * array.itemsize))
    places, sizes = [], []
    with named(os.fsdecode(path)), open(path, "wb") as file:
        file.write(bytes(struct.calcsize(BIG_HEAD)))
        for strip in packed_strips(array, rows, compression):
            places.append(file.tell())
            sizes.append(len(strip))
            file.write(strip + b"\0" * (len(strip) % 2))
        start, dpi = file.tell(), struct.pack("<II", resolution, 1)
        entries = [numbers(256, LONG, [array.shape[1]]), numbers(257, LONG, [array.shape[0]]),
                   numbers(258, SHORT, [8 * array.itemsize]), numbers(259, SHORT, [NUMBERS[compression]]),
                   numbers(262, SHORT, [BLACK_IS_ZERO]), numbers(STRIP_OFFSETS, LONG8, places),
                   numbers(CHANNELS, SHORT, [1]), numbers(278, LONG, [rows]), numbers(STRIP_COUNTS, LONG8, sizes),
                   (282, RATIONAL, 1, dpi), (283, RATIONAL, 1, dpi), numbers(296, SHORT, [INCHES])]
        file.write(directory(entries, start, True))
        file.seek(0)
        file.write(struct.pack(BIG_HEAD, b"II", 43, 8, 0, start))
    release(array)


def packed_strips(array: Array, rows: int, compression: str) -> Iterator[bytes]:
    """The strips of a plate, each packed alone."""
    for top in range(0, array.shape[0], rows):
        strip = array[top:top + rows].astype(f"<u{array.itemsize}", copy=False)
        yield strip.tobytes() if compression == "none" else packed(strip, compression)


def packed(strip: Array, compression: str) -> bytes:
    """A strip as libtiff packs it: the one strip of a file in memory."""
    file = io.BytesIO()
    how: dict[str, Any] = {"strip_size": strip.size * strip.itemsize}
    image_of(strip).save(file, format="TIFF", compression=PACKED_BY[compression], tiffinfo={CHANNELS: 1}, **how)
    with Image.open(file) as made:
        tags = made.tag_v2  # type: ignore[attr-defined]
        offsets, counts = tags[STRIP_OFFSETS], tags[STRIP_COUNTS]
    return b"".join(file.getvalue()[offset:offset + count] for offset, count in zip(offsets, counts))

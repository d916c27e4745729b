# SPDX-License-Identifier: Apache-2.0
"""Readers of plates and TIFF files for the tests, by other means than the press commands have."""
import re
import struct
import subprocess
from pathlib import Path
from typing import Any

import numpy

TAGS = {256: "width", 257: "height", 258: "bits", 262: "polarity", 277: "channels", 282: "x per unit", 283: "y per unit",
        284: "planar", 296: "unit", 333: "inks", 338: "extra channels"}
# Bytes of a value of each type of a TIFF field.
SIZES = {1: 1, 2: 1, 3: 2, 4: 4, 5: 8}
Plane = Any


def plate(path: Path) -> Plane:
    """The samples of a raw PGM file: an array of rows and columns."""
    data = path.read_bytes()
    found = re.match(rb"P5\s+(\d+)\s+(\d+)\s+(\d+)\s", data)
    assert found, f"{path}: no raw PGM file"
    width, height, most = (int(number) for number in found.groups())
    return numpy.frombuffer(data, "u1" if most < 256 else ">u2", offset=found.end()).reshape(height, width)


def tiff_plane(path: Path) -> Plane:
    """The samples of a gray TIFF file as Netpbm reads it, which makes up for the polarity that the file says."""
    done = subprocess.run(["tifftopnm", "-quiet", path], capture_output=True, check=True)
    found = re.match(rb"P5\s+(\d+)\s+(\d+)\s+(\d+)\s", done.stdout)
    assert found, f"{path}: no gray file to Netpbm: {done.stdout[:30]!r}"
    width, height, most = (int(number) for number in found.groups())
    return numpy.frombuffer(done.stdout, "u1" if most < 256 else ">u2", offset=found.end()).reshape(height, width)


def tiff_tags(path: Path, wanted: dict[int, str] | None = None) -> list[dict[str, Any]]:
    """What the pages of a TIFF file say of their samples: of each page the tags by name."""
    data = path.read_bytes()
    order = {b"II": "<", b"MM": ">"}[data[:2]]
    names, pages = wanted or TAGS, []
    start, = struct.unpack_from(order + "I", data, 4)
    while start:
        count, = struct.unpack_from(order + "H", data, start)
        page = {}
        for k in range(count):
            tag, kind, many = struct.unpack_from(order + "HHI", data, start + 2 + 12 * k)
            if tag in names:
                page[names[tag]] = tag_values(data, order, kind, many, start + 10 + 12 * k)
        pages.append(page)
        start, = struct.unpack_from(order + "I", data, start + 2 + 12 * count)
    return pages


def tag_values(data: bytes, order: str, kind: int, count: int, place: int) -> Any:
    """The values of a field."""
    if SIZES[kind] * count > 4:
        place, = struct.unpack_from(order + "I", data, place)
    if kind == 2:
        return data[place:place + count]
    if kind == 5:
        pairs = struct.unpack_from(f"{order}{2 * count}I", data, place)
        return [above / below for above, below in zip(pairs[::2], pairs[1::2])]
    return list(struct.unpack_from(f"{order}{count}{'BBBHI'[kind]}", data, place))


def colorants(folder: Path) -> list[list[str]]:
    """The rows of a page's table: name, density, kind, look, ink, file, colorant, role."""
    lines = (folder / "colorants.txt").read_text().splitlines()
    return [line.split("\t")[1:] for line in lines if line.startswith("colorant\t")]


def changed_in(folder: Path, left: int, top: int, width: int, height: int) -> int:
    """How many samples of a part of a trapped page some plate changed at."""
    changed = numpy.zeros((height, width), dtype=bool)
    for name, *_ in colorants(folder):
        before, after = (plate(place / f"{name}.pgm")[top:top + height, left:left + width] for place in (folder, folder / "trapped"))
        changed |= before != after
    return int(changed.sum())

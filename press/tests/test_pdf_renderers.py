# SPDX-License-Identifier: Apache-2.0
"""Trapped PDFs in MuPDF and Poppler: the trapped plates where traps are painted, the original elsewhere."""
import subprocess
from pathlib import Path
from typing import Any

import numpy as np
import pikepdf
import pytest
import tifffile
from pdf_cases import CASES, folders_of, joined, saved
from room import needs

from press.folder import PageFolder
from press.pdf import PdfSettings, write_trapped_pdf
from press.pdf_tiles import changed_rows, widen
from press.trapped_page import read_trapped_page

PROCESS = [b"Cyan", b"Magenta", b"Yellow", b"Black"]
# Pages whose original another renderer draws otherwise: it draws the crop box alone, or other things than Ghostscript
# of contents that restore more than they save.
DRAWN_OTHERWISE = {"crop-in-media", "too-many-Q", "Q-undoes-nothing", "blank"}
# Pages whose group is left out, since nothing in it blends: MuPDF draws the original through the group's colours.
WITHOUT_GROUP = {"group-rgb-opaque"}
# At 150 dpi a page of these is half a pixel higher than its plates, which cannot be exact in all renderers.
DPI = 144


def unpacked(data: bytes, length: int) -> bytes:
    """Bytes of PackBits."""
    out, at = bytearray(), 0
    while len(out) < length:
        head = data[at]
        if head < 128:
            out += data[at + 1:at + 2 + head]
            at += 2 + head
        else:
            out += data[at + 1:at + 2] * (257 - head) if head > 128 else b""
            at += 2 if head > 128 else 1
    return bytes(out)


def number(data: bytes, at: int, size: int) -> int:
    """A number of a PSD file."""
    return int.from_bytes(data[at:at + size], "big")


def channel_names(data: bytes, at: int, end: int) -> list[bytes]:
    """The names of the channels beyond CMYK."""
    while at < end:
        kind, at = number(data, at + 4, 2), at + 6
        at += (data[at] + 2) // 2 * 2
        size, at = number(data, at, 4), at + 4
        if kind == 1006:
            names, inner = [], at
            while inner < at + size:
                names.append(data[inner + 1:inner + 1 + data[inner]])
                inner += 1 + data[inner]
            return [name for name in names if name and name not in PROCESS]
        at += (size + 1) // 2 * 2
    return []


def read_psd(path: Path) -> dict[bytes, Any]:
    """The planes of a PSD file of CMYK and spots, of which 0 is full ink."""
    data = path.read_bytes()
    count, height, width = number(data, 12, 2), number(data, 14, 4), number(data, 18, 4)
    at = 26 + 4 + number(data, 26, 4)
    end, at = at + 4 + number(data, at, 4), at + 4
    spots = channel_names(data, at, end)
    at = end + 4 + number(data, end, 4)
    packing, at = number(data, at, 2), at + 2
    if packing == 0:
        planes = np.frombuffer(data, np.uint8, count * height * width, at).reshape(count, height, width)
    else:
        lengths = np.frombuffer(data, ">u2", count * height, at).astype(int)
        starts = at + 2 * count * height + np.concatenate(([0], np.cumsum(lengths)[:-1]))
        rows = [unpacked(data[start:start + length], width) for start, length in zip(starts, lengths)]
        planes = np.frombuffer(b"".join(rows), np.uint8).reshape(count, height, width)
    return dict(zip(PROCESS + spots, planes))


def by_mupdf(path: Path, page: int) -> dict[bytes, Any]:
    """The plates of a page by MuPDF, without antialiasing."""
    out = path.parent / f"{path.stem}-{page}.psd"
    subprocess.run(["mutool", "draw", "-q", "-F", "psd", "-c", "cmyk", "-O", "2", "-A", "0", "-N", "-r", str(DPI), "-o",
                    str(out), str(path), str(page)], check=True, capture_output=True)
    return read_psd(out)


def by_poppler(path: Path, page: int) -> dict[bytes, Any]:
    """The process plates of a page by Poppler, without antialiasing."""
    out = path.parent / f"{path.stem}-{page}"
    subprocess.run(["pdftoppm", "-overprint", "-tiff", "-tiffcompression", "none", "-r", str(DPI), "-f", str(page), "-l",
                    str(page), "-aa", "no", "-aaVector", "no", "-singlefile", str(path), str(out)], check=True,
                   capture_output=True)
    planes = tifffile.imread(f"{out}.tif")
    return {name: 255 - planes[:, :, at] for at, name in enumerate(PROCESS)}


def differing(folder: Path, before: dict[bytes, Any], after: dict[bytes, Any], number_of: dict[str, int]) -> None:
    """Counts the pixels of a page that are neither the trapped plates' nor the original's."""
    page, inks = read_trapped_page(str(folder)), PageFolder.read(str(folder)).inks
    painted = widen(changed_rows(page.before, page.after, 0, page.after.height), 1)
    for ink, trapped in zip(inks, page.after.arrays):
        if ink.colorant not in after:
            number_of[f"no {ink.name}"] = 1
            continue
        rows, columns = (min(one, other) for one, other in zip(after[ink.colorant].shape, trapped.shape))
        place = slice(rows), slice(columns)
        original = before.get(ink.colorant, np.full(trapped.shape, 255, np.uint8))
        wanted = np.where(painted[place], trapped[place], original[place])
        count = int(np.count_nonzero(after[ink.colorant][place] != wanted))
        if count:
            number_of[ink.name] = count


@needs("mutool")
@pytest.mark.slow
def test_hostile_pages_in_mupdf(tmp_path: Path) -> None:
    """Every painted pixel is the trapped plates', every other pixel as MuPDF draws the original."""
    names = [name for name in CASES if name not in DRAWN_OTHERWISE]
    path = saved(joined(CASES[name] for name in names), tmp_path / "in.pdf")
    folders, wrong = folders_of(path, DPI), {}
    write_trapped_pdf(str(path), str(tmp_path / "out.pdf"), [read_trapped_page(str(one)) for one in folders],
                      PdfSettings(), "in.pdf")
    with pikepdf.open(path) as pdf:
        for name, one in zip(names, pdf.pages):
            if name in WITHOUT_GROUP:
                del one.obj["/Group"]
        pdf.save(tmp_path / "before.pdf")
    for page, (name, folder) in enumerate(zip(names, folders), 1):
        found: dict[str, int] = {}
        differing(folder, by_mupdf(tmp_path / "before.pdf", page), by_mupdf(tmp_path / "out.pdf", page), found)
        if found:
            wrong[name] = found
    assert not wrong


@needs("pdftoppm")
@pytest.mark.slow
def test_pages_of_process_inks_in_poppler(tmp_path: Path) -> None:
    """The same by Poppler."""
    from pdf_cases import one_page  # pylint: disable=import-outside-toplevel
    art = (b".2 0 .9 0 k 20.3 18.7 160.2 90.4 re f 0 .9 .2 0 k 100.2 60.7 m 160 60 170 100 110 105.5 c f "
           b"1 0 .3 0 k 30.1 25.2 m 90 30 l 55 77 l f 0 0 0 1 k 12 40 30.4 20.2 re f")
    boxes = [((0, 0, 204, 132), {}), ((0, 0, 199.37, 129.61), {}), ((0, 0, 199.29, 129.69), {"Rotate": 90}),
             ((-33.3, 71.9, 170.7, 203.9), {}), ((0, 0, 199.34, 129.74), {"Rotate": 270})]
    path = saved(joined([lambda box=box, more=more: one_page(art, box, **more) for box, more in boxes]), tmp_path / "in.pdf")
    folders, wrong = folders_of(path, DPI), {}
    write_trapped_pdf(str(path), str(tmp_path / "out.pdf"), [read_trapped_page(str(one)) for one in folders],
                      PdfSettings(), "in.pdf")
    for page, folder in enumerate(folders, 1):
        found: dict[str, int] = {}
        differing(folder, by_poppler(path, page), by_poppler(tmp_path / "out.pdf", page), found)
        if found:
            wrong[page] = found
    assert not wrong

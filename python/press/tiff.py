# SPDX-License-Identifier: Apache-2.0
"""TIFF files of a page: a file for each separation, as Ghostscript's tiffsep names them, and on request one of all inks
and a picture; and plates from separations of another RIP. tifffile writes what has pages."""
import contextlib
import functools
import os
import urllib.parse
import zlib
from collections.abc import Iterator, Sequence
from dataclasses import dataclass
from typing import Any

import numpy
import tifffile
from PIL import Image, UnidentifiedImageError

from . import picture
from .crew import ALONE, Crew
from .errors import PressError, Status, UsageError
from .files import folder_beside, head_of, named, refusing
from .folder import PageFolder
from .inks import Ink
from .multi_tiff import CMYK_INKS, INK_SET, Tag, ink_tags, multi_tags
from .names import PROCESS
from .output_report import file_figures, page_figures, write_report
from .plates import Array, Plates
from .separation_tiff import STRIP_BYTES, needs_big, write_separation
from .settings import Settings

LEVEL = 6
MAXVALS = (255, 65_535)
CENTIMETRE = 3
WHITE_IS_ZERO, BLACK_IS_ZERO = 0, 1
ORIENTATION, PAGE_NAME, PAGE_NUMBER, UPRIGHT = 274, 285, 297, 1


@dataclass(frozen=True)
class TiffOptions:
    """What the TIFF files are made of, beside the settings: the name that they have, or None for the PDF's and the
    page's; the trapped plates or those from the PDF; whether there are a file of channels and a report too."""

    settings: Settings = Settings()
    name: str | None = None
    trapped: bool = True
    multi: bool = False
    report: bool = False


def write_tiffs(page: PageFolder, out: str, options: TiffOptions, crew: Crew = ALONE) -> None:
    """Writes the TIFF files of a page into the folder `out`, which is made if it is not there, several separations at
    once if the crew can. Files of these names are replaced when all are written."""
    settings = options.settings
    if options.trapped:
        page.need_trapped()
    if page.head.maxval not in MAXVALS:
        message = f"maxval {page.head.maxval}, and a TIFF file is made of 255 or 65535"
        raise PressError(Status.PLATES, message, page.path)
    stem = os.path.splitext(os.fsdecode(page.source.pdf))[0]
    name = os.fsencode(options.name or f"{stem}-{page.source.page}")
    if b"/" in name or name in (b"", b".", b".."):
        raise UsageError(f"--name is a file's name, and not '{os.fsdecode(name)}'")
    if settings.icc:
        picture.need_profile(settings.icc)
    os.makedirs(out, exist_ok=True)
    plates = page.plates(options.trapped)
    with folder_beside(out, inside=True) as made:
        inside = os.path.join(os.fsencode(made), name)
        crew.each([functools.partial(write_separation, inside + b"(" + ink.suffix + b").tif", array,
                                     page.source.resolution, settings.compression)
                   for ink, array in zip(page.inks, plates.arrays)])
        if settings.composite or settings.channels:
            write_composite(inside + b".tif", page.inks, plates, settings.channels)
            picture.write_overview(inside + b".png", page, options.trapped, settings.icc)
        if options.multi:
            write_multi(inside + b"-multi.tif", page, plates)
        if options.report:
            write_report_of(made, os.fsdecode(name), page, plates)
        for file in os.listdir(os.fsencode(made)):
            os.replace(os.path.join(os.fsencode(made), file), os.path.join(os.fsencode(out), file))


# The file of all inks

@dataclass(frozen=True)
class TiffPage:
    """A page of a TIFF file: its plates, what they are to a reader, and the tags that are its own."""

    arrays: tuple[Array, ...]
    photometric: str
    tags: list[Tag]
    description: bytes | None = None


@contextlib.contextmanager
def new_file(path: bytes, plates: Plates) -> Iterator[tifffile.TiffWriter]:
    """A new file for all inks; BigTIFF if they have more samples than a TIFF file can."""
    size = sum(array.size * array.itemsize for array in plates.arrays)
    name = os.fsdecode(path)
    with named(name), tifffile.TiffWriter(name, bigtiff=needs_big(size), byteorder="<") as writer:
        yield writer


def write_composite(path: bytes, inks: Sequence[Ink], plates: Plates, channels: bool) -> None:
    """Writes all inks into one file, in which the greatest value is full ink, packed by Deflate."""
    with new_file(path, plates) as writer:
        for page in composite_pages(inks, plates, channels):
            write_page(writer, page, plates)


def write_multi(path: bytes, page: PageFolder, plates: Plates) -> None:
    """Writes all inks as channels of one page, in which the greatest value is full ink, packed by Deflate."""
    tags = multi_tags(page.inks, page.path)
    with new_file(path, plates) as writer:
        write_page(writer, TiffPage(plates.arrays, "separated", tags), plates)


def write_report_of(folder: str, name: str, page: PageFolder, plates: Plates) -> None:
    """Writes the report of the files in a folder: the inks, and each file with its digest."""
    files = [file_figures(os.path.join(folder, file), file) for file in sorted(os.listdir(folder))]
    figures = {**page_figures(page, plates), "files": files}
    write_report(os.path.join(folder, name + ".json"), "press-tiff", figures)


def write_page(writer: tifffile.TiffWriter, page: TiffPage, plates: Plates) -> None:
    """Writes a page of a file."""
    count, size = len(page.arrays), page.arrays[0].dtype.itemsize
    rows = max(1, STRIP_BYTES // (plates.width * count * size))
    shape = (plates.height, plates.width, count) if count > 1 else (plates.height, plates.width)
    how: dict[str, Any] = {"planarconfig": "contig", "extrasamples": [0] * (count - 4)} if count > 1 else {}
    writer.write(strips(page.arrays, rows, plates.maxval), shape=shape, dtype="<u1" if size == 1 else "<u2",
                 photometric=page.photometric, compression="zlib", rowsperstrip=rows, metadata=None, software=False,
                 resolution=(plates.resolution, plates.resolution), resolutionunit="INCH",
                 description=page.description, extratags=[(ORIENTATION, "H", 1, UPRIGHT, True), *page.tags], **how)


def strips(arrays: Sequence[Array], rows: int, maxval: int) -> Iterator[bytes]:
    """The strips of a page, each packed alone: the channels of a sample side by side, full ink the greatest
    value."""
    order = "u1" if maxval == MAXVALS[0] else "<u2"
    for start in range(0, arrays[0].shape[0], rows):
        block = numpy.stack([maxval - array[start:start + rows] for array in arrays], axis=2)
        yield zlib.compress(block.astype(order, copy=False).tobytes(), LEVEL)


def composite_pages(inks: Sequence[Ink], plates: Plates, channels: bool) -> Iterator[TiffPage]:
    """CMYK, and each other ink as a page or as a channel of it. Plates of another RIP need not have all process
    inks: then each ink is a page."""
    arrays, count = plates.arrays, len(inks)
    if [ink.name for ink in inks[:4]] != list(PROCESS):
        for at, ink in enumerate(inks):
            yield spot_page(ink, arrays[at], at, count)
        return
    if channels:
        yield TiffPage(arrays, "separated", ink_tags(inks))
        return
    pages = 1 + count - len(PROCESS)
    number: list[Tag] = [(PAGE_NUMBER, "H", 2, (0, pages), True)] if pages > 1 else []
    yield TiffPage(arrays[:4], "separated", [(INK_SET, "H", 1, CMYK_INKS, True), *number])
    for at, ink in enumerate(inks[4:], 4):
        yield spot_page(ink, arrays[at], at - 3, pages)


def spot_page(ink: Ink, array: Array, number: int, count: int) -> TiffPage:
    """The page of one ink, with its name."""
    return TiffPage((array,), "miniswhite", [(PAGE_NAME, "s", None, ink.colorant, True),
                                             (PAGE_NUMBER, "H", 2, (number, count), True)], ink.colorant)


# Separations of another RIP

@dataclass(frozen=True)
class Separation:
    """A gray TIFF file of one channel of 8 or 16 bits: its polarity, and its dpi if it says them in whole numbers."""

    path: str
    bits: int
    polarity: int
    dpi: int | None


def open_separation(path: str) -> Separation:
    """What the first page of a TIFF file says. Refuses a file that is no plate."""
    head_of(path)
    try:
        with refusing(path), tifffile.TiffFile(path) as file:
            page = file.pages.first
            bits, polarity, channels = int(page.bitspersample), int(page.photometric), int(page.samplesperpixel)
            across, down = (whole_dpi(page.tags, name) for name in ("XResolution", "YResolution"))
    except (tifffile.TiffFileError, ValueError, TypeError, IndexError, KeyError) as fault:
        raise PressError(Status.PLATES, "no TIFF file", path) from fault
    if channels != 1 or polarity not in (WHITE_IS_ZERO, BLACK_IS_ZERO) or bits not in (8, 16):
        raise PressError(Status.PLATES, f"no plate: a plate's TIFF file has one gray channel of 8 or 16 bits, and this "
                         f"one {channels} of {bits}", path)
    return Separation(path, bits, polarity, across if across == down else None)


def whole_dpi(tags: Any, name: str) -> int | None:
    """A resolution in whole dpi, where the file says it."""
    if name not in tags or not tags[name].value[1]:
        return None
    above, below = tags[name].value
    unit = tags["ResolutionUnit"].value if "ResolutionUnit" in tags else 2
    return round(above / below * (2.54 if unit == CENTIMETRE else 1)) or None


def resolution_of(asked: int | None, files: Sequence[Separation]) -> int:
    """The dpi of plates: what is asked for, or what all files say."""
    if asked:
        return asked
    for file in files:
        if file.dpi is None:
            raise UsageError(f"{file.path} does not say its resolution in whole pixels per inch: say --dpi")
        if file.dpi != files[0].dpi:
            message = f"{file.dpi} pixels per inch, and {files[0].path} has {files[0].dpi}"
            raise PressError(Status.PLATES, message, file.path)
    return files[0].dpi or 0


def overruled(asked: int | None, files: Sequence[Separation]) -> str | None:
    """That files say another resolution than the one that is asked for."""
    others = [file for file in files if asked and file.dpi and file.dpi != asked]
    if not others:
        return None
    more = f" and {len(others) - 1} more" if len(others) > 1 else ""
    return (f"--dpi {asked} is taken, and {others[0].path}{more} says {others[0].dpi}: a trap of one width is as many "
            f"pixels as at {asked} pixels per inch")


def read_separation(file: Separation, inverted: bool) -> Array:
    """The plate of a separation (rows × columns, 0 is full ink): black is full ink, as the file's own polarity has
    it, or white if it is inverted."""
    try:
        with Image.open(file.path) as image:
            array: Array = numpy.asarray(image)
    except (OSError, UnidentifiedImageError, ValueError) as fault:
        raise PressError(Status.INPUT, f"libtiff cannot read it: {fault}", file.path) from fault
    # Pillow turns gray files of 8 bits round alone.
    if inverted != (file.bits == 16 and file.polarity == WHITE_IS_ZERO):
        array = (1 << file.bits) - 1 - array
    return array


def suffix_of(name: bytes) -> bytes:
    """A colorant's name as tiffsep spells it in a file's name."""
    if not any(byte in b"%/:\\" for byte in name):
        return name
    safe = b" !\"#$&'()*+,;<=>?@[]^`{|}~" + bytes(range(128, 256))
    return urllib.parse.quote_from_bytes(name, safe=safe).encode()

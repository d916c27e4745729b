# SPDX-License-Identifier: Apache-2.0
"""A page of a PDF as plates: one run of Ghostscript's tiffsep, whose uncompressed planes are mapped and not read."""
import os
import re
import subprocess
import urllib.parse
from collections.abc import Sequence
from dataclasses import dataclass

import tifffile

from .errors import PressError, Status
from .files import need_room
from .inks import Look, Separation
from .names import PROCESS, job_names
from .own_profiles import write_plain
from .plates import Array, Plates
from .settings import Settings
from .source import Source, complaint, ghostscript

BOX_OPTIONS: dict[str, list[str]] = {
    "media": [], "crop": ["-dUseCropBox"], "bleed": ["-dUseBleedBox"], "trim": ["-dUseTrimBox"], "art": ["-dUseArtBox"]}
FULL = 32_760
# Ghostscript's planes are called page(NAME).tif. What it prints of them, as it begins them, is in a file; another one
# is there when it has ended.
DRAWN, ERRORS, ENDED = "page", "gs.err", "gs.end"
# What Ghostscript prints about a font that it looks for itself, of a font of CJK too, and about the file that it takes.
LOADED = re.compile(r"^Loading (?:font (\S+) \(or substitute\)|CIDFont (\S+) substitute) from (?:.*/)?([^/\n]+)$",
                    re.MULTILINE)
# The fonts that every reader of PDF has a face for.
STANDARD_FONT = re.compile(r"(Helvetica|Times|Courier)(-.*)?|Symbol|ZapfDingbats")


@dataclass(frozen=True)
class Rendering:
    """The plates of a page as Ghostscript separates it.

    `separations` are the colorants in the order of the plates: the process inks, then the spots by their names.
    `plates` are mapped from files of the scratch folder. `repairs` are the faults of the PDF that Ghostscript
    mended, `fonts` those that the PDF lacks, each with the file that is in its place.
    """

    page: int
    separations: tuple[Separation, ...]
    plates: Plates
    repairs: tuple[str, ...]
    fonts: tuple[tuple[str, str], ...]


def render(source: Source, page: int, settings: Settings, folder: str) -> Rendering:
    """Renders a page in a scratch folder at the settings' resolution. Refuses a page that Ghostscript cannot read."""
    # Ghostscript 10.00 leaves the plates of spots blank on a page with transparency that it draws without bands.
    words = ["-dBATCH", "-dPDFSTOPONERROR", "-sDEVICE=tiffsep", "-dMaxBitmap=0", f"-r{settings.dpi}",
             "-sCompression=none", "-dMaxSpots=60", "-dPrintSpotCMYK", f"-dFirstPage={page}", f"-dLastPage={page}",
             f"-sOutputFile={DRAWN}.tif", *BOX_OPTIONS[settings.box]]
    name = "plain.pdf" if settings.keep_cmyk else "in.pdf"
    if settings.keep_cmyk:
        write_plain(source.pdf, os.path.join(folder, name), source.path)
    else:
        link(source.pdf, folder, name)
    words += profile_words(settings.icc, folder)
    with open(os.path.join(folder, ERRORS), "w+b") as errors:
        done = ghostscript(folder, [*words, name], settings.time, source.place(page), errors)
    with open(os.path.join(folder, ENDED), "wb"):
        pass
    if done.returncode != 0:
        raise PressError(Status.PDF, f"Ghostscript cannot read it: {complaint(done)}", source.place(page))
    separations = separations_in(folder, done.stdout + b"\n" + done.stderr)
    if separations is None:
        raise PressError(Status.PDF, "Ghostscript made no page of it", source.place(page))
    arrays = tuple(plane(folder, DRAWN, one.suffix, source.place(page)) for one in separations)
    os.remove(os.path.join(folder, DRAWN + ".tif"))
    plates = Plates(tuple(one.name for one in separations), arrays, 255, settings.dpi)
    return Rendering(page, tuple(separations), plates, repairs_in(done), fonts_in(done))


def link(path: str, folder: str, name: str) -> None:
    """A file under a plain name in a scratch folder."""
    inside = os.path.join(folder, name)
    if not os.path.lexists(inside):
        os.symlink(os.path.realpath(path), inside)


def profile_words(profile: str | None, folder: str) -> list[str]:
    """Ghostscript's words for the profile of the press. CMYK without a profile of its own is taken to be in the
    press's inks already: else Ghostscript would convert it from its own default profile, black type into four inks."""
    if profile is None:
        return []
    link(profile, folder, "output.icc")
    return ["-sOutputICCProfile=output.icc", "-sDefaultCMYKProfile=output.icc", "--permit-file-read=output.icc"]


def plane(folder: str, stem: str, suffix: bytes, place: str) -> Array:
    """The raster of a file STEM(SUFFIX).tif: rows × columns, 0 is full ink. `place` is the page, for a refusal."""
    path = os.path.join(os.fsencode(folder), os.fsencode(stem) + b"(" + suffix + b").tif")
    try:
        array: Array = tifffile.memmap(os.fsdecode(path), mode="r")
    except (tifffile.TiffFileError, ValueError, IndexError, OSError) as fault:
        # Ghostscript does not notice that a disk is full.
        need_room(folder, "Ghostscript drew")
        raise PressError(Status.PDF, "Ghostscript did not write the plates whole", place) from fault
    return array


def suffixes_in(folder: str, stem: str, known: Sequence[bytes]) -> dict[bytes, bytes]:
    """How tiffsep spells each colorant in the names of its files, STEM(SUFFIX).tif. Some colorants are known."""
    head, end = os.fsencode(stem) + b"(", b").tif"
    suffixes = [file[len(head):-len(end)] for file in os.listdir(os.fsencode(folder))
                if file.startswith(head) and file.endswith(end)]
    return {colorant_in(urllib.parse.unquote_to_bytes(suffix), known): suffix for suffix in suffixes}


def separations_in(folder: str, text: bytes) -> list[Separation] | None:
    """The colorants that Ghostscript made files of: the process inks, and then the spots by their names. `text` is what
    it printed."""
    printed = re.findall(rb'%%SeparationColor: "(.*?)" 100% ink = (\d+) (\d+) (\d+) (\d+) CMYK', text, re.DOTALL)
    looks = {name: look_of(parts) for name, *parts in printed}
    process = [name.encode() for name in PROCESS]
    suffixes = suffixes_in(folder, DRAWN, [*process, *looks])
    if any(name not in suffixes for name in process):
        return None
    colorants = process + sorted(name for name in suffixes if name not in process)
    looks.update({name.encode(): look for name, (_, look) in PROCESS.items()})
    return [Separation(colorant, suffixes[colorant], looks.get(colorant), name)
            for colorant, name in zip(colorants, job_names(colorants))]


def look_of(parts: list[bytes]) -> Look:
    """The process inks that look like a spot, in per cent."""
    cyan, magenta, yellow, black = (round(int(part) * 100 / FULL, 1) for part in parts)
    return cyan, magenta, yellow, black


def colorant_in(name: bytes, known: Sequence[bytes]) -> bytes:
    """The colorant that a file is named for: tiffsep puts a number after a name that differs from another's
    only in capitals."""
    if name in known:
        return name
    return next((one for one in known if re.fullmatch(re.escape(one) + rb"\d+", name)), name)


def repairs_in(done: "subprocess.CompletedProcess[bytes]") -> tuple[str, ...]:
    """What Ghostscript mended in the PDF."""
    lines = re.findall(rb"^\t(\S.*)$", done.stdout + b"\n" + done.stderr, re.MULTILINE)
    return tuple(dict.fromkeys(line.decode("utf-8", "replace").strip() for line in lines))


def fonts_in(done: "subprocess.CompletedProcess[bytes]") -> tuple[tuple[str, str], ...]:
    """The fonts that the PDF lacks, each with the file that is in its place."""
    found = sorted({(font or other, taken) for font, other, taken in
                    LOADED.findall(done.stdout.decode("utf-8", "replace"))})
    return tuple((font, taken) for font, taken in found if not STANDARD_FONT.fullmatch(font))

# SPDX-License-Identifier: Apache-2.0
"""Strips of a plate in one bit a pixel: Ghostscript halftones each by a threshold array (HalftoneType 16) and packs it
by CCITT G4. A strip's array begins at the phase that its first row has on the whole plate."""
import contextlib
import os
import subprocess
from collections.abc import Iterator, Sequence
from dataclasses import dataclass

import numpy as np
import tifffile
from PIL import Image

from . import tools
from .errors import PressError, Status
from .files import need_room
from .pdf_tiles import Samples
from .plates import Array
from .screen_dots import GRAYS, Thresholds
from .source import complaint

STRIP_PIXELS = 1 << 26
FULL_THRESHOLD = 257
PROGRAM = """%!PS
<< /PageSize [{width} {height}] >> setpagedevice
<< /HalftoneType 16 /Width {across} /Height {down} /Thresholds ({name}.thresholds) (r) file >> sethalftone
{{}} settransfer
/grays ({name}.grays) (r) file def
{width} {height} scale /DeviceGray setcolorspace
<< /ImageType 1 /Width {width} /Height {height} /BitsPerComponent 8 /ImageMatrix [{width} 0 0 -{height} 0 {height}]
   /Decode [0 1] /DataSource grays /Interpolate false >> image
showpage
"""


@dataclass(frozen=True)
class Imaging:
    """How a plate becomes an image: its resolution and that of the image, and whether it is a negative or mirrored."""

    plate_dpi: int
    dpi: int
    negative: bool = False
    mirror: bool = False
    jobs: int = 1

    def side(self, samples: int) -> int:
        """How many pixels so many samples are."""
        return max(1, (2 * samples * self.dpi + self.plate_dpi) // (2 * self.plate_dpi))

    def sources(self, first: int, end: int, samples: int) -> Array:
        """For each of the pixels from `first` to before `end` the sample whose middle is nearest."""
        found = (2 * np.arange(first, end, dtype=np.int64) + 1) * self.plate_dpi // (2 * self.dpi)
        return np.minimum(found, samples - 1)


def grays_of(plate: Array, first: int, end: int, imaging: Imaging) -> Samples:
    """The grays of the image's rows from `first` to before `end`."""
    rows = imaging.sources(first, end, plate.shape[0])
    columns = imaging.sources(0, imaging.side(plate.shape[1]), plate.shape[1])
    if imaging.mirror:
        columns = columns[::-1]
    wide = np.asarray(plate[rows[0]:rows[-1] + 1])[:, columns]
    grays = wide[rows - rows[0]]
    found: Samples = (255 - grays if imaging.negative else grays).astype(np.uint8)
    return found


def write_strip(folder: str, name: str, grays: Samples, array: Thresholds) -> None:
    """Writes what Ghostscript needs for a strip into the folder."""
    place = os.path.join(folder, name)
    grays.tofile(place + ".grays")
    (np.minimum(array, GRAYS - 1) * FULL_THRESHOLD).astype(">u2").tofile(place + ".thresholds")
    with open(place + ".ps", "w", encoding="ascii") as file:
        file.write(PROGRAM.format(width=grays.shape[1], height=grays.shape[0], across=array.shape[1],
                                  down=array.shape[0], name=name))


def words_of(name: str) -> list[str]:
    """The words that start Ghostscript for a strip."""
    return [tools.tool("gs"), "-q", "-dSAFER", "-dNOPAUSE", "-dBATCH", "-sDEVICE=tiffg4", "-dMinFeatureSize=0", "-r72",
            "-dMaxStripSize=0", f"--permit-file-read={name}.grays", f"--permit-file-read={name}.thresholds",
            f"-sOutputFile={name}.tif", f"{name}.ps"]


def packed_rows(path: str) -> bytes:
    """The bytes of the one strip of a TIFF file that Ghostscript made."""
    try:
        with tifffile.TiffFile(path) as file:
            page = file.pages[0]
            if len(page.dataoffsets) != 1 or page.compression != 4 or page.photometric != 0 or page.fillorder != 1:
                raise PressError(Status.PDF, "Ghostscript writes TIFF files of one bit otherwise than is known")
            with open(path, "rb") as data:
                data.seek(page.dataoffsets[0])
                strip = data.read(page.databytecounts[0])
        if len(strip) == page.databytecounts[0]:
            return strip
    except (tifffile.TiffFileError, ValueError, IndexError, OSError):
        pass
    # Ghostscript does not notice that a disk is full.
    need_room(os.path.dirname(path), "Ghostscript screened")
    raise PressError(Status.PDF, "Ghostscript did not write a strip whole", path)


def halftone(folder: str, strips: Sequence[tuple[Samples, Thresholds]]) -> list[bytes]:
    """Halftones strips side by side in a scratch folder."""
    outside = {name: value for name, value in os.environ.items() if name not in ("GS_OPTIONS", "GS_DEVICE")}
    names = [f"strip{at}" for at in range(len(strips))]
    with contextlib.ExitStack() as stack:
        children = []
        for name, (grays, array) in zip(names, strips):
            write_strip(folder, name, grays, array)
            words, where = words_of(name), {**outside, "TMPDIR": os.path.abspath(folder)}
            children.append(stack.enter_context(tools.running(words, cwd=folder, env=where)))
        for child in children:
            printed, complained = child.communicate()
            if child.returncode != 0:
                need_room(folder, "Ghostscript screened")
                done = subprocess.CompletedProcess(words_of(""), child.returncode, printed, complained)
                raise PressError(Status.PDF, f"Ghostscript cannot screen a plate: {complaint(done)}")
    return [packed_rows(os.path.join(folder, name + ".tif")) for name in names]


def rows_of_strip(width: int) -> int:
    """How many rows a strip has."""
    return max(1, STRIP_PIXELS // width)


def strips_of(plate: Array, array: Thresholds, imaging: Imaging, folder: str) -> Iterator[bytes]:
    """The strips of the image of a plate, packed, from the top."""
    width, height = imaging.side(plate.shape[1]), imaging.side(plate.shape[0])
    rows = rows_of_strip(width)
    waiting: list[tuple[Samples, Thresholds]] = []
    for first in range(0, height, rows):
        end = min(height, first + rows)
        waiting.append((grays_of(plate, first, end, imaging), np.roll(array, -(first % array.shape[0]), axis=0)))
        if len(waiting) == imaging.jobs or end == height:
            yield from halftone(folder, waiting)
            waiting = []


def check_halftone(folder: str) -> None:
    """Refuses a Ghostscript that does not give ink exactly to the pixels whose gray is below their threshold."""
    grays = np.repeat(np.arange(GRAYS, dtype=np.uint8)[:, None], GRAYS - 1, axis=1)
    array = np.arange(1, GRAYS, dtype=np.uint16)[None, :]
    halftone(folder, [(grays, array)])
    if not np.array_equal(bits_of(os.path.join(folder, "strip0.tif")), grays < array):
        known = tools.run([tools.tool("gs"), "--version"]).stdout.decode().strip()
        raise PressError(Status.PDF, f"Ghostscript {known} halftones otherwise than is known: it cannot screen plates")


def bits_of(path: str) -> Array:
    """A TIFF file of one bit as an array of whether there is ink."""
    with Image.open(path) as image:
        found: Array = np.asarray(image) == 0
    return found

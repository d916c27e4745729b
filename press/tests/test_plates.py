# SPDX-License-Identifier: Apache-2.0
"""Plates: PGM files of 8 and 16 bits, their headers, blank plates, bands, and what fits a page."""
from pathlib import Path

import numpy
import pytest

from press import plates
from press.errors import PressError, Status

pytestmark = pytest.mark.quick


@pytest.mark.parametrize("maxval, dtype", [(255, "u1"), (65_535, ">u2"), (1023, ">u2")])
def test_files_are_read_as_written(tmp_path: Path, maxval: int, dtype: str) -> None:
    """A raster comes back as it was written, in the byte order of PGM."""
    array = (numpy.arange(12).reshape(3, 4) * (maxval // 12)).astype(dtype)
    path = str(tmp_path / "a.pgm")
    plates.write_pgm(path, array, maxval)
    back = plates.read_pgm(path)
    assert back.dtype == numpy.dtype(dtype) and (back == array).all()
    assert plates.head_of(path) == plates.Head(4, 3, maxval, len(f"P5\n4 3\n{maxval}\n"))


def test_header_with_comments(tmp_path: Path) -> None:
    """Blanks and comments may stand between the numbers of a header."""
    (tmp_path / "a.pgm").write_bytes(b"P5 # made by hand\n2\t# wide\n 1\n255\n\x00\xff")
    assert plates.read_pgm(str(tmp_path / "a.pgm")).tolist() == [[0, 255]]


@pytest.mark.parametrize("data", [b"", b"GIF89a", b"P5\n2 1\n255\n\x00", b"P5\n2 1\n255\n\x00\x00\x00", b"P2\n1 1\n255\n0"])
def test_files_that_are_no_plate(tmp_path: Path, data: bytes) -> None:
    """Other files, and files that are too short or too long, are refused with their path."""
    path = tmp_path / "a.pgm"
    path.write_bytes(data)
    with pytest.raises(PressError) as refusal:
        plates.read_pgm(str(path))
    assert (refusal.value.status, refusal.value.place) == (Status.PLATES, str(path))


def test_plates_of_two_sizes(tmp_path: Path) -> None:
    """Plates of a page have one size."""
    paths = {}
    for name, shape in (("Cyan", (2, 3)), ("Black", (3, 2))):
        paths[name] = str(tmp_path / f"{name}.pgm")
        plates.write_pgm(paths[name], numpy.zeros(shape, dtype="u1"), 255)
    with pytest.raises(PressError, match="2 by 3 samples, and Cyan has 3 by 2"):
        plates.read_plates(paths, 600)


def test_blank_plates() -> None:
    """A plate is blank if no sample has ink, the last one of the last block either."""
    array = numpy.full((3000, 2000), 255, dtype="u1")
    assert plates.is_blank(array, 255)
    array[-1, -1] = 254
    assert not plates.is_blank(array, 255)


def test_bands_cover_every_row() -> None:
    """Bands have each row once, and the overlap does not leave the page."""
    page = plates.Plates(("Cyan",), (numpy.zeros((10, 1), dtype="u1"),), 255, 600)
    bands = list(page.bands(4, 1))
    assert bands == [(0, 4, 0, 5), (4, 8, 3, 9), (8, 10, 7, 10)]


@pytest.mark.parametrize("size, fits", [((10_000, 16_000, 1), True), ((10_000, 16_000, 2), False), ((16_385, 1, 1), False), ((16_384, 1, 16), True)])
def test_what_fits_a_page(size: tuple[int, int, int], fits: bool) -> None:
    """trap takes 160,000,000 samples over all plates, and 16,384 a side."""
    assert plates.fits_page(*size) == fits

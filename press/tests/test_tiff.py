# SPDX-License-Identifier: Apache-2.0
"""TIFF files out, as the usual tools read them; and separations of another RIP in, of 8 and 16 bits and both polarities."""
import subprocess
from pathlib import Path

import numpy
import pytest
import tifffile
from readers import plate, tiff_plane, tiff_tags
from room import Room, needs

from press import separation_tiff, tiff
from press.errors import PressError, Status
from press.inks import Ink
from press.plates import Plates
from press.settings import COMPRESSIONS

COLORANTS = ("Cyan", "Magenta", "Yellow", "Black", "Gold Foil", "Warm Red")
CMYK_PROFILE, RGB_PROFILE = (f"/usr/share/color/icc/ghostscript/{name}.icc" for name in ("default_cmyk", "srgb"))
RESOLUTION = ("-xresolution=600", "-yresolution=600", "-resolutionunit=inch")


def printed(*words: str | Path) -> str:
    """What a tool prints."""
    return subprocess.run(words, capture_output=True, text=True, check=True).stdout


@pytest.fixture(name="composite")
def fixture_composite(room: Room, two: Path) -> Path:
    """The TIFF file of all inks of an untrapped page."""
    assert two.is_dir()
    room.goes("tiff", "--untrapped", "--composite", "--name", "all", "two", "tiffs")
    return room / "tiffs" / "all.tif"


@needs("tifftopnm")
def test_composite_to_netpbm(composite: Path) -> None:
    """Netpbm reads the first page as a picture in RGB."""
    done = subprocess.run(["tifftopnm", "-quiet", composite], capture_output=True, check=True)
    assert done.stdout.startswith(b"P6\n1000 400\n255\n")


@needs("tiffinfo")
def test_composite_to_libtiff(composite: Path) -> None:
    """libtiff reads three pages, the spots with their names, without a warning."""
    done = subprocess.run(["tiffinfo", composite], capture_output=True, text=True, check=True)
    assert done.stdout.count("=== TIFF directory") == 3, done
    assert "PageName: Gold Foil" in done.stdout and "PageName: Warm Red" in done.stdout, done
    assert "warning" not in (done.stdout + done.stderr).lower() and "extra" not in (done.stdout + done.stderr).lower(), done


@needs("identify")
def test_composite_to_imagemagick(composite: Path) -> None:
    """ImageMagick reads CMYK without transparency, and gray pages with the spots' names."""
    assert printed("identify", "-format", "%[colorspace] %A %l\n", composite) == "CMYK False \nGray False Gold Foil\nGray False Warm Red\n"


@needs("vips")
def test_composite_to_libvips(composite: Path) -> None:
    """libvips reads four bands of CMYK."""
    assert printed("vipsheader", "-f", "bands", composite).strip() == "4"
    assert printed("vipsheader", "-f", "interpretation", composite).strip() in ("cmyk", "((VipsInterpretation) VIPS_INTERPRETATION_CMYK)")


@needs("tifftopnm")
def test_pages_of_the_composite(room: Room, composite: Path) -> None:
    """The pages of spots are the plates: 0 is no ink there, and the file says so. There is a picture beside it."""
    pages = tiff_tags(composite)
    assert [page["polarity"] for page in pages] == [[5], [0], [0]]
    assert (room / "tiffs/all.png").read_bytes().startswith(b"\x89PNG")


@needs("vips")
def test_inks_of_the_composite(room: Room, composite: Path) -> None:
    """Each ink of the composite is its plate turned round for the process inks, and the plate as libvips reads it for the spots."""
    for band, name in enumerate(COLORANTS):
        ink, raw = room.beside / f"{band}.v", room.beside / f"{band}.raw"
        if band < 4:
            subprocess.run(["vips", "extract_band", composite, ink, str(band)], check=True)
        else:
            subprocess.run(["vips", "invert", f"{composite}[page={band - 3}]", ink], check=True)
        subprocess.run(["vips", "rawsave", ink, raw], check=True)
        expected = plate(room / "two" / f"{name.replace(' ', '_')}.pgm")
        assert raw.read_bytes() == (255 - expected).tobytes(), name


def test_spots_as_channels(room: Room, two: Path) -> None:
    """--channels makes the spots extra channels of no kind of transparency."""
    assert two.is_dir()
    room.goes("tiff", "--untrapped", "--channels", "--name", "all", "two", "channels")
    page, = tiff_tags(room / "channels/all.tif")
    assert page["extra channels"] == [0, 0] and page["channels"] == [6]
    assert page["inks"] == b"".join(name.encode() + b"\0" for name in COLORANTS)


def test_picture_by_a_profile(room: Room, composite: Path) -> None:
    """--icc draws another picture; a profile that is none of a press is refused."""
    room.goes("tiff", "--untrapped", "--name", "all", "two", "profiled", "--icc", CMYK_PROFILE)
    assert (room / "profiled/all.png").read_bytes() != composite.with_suffix(".png").read_bytes()
    room.refused(4, rf"press-tiff: {RGB_PROFILE}: no CMYK output profile: '.*sRGB.*' is of the class display and of RGB colours", "tiff", "--untrapped", "two", "new", "--icc", RGB_PROFILE)


@pytest.fixture(name="separations")
def fixture_separations(room: Room, two: Path) -> Room:
    """The separations of two.pdf in the folder seps, of 8 and 16 bits, of both polarities, and turned round."""
    assert two.is_dir()
    room.goes("tiff", "--untrapped", "--name", "sep", "two", "seps")
    for name in COLORANTS:
        source = room / f"seps/sep({name}).tif"
        gray = subprocess.run(["tifftopnm", "-quiet", source], capture_output=True, check=True).stdout
        deep = subprocess.run(["pamdepth", "-quiet", "65535"], input=gray, capture_output=True, check=True).stdout
        turned = subprocess.run(["pnminvert"], input=gray, capture_output=True, check=True).stdout
        for kind, data, options in (("wide", deep, RESOLUTION), ("white", gray, ("-miniswhite", *RESOLUTION)), ("turned", turned, ())):
            done = subprocess.run(["pamtotiff", "-quiet", *options], input=data, capture_output=True, check=True)
            room.write(f"seps/{kind}({name}).tif", done.stdout)
    return room


def from_tiffs(room: Room, kind: str, *options: str) -> Path:
    """The page that press/plates makes of separations of that kind."""
    files = [word for name in COLORANTS for word in ("--tiff", f"{name}=seps/{kind}({name}).tif")]
    room.goes("plates", *files, kind, "--kind", "Gold Foil=Normal", *options)
    return room / kind


@needs("tifftopnm", "pamtotiff")
@pytest.mark.parametrize("kind, options", [("sep", ()), ("white", ()), ("turned", ("--inverted", "--dpi", "600"))])
def test_separations_of_8_bits(separations: Room, kind: str, options: tuple[str, ...]) -> None:
    """The plates are those that the separations were made of, whatever the polarity."""
    page = from_tiffs(separations, kind, *options)
    for name in ("Cyan", "Gold_Foil", "Warm_Red"):
        assert (page / f"{name}.pgm").read_bytes() == (separations / "two" / f"{name}.pgm").read_bytes(), name


@needs("tifftopnm", "pamtotiff")
def test_separations_of_16_bits(separations: Room, built: None) -> None:
    """Plates of 16 bits are trapped, and the TIFF files have them as they are."""
    page = from_tiffs(separations, "wide", "--width", "0.2mm")
    assert (page / "Cyan.pgm").read_bytes().startswith(b"P5\n1000 400\n65535\n")
    separations.goes("trap", "wide")
    separations.goes("tiff", "wide", "wide/tiff")
    trapped = plate(page / "trapped/Cyan.pgm")
    assert (tiff_plane(page / "tiff/wide-1(Cyan).tif") == trapped).all()
    assert (trapped != plate(page / "Cyan.pgm")).any()


@needs("tifftopnm", "pamtotiff")
def test_files_that_are_no_separations(separations: Room) -> None:
    """A file that is no TIFF file, and one that does not give its resolution, are refused."""
    separations.refused(7, r"press-plates: two\.pdf: no TIFF file", "plates", "--tiff", "Cyan=two.pdf", "new")
    separations.refused(2, r"press-plates: .*turned\(Cyan\)\.tif does not say its resolution .*", "plates", "--tiff",
                        "Cyan=seps/turned(Cyan).tif", "new")


def test_ways_to_pack(room: Room, two: Path) -> None:
    """Separations are packed as --compression says, with the same samples; other ways are refused. The file of all inks is made on
    request alone."""
    assert two.is_dir()
    numbers = {"none": 1, "lzw": 5, "packbits": 32773, "deflate": 8}
    for how, number in numbers.items():
        room.goes("tiff", "--untrapped", "--compression", how, "--name", how, "two", "packed")
        tags, = tiff_tags(room / f"packed/{how}(Cyan).tif", {259: "compression"})
        assert tags["compression"] == [number], how
        assert (tiff_plane(room / f"packed/{how}(Cyan).tif") == plate(two / "Cyan.pgm")).all(), how
    assert all("(" in path.name for path in (room / "packed").iterdir())
    room.refused(2, "press-tiff: --compression is one of none, packbits, lzw, deflate, and not 'zip' .*", "tiff", "two", "new", "--compression",
                 "zip")


# Functions

@pytest.mark.quick
@pytest.mark.parametrize("dtype", ["u1", ">u2"])
@pytest.mark.parametrize("compression", COMPRESSIONS)
def test_files_above_four_gigabytes(tmp_path: Path, monkeypatch: pytest.MonkeyPatch, dtype: str, compression: str) -> None:
    """What does not fit a TIFF file is a BigTIFF of the same samples, in strips."""
    monkeypatch.setattr(separation_tiff, "MOST_BYTES", 1000)
    monkeypatch.setattr(separation_tiff, "STRIP_BYTES", 4096)
    array = numpy.random.default_rng(1).integers(0, 255, (300, 70)).repeat(2, axis=1).astype(dtype)
    path = tmp_path / "a(Cyan).tif"
    separation_tiff.write_separation(bytes(path), array, 300, compression)
    assert path.read_bytes()[:4] == b"II\x2b\0"
    with tifffile.TiffFile(path) as file:
        page = file.pages[0]
        assert page.rowsperstrip < 300 and page.tags["XResolution"].value == (300, 1) and page.photometric == 1
    assert (tiff.read_separation(tiff.open_separation(str(path)), False) == array).all()


@pytest.mark.quick
def test_all_inks_above_four_gigabytes(tmp_path: Path, monkeypatch: pytest.MonkeyPatch) -> None:
    """So is the file of all inks."""
    monkeypatch.setattr(separation_tiff, "MOST_BYTES", 1000)
    arrays = tuple(numpy.full((30, 40), tint, dtype="u1") for tint in (0, 100, 200, 255))
    plates = Plates(("Cyan", "Magenta", "Yellow", "Black"), arrays, 255, 300)
    inks = [Ink(name, name.encode(), name.encode(), "1") for name in plates.names]
    tiff.write_composite(bytes(tmp_path / "a.tif"), inks, plates, False)
    assert (tmp_path / "a.tif").read_bytes()[:4] == b"II\x2b\0"
    assert (tifffile.imread(tmp_path / "a.tif")[0, 0] == [255, 155, 55, 0]).all()


@pytest.mark.quick
@pytest.mark.parametrize("dtype, most", [("u1", 255), (">u2", 65_535)])
def test_separation_comes_back(tmp_path: Path, dtype: str, most: int) -> None:
    """A plate of 8 or 16 bits has the same samples after it was written as a separation and read as one of another RIP."""
    array = (numpy.arange(600).reshape(20, 30) * (most // 600)).astype(dtype)
    path = str(tmp_path / "a(Cyan).tif")
    tiff.write_separation(path.encode(), array, 300)
    file = tiff.open_separation(path)
    assert (file.bits, file.polarity, file.dpi) == (8 * array.dtype.itemsize, tiff.BLACK_IS_ZERO, 300)
    assert (tiff.read_separation(file, False) == array).all()
    assert (tiff.read_separation(file, True) == most - array.astype("i4")).all()


@pytest.mark.quick
@pytest.mark.parametrize("dtype, most", [("u1", 255), ("<u2", 65_535)])
@pytest.mark.parametrize("photometric", ["minisblack", "miniswhite"])
def test_polarities(tmp_path: Path, dtype: str, most: int, photometric: str) -> None:
    """Black is full ink, as the file's own polarity has it, with every value of 16 bits."""
    array = (numpy.arange(600).reshape(20, 30) * (most // 600) + 1).astype(dtype)
    path = str(tmp_path / "a.tif")
    tifffile.imwrite(path, array if photometric == "minisblack" else most - array, photometric=photometric, resolution=(600, 600),
                     resolutionunit="INCH")
    assert (tiff.read_separation(tiff.open_separation(path), False) == array).all()


@pytest.mark.quick
@pytest.mark.parametrize("data, how, message", [
    (numpy.zeros((4, 4, 3), dtype="u1"), {"photometric": "rgb"}, "no plate: .* 3 of 8"), (numpy.zeros((4, 4), dtype="u4"), {}, "no plate: .* 1 of 32")])
def test_files_of_other_kinds(tmp_path: Path, data: numpy.ndarray, how: dict[str, str], message: str) -> None:
    """Colour, and other depths, are no plate."""
    path = str(tmp_path / "a.tif")
    tifffile.imwrite(path, data, **how)
    with pytest.raises(PressError, match=message) as refusal:
        tiff.open_separation(path)
    assert refusal.value.status == Status.PLATES


@pytest.mark.quick
@pytest.mark.parametrize("name, suffix", [(b"Warm Red", b"Warm Red"), (b"100% (matt)", b"100%25 (matt)"), (b"a/b", b"a%2Fb")])
def test_names_of_files(name: bytes, suffix: bytes) -> None:
    """A colorant has the name in a file's name that tiffsep gives it."""
    assert tiff.suffix_of(name) == suffix

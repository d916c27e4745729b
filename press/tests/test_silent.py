# SPDX-License-Identifier: Apache-2.0
"""What the documents say is what happens: nothing that changes plates goes unsaid."""
import os
import struct
import subprocess
from collections.abc import Iterable
from pathlib import Path

import numpy as np
import pikepdf
import pytest
import tifffile
from conftest import Pages
from pdf_writer import Pdf, spot
from press import engine, inkedits, job, owner_files, pairs
from press.findings import Finding
from press.folder import PageFolder, PageSource
from press.hotfolder.claims import is_left
from press.inks import Ink, InkBook, Separation, inks_of_file
from press.plates import Head, Plates, read_pgm
from press.render import Rendering
from press.settings import Settings
from press.source import PageInfo
from room import Room

RGB_PROFILE = Path("/usr/share/color/icc/ghostscript/srgb.icc")
GRID = 5


# Profiles

def table_of(inputs: int, outputs: int, grid: int, cells: list[tuple[float, ...]]) -> bytes:
    """A table of a profile with 8 bits a number, and curves that change nothing."""
    identity = bytes(range(256))
    ones = struct.pack(">9i", *(65536 if k % 4 == 0 else 0 for k in range(9)))
    numbers = bytes(round(255 * part) for cell in cells for part in cell)
    return b"mft1\0\0\0\0" + bytes((inputs, outputs, grid, 0)) + ones + identity * inputs + numbers + identity * outputs


def press_profile() -> bytes:
    """The profile of a press that prints gray with all four inks: black alone is no colour that it separates into."""
    looks = [(1 - max(k, (c + m + y) / 3), 0.5, 0.5) for c in (0, 1) for m in (0, 1) for y in (0, 1) for k in (0, 1)]
    inks = [((1 - light / 4) * 0.7,) * 4 for light in range(GRID) for _ in range(GRID * GRID)]
    name = b"A press\0"
    tags = {b"desc": b"desc\0\0\0\0" + struct.pack(">I", len(name)) + name + bytes(78), b"cprt": b"text\0\0\0\0none\0",
            b"wtpt": b"XYZ \0\0\0\0" + struct.pack(">3i", 63190, 65536, 54061),
            b"A2B0": table_of(4, 3, 2, looks), b"B2A0": table_of(3, 4, GRID, inks)}
    start, entries, data = 132 + 12 * len(tags), b"", b""
    for tag, text in tags.items():
        entries += struct.pack(">4sII", tag, start + len(data), len(text))
        data += text + bytes(-len(text) % 4)
    head = struct.pack(">I4sI4s4s4s12s4s28x3i48x", start + len(data), b"\0\0\0\0", 0x02200000, b"prtr", b"CMYK", b"Lab ",
                       bytes(12), b"acsp", 63190, 65536, 54061)
    return head + struct.pack(">I", len(tags)) + entries + data


COLOURS = ("0 0 0 1 k", "0.3 0.2 0.1 0.6 k", "0 g", "0.4 g", "/S0 cs 1 scn", "/S0 cs 0.5 scn", "/S1 cs 0.7 scn", "/S2 cs 0.6 0.4 scn")


def inked_pdf() -> bytes:
    """A page in which CMYK, gray, a spot, black as a spot and a pair of colorants stand side by side, a picture in CMYK, and a
    second row that is half transparent over them."""
    file = Pdf()
    calculated = file.stream("/FunctionType 4 /Domain [0 1 0 1] /Range [0 1 0 1 0 1 0 1]", "{ 0 exch 0 exch }")
    picture = file.image("/Width 2 /Height 1 /BitsPerComponent 8 /ColorSpace /DeviceCMYK", bytes((10, 20, 30, 200, 0, 0, 0, 255)))
    pair = f"[/DeviceN [/Cyan /Warm] /DeviceCMYK {calculated}]"
    resources = (f"/ColorSpace << /S0 {spot(b'Warm')} /S1 {spot(b'Black', '0 0 0 1')} /S2 {pair} >> /XObject << /Im {picture} >> "
                 "/ExtGState << /Half << /ca 0.5 >> >>")
    squares = " ".join(f"{colour} {10 * k} 0 10 20 re f" for k, colour in enumerate(COLOURS))
    file.page(f"{squares} q 20 0 0 20 80 0 cm /Im Do Q /Half gs 0 0 0 0.5 k 0 0 100 10 re f", (100, 20), resources)
    return file.bytes()


def samples(folder: Path) -> dict[str, bytes]:
    """The plates of a page folder."""
    return {file.name: file.read_bytes() for file in folder.glob("*.pgm")}


def test_inks_keep_their_numbers_under_a_press_profile(room: Room) -> None:
    """CMYK, gray, spots and pairs of colorants are printed as the file has them, whatever the press's profile is."""
    room.write("inks.pdf", inked_pdf())
    room.write("press.icc", press_profile())
    room.goes("plates", "inks.pdf", "without", "--dpi", "72")
    room.goes("plates", "inks.pdf", "with", "--dpi", "72", "--icc", "press.icc")
    assert samples(room / "with") == samples(room / "without")
    assert len(samples(room / "with")) == 5


def test_cmyk_with_a_profile_of_its_own(room: Room) -> None:
    """Type, images and what DefaultCMYK covers are converted by a profile of their own; with --keep-cmyk they keep their numbers,
    and gray and RGB with profiles are as they were."""
    file = Pdf()
    file.page("/Own cs 0 0 0 1 scn 0 0 10 10 re f 0 0 0 1 k 10 0 10 10 re f q 10 0 0 10 20 0 cm /Im Do Q /Rgb cs 0 0 0 scn 30 0 10 10 re f",
              (40, 10), "/ColorSpace << /Own /DeviceCMYK >> /XObject << /Im "
              f"{file.image('/Width 1 /Height 1 /BitsPerComponent 8 /ColorSpace /DeviceCMYK', bytes((0, 0, 0, 255)))} >>")
    room.write("own.pdf", file.bytes())
    with pikepdf.open(room / "own.pdf", allow_overwriting_input=True) as pdf:
        own = pdf.make_indirect(pikepdf.Array([pikepdf.Name.ICCBased, pdf.make_stream(press_profile(), N=4)]))
        rgb = pikepdf.Array([pikepdf.Name.ICCBased, pdf.make_stream(RGB_PROFILE.read_bytes(), N=3)])
        resources = pdf.pages[0].obj.Resources
        resources.ColorSpace = pikepdf.Dictionary(Own=own, DefaultCMYK=own, Rgb=rgb)
        resources.XObject.Im.ColorSpace = own
        pdf.save(room / "own.pdf")
    for name, words in (("converted", []), ("kept", ["--keep-cmyk"])):
        room.goes("plates", "own.pdf", name, "--dpi", "72", *words)
    converted, kept = ({name: [data[-40 + at] for at in (5, 15, 25, 35)] for name, data in samples(room / folder).items()}
                       for folder in ("converted", "kept"))
    assert [kept[name][:3] for name in ("Cyan.pgm", "Magenta.pgm", "Yellow.pgm", "Black.pgm")] == [[255] * 3] * 3 + [[0] * 3]
    assert all(converted["Black.pgm"][at] > 0 for at in range(3)), converted
    assert [one[3] for one in converted.values()] == [one[3] for one in kept.values()]


def test_other_colours_go_by_the_press_profile(room: Room) -> None:
    """RGB is separated by the press's profile: here gray into four inks of one tint."""
    file = Pdf()
    file.page("0 0 0 rg 0 0 10 10 re f", (10, 10))
    room.write("rgb.pdf", file.bytes())
    room.write("press.icc", press_profile())
    room.goes("plates", "rgb.pdf", "with", "--dpi", "72", "--icc", "press.icc")
    tints = {name: 255 - data[-1] for name, data in samples(room / "with").items()}
    assert set(tints) == {"Cyan.pgm", "Magenta.pgm", "Yellow.pgm", "Black.pgm"}
    assert len(set(tints.values())) == 1 and tints["Cyan.pgm"] >= 100, tints


@pytest.mark.parametrize("command, operands", [
    ("plates", ["pair.pdf", "new"]), ("preflight", ["pair.pdf"]), ("all", ["pair.pdf", "new"]), ("watch", ["in"]),
    ("farm", ["pair.pdf", "new"]), ("pdf", ["pair.pdf", "new.pdf", "page"])])
def test_profile_of_no_press(room: Room, command: str, operands: list[str]) -> None:
    """A display's profile is refused with its name and class, before anything is drawn."""
    room.sample("pair.pdf")
    (room / "in").mkdir()
    room.refused(4, rf"press-{command}: {RGB_PROFILE}: no CMYK output profile: 'Artifex Software sRGB ICC Profile' is of the class "
                 "display and of RGB colours", command, *operands, "--icc", RGB_PROFILE)


def test_file_that_is_no_profile(room: Room) -> None:
    """A file that is no profile at all, and one that is cut off after its head."""
    room.sample("pair.pdf")
    room.write("text.icc", "no profile")
    room.write("cut.icc", press_profile()[:140])
    room.refused(4, r"press-plates: text\.icc: no ICC profile", "plates", "pair.pdf", "new", "--icc", "text.icc")
    room.refused(4, r"press-plates: cut\.icc: no CMYK output profile: .*", "plates", "pair.pdf", "new", "--icc", "cut.icc")


def with_intents(room: Room, *profiles: bytes) -> None:
    """Gives pair.pdf output intents with these profiles."""
    room.sample("pair.pdf")
    with pikepdf.open(room / "pair.pdf", allow_overwriting_input=True) as pdf:
        intents = [pikepdf.Dictionary(Type=pikepdf.Name.OutputIntent, OutputConditionIdentifier="one",
                                      DestOutputProfile=pdf.make_indirect(pikepdf.Stream(pdf, data))) for data in profiles]
        pdf.Root.OutputIntents = pikepdf.Array(intents)
        pdf.save(room / "pair.pdf")


def test_output_intent_of_no_press(room: Room) -> None:
    """An output intent for a display is refused by its name; of several, that of the press is taken."""
    with_intents(room, RGB_PROFILE.read_bytes())
    done = room.run("plates", "pair.pdf", "new", "--dpi", "72", "--output-intent")
    assert done.status == 4 and not (room / "new").exists()
    assert done.err.splitlines()[-1].startswith("press-plates: pair.pdf: the profile of its output intent: no CMYK output profile: ")
    assert "class display" in done.err
    (room / "press.icc").write_bytes(press_profile())
    told = room.goes("plates", "pair.pdf", "by-icc", "--dpi", "72", "--icc", "press.icc", "--output-intent").err
    assert told.count("--output-intent gives way to --icc press.icc") == 1
    with_intents(room, RGB_PROFILE.read_bytes(), press_profile())
    room.goes("plates", "pair.pdf", "new", "--dpi", "72", "--output-intent")


# Plates of another RIP, pictures, proofs, and pages without plates

def test_resolution_that_files_do_not_say(room: Room, pages: Pages) -> None:
    """--dpi over files that say another resolution is warned of, and stands in all that is written."""
    room.goes("tiff", "--untrapped", "--name", "all", pages.plates("two", "--kind", "Gold Foil=Normal"), "tiffs")
    words = [word for ink in ("Cyan", "Magenta") for word in ("--tiff", f"{ink}=tiffs/all({ink}).tif")]
    assert room.goes("plates", *words, "same").err == ""
    told = room.goes("plates", *words, "other", "--dpi", "300").err
    assert "--dpi 300 is taken, and tiffs/all(Cyan).tif and 1 more says 600" in told
    assert "/HWResolution [300 300]" in (room / "other/page.job").read_text()
    room.goes("tiff", "--untrapped", "--name", "all", "other", "again")
    with tifffile.TiffFile(room / "again/all(Cyan).tif") as file:
        assert file.pages.first.tags["XResolution"].value == (300, 1)


def test_picture_that_does_not_fit(room: Room, two: Path) -> None:
    """A picture that is enlarged beyond memory is refused with the size that would fit."""
    assert two.is_dir()
    room.refused(2, r"press-look: --enlarge 64 makes 64000 by 25600 points of this part, and a picture has at most 100000000: "
                 r"--enlarge 15 would fit, or a --part of 156 samples a side .*", "look", "--untrapped", "two", "new.png", "--enlarge", "64")


def test_proof_of_a_page_that_is_not_there(room: Room, built: None) -> None:
    """A page that a run does not have is refused, and the old proof stays."""
    room.sample("three.pdf")
    room.goes("all", "--quiet", "--dpi", "72", "--page", "1-2", "three.pdf", "out")
    room.refused(5, r"press-proof: out: --page: page 7 is not here; done are 1-2", "proof", "out", "--page", "2,7")
    room.refused(5, r"press-proof: out/page-001: --page: the folder has page 1 alone", "proof", "out/page-001", "--page", "7")


def test_page_without_plates(room: Room, built: None) -> None:
    """A page of which no plates are kept has no plates, to each command."""
    room.sample("three.pdf")
    room.goes("all", "--quiet", "--dpi", "72", "--page", "1", "--tiff-only", "--no-proof", "three.pdf", "out")
    line = r"press-%s: out/page-001: no plates here: they were not kept \(--tiff-only\), and press/plates makes them anew"
    for command, *out in (("trap",), ("tiff", "new"), ("look", "new.png")):
        room.refused(6, line % command, command, "out/page-001", *out)


def test_check_of_a_page_for_trapsheet(tmp_path: Path) -> None:
    """What presscheck needs is said by the page's name, and by no temporary path."""
    ink = Ink("Black", b"Black", b"Black", "1.7", "Normal", (0, 0, 0, 100), True)
    page = PageFolder(str(tmp_path / "made"), PageSource(b"wide.pdf", 2, 600), (ink,), Head(16667, 17, 255))
    line, = engine.check(page, "trapped", 1)
    assert line.startswith("wide.pdf: page 2: presscheck takes no page of this size") and str(tmp_path) not in line
    assert line.endswith("(at most 589 pixels per inch would fit)"), line


DETAILS = "/TrappingDetails << /Type 1001 /ColorantDetails << /One << /NeutralDensity 0.2 %s >> /Two << /NeutralDensity 1.2 %s >> >> >>"


@pytest.mark.parametrize("kind, parameters, changed", [
    ("", "/TrapWidth 2", True), ("", "/TrapWidth 0.1", False), ("/ColorantType /Opaque", "/TrapWidth 2", False)])
def test_edges_that_get_no_trap(built: None, programs: Path, tmp_path: Path, kind: str, parameters: str, changed: bool) -> None:
    """A trap width below one pixel and opaque inks leave edges without a changed pixel, as docs/REPORT.md says."""
    details = DETAILS % (kind, kind)
    (tmp_path / "job").write_text(f"<< /HWResolution [72 72] {details} >> setpagedevice << {parameters} >> settrapparams "
                                  "0 0 moveto 8 0 lineto 8 4 lineto 0 4 lineto settrapzone showpage\n")
    for name, row in (("One", b"\x00" * 4 + b"\xff" * 4), ("Two", b"\xff" * 4 + b"\x00" * 4)):
        (tmp_path / name).write_bytes(b"P5 8 4 255\n" + row * 4)
    subprocess.run([programs / "trapsheet", "1", "job", "report", "One:One:one", "Two:Two:two"], cwd=tmp_path, check=True)
    report = (tmp_path / "report").read_text()
    assert "edges 4\n" in report and ("plate One changed 0\nplate Two changed 0\n" not in report) == changed, report


# Files of the owner

A4_TURNED = PageInfo({"media": (0, 0, 595, 842)}, 90, 1.0, ())


def lines(found: Iterable[Finding]) -> list[str]:
    """The texts of findings, which are all warnings."""
    kept = list(found)
    assert all(one.level == "warning" for one in kept)
    return [one.text for one in kept]


def test_page_device_in_a_zones_file() -> None:
    """setpagedevice in a zones file is named with the keys that change something."""
    text = b"% mine\n<< /HWResolution [300 300] /Trapping true >> setpagedevice\n<< /Trapping false /TrappingDetails << >> >> setpagedevice\n"
    first, second = lines(owner_files.statement_findings("a.zones", text, None))
    assert first == "a.zones: line 2: setpagedevice in a zones file replaces what the page's job says of /HWResolution"
    assert second.endswith("line 3: setpagedevice in a zones file replaces what the page's job says of /Trapping, /TrappingDetails")


def test_path_without_its_zone() -> None:
    """A path that no settrapzone ends is named with its line; one that newpath drops, or that makes a zone, is not."""
    text = b"0 0 moveto 9 0 lineto 9 9 lineto settrapzone\n1 1 moveto newpath\n5 5 moveto 6 6 lineto\n"
    assert lines(owner_files.statement_findings("a.zones", text, None)) == [
        "a.zones: line 3: the path ends without settrapzone, and makes no zone"]
    assert not lines(owner_files.statement_findings("a.zones", text.partition(b"5 5")[0], None))


def test_zone_that_covers_nothing() -> None:
    """A zone off the page as it is displayed is named; one that reaches onto it is not."""
    statements = [job.Statement("a.zones", b"0 700 moveto 50 0 rlineto 0 50 rlineto settrapzone\n"
                                           b"700 10 moveto 100 0 rlineto 0 50 rlineto settrapzone settrapzone")]
    first, second = lines(owner_files.zone_findings(statements, A4_TURNED, Settings(dpi=72), 1))
    assert first == ("a.zones: zone 1 lies from 0 to 50 pt across and from 700 to 750 pt up, and covers no pixel of the page, which is "
                     "842 by 595 pt as it is displayed")
    assert second.startswith("a.zones: zone 3 has an empty path, and covers no pixel")


@pytest.mark.parametrize("rotate, box", [(0, None), (90, None), (180, None), (270, None), (90, "trim")])
def test_where_coordinates_start(room: Room, built: None, rotate: int, box: str | None) -> None:
    """At the lower left corner of the box as it is drawn and displayed, in points: the zone of docs/pictures/rotated.png, on a page
    of small squares, changes pixels up to its own sides and none beyond."""
    file = Pdf()
    squares = " ".join(f"{x} {y} 2 2 re" for x in range(0, 200, 4) for y in range(0, 300, 4))
    file.page(f"0 0 1 0 k 0 0 200 300 re f 1 0 0 0 k {squares} f", (200, 300))
    room.write("turned.pdf", file.bytes())
    with pikepdf.open(room / "turned.pdf", allow_overwriting_input=True) as pdf:
        pdf.pages[0].obj.Rotate = rotate
        pdf.pages[0].obj.TrimBox = pikepdf.Array([10, 20, 190, 280])
        pdf.save(room / "turned.pdf")
    room.write("turned.zones", "<< /TrapWidth 2 >> settrapparams 60 40 moveto 160 40 lineto 160 90 lineto 60 90 lineto settrapzone")
    room.goes("plates", "turned.pdf", "page", "--dpi", "72", "--only-zones", "--no-thin-zones", "--trap-within", "media",
              *(["--box", box] if box else []))
    room.goes("trap", "page")
    before, after = (np.stack([read_pgm(str(room / folder / f"{ink}.pgm")) for ink in ("Cyan", "Yellow")])
                     for folder in ("page", "page/trapped"))
    rows, columns = np.nonzero((before != after).any(axis=0))
    height = before.shape[1]
    assert (height, before.shape[2]) == {0: (300, 200), 90: (200, 300), 180: (300, 200), 270: (200, 300)}[rotate] if box is None else (180, 260)
    assert 60 <= columns.min() <= 64 and 155 <= columns.max() < 160
    assert 40 <= height - 1 - rows.max() <= 44 and 85 <= height - 1 - rows.min() < 90


def test_files_beside_that_are_not_used(tmp_path: Path) -> None:
    """Files that look like those of the PDF and are not used are named, and those that fit two PDFs."""
    for name in ("q.pdf", "q.zones", "q.2.zones", "q.01.zones", "q.3.zones", "q.pdf.zones", "Q.inks", "q.2.pdf", "quite.zones"):
        (tmp_path / name).write_text("")
    found = lines(owner_files.beside_findings(str(tmp_path / "q.pdf"), 2, Settings()))
    unused = [os.path.basename(line.partition(" looks")[0]) for line in found if "is not used" in line]
    assert unused == ["Q.inks", "q.01.zones", "q.3.zones", "q.pdf.zones"]
    twice, = (line for line in found if "is not used" not in line)
    assert twice.endswith("q.2.zones is taken for page 2 of q.pdf, and for all pages of q.2.pdf, which is there too")
    given = owner_files.beside_findings(str(tmp_path / "q.pdf"), 2, Settings(zones="a", inks="b"))
    assert all(one.kind == "overridden" for one in given)
    other, = lines(owner_files.beside_findings(str(tmp_path / "q.2.pdf"), 1, Settings()))
    assert other.endswith("q.2.zones is taken for all pages of q.2.pdf, and for page 2 of q.pdf, which is there too")


def test_owner_files_are_judged_on_the_way(room: Room) -> None:
    """What the owner's files do not do is warned of when plates are made."""
    room.sample("pair.pdf")
    room.write("pair.zones", "<< /HWResolution [300 300] >> setpagedevice 900 10 moveto 9 0 rlineto 0 9 rlineto settrapzone 1 1 moveto\n")
    room.write("pair.01.zones", "")
    told = room.goes("plates", "pair.pdf", "new", "--dpi", "72", "--no-thin-zones", "--trap-images").err
    for text in ("/HWResolution", "without settrapzone", "zone 1 lies from 900", "pair.01.zones looks like a file of pair.pdf"):
        assert told.count(text) == 1, told


def test_files_that_belong_to_a_page_in_a_hot_folder() -> None:
    """Tables and zones stay in the folder; a profile belongs to no page, and is moved away with its reason."""
    assert [is_left(name) for name in ("a.inks", "a.zones", "a.pairs", "a.icc", "a.pdf")] == [True, True, True, False, False]


def test_blanks_before_a_name_in_a_table(tmp_path: Path) -> None:
    """A line of a table of inks that is indented is one of its ink, and an indented comment is one."""
    (tmp_path / "a.inks").write_text("   Warm Red\t0.9\n  # Gold\t1\n")
    assert list(inks_of_file(str(tmp_path / "a.inks"))) == [b"Warm Red"]


# Names of inks

def test_names_in_tables_compare_as_the_librarys_do(tmp_path: Path) -> None:
    """Case, blanks, accents and the job's spelling make no difference, for process inks too; a name that is spelled as
    another ink of the page is that one's."""
    (tmp_path / "a.inks").write_text("WARM  red\t0.9\n cyan\t0.6\nbleu_royal\t0.7\nGold\t1.2\n", encoding="utf-8")
    book = InkBook(Settings(kind=("warm_RED=Transparent",)), str(tmp_path / "a.inks"))
    names = ("Cyan", "Warm Red", "Bleu Royal", "GOLD", "Gold")
    inks = book.page_inks([Separation(name.encode(), b"", None, name.replace(" ", "_")) for name in names], [True] * 5)
    assert [ink.density for ink in inks] == ["0.6", "0.9", "0.7", inks[3].density, "1.2"]
    assert inks[1].kind == "Transparent" and inks[3].density_from.rank != "told"


def test_names_of_a_house_compare_so_too(room: Room) -> None:
    """A line of house.inks in other letters is used, and one that is meant for an ink of the file is warned of."""
    room.sample("two.pdf")
    (room.beside / "house" / "house.inks").write_text("warm RED\t0.77\nGoldfoil\t1.1\nSilver\t1.0\nCYAN\t0.55\n")
    told = room.goes("plates", "two.pdf", "page", "--dpi", "72").err
    job = (room / "page" / "page.job").read_text()
    assert "/Warm_Red << /NeutralDensity 0.77" in job and "/Cyan << /NeutralDensity 0.55" in job
    assert "house.inks: line 2: no colorant is called Goldfoil (is Gold Foil meant?)" in told and "Silver" not in told


@pytest.mark.parametrize("command, operands", [("plates", ["two.pdf", "page"]), ("preflight", ["two.pdf"]), ("all", ["two.pdf", "out", "--quiet"])])
def test_lines_that_fit_no_ink(room: Room, built: None, command: str, operands: list[str]) -> None:
    """A line of a table of inks or of pairs, and an option, that fits no ink of any page is a warning, each once."""
    room.sample("two.pdf")
    room.write("two.inks", "Warm Red\t0.9\nwarm red\t0.8\nSilver\t1.0\nBlue\t-\t-\tdrop\n")
    room.write("two.pairs", "warm red\tBronze\tnever\n")
    done = room.goes(command, *operands, "--dpi", "72", "--density", "Brown=1", "--to-process", "Orange")
    for text in ("two.inks: line 2: another line is taken for warm red", "two.inks: line 3: no colorant is called Silver",
                 "two.inks: line 4: no colorant is called Blue", "two.pairs: line 1: no colorant is called Bronze",
                 "no colorant of the file is called Brown", "no colorant of the file is called Orange"):
        assert (done.err + done.out).count(text) == 1, f"{text}\n{done}"


def test_inks_of_other_pages_are_looked_at(room: Room) -> None:
    """A line for an ink of a page that is not made is no stranger."""
    room.sample("three.pdf")
    with pikepdf.open(room / "three.pdf", allow_overwriting_input=True) as pdf:
        space = pikepdf.Array([pikepdf.Name.Separation, pikepdf.Name("/Rust"), pikepdf.Name.DeviceGray, pdf.make_stream(b"{}")])
        pdf.pages[2].obj.Resources = pikepdf.Dictionary(ColorSpace=pikepdf.Dictionary(S=space))
        pdf.save(room / "three.pdf")
    room.write("three.inks", "rust\t0.9\n")
    assert "rust" not in room.goes("plates", "three.pdf", "page", "--dpi", "72").err


def test_pairs_and_edits_compare_names_so_too(tmp_path: Path) -> None:
    """A table of pairs and the options for plates find inks in other letters."""
    inks = InkBook(Settings(), None).page_inks([Separation(b"Label Red", b"", None, "Label_Red"), Separation(b"GOLD", b"", None, "GOLD")],
                                               [True, True])
    assert [pairs.number_of(inks, name) for name in (b"label  red", b"Label_red", b"gold", b"Gold 2")] == [0, 0, 1, None]
    plates = Plates(("Label_Red", "GOLD"), (np.zeros((2, 2), "u1"),) * 2, 255, 72)
    rendering = Rendering(1, tuple(Separation(ink.colorant, b"", None, ink.name) for ink in inks), plates, (), ())
    editor = inkedits.Editor(rendering, str(tmp_path), "a.pdf")
    editor.separations = [*(Separation(b"P", b"", None, "P") for _ in range(4)), *rendering.separations]
    assert [editor.at(name, "--drop") for name in (b"gold", b"label red", b"brown")] == [5, 4, None]
